/*
 * Makes one call of the library for C over a log, or one for each of its events, messages or payloads, and prints how
 * many these are. checks/timing-c/instructions counts what `counted_calls` takes.
 *
 *     counted BASE IMAGE LOG CALL
 *     counted BASE IMAGE LOG CALL pieces
 *
 * BASE is hexadecimal. CALL is a call without `tracebench_`. With `pieces` the image is cut into two pieces, and else it
 * is one. Captures are in differential mode at period 1,024, in version 2. Buffers are large enough. What is
 * handed in is made by other calls before, which are not counted.
 */
#define NAME "counted"
#include "given.h"

#include <inttypes.h>
#include <stdbool.h>
#include <string.h>

enum { HEAD = 11, HEADER = 16, LONGEST = 18, PERIOD = 1024, TIMES = 1000 };

static struct tracebench_piece whole, pieces[2];
static bool in_pieces;
static uint8_t *image, *text_of_log, *capture, *lines, *buffer, *payloads;
static size_t image_length, log_length, capture_length, lines_length, room, payloads_length;
static struct tracebench_event *events;
static struct tracebench_packet *packets;
static size_t event_count, message_count;
static size_t *ends, log_end[1];

#define IMAGE &whole, 1
#define OVER(call, ...) (in_pieces ? call(pieces, 2, __VA_ARGS__) : call(IMAGE, __VA_ARGS__))

static size_t encode_log(uint8_t *to, size_t length, uint32_t wanted_status) {
    struct tracebench_log_place place;
    size_t wanted = 0;
    const uint32_t status = OVER(tracebench_encode, text_of_log, log_length, log_end, 1, PERIOD,
                                 TRACEBENCH_DIFFERENTIAL, TRACEBENCH_VERSION_TWO, to, length, &wanted, &place);
    if (status != wanted_status) stop("encode", status);
    return wanted;
}

/* Each message of the capture: its place, and where its payload is. */
static size_t next_message(size_t at) { return at + HEAD + capture[at + HEAD - 1]; }

/* The payloads one after the other, and the lines of the messages. */
static void take_messages(void) {
    for (size_t at = HEADER; at < capture_length; at = next_message(at)) message_count++;
    payloads = memory(capture_length);
    ends = memory(message_count * sizeof *ends);
    lines = memory(message_count * (2 * LONGEST + 4));
    size_t place = 0;
    for (size_t at = HEADER; at < capture_length; at = next_message(at)) {
        const size_t length = capture[at + HEAD - 1];
        memcpy(payloads + payloads_length, capture + at + HEAD, length);
        ends[place++] = payloads_length += length;
        lines_length += (size_t)sprintf((char *)lines + lines_length, "0 ");
        for (size_t i = 0; i < length; i++)
            lines_length += (size_t)sprintf((char *)lines + lines_length, "%02x", capture[at + HEAD + i]);
        lines_length += (size_t)sprintf((char *)lines + lines_length, "\n");
    }
}

static void prepare(char **words) {
    const uint64_t base = strtoull(words[0], NULL, 16);
    const struct bytes program = read_file(words[1]), log = read_file(words[2]);
    image = program.at, image_length = program.length;
    text_of_log = log.at, log_length = log.length;
    log_end[0] = log_length;
    const size_t cut = image_length / 4 * 2;
    whole = tracebench_image(base, image, image_length);
    pieces[0] = tracebench_image(base, image, cut);
    pieces[1] = tracebench_image(base + cut, image + cut, image_length - cut);
    uint64_t row = 0;
    done("check", tracebench_check(IMAGE, text_of_log, log_length, &row));
    event_count = (size_t)row;
    uint8_t none[1];
    capture_length = encode_log(none, 0, TRACEBENCH_TOO_SMALL);
    capture = memory(capture_length);
    encode_log(capture, capture_length, TRACEBENCH_DONE);
    take_messages();
    room = 200 * message_count + 40 * event_count + 4096;
    buffer = memory(room);
    events = memory((event_count + 1) * sizeof *events);
    packets = memory((2 * event_count + 2) * sizeof *packets);
    struct tracebench_decoder_state state;
    size_t taken = 0, count = 0;
    tracebench_decoder(&state);
    done("feed_all", tracebench_feed_all(IMAGE, &state, payloads, payloads_length, ends, message_count, events,
                                         event_count + 1, &taken, &count));
}

/* What calls write. */
static size_t wanted, count_out, taken_in;
static struct tracebench_log_place place_out;
static struct tracebench_text_end text_end;
static struct tracebench_decode_all_end all_end;
static struct tracebench_hart_end hart_end[1];
static struct tracebench_explain_end explain_end;

static size_t whole_check(void) {
    uint64_t row = 0;
    done("check", OVER(tracebench_check, text_of_log, log_length, &row));
    return event_count;
}

static size_t whole_encode(void) {
    encode_log(capture, capture_length, TRACEBENCH_DONE);
    return event_count;
}

static size_t whole_decode_all(void) {
    done("decode_all", OVER(tracebench_decode_all, 1, capture, capture_length, buffer, room, &wanted, hart_end, 1,
                            &all_end));
    return event_count;
}

static size_t whole_list(void) {
    done("list", OVER(tracebench_list, 1, capture, capture_length, buffer, 0, TRACEBENCH_TEXT, buffer, room, &wanted,
                      &text_end));
    return message_count;
}

static size_t whole_measure(void) {
    done("measure", OVER(tracebench_measure, text_of_log, log_length, log_end, 1, PERIOD, TRACEBENCH_DIFFERENTIAL,
                         buffer, room, &wanted, &place_out));
    return event_count;
}

static size_t whole_compare(void) {
    done("compare", OVER(tracebench_compare, 1, capture, capture_length, text_of_log, log_length, log_end, 1, buffer,
                         room, &wanted, &text_end, &place_out));
    return event_count;
}

static size_t whole_explain(void) {
    done("explain", OVER(tracebench_explain, text_of_log, log_length, buffer, room, &wanted, &explain_end));
    return event_count;
}

static size_t whole_check_events(void) {
    uint64_t row = 0;
    done("check_events", OVER(tracebench_check_events, events, event_count, &row));
    return event_count;
}

static size_t whole_dump(void) {
    struct tracebench_dump_end ended;
    done("dump", tracebench_dump(capture, capture_length, buffer, room, &wanted, &ended));
    return message_count;
}

static size_t whole_lines(void) {
    uint64_t line = 0;
    done("capture_of_lines",
         tracebench_capture_of_lines(lines, lines_length, TRACEBENCH_VERSION_TWO, TRACEBENCH_DIFFERENTIAL, PERIOD, 0,
                                     0, buffer, room, &wanted, &line));
    return message_count;
}

static size_t whole_audit(uint32_t flags) {
    static struct tracebench_hart_row rows[1];
    static struct tracebench_lost_run lost[1];
    static struct tracebench_byte_run runs[1];
    struct tracebench_sent_place refused;
    struct tracebench_path_end ended;
    done("audit_all", tracebench_audit_all(capture, capture_length, capture, capture_length, flags, rows, 1,
                                           (struct tracebench_arrival *)(void *)buffer,
                                           room / sizeof(struct tracebench_arrival), lost, 1, runs, 1, &refused,
                                           &ended));
    return message_count;
}

static size_t whole_audit_all(void) { return whole_audit(0); }
static size_t whole_audit_unnumbered(void) { return whole_audit(TRACEBENCH_UNNUMBERED); }

static size_t each_header(bool writes) {
    const struct tracebench_header header = {TRACEBENCH_FULL, PERIOD, 4};
    struct tracebench_header found;
    for (size_t i = 0; i < TIMES; i++)
        if (writes) done("write_header", tracebench_write_header(&header, buffer, room, &wanted));
        else done("read_header", tracebench_read_header(capture, capture_length, &found, &taken_in));
    return TIMES;
}

static size_t each_write_header(void) { return each_header(true); }
static size_t each_read_header(void) { return each_header(false); }

static size_t each_write_message(void) {
    size_t start = 0;
    for (size_t i = 0; i < message_count; start = ends[i++])
        done("write_message", tracebench_write_message(0, i, payloads + start, ends[i] - start, buffer, room, &wanted));
    return message_count;
}

static size_t each_read_message(void) {
    struct tracebench_message message;
    for (size_t at = HEADER; at < capture_length; at += taken_in)
        done("read_message", tracebench_read_message(capture + at, capture_length - at, &message, &taken_in));
    return message_count;
}

static size_t each_push(bool checked) {
    struct tracebench_encoder_state state;
    done("encoder", tracebench_encoder(PERIOD, TRACEBENCH_DIFFERENTIAL, &state, packets));
    for (size_t i = 0; i < event_count; i++)
        if (checked) done("push_checked", OVER(tracebench_push_checked, &state, &events[i], packets, 2, &count_out));
        else done("push", OVER(tracebench_push, &state, &events[i], packets, 2, &count_out));
    return event_count;
}

static size_t each_push_any(void) { return each_push(false); }
static size_t each_push_checked(void) { return each_push(true); }

static size_t whole_push_all(void) {
    struct tracebench_encoder_state state;
    done("encoder", tracebench_encoder(PERIOD, TRACEBENCH_DIFFERENTIAL, &state, packets));
    done("push_all", OVER(tracebench_push_all, &state, events, event_count, packets, 2 * event_count + 2, &taken_in,
                          &count_out));
    return event_count;
}

static size_t whole_generate_events(void) {
    struct tracebench_walk_state walk = {1, 0, 0, TRACEBENCH_MIXED, 0, 0, 0};
    done("generate_events", OVER(tracebench_generate_events, &walk, events, event_count));
    return event_count;
}

static size_t each_finish(void) {
    struct tracebench_encoder_state state;
    done("encoder", tracebench_encoder(PERIOD, TRACEBENCH_DIFFERENTIAL, &state, packets));
    done("push", tracebench_push(IMAGE, &state, &events[0], packets, 2, &count_out));
    for (size_t i = 0; i < TIMES; i++) done("finish", OVER(tracebench_finish, &state, packets, 2, &count_out));
    return TIMES;
}

static size_t each_follow(void) {
    for (size_t i = 0; i < event_count; i++)
        done("follow", OVER(tracebench_follow, i != 0, &events[i == 0 ? 0 : i - 1], &events[i]));
    return event_count;
}

static size_t each_feed(void) {
    struct tracebench_decoder_state state;
    size_t start = 0;
    tracebench_decoder(&state);
    for (size_t i = 0; i < message_count; start = ends[i++])
        done("feed", OVER(tracebench_feed, &state, payloads + start, ends[i] - start, events, event_count + 1,
                          &count_out));
    return message_count;
}

static size_t whole_feed_all(void) {
    struct tracebench_decoder_state state;
    tracebench_decoder(&state);
    done("feed_all", OVER(tracebench_feed_all, &state, payloads, payloads_length, ends, message_count, events,
                          event_count + 1, &taken_in, &count_out));
    return message_count;
}

static size_t each_receive(void) {
    struct tracebench_hart_state hart = {.expected = 0};
    uint64_t missing = 0;
    size_t start = 0;
    tracebench_decoder(&hart.decoder);
    for (size_t i = 0; i < message_count; start = ends[i++])
        done("receive", OVER(tracebench_receive, &hart, i, payloads + start, ends[i] - start, events, event_count + 1,
                             &count_out, &missing));
    return message_count;
}

static const struct counted {
    const char *name;
    size_t (*calls)(void);
} all[] = {
    {"check", whole_check}, {"encode", whole_encode}, {"decode_all", whole_decode_all},
    {"list", whole_list}, {"measure", whole_measure}, {"compare", whole_compare}, {"explain", whole_explain},
    {"check_events", whole_check_events}, {"dump", whole_dump}, {"capture_of_lines", whole_lines},
    {"audit_all", whole_audit_all}, {"audit_unnumbered", whole_audit_unnumbered},
    {"write_header", each_write_header}, {"read_header", each_read_header}, {"write_message", each_write_message},
    {"read_message", each_read_message}, {"push", each_push_any}, {"push_checked", each_push_checked},
    {"push_all", whole_push_all}, {"generate_events", whole_generate_events}, {"finish", each_finish},
    {"follow", each_follow}, {"feed", each_feed}, {"feed_all", whole_feed_all}, {"receive", each_receive},
};

/* What is counted. It has a symbol of its own. */
size_t counted_calls(size_t (*calls)(void));

__attribute__((noinline)) size_t counted_calls(size_t (*calls)(void)) { return calls(); }

int main(int count, char **words) {
    for (size_t i = 0; count >= 5 && i < sizeof all / sizeof *all; i++) {
        if (strcmp(words[4], all[i].name) != 0) continue;
        prepare(words + 1);
        in_pieces = count == 6;
        printf("%zu\n", counted_calls(all[i].calls));
        return 0;
    }
    fputs("usage: counted BASE IMAGE LOG CALL [pieces]\n", stderr);
    return 2;
}
