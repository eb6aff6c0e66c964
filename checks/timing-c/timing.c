/*
 * What the calls of the library for C take over a log, beside the phases of the crate `timing`.
 *
 *     timing-c BASE IMAGE LOG
 *
 * BASE is hexadecimal. Each call is made nine times, into a buffer that is large enough. A line has the least time in
 * nanoseconds: for each event, of an audit for each message, of `pack` and `unpack` for each packet. Captures are of
 * version 1, in differential mode, at period 1,024, and of an audit at period 64, as in `timing`. `push` and `feed` go
 * step by step over the first 1,000 events of the log. `push_all` and `feed_all` go over the whole log in one call;
 * `push and pack` packs what the former gives, as the phase of that name does.
 */
#define _POSIX_C_SOURCE 199309L
#define NAME "timing-c"
#include "given.h"

#include <inttypes.h>
#include <string.h>
#include <time.h>

enum { RUNS = 9, PERIOD = 1024, DENSE_PERIOD = 64, HEAD = 11, LONGEST_PAYLOAD = 18, MOST_STEPS = 1000 };

/* What the calls are given, and room for what they write. */
struct input {
    struct tracebench_piece program;
    struct bytes log, capture, dense, text;
    struct tracebench_packet *packets;
    uint8_t (*payloads)[LONGEST_PAYLOAD];
    size_t *lengths;
    size_t events, messages, dense_messages;
    struct bytes steps; /* the capture of the first events */
    struct tracebench_event *first;
    size_t count_of_first;
    struct bytes joined; /* the payloads of the capture, one after the other, and where each ends */
    size_t *ends;
    struct tracebench_event *all;
};

/* Encodes a log into a buffer. Returns how many bytes are wanted. */
static uint64_t encode(const struct input *input, struct bytes log, uint16_t period, struct bytes buffer,
                       uint32_t expected) {
    size_t wanted = 0;
    const size_t ends[1] = {log.length};
    struct tracebench_log_place place;
    uint32_t status = tracebench_encode(&input->program, 1, log.at, log.length, ends, 1, period,
                                        TRACEBENCH_DIFFERENTIAL, TRACEBENCH_VERSION_ONE, buffer.at, buffer.length,
                                        &wanted, &place);
    if (status != expected) stop("encode", status);
    return wanted;
}

static struct bytes encoded(const struct input *input, struct bytes log, uint16_t period) {
    uint8_t none[1];
    size_t wanted = encode(input, log, period, (struct bytes){none, 0}, TRACEBENCH_TOO_SMALL);
    struct bytes capture = {memory(wanted), wanted};
    encode(input, log, period, capture, TRACEBENCH_DONE);
    return capture;
}

/* The header and the first so many rows of a log. */
static struct bytes beginning(struct bytes log, size_t rows) {
    size_t length = 0;
    for (size_t lines = 0; length < log.length && lines <= rows; length++) lines += log.at[length] == '\n';
    return (struct bytes){log.at, length};
}

static size_t messages_of(struct bytes capture) {
    size_t count = 0;
    for (size_t at = 0; at < capture.length; at += HEAD + capture.at[at + HEAD - 1]) count++;
    return count;
}

static uint64_t run_check(const struct input *input) {
    uint64_t row = 0;
    uint32_t status = tracebench_check(&input->program, 1, input->log.at, input->log.length, &row);
    if (status != TRACEBENCH_DONE) stop("check", status);
    return row;
}

static uint64_t run_encode(const struct input *input) {
    return encode(input, input->log, PERIOD, input->capture, TRACEBENCH_DONE);
}

static uint64_t run_decode(const struct input *input) {
    size_t wanted = 0;
    struct tracebench_hart_end end;
    struct tracebench_decode_all_end ended;
    uint32_t status = tracebench_decode_all(&input->program, 1, 1, input->capture.at, input->capture.length,
                                            input->text.at, input->text.length, &wanted, &end, 1, &ended);
    if (status != TRACEBENCH_DONE || ended.fault != TRACEBENCH_DONE) stop("decode", status);
    return wanted;
}

static uint64_t run_audit(const struct input *input) {
    struct tracebench_hart_row row;
    struct tracebench_arrival arrival;
    struct tracebench_lost_run lost;
    struct tracebench_byte_run run;
    struct tracebench_sent_place refused;
    struct tracebench_path_end ended;
    const struct bytes *capture = &input->dense;
    uint32_t status = tracebench_audit_all(capture->at, capture->length, capture->at, capture->length, 0, &row, 1,
                                           &arrival, 0, &lost, 0, &run, 0, &refused, &ended);
    if (status != TRACEBENCH_TOO_SMALL || ended.whole != 1) stop("audit", status);
    return row.tally.came;
}

static uint64_t run_unpack(const struct input *input) {
    const uint8_t *at = input->capture.at;
    for (size_t place = 0; place < input->messages; place++) {
        uint32_t status = tracebench_unpack(at + HEAD, at[HEAD - 1], &input->packets[place]);
        if (status != TRACEBENCH_DONE) stop("unpack", status);
        at += HEAD + at[HEAD - 1];
    }
    return input->messages;
}

static uint64_t run_pack(const struct input *input) {
    uint64_t bytes = 0;
    for (size_t place = 0; place < input->messages; place++) {
        uint32_t status = tracebench_pack(&input->packets[place], input->payloads[place], LONGEST_PAYLOAD,
                                          &input->lengths[place]);
        if (status != TRACEBENCH_DONE) stop("pack", status);
        bytes += input->lengths[place];
    }
    return bytes;
}

/* Feeds the payloads of the first events. Returns how many events come out. */
static uint64_t run_feed(const struct input *input) {
    struct tracebench_decoder_state state;
    size_t all = 0, count = 0;
    const struct bytes *capture = &input->steps;
    tracebench_decoder(&state);
    for (size_t at = 0; at < capture->length; at += HEAD + capture->at[at + HEAD - 1]) {
        uint32_t status = tracebench_feed(&input->program, 1, &state,
                                          capture->at + at + HEAD, capture->at[at + HEAD - 1], input->first + all,
                                          input->count_of_first - (size_t)all, &count);
        if (status != TRACEBENCH_DONE) stop("feed", status);
        all += count;
    }
    return all;
}

/* Pushes the first events. Returns how many packets come out. */
static uint64_t run_push(const struct input *input) {
    struct tracebench_encoder_state state;
    struct tracebench_packet packets[2];
    size_t all = 1, count = 0;
    uint32_t status = tracebench_encoder(PERIOD, TRACEBENCH_DIFFERENTIAL, &state, packets);
    if (status != TRACEBENCH_DONE) stop("encoder", status);
    for (size_t place = 0; place < input->count_of_first; place++) {
        status = tracebench_push(&input->program, 1, &state, &input->first[place],
                                 packets, 2, &count);
        if (status != TRACEBENCH_DONE) stop("push", status);
        all += count;
    }
    status = tracebench_finish(&input->program, 1, &state, packets, 2, &count);
    if (status != TRACEBENCH_DONE) stop("finish", status);
    return all + count;
}

/* Feeds the payloads of the capture at once. Returns how many events come out. */
static uint64_t run_feed_all(const struct input *input) {
    struct tracebench_decoder_state state;
    size_t taken = 0, count = 0;
    tracebench_decoder(&state);
    uint32_t status = tracebench_feed_all(&input->program, 1, &state, input->joined.at,
                                          input->joined.length, input->ends, input->messages, input->all,
                                          input->events, &taken, &count);
    if (status != TRACEBENCH_DONE) stop("feed_all", status);
    return count;
}

/* Pushes all events at once. Returns how many packets come out. */
static uint64_t run_push_all(const struct input *input) {
    struct tracebench_encoder_state state;
    size_t taken = 0, count = 0, last = 0;
    uint32_t status = tracebench_encoder(PERIOD, TRACEBENCH_DIFFERENTIAL, &state, input->packets);
    if (status != TRACEBENCH_DONE) stop("encoder", status);
    status = tracebench_push_all(&input->program, 1, &state, input->all, input->events,
                                 input->packets + 1, input->messages - 1, &taken, &count);
    if (status != TRACEBENCH_DONE) stop("push_all", status);
    status = tracebench_finish(&input->program, 1, &state, input->packets + 1 + count,
                               input->messages - 1 - count, &last);
    if (status != TRACEBENCH_DONE) stop("finish", status);
    return 1 + count + last;
}

static uint64_t run_push_and_pack(const struct input *input) {
    uint64_t packets = run_push_all(input);
    run_pack(input);
    return packets;
}

/* The payloads of the capture, one after the other, and where each ends. */
static void join_payloads(struct input *input) {
    const uint8_t *at = input->capture.at;
    input->joined.at = memory(input->capture.length);
    input->ends = memory(input->messages * sizeof *input->ends);
    for (size_t place = 0; place < input->messages; place++) {
        memcpy(input->joined.at + input->joined.length, at + HEAD, at[HEAD - 1]);
        input->joined.length += at[HEAD - 1];
        input->ends[place] = input->joined.length;
        at += HEAD + at[HEAD - 1];
    }
    input->all = memory(input->events * sizeof *input->all);
}

/* Makes a call several times, and prints the least time for each of so many items, and the number that it gives. */
static void measure(const char *name, uint64_t (*call)(const struct input *), const struct input *input, size_t items) {
    double least = 1e300;
    uint64_t answer = 0;
    for (int run = 0; run < RUNS; run++) {
        struct timespec start, end;
        clock_gettime(CLOCK_MONOTONIC, &start);
        answer = call(input);
        clock_gettime(CLOCK_MONOTONIC, &end);
        double taken = (double)(end.tv_sec - start.tv_sec) * 1e9 + (double)(end.tv_nsec - start.tv_nsec);
        least = taken < least ? taken : least;
    }
    printf("%-18s %9.2f ns  (%" PRIu64 ")\n", name, least / (double)items, answer);
}

int main(int count, char **words) {
    if (count != 4) {
        fputs("usage: timing-c BASE IMAGE LOG\n", stderr);
        return 2;
    }
    struct input input;
    memset(&input, 0, sizeof input);
    const struct bytes image = read_file(words[2]);
    input.program = tracebench_image(strtoull(words[1], NULL, 16), image.at, image.length);
    input.log = read_file(words[3]);
    input.text = (struct bytes){memory(input.log.length), input.log.length};
    input.events = (size_t)run_check(&input);
    input.capture = encoded(&input, input.log, PERIOD);
    input.dense = encoded(&input, input.log, DENSE_PERIOD);
    input.count_of_first = input.events < MOST_STEPS ? input.events : MOST_STEPS;
    input.steps = encoded(&input, beginning(input.log, input.count_of_first), PERIOD);
    input.first = memory(input.count_of_first * sizeof *input.first);
    if (run_feed(&input) != input.count_of_first) stop("feed", TRACEBENCH_DONE);
    input.messages = messages_of(input.capture);
    input.dense_messages = messages_of(input.dense);
    input.packets = memory(input.messages * sizeof *input.packets);
    input.payloads = memory(input.messages * sizeof *input.payloads);
    input.lengths = memory(input.messages * sizeof *input.lengths);
    join_payloads(&input);
    measure("check", run_check, &input, input.events);
    measure("encode", run_encode, &input, input.events);
    measure("decode_all", run_decode, &input, input.events);
    measure("audit_all", run_audit, &input, input.dense_messages);
    measure("unpack", run_unpack, &input, input.messages);
    measure("pack", run_pack, &input, input.messages);
    measure("feed_all", run_feed_all, &input, input.events);
    measure("push_all", run_push_all, &input, input.events);
    measure("push and pack", run_push_and_pack, &input, input.events);
    measure("push", run_push, &input, input.count_of_first);
    measure("feed", run_feed, &input, input.count_of_first);
    return 0;
}
