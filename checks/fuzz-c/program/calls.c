#include "calls.h"

#include <string.h>

/* Bytes up to and with a field. */
#define UP_TO(type, field) (offsetof(type, field) + sizeof(((type *)0)->field))

#define IMAGE &(const struct tracebench_piece){given->base, given->image.at, given->image.length}, 1
#define PIECES (const struct tracebench_piece *)(const void *)given->pieces.at, \
               given->pieces.length / sizeof(struct tracebench_piece)
/* A call over the image as one piece, or over the pieces where there are any. */
#define OVER(call, ...) (given->in_pieces ? call(PIECES, __VA_ARGS__) : call(IMAGE, __VA_ARGS__))
#define BYTES given->bytes.at, given->bytes.length
#define OTHER given->other.at, given->other.length
#define BESIDE given->beside.at, given->beside.length
#define ENDS (const size_t *)(const void *)given->other.at, given->other.length / sizeof(size_t)
#define EVENT(slice) (const struct tracebench_event *)(const void *)given->slice.at
#define BUFFER answer->buffer.at, answer->buffer.length, (size_t *)(void *)answer->wanted.at
#define FIRST (void *)answer->first.at
#define SECOND (void *)answer->second.at
#define PACKETS (struct tracebench_packet *)(void *)answer->buffer.at, \
                answer->buffer.length / sizeof(struct tracebench_packet), (size_t *)(void *)answer->wanted.at
#define EVENTS (struct tracebench_event *)(void *)answer->buffer.at, \
               answer->buffer.length / sizeof(struct tracebench_event), (size_t *)(void *)answer->wanted.at

/* How far a call of many steps came, and the elements that it wrote, all in one slice. */
#define AT_ONCE(type) (type *)(void *)(answer->second.at + 16), given->harts, \
                      (size_t *)(void *)answer->second.at, (size_t *)(void *)(answer->second.at + 8)

/* The function that makes a call. */
#define MAKES(name, ...) \
    static uint32_t make_##name(const struct given *given, struct answer *answer) { \
        (void)given, (void)answer; \
        return __VA_ARGS__; \
    }

MAKES(pack, tracebench_pack((const struct tracebench_packet *)(const void *)given->other.at, BUFFER))
MAKES(unpack, tracebench_unpack(BYTES, FIRST))
MAKES(check, OVER(tracebench_check, BYTES, FIRST))
MAKES(encode, OVER(tracebench_encode, BYTES, ENDS, given->period, given->mode, given->version, BUFFER, FIRST))
MAKES(dump, tracebench_dump(BYTES, BUFFER, FIRST))
MAKES(encoder, tracebench_encoder(given->period, given->mode, FIRST, SECOND))
MAKES(push, OVER(tracebench_push, FIRST, EVENT(other), PACKETS))
MAKES(push_checked, OVER(tracebench_push_checked, FIRST, EVENT(other), PACKETS))
MAKES(push_all, OVER(tracebench_push_all, FIRST, EVENT(bytes), given->bytes.length / sizeof(struct tracebench_event),
      AT_ONCE(struct tracebench_packet)))
MAKES(feed_all, OVER(tracebench_feed_all, FIRST, BYTES, ENDS, AT_ONCE(struct tracebench_event)))
MAKES(version, tracebench_version(BUFFER))
MAKES(generate_image, tracebench_generate_image(given->mode, given->number, BUFFER))
MAKES(generate_events, OVER(tracebench_generate_events, FIRST, SECOND, given->harts))
MAKES(follow, OVER(tracebench_follow, given->mode, EVENT(state), EVENT(other)))
MAKES(check_events, OVER(tracebench_check_events, EVENT(bytes), given->bytes.length / sizeof(struct tracebench_event),
      FIRST))
MAKES(finish, OVER(tracebench_finish, (const struct tracebench_encoder_state *)(const void *)given->state.at, PACKETS))

static uint32_t make_decoder(const struct given *given, struct answer *answer) {
    (void)given;
    tracebench_decoder(FIRST);
    return TRACEBENCH_DONE;
}

MAKES(feed, OVER(tracebench_feed, FIRST, BYTES, EVENTS))
MAKES(receive, OVER(tracebench_receive, FIRST, given->number, BYTES, EVENTS, SECOND))
MAKES(resume, tracebench_resume(FIRST, given->number, given->mode))
MAKES(write_message, tracebench_write_message(given->hart, given->number, BYTES, BUFFER))
MAKES(read_message, tracebench_read_message(BYTES, FIRST, SECOND))
MAKES(write_header, tracebench_write_header((const struct tracebench_header *)(const void *)given->other.at, BUFFER))
MAKES(read_header, tracebench_read_header(BYTES, FIRST, SECOND))
MAKES(capture_of_lines, tracebench_capture_of_lines(BYTES, given->version, given->mode, given->period, given->harts,
      given->number, BUFFER, FIRST))

/* Of each array, so much room as the bits of `harts` say: all or none. */
static uint32_t make_audit_all(const struct given *given, struct answer *answer) {
    struct found *found = SECOND;
    return tracebench_audit_all(BYTES, OTHER, given->mode, found->rows, given->harts & 1 ? MOST_HART_ROWS : 0,
                                found->arrivals, given->harts & 2 ? MOST_ARRIVALS : 0, found->lost, given->harts & 4 ? MOST_LOST : 0,
                                found->runs, given->harts & 8 ? MOST_RUNS : 0, &found->refused, FIRST);
}

MAKES(decode_all, OVER(tracebench_decode_all, given->harts, BYTES, BUFFER, SECOND, MOST_ENDS, FIRST))
MAKES(list, OVER(tracebench_list, given->harts, BYTES, BESIDE, given->mode, BUFFER, FIRST))
MAKES(salvage, OVER(tracebench_salvage, given->harts, BYTES, given->mode, BUFFER, FIRST))
MAKES(list_salvaged, OVER(tracebench_list_salvaged, given->harts, BYTES, BESIDE, given->mode, BUFFER, FIRST))
MAKES(measure, OVER(tracebench_measure, BYTES, ENDS, given->period, given->mode, BUFFER, FIRST))
MAKES(compare, OVER(tracebench_compare, given->harts, BYTES, BESIDE, ENDS, BUFFER, FIRST, SECOND))
MAKES(explain, OVER(tracebench_explain, BYTES, BUFFER, FIRST))

/* The function that takes a struct out of an answer. */
#define TAKES(function, type, slice) \
    struct type function(const struct answer *answer) { \
        struct type taken; \
        memcpy(&taken, answer->slice.at, sizeof taken); \
        return taken; \
    }

TAKES(packet_of, tracebench_packet, first)
TAKES(dump_end_of, tracebench_dump_end, first)
TAKES(path_end_of, tracebench_path_end, first)
TAKES(decode_all_end_of, tracebench_decode_all_end, first)
TAKES(text_end_of, tracebench_text_end, first)
TAKES(explain_end_of, tracebench_explain_end, first)

static uint32_t dump_fault(const struct answer *answer) { return dump_end_of(answer).fault; }
static uint32_t decode_all_fault(const struct answer *answer) { return decode_all_end_of(answer).fault; }
static uint32_t text_fault(const struct answer *answer) { return text_end_of(answer).fault; }
static uint32_t explain_fault(const struct answer *answer) { return explain_end_of(answer).fault; }

/* There is no room for where the text of each hart ends. */
static bool has_few_ends(const struct answer *answer) { return decode_all_end_of(answer).harts > MOST_ENDS; }

#define END {1, 0}
#define ONE(status) {TRACEBENCH_##status, TRACEBENCH_##status}
#define SPAN(from, to) {TRACEBENCH_##from, TRACEBENCH_##to}

static const struct span of_pack[] = {ONE(DONE), ONE(TOO_SMALL), ONE(NO_PACKET), END};
static const struct span of_unpack[] = {ONE(DONE), SPAN(EMPTY, BAD_REPORT), END};
static const struct span of_check[] = {ONE(DONE), ONE(MEMORY), SPAN(ODD_BASE, NOT_SORTED),
                                       SPAN(WRONG_HEADER, TOO_MANY_ROWS), SPAN(OFF_PROGRAM, WRONG_EPC), END};
static const struct span of_encode[] = {ONE(DONE), ONE(TOO_SMALL), ONE(MEMORY), ONE(OUT_OF_RANGE), ONE(BAD_ENDS),
                                        SPAN(ODD_BASE, NOT_SORTED), SPAN(WRONG_HEADER, TOO_MANY_ROWS),
                                        SPAN(OFF_PROGRAM, WRONG_EPC), END};
static const struct span of_dump[] = {ONE(DONE), ONE(TOO_SMALL), ONE(MEMORY), END};

static const struct span of_encoder[] = {ONE(DONE), ONE(OUT_OF_RANGE), END};
static const struct span of_push[] = {ONE(DONE), ONE(TOO_SMALL), ONE(MEMORY), SPAN(ODD_BASE, NOT_SORTED),
                                      ONE(BAD_STATE), ONE(NO_EVENT), END};
static const struct span of_push_checked[] = {ONE(DONE), ONE(TOO_SMALL), ONE(MEMORY), SPAN(ODD_BASE, NOT_SORTED),
                                              SPAN(OFF_PROGRAM, WRONG_EPC), ONE(BAD_STATE), ONE(NO_EVENT),
                                              ONE(BAD_BEFORE), END};
static const struct span of_follow[] = {ONE(DONE), ONE(MEMORY), ONE(OUT_OF_RANGE), SPAN(ODD_BASE, NOT_SORTED),
                                        SPAN(OFF_PROGRAM, WRONG_EPC), ONE(NO_EVENT), ONE(BAD_BEFORE), END};
static const struct span of_check_events[] = {ONE(DONE), ONE(MEMORY), SPAN(ODD_BASE, NOT_SORTED), ONE(TOO_MANY_ROWS),
                                              SPAN(OFF_PROGRAM, WRONG_EPC), ONE(NO_EVENT), END};
static const struct span of_finish[] = {ONE(DONE), ONE(TOO_SMALL), ONE(MEMORY), SPAN(ODD_BASE, NOT_SORTED),
                                        ONE(BAD_STATE), END};
static const struct span of_decoder[] = {ONE(DONE), END};
static const struct span of_feed[] = {ONE(DONE), ONE(TOO_SMALL), ONE(MEMORY), SPAN(EMPTY, BAD_REPORT),
                                      SPAN(ODD_BASE, NOT_SORTED), SPAN(NOT_OPENED, AFTER_CLOSING_PACKET),
                                      ONE(BAD_STATE), END};

static const struct span of_receive[] = {ONE(DONE), ONE(TOO_SMALL), ONE(MEMORY), ONE(OUT_OF_RANGE), ONE(REPEAT),
                                         ONE(GAP), ONE(AFTER_CLOSE), SPAN(EMPTY, BAD_REPORT),
                                         SPAN(ODD_BASE, NOT_SORTED), SPAN(NOT_OPENED, AFTER_CLOSING_PACKET),
                                         ONE(BAD_STATE), END};
static const struct span of_resume[] = {ONE(DONE), ONE(OUT_OF_RANGE), ONE(REPEAT), ONE(AFTER_CLOSE), ONE(BAD_STATE),
                                        END};

static const struct span of_push_all[] = {ONE(DONE), ONE(TOO_SMALL), ONE(MEMORY), SPAN(ODD_BASE, NOT_SORTED),
                                          ONE(BAD_STATE), ONE(NO_EVENT), END};
static const struct span of_feed_all[] = {ONE(DONE), ONE(TOO_SMALL), ONE(MEMORY), ONE(OUT_OF_RANGE),
                                          SPAN(EMPTY, BAD_REPORT), SPAN(ODD_BASE, NOT_SORTED),
                                          SPAN(NOT_OPENED, AFTER_CLOSING_PACKET), ONE(BAD_STATE), END};
static const struct span of_version[] = {ONE(DONE), ONE(TOO_SMALL), END};
static const struct span of_generate_image[] = {ONE(DONE), ONE(TOO_SMALL), ONE(MEMORY), ONE(OUT_OF_RANGE), END};
static const struct span of_generate_events[] = {ONE(DONE), ONE(MEMORY), ONE(OUT_OF_RANGE),
                                                 SPAN(ODD_BASE, NOT_SORTED), END};

static const struct span of_write_message[] = {ONE(DONE), ONE(TOO_SMALL), ONE(EMPTY), ONE(TOO_LONG), END};
static const struct span of_read_message[] = {ONE(DONE), ONE(SHORT), ONE(BAD_LENGTH), END};
static const struct span of_write_header[] = {ONE(DONE), ONE(TOO_SMALL), ONE(OUT_OF_RANGE), END};
static const struct span of_read_header[] = {ONE(DONE), ONE(SHORT), ONE(BAD_HEADER), END};
static const struct span of_capture_of_lines[] = {ONE(DONE), ONE(TOO_SMALL), ONE(MEMORY), ONE(OUT_OF_RANGE),
                                                  SPAN(LINE_FIELDS, LINE_ABOVE), END};
static const struct span of_audit_all[] = {ONE(DONE), ONE(TOO_SMALL), ONE(MEMORY), ONE(OUT_OF_RANGE), ONE(SHORT),
                                           ONE(BAD_LENGTH), ONE(BAD_HEADER), ONE(STRANGER), ONE(REPEAT), ONE(GAP),
                                           END};

static const struct span of_decode_all[] = {ONE(DONE), ONE(TOO_SMALL), ONE(MEMORY), SPAN(ODD_BASE, NOT_SORTED), END};
static const struct span of_list[] = {ONE(DONE), ONE(TOO_SMALL), ONE(MEMORY), ONE(OUT_OF_RANGE),
                                      SPAN(ODD_BASE, NOT_SORTED), ONE(NO_SYMBOL), ONE(SYMBOLS_TOO_LARGE), END};
static const struct span of_salvage[] = {ONE(DONE), ONE(TOO_SMALL), ONE(MEMORY), ONE(OUT_OF_RANGE),
                                         SPAN(ODD_BASE, NOT_SORTED), END};
static const struct span of_compare[] = {ONE(DONE), ONE(TOO_SMALL), ONE(MEMORY), ONE(UNEQUAL_COUNTS), ONE(BAD_ENDS),
                                         SPAN(ODD_BASE, NOT_SORTED), SPAN(WRONG_HEADER, TOO_MANY_ROWS),
                                         SPAN(OFF_PROGRAM, WRONG_EPC), END};
static const struct span of_explain[] = {ONE(DONE), ONE(TOO_SMALL), ONE(MEMORY), SPAN(ODD_BASE, NOT_SORTED),
                                         SPAN(WRONG_HEADER, TOO_MANY_ROWS), END};

/* Why a header is none; why a capture is not read on; and why it is not decoded on; and why a log is not legal. */
static const struct span no_header[] = {ONE(DONE), ONE(SHORT), ONE(BAD_HEADER), END};
static const struct span unread[] = {ONE(DONE), ONE(SHORT), ONE(BAD_LENGTH), ONE(BAD_HEADER), END};
static const struct span undecoded[] = {ONE(DONE), ONE(MEMORY), ONE(SHORT), ONE(BAD_LENGTH), ONE(BAD_HEADER),
                                        SPAN(BAD_PAD, BAD_REPORT), SPAN(STRANGER, OTHER_MODE),
                                        SPAN(NOT_OPENED, WALKS_AT_WRONG_PRIVILEGE), END};

static const struct span illegal[] = {ONE(DONE), SPAN(OFF_PROGRAM, WRONG_EPC), END};

#define ALL_OF(type) {sizeof(type), sizeof(type)}

const struct call pack = {
    .name = "pack", .make = make_pack, .statuses = of_pack, .unit = 1,
};
const struct call unpack = {
    .name = "unpack", .make = make_unpack, .statuses = of_unpack, .first = ALL_OF(struct tracebench_packet),
    .written = WITH_DONE,
};
const struct call check = {
    .name = "check", .make = make_check, .takes_image = true, .statuses = of_check, .first = ALL_OF(uint64_t),
    .written = WITH_DONE | WITH_REFUSAL,
};
const struct call encode = {
    .name = "encode", .make = make_encode, .takes_image = true, .statuses = of_encode, .first = ALL_OF(struct tracebench_log_place),
    .unit = 1, .written = WITH_REFUSAL,
};
const struct call dump = {
    .name = "dump", .make = make_dump, .statuses = of_dump, .faults = unread, .fault = dump_fault,
    .first = ALL_OF(struct tracebench_dump_end), .unit = 1, .written = WITH_DONE | WITH_TOO_SMALL,
};
const struct call encoder = {
    .name = "encoder", .make = make_encoder, .statuses = of_encoder, .first = ALL_OF(struct tracebench_encoder_state),
    .second = ALL_OF(struct tracebench_packet), .written = WITH_DONE,
};
const struct call push = {
    .name = "push", .make = make_push, .takes_image = true, .statuses = of_push, .first = ALL_OF(struct tracebench_encoder_state),
    .unit = sizeof(struct tracebench_packet), .least = 2, .written = WITH_DONE, .goes_on = true,
};
const struct call push_checked = {
    .name = "push_checked", .make = make_push_checked, .takes_image = true, .statuses = of_push_checked,
    .first = ALL_OF(struct tracebench_encoder_state), .unit = sizeof(struct tracebench_packet), .least = 2,
    .written = WITH_DONE, .goes_on = true,
};
const struct call follow = {
    .name = "follow", .make = make_follow, .takes_image = true, .statuses = of_follow,
};
const struct call check_events = {
    .name = "check_events", .make = make_check_events, .takes_image = true, .statuses = of_check_events, .first = ALL_OF(uint64_t),
    .written = WITH_DONE | WITH_REFUSAL,
};
const struct call finish = {
    .name = "finish", .make = make_finish, .takes_image = true, .statuses = of_finish, .unit = sizeof(struct tracebench_packet),
};
const struct call decoder = {
    .name = "decoder", .make = make_decoder, .statuses = of_decoder, .first = ALL_OF(struct tracebench_decoder_state),
    .written = WITH_DONE,
};
const struct call feed = {
    .name = "feed", .make = make_feed, .takes_image = true, .statuses = of_feed, .first = ALL_OF(struct tracebench_decoder_state),
    .unit = sizeof(struct tracebench_event), .written = WITH_DONE, .goes_on = true,
};

const struct call receive = {
    .name = "receive", .make = make_receive, .takes_image = true, .statuses = of_receive, .first = ALL_OF(struct tracebench_hart_state),
    .second = {sizeof(uint64_t), 0}, .unit = sizeof(struct tracebench_event), .written = WITH_DONE | WITH_REFUSAL,
    .goes_on = true,
};
const struct call resume = {
    .name = "resume", .make = make_resume, .statuses = of_resume, .first = ALL_OF(struct tracebench_hart_state),
    .written = WITH_DONE, .goes_on = true,
};

const struct call push_all = {
    .name = "push_all", .make = make_push_all, .takes_image = true, .statuses = of_push_all,
    .first = ALL_OF(struct tracebench_encoder_state),
    .second = {16 + MOST_AT_ONCE * sizeof(struct tracebench_packet), 16},
    .written = WITH_DONE | WITH_TOO_SMALL | WITH_REFUSAL, .goes_on = true,
};
const struct call feed_all = {
    .name = "feed_all", .make = make_feed_all, .takes_image = true, .statuses = of_feed_all,
    .first = ALL_OF(struct tracebench_decoder_state),
    .second = {16 + MOST_AT_ONCE * sizeof(struct tracebench_event), 16},
    .written = WITH_DONE | WITH_TOO_SMALL | WITH_REFUSAL, .goes_on = true,
};
const struct call version = {
    .name = "version", .make = make_version, .statuses = of_version, .unit = 1,
};

const struct call generate_image = {
    .name = "generate_image", .make = make_generate_image, .statuses = of_generate_image, .unit = 1,
};
const struct call generate_events = {
    .name = "generate_events", .make = make_generate_events, .takes_image = true, .statuses = of_generate_events,
    .first = ALL_OF(struct tracebench_walk_state), .second = {MOST_AT_ONCE * sizeof(struct tracebench_event), 0},
    .written = WITH_DONE, .goes_on = true,
};

const struct call write_message = {
    .name = "write_message", .make = make_write_message, .statuses = of_write_message, .unit = 1,
};
const struct call read_message = {
    .name = "read_message", .make = make_read_message, .statuses = of_read_message,
    .first = {sizeof(struct tracebench_message), UP_TO(struct tracebench_message, payload)},
    .second = ALL_OF(size_t), .written = WITH_DONE | WITH_REFUSAL,
};
const struct call write_header = {
    .name = "write_header", .make = make_write_header, .statuses = of_write_header, .unit = 1,
};
const struct call read_header = {
    .name = "read_header", .make = make_read_header, .statuses = of_read_header,
    .first = ALL_OF(struct tracebench_header), .second = ALL_OF(size_t), .written = WITH_DONE | WITH_REFUSAL,
};
const struct call capture_of_lines = {
    .name = "capture_of_lines", .make = make_capture_of_lines, .statuses = of_capture_of_lines,
    .first = ALL_OF(uint64_t), .unit = 1, .written = WITH_DONE | WITH_TOO_SMALL | WITH_REFUSAL,
};
const struct call audit_all = {
    .name = "audit_all", .make = make_audit_all, .statuses = of_audit_all,
    .first = ALL_OF(struct tracebench_path_end), .second = {sizeof(struct found), 0},
    .written = WITH_DONE | WITH_TOO_SMALL | WITH_REFUSAL,
};

const struct call decode_all = {
    .name = "decode_all", .make = make_decode_all, .takes_image = true, .statuses = of_decode_all, .faults = undecoded,
    .fault = decode_all_fault,
    .first = {sizeof(struct tracebench_decode_all_end), UP_TO(struct tracebench_decode_all_end, fault)},
    .second = {MOST_ENDS * sizeof(struct tracebench_hart_end), 0}, .unit = 1, .written = WITH_DONE | WITH_TOO_SMALL,
    .in_texts = true, .is_short = has_few_ends,
};
const struct call list_capture = {
    .name = "list", .make = make_list, .takes_image = true, .statuses = of_list, .faults = undecoded,
    .fault = text_fault, .first = ALL_OF(struct tracebench_text_end), .unit = 1, .written = WITH_DONE | WITH_TOO_SMALL,
};
const struct call salvage = {
    .name = "salvage", .make = make_salvage, .takes_image = true, .statuses = of_salvage, .faults = no_header,
    .fault = text_fault, .first = ALL_OF(struct tracebench_text_end), .unit = 1, .written = WITH_DONE | WITH_TOO_SMALL,
};
const struct call list_salvaged = {
    .name = "list_salvaged", .make = make_list_salvaged, .takes_image = true, .statuses = of_list, .faults = no_header,
    .fault = text_fault, .first = ALL_OF(struct tracebench_text_end), .unit = 1, .written = WITH_DONE | WITH_TOO_SMALL,
};
const struct call measure = {
    .name = "measure", .make = make_measure, .takes_image = true, .statuses = of_encode,
    .first = ALL_OF(struct tracebench_log_place), .unit = 1, .written = WITH_REFUSAL,
};
const struct call compare_logs = {
    .name = "compare", .make = make_compare, .takes_image = true, .statuses = of_compare, .faults = undecoded,
    .fault = text_fault, .first = ALL_OF(struct tracebench_text_end), .second = ALL_OF(struct tracebench_log_place),
    .unit = 1, .written = WITH_DONE | WITH_TOO_SMALL | WITH_REFUSAL,
};
const struct call explain = {
    .name = "explain", .make = make_explain, .takes_image = true, .statuses = of_explain, .faults = illegal,
    .fault = explain_fault,
    .first = {sizeof(struct tracebench_explain_end), UP_TO(struct tracebench_explain_end, fault)},
    .unit = 1, .written = WITH_DONE | WITH_TOO_SMALL | WITH_REFUSAL,
};

const struct call *const calls[CALLS] = {&pack, &unpack, &check, &encode, &dump,
                                         &encoder, &push, &finish, &decoder, &feed,
                                         &follow, &check_events, &push_checked, &receive, &resume,
                                         &push_all, &feed_all, &version, &write_message, &read_message,
                                         &write_header, &read_header, &capture_of_lines, &audit_all, &decode_all,
                                         &list_capture, &measure, &compare_logs, &explain, &salvage,
                                         &list_salvaged, &generate_image, &generate_events};

bool is_listed(const struct span *spans, uint32_t status) {
    for (; spans->from <= spans->to; spans++)
        if (spans->from <= status && status <= spans->to) return true;
    return false;
}

bool is_answer(uint32_t status) { return status == TRACEBENCH_DONE || status == TRACEBENCH_TOO_SMALL; }

bool is_written(const struct call *call, uint32_t status) {
    int with = status == TRACEBENCH_DONE        ? WITH_DONE
               : status == TRACEBENCH_TOO_SMALL ? WITH_TOO_SMALL
                                                : WITH_REFUSAL;
    return (call->written & with) != 0;
}

uint64_t wanted_of(const struct answer *answer) {
    uint64_t wanted;
    memcpy(&wanted, answer->wanted.at, sizeof wanted);
    return wanted;
}

struct given given_bytes(struct slice bytes) {
    struct given given;
    memset(&given, 0, sizeof given);
    given.image = room(0);
    given.bytes = bytes;
    given.other = room(0);
    given.state = room(0);
    given.beside = room(0);
    given.pieces = room(0);
    return given;
}

void give_back_given(struct given *given) {
    give_back(&given->image);
    give_back(&given->bytes);
    give_back(&given->other);
    give_back(&given->state);
    give_back(&given->beside);
    give_back(&given->pieces);
}

void give_back_answer(struct answer *answer) {
    give_back(&answer->buffer);
    give_back(&answer->wanted);
    give_back(&answer->first);
    give_back(&answer->second);
}

void forget(struct given *given, struct answer *answer) {
    give_back_given(given);
    give_back_answer(answer);
}
