/*
 * Prints each struct that the calls write or read, field by field and by name. Any two fields of one struct that have
 * one type hold different numbers in some line. So a number in the place of another field changes what is printed.
 *
 *     every_field
 */
#include "tracebench.h"

#include <inttypes.h>
#include <stdio.h>
#include <stdlib.h>
#include <string.h>

/* The address of the image's first byte. */
#define BASE UINT64_C(0x80000000)

#define COUNT(array) (sizeof(array) / sizeof *(array))

/* A branch to itself. */
static const uint8_t image[] = {0x63, 0x00, 0x00, 0x00};
static const struct tracebench_piece program = {BASE, image, sizeof image};

/* A payload, or the payload of a hart's message with this number. */
struct payload {
    uint16_t hart;
    uint64_t number;
    size_t length;
    const char *bytes;
};

static void stop(const char *what, uint32_t status) {
    fprintf(stderr, "every_field: %s: status %" PRIu32 "\n", what, status);
    exit(1);
}

static void done(const char *what, uint32_t status) {
    if (status != TRACEBENCH_DONE) stop(what, status);
}

static void print_packet(const struct tracebench_packet *it) {
    printf("Packet { kind: %" PRIu32 ", taken: %" PRIu32 ", privilege: %" PRIu32 ", cause: %" PRIu32, it->kind,
           it->taken, it->privilege, it->cause);
    printf(", interrupt: %" PRIu32 ", handler: %" PRIu32 ", mode: %" PRIu32 ", report: %" PRIu32, it->interrupt,
           it->handler, it->mode, it->report);
    printf(", outcomes: %" PRIu32 ", map: %" PRIu32 ", address: %" PRIu64 ", tval: %" PRIu64 " }\n", it->outcomes,
           it->map, it->address, it->tval);
}

static void print_event(const struct tracebench_event *it, const char *end) {
    printf("Event { kind: %" PRIu32 ", itype: %u, privilege: %u, cause: %u, interrupt: %u", it->kind, it->itype,
           it->privilege, it->cause, it->interrupt);
    printf(", address: %" PRIu64 ", tval: %" PRIu64 " }%s\n", it->address, it->tval, end);
}

static void print_encoder(const struct tracebench_encoder_state *it) {
    printf("EncoderState { between: %u, left: %u, mode: %" PRIu32 ", holds: %" PRIu32 ", due: %" PRIu32, it->between,
           it->left, it->mode, it->holds, it->due);
    printf(", outcomes: %" PRIu32 ", map: %" PRIu32 ", reported: %" PRIu64 ", held: ", it->outcomes, it->map,
           it->reported);
    print_event(&it->held, " }");
}

static void print_decoder(const struct tracebench_decoder_state *it) {
    printf("DecoderState { phase: %" PRIu32 ", mode: %" PRIu32 ", is_announced: %" PRIu32 ", announced: %" PRIu32,
           it->phase, it->mode, it->is_announced, it->announced);
    printf(", has_last: %" PRIu32 ", waits: %" PRIu32 ", outcomes: %" PRIu32 ", map: %" PRIu32, it->has_last, it->waits,
           it->outcomes, it->map);
    printf(", delta: %" PRIu64 ", reported: %" PRIu64 ", last: ", it->delta, it->reported);
    print_event(&it->last, " }");
}

/* Packets of each kind: a payload is unpacked, and the packet packed again. */
static void packets(void) {
    static const struct payload payloads[] = {
        {0, 0, 5, "\x63\x03\0\0\x20"},
        {0, 0, 6, "\xf7\x23\x02\0\0\x20"},
        {0, 0, 6, "\xa7\x62\x40\0\0\x20"},
        {0, 0, 6, "\xf7\x45\x40\0\0\x20"},
        {0, 0, 16, "\xf7\0\0\x10\0\0\0\0\0\0\0\0\0\0\0\x40"},
        {0, 0, 2, "\x1f\x01"},
        {0, 0, 9, "\x0a\0\0\0\0\0\0\0\xfc"},
        {0, 0, 2, "\x91\x40"},
        {0, 0, 2, "\x81\x02"},
    };
    for (size_t i = 0; i < COUNT(payloads); i++) {
        const uint8_t *bytes = (const uint8_t *)payloads[i].bytes;
        struct tracebench_packet packet;
        uint8_t again[18];
        size_t length = 0;
        done("unpack", tracebench_unpack(bytes, payloads[i].length, &packet));
        print_packet(&packet);
        done("pack", tracebench_pack(&packet, again, sizeof again, &length));
        if (length != payloads[i].length || memcmp(again, bytes, length) != 0) stop("pack", TRACEBENCH_DONE);
    }
}

/* What an encoder keeps, and the packets of branches, an exception and an interrupt in full-address mode. */
static void encoder(void) {
    static const struct tracebench_event events[] = {
        {TRACEBENCH_RETIREMENT, 5, 3, 0, 0, BASE, 0},       {TRACEBENCH_RETIREMENT, 5, 3, 0, 0, BASE, 0},
        {TRACEBENCH_RETIREMENT, 5, 3, 0, 0, BASE, 0},       {TRACEBENCH_TRAP_TAKEN, 0, 3, 13, 0, BASE, 0x1234},
        {TRACEBENCH_TRAP_TAKEN, 0, 3, 7, 1, BASE + 256, 0},
    };
    struct tracebench_encoder_state state;
    struct tracebench_packet due[2];
    size_t count = 0;
    done("encoder", tracebench_encoder(1024, TRACEBENCH_FULL, &state, &due[0]));
    print_packet(&due[0]);
    print_encoder(&state);
    for (size_t i = 0; i < COUNT(events); i++) {
        done("push", tracebench_push(&program, 1, &state, &events[i], due, 2, &count));
        for (size_t k = 0; k < count; k++) print_packet(&due[k]);
        print_encoder(&state);
    }
    done("finish", tracebench_finish(&program, 1, &state, due, 2, &count));
    for (size_t k = 0; k < count; k++) print_packet(&due[k]);
}

static void feed(struct tracebench_decoder_state *state, const char *bytes, size_t length) {
    struct tracebench_event events[2];
    size_t count = 0;
    done("feed", tracebench_feed(&program, 1, state, (const uint8_t *)bytes, length, events, 2, &count));
    for (size_t k = 0; k < count; k++) print_event(&events[k], "");
    print_decoder(state);
}

/* What a decoder keeps, after packets and while packets are passed over. */
static void decoder(void) {
    struct tracebench_decoder_state state;
    tracebench_decoder(&state);
    print_decoder(&state);
    feed(&state, "\x1f", 1);
    feed(&state, "\x63\0\0\0\x20", 5);
    feed(&state, "\x0d\x01", 2);
    tracebench_decoder(&state);
    state.phase = TRACEBENCH_PASSING_OVER;
    state.mode = TRACEBENCH_FULL;
    feed(&state, "\x0a", 1);
}

/* A capture of version 1 of messages. */
static size_t capture_of(uint8_t *bytes, const struct payload *messages, size_t count) {
    size_t length = 0;
    for (size_t i = 0; i < count; i++) {
        bytes[length] = (uint8_t)messages[i].hart;
        bytes[length + 1] = (uint8_t)(messages[i].hart >> 8);
        for (size_t k = 0; k < 8; k++) bytes[length + 2 + k] = (uint8_t)(messages[i].number >> (8 * k));
        bytes[length + 10] = (uint8_t)messages[i].length;
        memcpy(bytes + length + 11, messages[i].bytes, messages[i].length);
        length += 11 + messages[i].length;
    }
    return length;
}

/* The place of a log that is refused. */
static void log_place(void) {
    static const char logs[] = "addr,itype,priv,cause,tval\n80000000,5,3,,\n"
                               "addr,itype,priv,cause,tval\n80000000,5,3,,\n80000001,5,3,,\n";
    const size_t ends[2] = {42, sizeof logs - 1};
    struct tracebench_log_place place = {0, 0};
    uint8_t capture[1];
    size_t wanted = 0;
    uint32_t status = tracebench_encode(&program, 1, (const uint8_t *)logs, sizeof logs - 1, ends, 2,
                                        1024, TRACEBENCH_FULL, TRACEBENCH_VERSION_ONE, capture, 0, &wanted, &place);
    if (status != TRACEBENCH_ODD_ADDRESS) stop("encode", status);
    printf("LogPlace { log: %" PRIu64 ", row: %" PRIu64 " }\n", place.log, place.row);
}

/* How a dump and a decoding of captures end that are damaged. */
static void ends(void) {
    static const struct payload dumped[] = {{0, 0, 1, "\x1f"}, {0, 1, 1, "\0"}};
    static const struct payload decoded[] = {{0, 0, 1, "\x1f"}, {0, 1, 5, "\x63\0\0\0\x20"}, {0, 2, 1, "\x05"},
                                             {0, 3, 1, "\x4f"}, {1, 0, 1, "\x1f"},           {1, 2, 1, "\x05"}};
    struct tracebench_dump_end dump_end = {0, 0, 0};
    struct tracebench_decode_all_end decode_end = {0, 0, 0};
    struct tracebench_hart_end hart_ends[3];
    uint8_t capture[256] = {0};
    uint8_t text[256];
    size_t wanted = 0;
    size_t length = capture_of(capture, dumped, COUNT(dumped)) + 1;
    done("dump", tracebench_dump(capture, length, text, sizeof text, &wanted, &dump_end));
    printf("DumpEnd { place: %" PRIu64 ", fault: %" PRIu32 ", bad: %" PRIu32 " }\n", dump_end.place, dump_end.fault,
           dump_end.bad);
    length = capture_of(capture, decoded, COUNT(decoded));
    done("decode", tracebench_decode_all(&program, 1, 3, capture, length, text, sizeof text, &wanted, hart_ends, 3,
                                         &decode_end));
    printf("DecodeAllEnd { harts: %zu, place: %" PRIu64 ", fault: %" PRIu32 " }\n", decode_end.harts,
           decode_end.place, decode_end.fault);
    printf("HartEnd { end: %zu, closed: %" PRIu32 " }\n", hart_ends[0].end, hart_ends[0].closed);
}

/* A path that loses, repeats, delays and changes messages. */
static void audit(void) {
    static const struct payload sent[] = {
        {0, 0, 1, "a"}, {0, 1, 1, "b"}, {0, 2, 1, "c"}, {0, 3, 1, "d"}, {1, 0, 1, "a"},
        {0, 4, 1, "e"}, {0, 5, 1, "f"}, {0, 6, 1, "g"}, {0, 7, 1, "h"},
    };
    static const struct payload came[] = {
        {0, 0, 1, "a"}, {0, 2, 1, "c"}, {0, 1, 1, "b"}, {9, 0, 1, "a"}, {0, 0, 1, "a"},  {0, 3, 1, "d"},
        {0, 3, 1, "d"}, {1, 0, 1, "a"}, {0, 5, 1, "x"}, {0, 4, 1, "e"}, {0, 1, 1, "b"},  {9, 0, 1, "a"},
        {2, 0, 1, "a"}, {0, 6, 1, "x"}, {1, 1, 1, "a"}, {0, 0, 1, "a"}, {0, 4, 1, "e"},
    };
    struct tracebench_hart_row rows[2];
    struct tracebench_arrival arrival;
    struct tracebench_lost_run lost;
    struct tracebench_byte_run run;
    struct tracebench_sent_place refused;
    struct tracebench_path_end end;
    uint8_t before[256] = {0};
    uint8_t behind[256] = {0};
    size_t length = capture_of(before, sent, COUNT(sent));
    size_t other = capture_of(behind, came, COUNT(came)) + 1;
    const uint32_t status = tracebench_audit_all(before, length, behind, other, 0, rows, 2, &arrival, 0, &lost, 0,
                                                 &run, 0, &refused, &end);
    if (status != TRACEBENCH_TOO_SMALL) stop("audit", status);
    const struct tracebench_tally tally = rows[0].tally;
    printf("Tally { sent: %" PRIu64 ", came: %" PRIu64 ", lost: %" PRIu64 ", repeated: %" PRIu64 ", late: %" PRIu64,
           tally.sent, tally.came, tally.lost, tally.repeated, tally.late);
    printf(", changed: %" PRIu64 ", whole: %" PRIu32 " }\n", tally.changed, tally.whole);
}

int main(void) {
    packets();
    encoder();
    decoder();
    log_place();
    ends();
    audit();
    return 0;
}
