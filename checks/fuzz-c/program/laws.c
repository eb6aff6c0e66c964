#include "laws.h"

#include <string.h>

#include "draws.h"
#include "judge.h"

/* The most harts of a capture that is decoded. */
enum { MOST_FOLLOWED = 4 };

/* The packet that a payload stands for. */
static struct tracebench_packet unpacked(const uint8_t *payload, size_t length) {
    struct given given = given_bytes(copy_of(payload, length));
    struct answer answer = exercise(&unpack, &given);
    require(answer.status == TRACEBENCH_DONE, &unpack, "a payload that was packed stands for no packet");
    struct tracebench_packet packet = packet_of(&answer);
    forget(&given, &answer);
    return packet;
}

/* Packs a packet, and unpacks the payload. */
static void pack_and_unpack(const struct given *given, struct answer *packed) {
    *packed = exercise(&pack, given);
    if (packed->status != TRACEBENCH_DONE) return;
    uint64_t length = wanted_of(packed);
    require(length >= 1 && length <= 18, &pack, "a payload has no byte, or more than 18");
    struct tracebench_packet packet = unpacked(packed->buffer.at, (size_t)length);
    require(memcmp(&packet, given->other.at, sizeof packet) == 0, &unpack, "another packet than was packed");
}

void try_pack(struct program *program) {
    (void)program;
    struct given given = drawn_for_pack();
    struct answer packed;
    pack_and_unpack(&given, &packed);
    forget(&given, &packed);
}

void try_unpack(struct program *program) {
    struct given given = drawn_for_unpack(program);
    struct answer answer = exercise(&unpack, &given);
    if (answer.status == TRACEBENCH_DONE) {
        struct given packet = given_bytes(room(0));
        give_back(&packet.other);
        packet.other = copy_of(answer.first.at, sizeof(struct tracebench_packet));
        struct answer packed;
        pack_and_unpack(&packet, &packed);
        require(packed.status == TRACEBENCH_DONE, &pack, "a packet that was unpacked is not packed");
        forget(&packet, &packed);
    }
    forget(&given, &answer);
}

void try_check(struct program *program) {
    struct given given = drawn_for_check(program);
    struct answer answer = exercise(&check, &given);
    forget(&given, &answer);
}

void try_dump(struct program *program) {
    struct given given = drawn_for_dump(program);
    struct answer answer = exercise(&dump, &given);
    forget(&given, &answer);
}

/* A capture, and the logs that it is of. */
struct encoding {
    const struct given *given;
    const struct answer *answer;
    size_t count;
    bool plain; /* decoding gives the texts again, and not only the logs */
};

static uint64_t end_of(const struct encoding *encoding, size_t log) {
    uint64_t end;
    memcpy(&end, encoding->given->other.at + log * sizeof end, sizeof end);
    return end;
}

/* What a call is given that takes the program and these bytes. */
static struct given given_program(const struct encoding *encoding, const uint8_t *at, size_t length) {
    struct given given = given_bytes(copy_of(at, length));
    give_back(&given.image);
    given.base = encoding->given->base;
    given.image = again(&encoding->given->image);
    return given;
}

/* The text of a log is legal, and has an event for each line but the first. */
static void check_decoded(const struct encoding *encoding, const uint8_t *text, size_t length) {
    struct given given = given_program(encoding, text, length);
    struct answer answer = exercise(&check, &given);
    require(answer.status == TRACEBENCH_DONE, &check, "a log that was encoded and decoded is not legal");
    uint64_t row, lines = 0;
    memcpy(&row, answer.first.at, sizeof row);
    for (size_t place = 0; place < given.bytes.length; place++) lines += given.bytes.at[place] == '\n';
    require(row + 1 == lines, &check, "another count of events than the text has lines");
    forget(&given, &answer);
}

/* Decodes the logs of all harts, and says where the text of each ends. */
static struct answer decode_harts(const struct encoding *encoding, size_t ends[MOST_FOLLOWED]) {
    const struct slice *capture = &encoding->answer->buffer;
    struct given given = given_program(encoding, capture->at, capture->length);
    given.harts = (uint16_t)encoding->count;
    struct answer answer = exercise(&decode_all, &given);
    require(answer.status == TRACEBENCH_DONE, &decode_all, "a capture that was encoded is not decoded");
    struct tracebench_decode_all_end ended = decode_all_end_of(&answer);
    require(ended.fault == TRACEBENCH_DONE && ended.place == 0 && ended.harts == encoding->count, &decode_all,
            "a capture that was encoded is not decoded to its end");
    for (size_t hart = 0; hart < encoding->count; hart++) {
        struct tracebench_hart_end end;
        memcpy(&end, answer.second.at + hart * sizeof end, sizeof end);
        require(end.closed == 1, &decode_all, "a hart of a capture that was encoded is not closed");
        size_t from = hart == 0 ? 0 : ends[hart - 1];
        ends[hart] = end.end;
        check_decoded(encoding, answer.buffer.at + from, end.end - from);
        require(!encoding->plain || end.end == end_of(encoding, hart), &decode_all, "another log than was encoded");
    }
    require(!encoding->plain || memcmp(answer.buffer.at, encoding->given->bytes.at, ends[encoding->count - 1]) == 0,
            &decode_all, "other logs than were encoded");
    give_back_given(&given);
    return answer;
}

static void audit_capture(const struct encoding *encoding) {
    const struct slice *capture = &encoding->answer->buffer;
    struct given given = given_bytes(again(capture));
    give_back(&given.other);
    given.other = again(capture);
    struct answer answer = exercise(&audit_all, &given);
    require(is_answer(answer.status), &audit_all, "a capture that was encoded is not audited");
    struct tracebench_path_end ended = path_end_of(&answer);
    require(ended.whole == 1 && ended.strangers == 0 && ended.harts == encoding->count, &audit_all,
            "a capture is not whole against itself, or has strangers or other harts");
    forget(&given, &answer);
}

static void dump_capture(const struct encoding *encoding) {
    struct given given = given_bytes(again(&encoding->answer->buffer));
    struct answer answer = exercise(&dump, &given);
    struct tracebench_dump_end ended = dump_end_of(&answer);
    require(answer.status == TRACEBENCH_DONE && ended.fault == TRACEBENCH_DONE && ended.bad == 0 && ended.place == 0,
            &dump, "a capture that was encoded is not dumped to its end, or has a payload that is no packet");
    forget(&given, &answer);
}

/* Decodes all harts, and encodes these texts: the capture is the same. */
static void encode_again(const struct encoding *encoding) {
    size_t ends[MOST_FOLLOWED];
    struct answer decoded = decode_harts(encoding, ends);
    struct given given = given_program(encoding, decoded.buffer.at, ends[encoding->count - 1]);
    give_back(&given.other);
    given.other = copy_of(ends, encoding->count * sizeof *ends);
    given.period = encoding->given->period;
    given.mode = encoding->given->mode;
    given.version = encoding->given->version;
    struct answer answer = exercise(&encode, &given);
    const struct slice *capture = &encoding->answer->buffer;
    require(answer.status == TRACEBENCH_DONE && answer.buffer.length == capture->length &&
                begin_alike(&answer.buffer, capture, capture->length),
            &encode, "what a capture decodes to gives another capture");
    give_back_answer(&decoded);
    forget(&given, &answer);
}

/* The capture of so many logs. */
static void follow_up(const struct encoding *encoding) {
    dump_capture(encoding);
    audit_capture(encoding);
    if (encoding->count <= MOST_FOLLOWED) encode_again(encoding);
}

void try_encode(struct program *program) {
    bool plain;
    struct given given = drawn_for_encode(program, &plain);
    struct answer answer = exercise(&encode, &given);
    if (answer.status == TRACEBENCH_DONE) {
        struct encoding encoding = {&given, &answer, given.other.length / sizeof(uint64_t), plain};
        keep(&program->encoded, answer.buffer.at, answer.buffer.length);
        follow_up(&encoding);
    }
    forget(&given, &answer);
}

void try_too_many_rows(struct program *program) {
    struct given given = of_too_many_rows(program);
    struct answer answer = run(&check, &given, 0);
    require(answer.status == TRACEBENCH_TOO_MANY_ROWS, &check, "a log of too many rows is not refused");
    forget(&given, &answer);
}
