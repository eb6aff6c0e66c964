#include "draws.h"

#include <inttypes.h>
#include <stdio.h>
#include <string.h>

#include "draft.h"

static const char HEADER_ROW[] = "addr,itype,priv,cause,tval\n";
static const char SHORTEST_ROW[] = "0,0,0,,\n";

enum { LARGEST_IMAGE = 1 << 24, MOST_ROWS = 1 << 24, MOST_HARTS = 1024 };

static struct draft draft;

static struct slice taken(void) { return copy_of(draft.at, draft.length); }

/* The image of a program, or now and then another one. */
static struct slice drawn_image(const struct program *program) {
    draft.length = 0;
    switch (below(24)) {
    case 0: put_random(&draft, below(64)); break;
    case 1: put_bytes(&draft, &programs[below(program_count)].image); break;
    case 2: put(&draft, program->image.at, below(program->image.length + 1)); break;
    case 3:
        put_bytes(&draft, &program->image);
        damage(&draft, 0);
        break;
    case 4:
        if (one_in(400)) return room(LARGEST_IMAGE + (one_in(2) ? 1 : below(64)));
        break;
    default: put_bytes(&draft, &program->image);
    }
    return taken();
}

/* The base of a program, or now and then another one. */
static uint64_t drawn_base(const struct program *program, size_t image_length) {
    switch (below(32)) {
    case 0: return program->base | 1;
    case 1: return any_number();
    case 2: return (0 - (uint64_t)image_length + below(8)) & ~UINT64_C(1);
    default: return program->base;
    }
}

void draw_program(struct given *given, const struct program *program) {
    give_back(&given->image);
    given->image = drawn_image(program);
    given->base = drawn_base(program, given->image.length);
}

/* What a call is given that takes a program and these bytes. */
static struct given given_program(const struct program *program, struct slice bytes) {
    struct given given = given_bytes(bytes);
    draw_program(&given, program);
    return given;
}

/* Puts the text of a log, and returns whether it is one that decoding gives again, if it is legal. */
static bool put_log(const struct program *program) {
    size_t from = draft.length;
    const struct bytes *decoded = any_made(&program->decoded);
    switch (below(10)) {
    case 0: put_random(&draft, below(200)); return false;
    case 1: put_bytes(&draft, any_of(&program->texts)); return false;
    case 2:
    case 3:
        put_bytes(&draft, any_of(&program->logs));
        damage(&draft, from);
        return false;
    case 4:
        if (decoded != NULL) {
            put_bytes(&draft, decoded);
            return true;
        } /* fall through */
    default: put_bytes(&draft, any_of(&program->logs)); return true;
    }
}

static struct slice drawn_capture(const struct program *program) {
    const struct bytes *encoded = any_made(&program->encoded);
    size_t what = below(10);
    draft.length = 0;
    if (what == 0) put_random(&draft, below(100));
    else if (what <= 2 || encoded == NULL) put_bytes(&draft, any_of(&program->captures));
    else put_bytes(&draft, encoded);
    if (what >= 8) damage(&draft, 0);
    else if (what >= 5) damage_messages(&draft);
    return taken();
}

/* The numbers of a packet, or of none. */
static struct tracebench_packet drawn_packet(void) {
    struct tracebench_packet packet;
    memset(&packet, 0, sizeof packet);
    packet.kind = (uint32_t)below(8);
    uint32_t *const numbers[] = {&packet.taken, &packet.privilege, &packet.cause, &packet.interrupt, &packet.handler,
                                 &packet.mode, &packet.report, &packet.outcomes, &packet.map};
    for (size_t count = below(one_in(2) ? 4 : 10); count != 0; count--)
        *numbers[below(9)] = one_in(16) ? (uint32_t)any_number() : (uint32_t)below(one_in(4) ? 66 : 4);
    uint32_t bits = (uint32_t)any_number();
    if (packet.outcomes < 32 && !one_in(4)) packet.map = bits & ((UINT32_C(1) << packet.outcomes) - 1);
    if (packet.kind == TRACEBENCH_MAP && one_in(2)) {
        packet.outcomes = 31;
        packet.map = bits >> 1;
    }
    if (!one_in(4)) packet.address = one_in(2) ? any_number() : 0x80000000 + below(256);
    if (!one_in(8)) packet.address &= ~UINT64_C(1);
    if (one_in(3)) packet.tval = one_in(2) ? any_number() : below(8);
    return packet;
}

struct given drawn_for_pack(void) {
    struct tracebench_packet packet = drawn_packet();
    struct given given = given_bytes(room(0));
    give_back(&given.other);
    given.other = copy_of(&packet, sizeof packet);
    return given;
}

/* A payload out of a capture, damaged or not, or any bytes. */
struct given drawn_for_unpack(const struct program *program) {
    static struct message messages[MOST_MESSAGES];
    draft.length = 0;
    put_bytes(&draft, any_of(&program->captures));
    size_t count = messages_of(&draft, messages);
    if (count == 0 || one_in(3)) {
        draft.length = 0;
        put_random(&draft, below(21));
    } else {
        struct message one = messages[below(count)];
        memmove(draft.at, draft.at + one.at + HEAD, one.length - HEAD);
        draft.length = one.length - HEAD;
        if (one_in(3)) damage(&draft, 0);
    }
    return given_bytes(taken());
}

struct given drawn_for_check(const struct program *program) {
    draft.length = 0;
    put_log(program);
    return given_program(program, taken());
}

/* Puts so many logs, and writes where each ends, or now and then another place for one. */
static bool put_logs(const struct program *program, uint64_t *ends, size_t count) {
    bool plain = true;
    draft.length = 0;
    for (size_t log = 0; log < count; log++) {
        if (count > 4) put(&draft, HEADER_ROW, strlen(HEADER_ROW));
        else plain &= put_log(program);
        ends[log] = draft.length;
    }
    if (count == 0 || !one_in(8)) return plain;
    ends[below(count)] = one_in(2) ? any_number() : below(draft.length + 4);
    return false;
}

struct given drawn_for_encode(const struct program *program, bool *plain) {
    static uint64_t ends[MOST_HARTS + 1];
    static const uint16_t periods[] = {1, 2, 8, 64, 1024, UINT16_MAX, 1024, 1024};
    size_t count = one_in(2000) ? MOST_HARTS + below(2) : one_in(32) ? 0 : 1 + below(4);
    *plain = put_logs(program, ends, count);
    struct given given = given_program(program, taken());
    give_back(&given.other);
    given.other = copy_of(ends, count * sizeof *ends);
    given.period = one_in(32) ? 0 : periods[below(sizeof periods / sizeof *periods)];
    given.mode = one_in(32) ? (uint32_t)any_number() : (uint32_t)below(2);
    given.version = one_in(32) ? (uint32_t)below(4) : 1 + (uint32_t)below(2);
    return given;
}

struct given drawn_for_dump(const struct program *program) { return given_bytes(drawn_capture(program)); }

struct given drawn_for_decode(const struct program *program) {
    struct given given = given_program(program, drawn_capture(program));
    given.harts = (uint16_t)(one_in(64) ? any_number() % 2000 : below(5));
    given.hart = (uint16_t)(one_in(64) ? any_number() : below(4));
    return given;
}

/* Lines as nm prints them, near the program, or now and then any bytes. */
static struct slice drawn_symbols(const struct program *program) {
    static const char *const kinds = "TtTtWDb?";
    char line[80];
    draft.length = 0;
    if (one_in(16)) put_random(&draft, below(60));
    for (size_t count = one_in(4) ? 0 : below(6); count != 0; count--) {
        uint64_t address = one_in(16) ? any_number() : program->base + below(program->image.length + 8);
        int length = snprintf(line, sizeof line, "%016" PRIx64 " %c name%zu\n", address, kinds[below(8)], below(40));
        put(&draft, line, (size_t)length);
    }
    if (one_in(8)) damage(&draft, 0);
    return taken();
}

struct given drawn_for_list(const struct program *program) {
    struct given given = drawn_for_decode(program);
    give_back(&given.beside);
    given.beside = drawn_symbols(program);
    given.mode = one_in(32) ? (uint32_t)any_number() : (uint32_t)below(2);
    return given;
}

struct given drawn_for_salvage(const struct program *program) {
    struct given given = drawn_for_list(program);
    given.mode = one_in(16) ? (uint32_t)any_number() : (uint32_t)below(3);
    if (one_in(4)) given.harts = TRACEBENCH_HARTS_SHOWN;
    return given;
}

/* SENT is one that was encoded, most often; RECEIVED is it with damages, or another capture. */
struct given drawn_for_audit(const struct program *program) {
    struct given given = drawn_for_dump(program);
    const struct bytes *encoded = any_made(&program->encoded);
    give_back(&given.other);
    if (encoded != NULL && !one_in(4)) {
        give_back(&given.bytes);
        given.bytes = copy_of(encoded->at, encoded->length);
    }
    draft.length = 0;
    put(&draft, given.bytes.at, given.bytes.length);
    if (one_in(4)) damage(&draft, 0);
    else if (!one_in(4)) damage_messages(&draft);
    given.other = one_in(8) ? drawn_capture(program) : taken();
    given.hart = (uint16_t)(one_in(64) ? any_number() : below(3));
    return given;
}

struct given of_too_many_rows(const struct program *program) {
    size_t head = strlen(HEADER_ROW), row = strlen(SHORTEST_ROW), length = head + row * (MOST_ROWS + (size_t)1);
    struct given given = given_bytes(room(length));
    give_back(&given.image);
    given.base = program->base;
    given.image = copy_of(program->image.at, program->image.length);
    memcpy(given.bytes.at, HEADER_ROW, head);
    for (size_t place = head; place < length; place += row) memcpy(given.bytes.at + place, SHORTEST_ROW, row);
    memcpy(given.bytes.was, given.bytes.at, length);
    return given;
}
