#include "parts.h"

#include <inttypes.h>
#include <stdio.h>
#include <string.h>

#include "draft.h"
#include "draws.h"
#include "judge.h"

static const uint8_t mark[] = {0xff, 0xff, 'r', 'v', 't', 'r', 'a', 'c', 'e', '2', 0};

/* A number of so many bytes, the lowest first. */
static uint64_t little(const uint8_t *at, size_t length) {
    uint64_t number = 0;
    while (length-- != 0) number = number << 8 | at[length];
    return number;
}

static size_t taken_of(const struct answer *answer) {
    size_t taken;
    memcpy(&taken, answer->second.at, sizeof taken);
    return taken;
}

/* What is read of bytes is what they begin with. */
static void judge_read_message(const struct given *given, const struct answer *answer) {
    const uint8_t *at = given->bytes.at;
    const size_t length = given->bytes.length, count = length < HEAD ? 0 : at[HEAD - 1];
    const bool bad = length >= HEAD && (count == 0 || count > 18);
    const bool some = length >= HEAD && !bad && length >= HEAD + count;
    const uint32_t status = length == 0 || some ? TRACEBENCH_DONE : bad ? TRACEBENCH_BAD_LENGTH : TRACEBENCH_SHORT;
    require(answer->status == status, &read_message, "another status than the bytes have");
    require(taken_of(answer) == (some ? HEAD + count : 0), &read_message, "another count of bytes");
    if (!some) {
        require(is_kept_from(&answer->first, 0), &read_message, "a message where there is none");
        return;
    }
    struct tracebench_message message;
    uint8_t payload[18] = {0};
    memcpy(&message, answer->first.at, sizeof message);
    memcpy(payload, at + HEAD, count);
    require(message.hart == little(at, 2) && message.number == little(at + 2, 8) && message.payload_length == count &&
                memcmp(message.payload, payload, sizeof payload) == 0,
            &read_message, "another message");
}

static void read_one(const void *bytes, size_t length) {
    struct given given = given_bytes(copy_of(bytes, length));
    struct answer answer = exercise(&read_message, &given);
    judge_read_message(&given, &answer);
    forget(&given, &answer);
}

void try_messages(struct program *program) {
    static struct draft draft;
    struct given given = given_bytes(room(below(22)));
    given.hart = (uint16_t)any_number();
    given.number = any_number() >> below(64);
    const size_t count = given.bytes.length;
    struct answer answer = exercise(&write_message, &given);
    const uint32_t refused = count == 0 ? TRACEBENCH_EMPTY : count > 18 ? TRACEBENCH_TOO_LONG : TRACEBENCH_DONE;
    require(answer.status == refused, &write_message, "another status than the payload has");
    if (refused == TRACEBENCH_DONE) {
        const uint8_t *at = answer.buffer.at;
        require(wanted_of(&answer) == HEAD + count && little(at, 2) == given.hart &&
                    little(at + 2, 8) == given.number && at[HEAD - 1] == count &&
                    memcmp(at + HEAD, given.bytes.at, count) == 0,
                &write_message, "other bytes than the message has");
        read_one(at, HEAD + count);
    }
    forget(&given, &answer);
    draft.length = 0;
    put_bytes(&draft, any_of(&program->captures));
    const size_t from = below(draft.length + 1), left = draft.length - from;
    read_one(draft.at + from, one_in(2) ? left : below((left < 40 ? left : 40) + 1));
}

static bool is_header(const uint8_t *settings) {
    const uint64_t harts = little(settings + 3, 2);
    return settings[0] <= 1 && little(settings + 1, 2) != 0 && harts != 0 && harts <= 1024;
}

static void judge_read_header(const struct given *given, const struct answer *answer) {
    const uint8_t *at = given->bytes.at;
    const size_t length = given->bytes.length;
    const bool marked = length >= sizeof mark && memcmp(at, mark, sizeof mark) == 0;
    const bool some = marked && length >= HEADER && is_header(at + sizeof mark);
    const uint32_t refused = length < HEADER ? TRACEBENCH_SHORT : TRACEBENCH_BAD_HEADER;
    const uint32_t status = !marked || some ? TRACEBENCH_DONE : refused;
    require(answer->status == status, &read_header, "another status than the bytes have");
    require(taken_of(answer) == (some ? HEADER : 0), &read_header, "another count of bytes");
    if (!some) {
        require(is_kept_from(&answer->first, 0), &read_header, "a header where there is none");
        return;
    }
    struct tracebench_header header;
    memcpy(&header, answer->first.at, sizeof header);
    require(header.mode == at[11] && header.period == little(at + 12, 2) && header.harts == little(at + 14, 2),
            &read_header, "another header");
}

void try_headers(struct program *program) {
    static struct draft draft;
    const struct tracebench_header header = {one_in(4) ? (uint32_t)any_number() : (uint32_t)below(2),
                                             one_in(4) ? 0 : (uint16_t)any_number(), (uint16_t)below(1030)};
    struct given given = given_bytes(room(0));
    give_back(&given.other);
    given.other = copy_of(&header, sizeof header);
    struct answer answer = exercise(&write_header, &given);
    const bool good = header.mode <= 1 && header.period != 0 && header.harts != 0 && header.harts <= 1024;
    require(answer.status == (good ? TRACEBENCH_DONE : TRACEBENCH_OUT_OF_RANGE), &write_header,
            "another status than the numbers have");
    draft.length = 0;
    if (good) {
        const uint8_t *at = answer.buffer.at;
        require(wanted_of(&answer) == HEADER && memcmp(at, mark, sizeof mark) == 0 && at[11] == header.mode &&
                    little(at + 12, 2) == header.period && little(at + 14, 2) == header.harts,
                &write_header, "other bytes than the header has");
        put(&draft, at, HEADER);
        put_random(&draft, below(4));
        if (one_in(2)) damage(&draft, one_in(4) ? 0 : sizeof mark);
    } else {
        put_bytes(&draft, any_of(&program->captures));
    }
    forget(&given, &answer);
    given = given_bytes(copy_of(draft.at, one_in(4) ? below(draft.length + 1) : draft.length));
    answer = exercise(&read_header, &given);
    judge_read_header(&given, &answer);
    forget(&given, &answer);
}

/* The lines of a capture's messages, and these messages, whose harts are below a limit. */
static size_t put_lines(struct draft *text, struct draft *messages, const struct draft *capture, unsigned limit) {
    static struct message found[MOST_MESSAGES];
    const size_t count = messages_of(capture, found);
    size_t harts = 1;
    for (size_t place = 0; place < count && place < 60; place++) {
        const uint8_t *at = capture->at + found[place].at;
        const size_t length = at[HEAD - 1];
        const unsigned hart = (unsigned)little(at, 2);
        char line[80];
        if (length == 0 || length > 18 || hart >= limit) continue;
        put(text, line, (size_t)snprintf(line, sizeof line, "%u %" PRIu64 " ", hart, little(at + 2, 8)));
        for (size_t byte = 0; byte < length; byte++)
            put(text, line, (size_t)snprintf(line, sizeof line, one_in(2) ? "%02x" : "%02X", at[HEAD + byte]));
        if (one_in(4)) put(text, "\r", 1);
        put(text, "\n", 1);
        put(messages, at, HEAD + length);
        harts = hart + 1u > harts ? hart + 1u : harts;
    }
    return harts;
}

void try_lines(struct program *program) {
    static struct draft capture, text, messages;
    capture.length = text.length = messages.length = 0;
    put_bytes(&capture, any_of(&program->captures));
    struct given given = given_bytes(room(0));
    given.version = one_in(16) ? (uint32_t)below(4) : 1 + (uint32_t)below(2);
    given.mode = one_in(16) ? (uint32_t)any_number() : (uint32_t)below(2);
    given.period = one_in(16) ? 0 : (uint16_t)any_number();
    given.harts = (uint16_t)(one_in(4) ? below(1030) : 0);
    /* A field of one number is out of its range. */
    given.number = one_in(16) ? 1 : 0;
    const size_t harts = put_lines(&text, &messages, &capture, given.version == TRACEBENCH_VERSION_ONE ? 64 : 1024);
    const bool damaged = one_in(3);
    if (damaged) damage(&text, 0);
    const unsigned most = given.version == TRACEBENCH_VERSION_ONE ? 64 : 1024;
    const bool good = (given.version == 1 || given.version == 2) && given.mode <= 1 && given.period != 0 &&
                      given.harts <= most && given.number != 1;
    give_back(&given.bytes);
    given.bytes = copy_of(text.at, text.length);
    struct answer answer = exercise(&capture_of_lines, &given);
    uint64_t line;
    memcpy(&line, answer.first.at, sizeof line);
    require((answer.status == TRACEBENCH_OUT_OF_RANGE) == !good, &capture_of_lines,
            "another status than the numbers have");
    const bool refused = TRACEBENCH_LINE_FIELDS <= answer.status && answer.status <= TRACEBENCH_LINE_ABOVE;
    require(refused == (line != 0), &capture_of_lines, "a line without a fault, or a fault without a line");
    if (good && !damaged && answer.status != TRACEBENCH_MEMORY) {
        const bool above = given.harts != 0 && harts > given.harts;
        require(answer.status == (above && messages.length != 0 ? TRACEBENCH_LINE_ABOVE : TRACEBENCH_DONE),
                &capture_of_lines, "another status than the lines have");
    }
    if (good && !damaged && answer.status == TRACEBENCH_DONE) {
        const size_t head = given.version == TRACEBENCH_VERSION_TWO ? HEADER : 0;
        const uint8_t *at = answer.buffer.at;
        require(wanted_of(&answer) == head + messages.length && memcmp(at + head, messages.at, messages.length) == 0,
                &capture_of_lines, "other messages than the lines have");
        require(head == 0 || (memcmp(at, mark, sizeof mark) == 0 && at[11] == given.mode &&
                              little(at + 12, 2) == given.period &&
                              little(at + 14, 2) == (given.harts != 0 ? given.harts : harts)),
                &capture_of_lines, "another header");
    }
    forget(&given, &answer);
}
