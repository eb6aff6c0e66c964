#include "steps.h"

#include <string.h>

#include "draft.h"
#include "draws.h"
#include "judge.h"
#include "states.h"

/* Whether a status is what is wrong with an image. */
static bool is_of_image(uint32_t status) { return TRACEBENCH_ODD_BASE <= status && status <= TRACEBENCH_PAST_END; }

/* What a call of many steps wrote, and where its elements are. */
struct at_once {
    uint64_t taken;
    uint64_t count;
    const uint8_t *elements;
};

static struct at_once at_once_of(const struct answer *answer) {
    struct at_once said;
    memcpy(&said.taken, answer->second.at, sizeof said.taken);
    memcpy(&said.count, answer->second.at + sizeof said.taken, sizeof said.count);
    said.elements = answer->second.at + sizeof said.taken + sizeof said.count;
    return said;
}

/* The same as calls of one step say, which took so many elements and then ended with a status. */
static void compare(const struct call *call, const struct answer *answer, uint32_t status, uint64_t taken,
                    uint64_t count, const void *state, size_t unit) {
    struct at_once said = at_once_of(answer);
    bool other_first = taken == 0 && is_of_image(answer->status); /* the image comes before the first element */
    require(other_first || answer->status == status, call, "another status than step by step");
    require(said.taken == taken, call, "another count of elements is taken than step by step");
    require(said.count == count, call, "another count of elements is written than step by step");
    require(memcmp(answer->first.at, state, call->first.size) == 0, call, "another state than step by step");
    require(is_kept_from(&answer->second, 16 + (size_t)count * unit), call, "more than its elements is written");
}

static void judge_pushes(const struct given *given, const struct answer *answer) {
    struct tracebench_encoder_state state;
    struct at_once said = at_once_of(answer);
    const size_t events = given->bytes.length / sizeof(struct tracebench_event);
    uint32_t status = has_encoder(given->state.at) ? TRACEBENCH_DONE : TRACEBENCH_BAD_STATE;
    uint64_t taken = 0, count = 0;
    memcpy(&state, given->state.at, sizeof state);
    while (taken < events && status == TRACEBENCH_DONE) {
        struct given one = *given;
        one.state = copy_of(&state, sizeof state);
        one.other = copy_of(given->bytes.at + taken * sizeof(struct tracebench_event), sizeof(struct tracebench_event));
        struct answer step = run(&push, &one, 2);
        status = step.status;
        if (status == TRACEBENCH_DONE && wanted_of(&step) > given->harts - count) status = TRACEBENCH_TOO_SMALL;
        if (status == TRACEBENCH_DONE) {
            size_t size = (size_t)wanted_of(&step) * push.unit;
            require(size == 0 || memcmp(said.elements + count * push.unit, step.buffer.at, size) == 0, &push_all,
                    "other packets than step by step");
            memcpy(&state, step.first.at, sizeof state);
            count += wanted_of(&step);
            taken++;
        }
        give_back(&one.state);
        give_back(&one.other);
        give_back_answer(&step);
    }
    compare(&push_all, answer, status, taken, count, &state, push.unit);
}

void try_push_all(struct program *program) {
    struct events events = events_of(any_of(&program->logs));
    struct given given;
    derange(&events);
    if (events.count == 0 || events.count == MOST_EVENTS) return;
    size_t count = events.count < 12 ? events.count : 1 + below(12);
    if (one_in(8)) ((uint8_t *)events.at)[below(count * sizeof *events.at)] ^= (uint8_t)(1 + below(255));
    given = given_bytes(copy_of(events.at, count * sizeof *events.at));
    give_back(&given.state);
    given.state = drawn_encoder(&program->encoders);
    given.harts = (uint16_t)below(MOST_AT_ONCE + 1);
    draw_program(&given, program);
    struct answer answer = exercise(&push_all, &given);
    if (answer.status != TRACEBENCH_MEMORY) judge_pushes(&given, &answer);
    if (answer.status == TRACEBENCH_DONE) keep(&program->encoders, answer.first.at, answer.first.length);
    forget(&given, &answer);
}

static void judge_feeds(const struct given *given, const struct answer *answer) {
    struct tracebench_decoder_state state;
    struct at_once said = at_once_of(answer);
    const size_t ends = given->other.length / sizeof(uint64_t);
    uint32_t status = has_decoder(given->state.at) ? TRACEBENCH_DONE : TRACEBENCH_BAD_STATE;
    uint64_t taken = 0, count = 0, from = 0;
    memcpy(&state, given->state.at, sizeof state);
    while (taken < ends && status == TRACEBENCH_DONE) {
        uint64_t end;
        memcpy(&end, given->other.at + taken * sizeof end, sizeof end);
        if (end < from || end > given->bytes.length) {
            status = TRACEBENCH_OUT_OF_RANGE;
            break;
        }
        struct given one = *given;
        one.state = copy_of(&state, sizeof state);
        one.bytes = copy_of(given->bytes.at + from, (size_t)(end - from));
        struct answer step = run(&feed, &one, (size_t)(given->harts - count));
        status = step.status;
        if (status == TRACEBENCH_AFTER_CLOSING_PACKET) { /* which is said of any payload */
            struct answer read = run(&unpack, &one, 0);
            if (read.status != TRACEBENCH_DONE) status = read.status;
            give_back_answer(&read);
        }
        if (status == TRACEBENCH_DONE) {
            size_t size = (size_t)wanted_of(&step) * feed.unit;
            require(size == 0 || memcmp(said.elements + count * feed.unit, step.buffer.at, size) == 0, &feed_all,
                    "other events than step by step");
            memcpy(&state, step.first.at, sizeof state);
            count += wanted_of(&step);
            from = end;
            taken++;
        }
        give_back(&one.state);
        give_back(&one.bytes);
        give_back_answer(&step);
    }
    compare(&feed_all, answer, status, taken, count, &state, feed.unit);
}

/* The payloads of hart 0 of a capture, most often good ones, and where each ends, now and then elsewhere. */
static struct given drawn_payloads(const struct program *program) {
    static struct draft capture, payloads;
    struct message messages[MOST_MESSAGES];
    uint64_t ends[MOST_AT_ONCE];
    capture.length = payloads.length = 0;
    put_bytes(&capture, any_of(&program->captures));
    size_t count = messages_of(&capture, messages), used = 0;
    for (size_t place = 0; place < count && used < MOST_AT_ONCE; place++) {
        if (capture.at[messages[place].at] != 0 || capture.at[messages[place].at + 1] != 0) continue;
        put(&payloads, capture.at + messages[place].at + HEAD, messages[place].length - HEAD);
        ends[used++] = payloads.length;
    }
    if (used != 0 && one_in(6)) ends[below(used)] += below(9) - 4;
    if (payloads.length != 0 && one_in(6)) payloads.at[below(payloads.length)] ^= (uint8_t)(1 + below(255));
    struct given given = given_bytes(copy_of(payloads.at, payloads.length));
    give_back(&given.other);
    given.other = copy_of(ends, used * sizeof *ends);
    return given;
}

void try_feed_all(struct program *program) {
    struct given given = drawn_payloads(program);
    give_back(&given.state);
    if (one_in(2)) {
        struct tracebench_decoder_state first;
        tracebench_decoder(&first);
        given.state = copy_of(&first, sizeof first);
    } else {
        given.state = drawn_decoder(&program->decoders);
    }
    given.harts = (uint16_t)below(MOST_AT_ONCE + 1);
    draw_program(&given, program);
    struct answer answer = exercise(&feed_all, &given);
    if (answer.status != TRACEBENCH_MEMORY) judge_feeds(&given, &answer);
    if (answer.status == TRACEBENCH_DONE) keep(&program->decoders, answer.first.at, answer.first.length);
    forget(&given, &answer);
}

void try_version(struct program *program) {
    (void)program;
    struct given given = given_bytes(room(0));
    struct answer answer = exercise(&version, &given);
    require(answer.status == TRACEBENCH_DONE && wanted_of(&answer) == sizeof TRACEBENCH_VERSION - 1 &&
                memcmp(answer.buffer.at, TRACEBENCH_VERSION, sizeof TRACEBENCH_VERSION - 1) == 0,
            &version, "another version than the header's");
    forget(&given, &answer);
}
