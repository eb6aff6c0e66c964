#include "steps.h"

#include <string.h>

#include "draws.h"
#include "judge.h"
#include "states.h"

/* A hart with a decoder, and a message's number, most often one that it may have. */
static void draw_hart(struct given *given, const struct program *program) {
    struct slice numbers = drawn_decoder(&program->decoders);
    struct tracebench_hart_state hart;
    memcpy(&hart.decoder, numbers.at, sizeof hart.decoder);
    give_back(&numbers);
    hart.expected = one_in(8) ? UINT64_C(1) << 63 : one_in(8) ? any_number() : below(4);
    hart.expected -= one_in(16);
    given->number = hart.expected + (one_in(2) ? 0 : below(3)) - one_in(8);
    give_back(&given->state);
    given->state = copy_of(&hart, sizeof hart);
}

/* The status for the number of a message, by the rules of a receiver that may lose messages. */
static uint32_t number_status(const struct tracebench_hart_state *hart, uint64_t number) {
    const uint64_t end = UINT64_C(1) << 63;
    if (hart->decoder.phase == TRACEBENCH_CLOSED || hart->expected >= end) return TRACEBENCH_AFTER_CLOSE;
    if (number < hart->expected) return TRACEBENCH_REPEAT;
    return number < end ? TRACEBENCH_DONE : TRACEBENCH_OUT_OF_RANGE;
}

/* A message that is the expected one is fed as its payload is, and the number after it is expected. */
static void compare_feed(const struct given *given, const struct answer *answer) {
    struct given fed = *given;
    fed.state = copy_of(given->state.at, sizeof(struct tracebench_decoder_state));
    struct answer other = run(&feed, &fed, answer->buffer.length / sizeof(struct tracebench_event));
    require(other.status == answer->status, &receive, "another status than that of a feed");
    if (is_answer(other.status)) require(wanted_of(&other) == wanted_of(answer), &receive, "another count than a feed");
    if (other.status == TRACEBENCH_DONE) {
        struct tracebench_hart_state hart;
        memcpy(&hart, answer->first.at, sizeof hart);
        require(begin_alike(&other.buffer, &answer->buffer, (size_t)wanted_of(&other) * feed.unit), &receive,
                "other events than a feed");
        require(begin_alike(&other.first, &answer->first, sizeof hart.decoder), &receive, "another state than a feed");
        require(hart.expected == given->number + 1, &receive, "another number is expected than the next one");
    }
    give_back(&fed.state);
    give_back_answer(&other);
}

void try_receive(struct program *program) {
    struct given given = drawn_for_unpack(program);
    draw_hart(&given, program);
    draw_program(&given, program);
    struct tracebench_hart_state hart;
    memcpy(&hart, given.state.at, sizeof hart);
    struct answer answer = exercise(&receive, &given), packet = run(&unpack, &given, 0);
    uint32_t wanted = number_status(&hart, given.number);
    if (wanted == TRACEBENCH_DONE) wanted = packet.status;
    if (wanted == TRACEBENCH_DONE && given.number != hart.expected) wanted = TRACEBENCH_GAP;
    if (wanted == TRACEBENCH_DONE) compare_feed(&given, &answer);
    else require(answer.status == wanted, &receive, "another status than the number or the payload has");
    if (answer.status == TRACEBENCH_GAP) {
        uint64_t missing;
        memcpy(&missing, answer.second.at, sizeof missing);
        require(missing == given.number - hart.expected, &receive, "another count of missing numbers");
    } else {
        require(is_kept_from(&answer.second, 0), &receive, "a count of missing numbers where none is missing");
    }
    require(answer.status == TRACEBENCH_DONE || is_kept_from(&answer.first, 0), &receive, "a hart that changed");
    forget(&given, &answer);
    give_back_answer(&packet);
}

void try_resume(struct program *program) {
    struct given given = given_bytes(room(0));
    draw_hart(&given, program);
    given.mode = one_in(16) ? (uint32_t)any_number() : (uint32_t)below(2);
    struct tracebench_hart_state hart, after, wanted;
    memcpy(&hart, given.state.at, sizeof hart);
    struct answer answer = exercise(&resume, &given);
    uint32_t status = number_status(&hart, given.number);
    if (given.mode > TRACEBENCH_FULL) status = TRACEBENCH_OUT_OF_RANGE;
    if (!has_decoder(given.state.at)) status = TRACEBENCH_BAD_STATE;
    require(answer.status == status, &resume, "another status than the hart, the mode or the number has");
    memset(&wanted, 0, sizeof wanted);
    wanted.expected = given.number;
    wanted.decoder.phase = TRACEBENCH_PASSING_OVER;
    wanted.decoder.is_announced = hart.decoder.is_announced;
    wanted.decoder.announced = hart.decoder.announced;
    wanted.decoder.mode = hart.decoder.is_announced ? hart.decoder.announced : given.mode;
    memcpy(&after, answer.first.at, sizeof after);
    require(status != TRACEBENCH_DONE || memcmp(&after, &wanted, sizeof after) == 0, &resume,
            "a hart that goes on otherwise");
    forget(&given, &answer);
}
