#include "stimulus.h"

#include <string.h>

#include "draws.h"
#include "judge.h"

void try_generate_image(struct program *program) {
    (void)program;
    struct given given = given_bytes(room(0));
    given.mode = one_in(8) ? (uint32_t)any_number() : (uint32_t)below(7);
    given.number = any_number();
    struct answer answer = exercise(&generate_image, &given);
    bool is_mix = given.mode <= TRACEBENCH_STRAIGHT;
    require(answer.status == (is_mix ? TRACEBENCH_DONE : TRACEBENCH_OUT_OF_RANGE), &generate_image,
            "another status than that of the mix");
    require(!is_mix || wanted_of(&answer) == 4096, &generate_image, "an image of another size");
    forget(&given, &answer);
}

/* The state of a walk, at its start or later, or now and then of none. */
static struct tracebench_walk_state drawn_walk(const struct program *program) {
    const struct bytes *made = any_made(&program->walks);
    struct tracebench_walk_state state = {any_number(), 0, 0, (uint32_t)below(6), (uint16_t)any_number(), 0, 0};
    if (made != NULL && one_in(2)) memcpy(&state, made->at, sizeof state);
    if (one_in(6)) ((uint8_t *)&state)[below(sizeof state)] ^= (uint8_t)(1 + below(255));
    return state;
}

/* The events one by one, and the state after them, are the same. */
static void judge_one_by_one(const struct given *given, const struct answer *answer) {
    struct given one = *given;
    one.harts = 1;
    one.state = again(&given->state);
    for (size_t place = 0; place < given->harts; place++) {
        struct answer step = run(&generate_events, &one, 0);
        require(step.status == TRACEBENCH_DONE, &generate_events, "another status than of many events");
        require(memcmp(step.second.at, answer->second.at + place * sizeof(struct tracebench_event),
                       sizeof(struct tracebench_event)) == 0,
                &generate_events, "another event than of many");
        give_back(&one.state);
        one.state = copy_of(step.first.at, step.first.length);
        give_back_answer(&step);
    }
    require(given->harts == 0 || begin_alike(&one.state, &answer->first, sizeof(struct tracebench_walk_state)),
            &generate_events, "another state than after many events");
    give_back(&one.state);
}

/* The first events of a walk are a legal log. */
static void judge_legal(const struct given *given, const struct answer *answer) {
    struct given log = *given;
    log.bytes = copy_of(answer->second.at, given->harts * sizeof(struct tracebench_event));
    struct answer checked = run(&check_events, &log, 0);
    require(checked.status == TRACEBENCH_DONE || checked.status == TRACEBENCH_MEMORY, &generate_events,
            "the events are no legal log");
    give_back_answer(&checked);
    give_back(&log.bytes);
}

void try_generate_events(struct program *program) {
    const struct tracebench_walk_state state = drawn_walk(program);
    struct given given = given_bytes(room(0));
    give_back(&given.state);
    given.state = copy_of(&state, sizeof state);
    given.harts = (uint16_t)below(MOST_AT_ONCE + 1);
    draw_program(&given, program);
    struct answer answer = exercise(&generate_events, &given);
    bool is_walk = state.mix <= TRACEBENCH_STRAIGHT && state.next <= 2;
    require(is_walk != (answer.status == TRACEBENCH_OUT_OF_RANGE), &generate_events,
            "another status than that of the state");
    if (answer.status == TRACEBENCH_DONE) {
        require(is_kept_from(&answer.second, given.harts * sizeof(struct tracebench_event)), &generate_events,
                "more than the events is written");
        judge_one_by_one(&given, &answer);
        if (state.next == 0) judge_legal(&given, &answer);
        keep(&program->walks, answer.first.at, answer.first.length);
    }
    forget(&given, &answer);
}
