#include "steps.h"

#include <inttypes.h>
#include <stdio.h>
#include <string.h>

#include "draft.h"
#include "draws.h"
#include "judge.h"
#include "states.h"

/* Puts another slice where one stood. */
static void exchange(struct slice *place, struct slice slice) {
    give_back(place);
    *place = slice;
}

/* How many packets or events there are is as the header says, and the last packet of a log closes the trace. */
static void judge_count(const struct call *call, const struct given *given, const struct answer *answer) {
    if (!is_answer(answer->status)) return;
    uint64_t count = wanted_of(answer);
    uint64_t most = call == &feed ? UINT64_C(32) * given->image.length + 2 : 2;
    require(count <= most, call, "more packets or events than there may be");
    if (call != &finish || answer->status != TRACEBENCH_DONE) return;
    require(count >= 1, call, "no packet at the end of a log");
    struct tracebench_packet last;
    memcpy(&last, answer->buffer.at + (size_t)(count - 1) * sizeof last, sizeof last);
    require(last.kind == TRACEBENCH_ENDED_REP || last.kind == TRACEBENCH_ENDED_NTR, call,
            "the last packet does not close the trace");
}

/* Makes a call at a state several times. It is refused where there is no such state or event, and gives a state. */
static struct answer step(const struct call *call, const struct given *given) {
    bool (*const has_state)(const uint8_t *) = call == &feed ? has_decoder : has_encoder;
    bool there = has_state(given->state.at);
    struct answer answer = exercise(call, given);
    require(there ? answer.status != TRACEBENCH_BAD_STATE : !is_answer(answer.status), call,
            "a state is refused, or what is none is not");
    if (call == &push || call == &push_checked)
        require(has_event(given->other.at) ? answer.status != TRACEBENCH_NO_EVENT : !is_answer(answer.status), call,
                "an event is refused, or what is none is not");
    if (call->goes_on && answer.status == TRACEBENCH_DONE)
        require(has_state(answer.first.at), call, "it wrote what is no state");
    judge_count(call, given, &answer);
    return answer;
}

/* What a call is given that takes a program, and a state of so many random bytes. */
static struct given over(const struct program *program, size_t state) {
    struct given given = given_bytes(room(0));
    exchange(&given.image, copy_of(program->image.at, program->image.length));
    exchange(&given.state, room(state));
    given.base = program->base;
    return given;
}

/* Puts the message of a packet of hart 0. */
static void put_packet(struct draft *capture, uint64_t number, const struct tracebench_packet *packet) {
    struct given given = given_bytes(room(0));
    exchange(&given.other, copy_of(packet, sizeof *packet));
    struct answer answer = run(&pack, &given, 18);
    require(answer.status == TRACEBENCH_DONE, &pack, "a packet of a log is not packed");
    uint8_t head[HEAD] = {0};
    for (size_t place = 0; place < 8; place++) head[2 + place] = (uint8_t)(number >> 8 * place);
    head[HEAD - 1] = (uint8_t)wanted_of(&answer);
    put(capture, head, HEAD);
    put(capture, answer.buffer.at, head[HEAD - 1]);
    forget(&given, &answer);
}

/* Puts the packets that a call handed out, behind so many. Returns how many there are then. */
static uint64_t put_packets(struct draft *capture, uint64_t number, const struct answer *answer) {
    for (uint64_t place = 0; place < wanted_of(answer); place++) {
        struct tracebench_packet packet;
        memcpy(&packet, answer->buffer.at + place * sizeof packet, sizeof packet);
        put_packet(capture, number++, &packet);
    }
    return number;
}

/* Takes an event. Returns the count of packets then. */
static uint64_t push_event(struct program *program, struct given *given, struct draft *capture, uint64_t number,
                           const struct tracebench_event *event) {
    const struct call *call = one_in(2) ? &push : &push_checked;
    exchange(&given->other, copy_of(event, sizeof *event));
    struct answer answer = step(call, given);
    require(answer.status == TRACEBENCH_DONE, call, "an event of a legal log is not taken");
    number = put_packets(capture, number, &answer);
    exchange(&given->state, again(&answer.first));
    keep(&program->encoders, answer.first.at, answer.first.length);
    give_back_answer(&answer);
    return number;
}

/* Puts the capture of a log, event by event. */
static void encode_in_steps(struct program *program, const struct events *events, uint16_t period, uint32_t mode,
                            struct draft *capture) {
    struct given given = over(program, sizeof(struct tracebench_encoder_state));
    given.period = period;
    given.mode = mode;
    struct answer begun = exercise(&encoder, &given);
    require(begun.status == TRACEBENCH_DONE, &encoder, "there is no encoder at a good period and mode");
    struct tracebench_packet open;
    memcpy(&open, begun.second.at, sizeof open);
    put_packet(capture, 0, &open);
    exchange(&given.state, again(&begun.first));
    give_back_answer(&begun);
    uint64_t number = 1;
    for (size_t place = 0; place < events->count; place++)
        number = push_event(program, &given, capture, number, &events->at[place]);
    struct answer ended = step(&finish, &given);
    require(ended.status == TRACEBENCH_DONE, &finish, "the end of a legal log is not taken");
    put_packets(capture, number, &ended);
    give_back_given(&given);
    give_back_answer(&ended);
}

/* The capture is the one that the whole log gives. */
static void compare_capture(const struct program *program, const struct bytes *log, uint16_t period, uint32_t mode,
                            const struct draft *capture) {
    struct given given = over(program, 0);
    const uint64_t end = log->length;
    exchange(&given.bytes, copy_of(log->at, log->length));
    exchange(&given.other, copy_of(&end, sizeof end));
    given.period = period;
    given.mode = mode;
    given.version = TRACEBENCH_VERSION_ONE;
    struct answer answer = run(&encode, &given, DRAFT);
    require(answer.status == TRACEBENCH_DONE, &encode, "a legal log has no capture");
    require(wanted_of(&answer) == capture->length && memcmp(answer.buffer.at, capture->at, capture->length) == 0,
            &encode, "another capture than event by event");
    forget(&given, &answer);
}

/* The state of a decoder is that of a trace that was closed, of these events. */
static void judge_end(const struct slice *numbers, const struct events *events) {
    struct tracebench_decoder_state state;
    memcpy(&state, numbers->at, sizeof state);
    require(state.phase == TRACEBENCH_CLOSED && state.is_announced == 1 && state.announced == state.mode &&
                state.waits == 0 && state.has_last == (events->count != 0),
            &feed, "the state at the end of a log is not that of a trace that was closed");
    require(events->count == 0 || memcmp(&state.last, &events->at[events->count - 1], sizeof state.last) == 0, &feed,
            "the last event is not that of the log");
}

/* The payloads of a capture of hart 0, one by one, are decoded to these events. */
static void decode_in_steps(struct program *program, const struct draft *capture, const struct events *events) {
    struct given given = over(program, sizeof(struct tracebench_decoder_state));
    struct answer begun = exercise(&decoder, &given);
    exchange(&given.state, again(&begun.first));
    give_back_answer(&begun);
    size_t count = 0;
    for (size_t at = 0; at < capture->length; at += HEAD + capture->at[at + HEAD - 1]) {
        exchange(&given.bytes, copy_of(capture->at + at + HEAD, capture->at[at + HEAD - 1]));
        struct answer answer = step(&feed, &given);
        require(answer.status == TRACEBENCH_DONE, &feed, "a payload of a legal log is not decoded");
        size_t more = (size_t)wanted_of(&answer);
        require(more <= events->count - count &&
                    memcmp(answer.buffer.at, &events->at[count], more * sizeof *events->at) == 0,
                &feed, "other events than those of the log");
        count += more;
        exchange(&given.state, again(&answer.first));
        keep(&program->decoders, answer.first.at, answer.first.length);
        give_back_answer(&answer);
    }
    require(count == events->count, &feed, "fewer events than those of the log");
    judge_end(&given.state, events);
    give_back_given(&given);
}

void try_log_in_steps(struct program *program) {
    static struct draft capture;
    static const uint16_t periods[] = {1, 3, 64, 1024};
    if (!one_in(4)) return; /* a log takes many calls */
    const struct bytes *log = any_of(&program->logs);
    struct events events = events_of(log);
    if (events.count == MOST_EVENTS) return;
    uint16_t period = periods[below(4)];
    uint32_t mode = (uint32_t)below(2);
    capture.length = 0;
    encode_in_steps(program, &events, period, mode, &capture);
    compare_capture(program, log, period, mode, &capture);
    decode_in_steps(program, &capture, &events);
}

/* Makes a call over a program, or now and then another one. Keeps the state that it writes. */
static void try_step(const struct call *call, struct program *program, struct pool *pool, struct given given) {
    draw_program(&given, program);
    struct answer answer = step(call, &given);
    if (call->goes_on && answer.status == TRACEBENCH_DONE) keep(pool, answer.first.at, answer.first.length);
    forget(&given, &answer);
}

void try_push(struct program *program) {
    struct given given = given_bytes(room(0));
    exchange(&given.other, drawn_event(&program->logs));
    exchange(&given.state, drawn_encoder(&program->encoders));
    try_step(one_in(2) ? &push : &push_checked, program, &program->encoders, given);
}

void try_follow(struct program *program) {
    struct given given = given_bytes(room(0));
    exchange(&given.other, drawn_event(&program->logs));
    exchange(&given.state, drawn_event(&program->logs));
    given.mode = one_in(16) ? (uint32_t)any_number() : (uint32_t)below(2);
    draw_program(&given, program);
    bool there = has_event(given.other.at) && (given.mode != 1 || has_event(given.state.at));
    struct answer answer = exercise(&follow, &given);
    require((given.mode > 1) == (answer.status == TRACEBENCH_OUT_OF_RANGE), &follow, "a flag is refused, or is not");
    require(there ? answer.status != TRACEBENCH_NO_EVENT : answer.status != TRACEBENCH_DONE, &follow,
            "an event is refused, or what is none is not");
    forget(&given, &answer);
}

void derange(struct events *events) {
    if (events->count == 0 || one_in(4)) return;
    struct tracebench_event *one = &events->at[below(events->count)], *other = &events->at[below(events->count)];
    const struct tracebench_event was = *one;
    switch (below(5)) {
    case 0: *one = *other; break;
    case 1:
        *one = *other;
        *other = was;
        break;
    case 2: *one = events->at[--events->count]; break;
    case 3: one->address += 2 * below(8); break;
    default: one->privilege = (uint8_t)(one_in(3) ? 3 : below(2));
    }
}

/* Puts an event as a row of a text. */
static void put_row(struct draft *text, const struct tracebench_event *event) {
    char row[80];
    const bool trap = event->kind == TRACEBENCH_TRAP_TAKEN;
    const unsigned type = !trap ? event->itype : event->interrupt ? 2 : 1;
    int length = snprintf(row, sizeof row, "%" PRIx64 ",%x,%x,", event->address, type, (unsigned)event->privilege);
    if (trap) length += snprintf(row + length, 40, "%x,%" PRIx64 "\n", (unsigned)event->cause, event->tval);
    else length += snprintf(row + length, 40, ",\n");
    put(text, (const uint8_t *)row, (size_t)length);
}

/* The row that a call writes. */
static uint64_t row_of(const struct answer *answer) {
    uint64_t row;
    memcpy(&row, answer->first.at, sizeof row);
    return row;
}

/* Each event of a log follows the one before, up to the row that a check reports. */
static void follow_on(const struct program *program, const struct events *events, const struct answer *whole) {
    struct given given = over(program, 0);
    const bool legal = whole->status == TRACEBENCH_DONE;
    const uint64_t good = legal ? events->count : row_of(whole) - 1;
    for (uint64_t place = 0; place < good + !legal; place++) {
        given.mode = place != 0;
        exchange(&given.state, copy_of(&events->at[place - (place != 0)], sizeof *events->at));
        exchange(&given.other, copy_of(&events->at[place], sizeof *events->at));
        struct answer answer = exercise(&follow, &given);
        require(answer.status == (place < good ? TRACEBENCH_DONE : whole->status), &follow,
                "an event is judged otherwise than in its log");
        give_back_answer(&answer);
    }
    give_back_given(&given);
}

void try_check_events(struct program *program) {
    static struct draft text;
    static const char head[] = "addr,itype,priv,cause,tval\n";
    struct events events = events_of(any_of(&program->logs));
    if (events.count == MOST_EVENTS) return;
    derange(&events);
    text.length = 0;
    put(&text, (const uint8_t *)head, strlen(head));
    for (size_t place = 0; place < events.count; place++) put_row(&text, &events.at[place]);
    struct given array = over(program, 0), log = over(program, 0);
    exchange(&array.bytes, copy_of(events.at, events.count * sizeof *events.at));
    exchange(&log.bytes, copy_of(text.at, text.length));
    struct answer one = exercise(&check_events, &array), other = run(&check, &log, 0);
    require(one.status == other.status && row_of(&one) == row_of(&other), &check_events,
            "events are judged otherwise than their text");
    follow_on(program, &events, &one);
    give_back_given(&array);
    give_back_given(&log);
    give_back_answer(&one);
    give_back_answer(&other);
}

void try_finish(struct program *program) {
    struct given given = given_bytes(room(0));
    exchange(&given.state, drawn_encoder(&program->encoders));
    try_step(&finish, program, &program->encoders, given);
}

void try_feed(struct program *program) {
    struct given given = drawn_for_unpack(program);
    exchange(&given.state, drawn_decoder(&program->decoders));
    try_step(&feed, program, &program->decoders, given);
}

void try_encoder(struct program *program) {
    (void)program;
    struct given given = given_bytes(room(0));
    given.period = (uint16_t)below(3);
    given.mode = one_in(8) ? (uint32_t)any_number() : (uint32_t)below(3);
    struct answer answer = exercise(&encoder, &given);
    bool there = given.period != 0 && given.mode <= TRACEBENCH_FULL;
    require(there == (answer.status == TRACEBENCH_DONE), &encoder, "a period or a mode is refused, or should be");
    require(!there || has_encoder(answer.first.at), &encoder, "it wrote what is no state");
    forget(&given, &answer);
}
