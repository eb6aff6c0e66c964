#include "states.h"

#include <string.h>

static bool is_event(const struct tracebench_event *event) {
    if (event->kind == TRACEBENCH_RETIREMENT) return event->cause == 0 && event->interrupt == 0 && event->tval == 0;
    return event->kind == TRACEBENCH_TRAP_TAKEN && event->itype == 0 && event->interrupt <= 1;
}

/* All numbers are 0, or by the flag those of an event. */
static bool is_event_if_any(uint32_t there, const struct tracebench_event *event) {
    static const struct tracebench_event none;
    return there == 0 ? memcmp(event, &none, sizeof none) == 0 : there == 1 && is_event(event);
}

static bool are_outcomes(uint32_t count, uint32_t map) { return count <= 31 && map >> count == 0; }

bool has_event(const uint8_t *numbers) {
    struct tracebench_event event;
    memcpy(&event, numbers, sizeof event);
    return is_event(&event);
}

bool has_encoder(const uint8_t *numbers) {
    struct tracebench_encoder_state state;
    memcpy(&state, numbers, sizeof state);
    return state.mode <= TRACEBENCH_FULL && state.due <= TRACEBENCH_DUE_HANDLER &&
           are_outcomes(state.outcomes, state.map) && is_event_if_any(state.holds, &state.held);
}

bool has_decoder(const uint8_t *numbers) {
    struct tracebench_decoder_state state;
    memcpy(&state, numbers, sizeof state);
    bool announced = state.is_announced <= 1 && state.announced <= state.is_announced;
    bool waiting = state.waits == 1 || (state.waits == 0 && state.outcomes == 0 && state.map == 0 && state.delta == 0);
    return state.phase <= TRACEBENCH_CLOSED && state.mode <= TRACEBENCH_FULL && announced && waiting &&
           are_outcomes(state.outcomes, state.map) && is_event_if_any(state.has_last, &state.last);
}

/* A number out of a row, and goes on behind the comma or the line feed that follows it. */
static uint64_t number_in(const uint8_t **at) {
    uint64_t number = 0;
    for (; **at != ',' && **at != '\n'; ++*at) number = number << 4 | (uint64_t)(**at - (**at <= '9' ? '0' : 'a' - 10));
    ++*at;
    return number;
}

/* The event of a row, as tracebench_decode_all writes it. */
static struct tracebench_event event_in(const uint8_t **at) {
    struct tracebench_event event;
    memset(&event, 0, sizeof event);
    event.address = number_in(at);
    uint8_t type = (uint8_t)number_in(at);
    bool trap = type == 1 || type == 2;
    event.kind = trap ? TRACEBENCH_TRAP_TAKEN : TRACEBENCH_RETIREMENT;
    event.itype = trap ? 0 : type;
    event.interrupt = type == 2;
    event.privilege = (uint8_t)number_in(at);
    event.cause = (uint8_t)number_in(at);
    event.tval = number_in(at);
    return event;
}

struct events events_of(const struct bytes *log) {
    struct events events;
    memset(&events, 0, sizeof events);
    const uint8_t *at = (const uint8_t *)memchr(log->at, '\n', log->length) + 1;
    while (at < log->at + log->length && events.count < MOST_EVENTS) events.at[events.count++] = event_in(&at);
    return events;
}

/* A number up to this one, or now and then another one. */
static uint32_t number_to(size_t most) {
    if (one_in(64)) return one_in(2) ? (uint32_t)any_number() : (uint32_t)most + 1;
    return (uint32_t)below(most + 1);
}

/* An even address of a program's, or any. */
static uint64_t any_address(void) { return one_in(2) ? 0x80000000 + 2 * below(64) : any_number() >> below(64); }

/* The numbers of an event, or now and then of none. */
static struct tracebench_event event_made(void) {
    struct tracebench_event event;
    memset(&event, 0, sizeof event);
    event.kind = number_to(1);
    if (event.kind == TRACEBENCH_RETIREMENT) event.itype = (uint8_t)number_to(7);
    event.privilege = (uint8_t)(one_in(32) ? any_number() : below(4));
    event.address = any_address();
    if (event.kind == TRACEBENCH_RETIREMENT && !one_in(64)) return event;
    event.cause = (uint8_t)number_to(63);
    event.interrupt = (uint8_t)number_to(1);
    event.tval = one_in(2) ? any_number() : 0;
    return event;
}

static void make_outcomes(uint32_t *count, uint32_t *map) {
    uint32_t bits = (uint32_t)any_number();
    *count = number_to(31);
    *map = *count < 32 && !one_in(64) ? bits & ((UINT32_C(1) << *count) - 1) : bits;
}

/* An event where the flag says so, or else none. */
static struct tracebench_event event_if_any(uint32_t there) {
    struct tracebench_event none;
    memset(&none, 0, sizeof none);
    return there == 0 && !one_in(64) ? none : event_made();
}

static struct tracebench_encoder_state encoder_made(void) {
    struct tracebench_encoder_state state;
    memset(&state, 0, sizeof state);
    state.between = (uint16_t)(one_in(2) ? below(4) : any_number());
    state.left = (uint16_t)(one_in(2) ? below(4) : any_number());
    state.mode = number_to(TRACEBENCH_FULL);
    state.holds = number_to(1);
    state.due = number_to(TRACEBENCH_DUE_HANDLER);
    make_outcomes(&state.outcomes, &state.map);
    state.reported = any_address();
    state.held = event_if_any(state.holds);
    return state;
}

static struct tracebench_decoder_state decoder_made(void) {
    struct tracebench_decoder_state state;
    memset(&state, 0, sizeof state);
    state.phase = number_to(TRACEBENCH_CLOSED);
    state.mode = number_to(TRACEBENCH_FULL);
    state.is_announced = number_to(1);
    state.announced = number_to(state.is_announced == 1);
    state.has_last = number_to(1);
    state.waits = number_to(1);
    if (state.waits == 1) make_outcomes(&state.outcomes, &state.map);
    if (state.waits == 1 || one_in(64)) state.delta = any_address();
    state.reported = any_address();
    state.last = event_if_any(state.has_last);
    return state;
}

/* These numbers, most often as they are, or with a byte changed; or random bytes. */
static struct slice drawn(const void *numbers, size_t length) {
    if (one_in(16)) return room(length);
    struct slice slice = copy_of(numbers, length);
    if (!one_in(6)) return slice;
    size_t place = below(length);
    slice.at[place] = (uint8_t)(one_in(2) ? below(8) : any_number());
    slice.was[place] = slice.at[place];
    return slice;
}

struct slice drawn_encoder(const struct pool *pool) {
    const struct bytes *kept = any_made(pool);
    struct tracebench_encoder_state made = encoder_made();
    return drawn(kept != NULL && one_in(2) ? (const void *)kept->at : &made, sizeof made);
}

struct slice drawn_decoder(const struct pool *pool) {
    const struct bytes *kept = any_made(pool);
    struct tracebench_decoder_state made = decoder_made();
    return drawn(kept != NULL && one_in(2) ? (const void *)kept->at : &made, sizeof made);
}

struct slice drawn_event(const struct list *logs) {
    struct events events = events_of(any_of(logs));
    struct tracebench_event made = event_made();
    return drawn(events.count != 0 && one_in(2) ? &events.at[below(events.count)] : &made, sizeof made);
}
