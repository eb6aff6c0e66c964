#include "slices.h"

#include <stdio.h>
#include <stdlib.h>
#include <string.h>

/* Keeps the bytes behind it aligned as malloc aligns a block. */
enum { GUARD = 16 };

static uint64_t state;

void begin_random(uint64_t seed) { state = seed * UINT64_C(0x9e3779b97f4a7c15) | 1; }

uint64_t any_number(void) {
    state ^= state << 13;
    state ^= state >> 7;
    state ^= state << 17;
    return state * UINT64_C(0x2545f4914f6cdd1d);
}

size_t below(size_t count) { return (size_t)(any_number() >> 16) % count; }

bool one_in(size_t count) { return below(count) == 0; }

static uint8_t guard_at(size_t place) { return (uint8_t)(0xa5 + 7 * place); }

static uint8_t *block_of(size_t length) {
    uint8_t *block = malloc(length != 0 ? length : 1);
    if (block == NULL) {
        fputs("fuzz-c: no memory\n", stderr);
        exit(3);
    }
    return block;
}

static struct slice unwritten(size_t length) {
    struct slice made = {NULL, NULL, length, one_in(2) ? GUARD : 0, NULL};
    made.block = block_of(GUARD + length + made.behind);
    made.at = made.block + GUARD;
    made.was = block_of(length);
    for (size_t place = 0; place < GUARD; place++) made.block[place] = guard_at(place);
    for (size_t place = 0; place < made.behind; place++) made.at[length + place] = guard_at(place);
    return made;
}

struct slice room(size_t length) {
    struct slice made = unwritten(length);
    for (size_t place = 0; place < length; place += 8) {
        uint64_t number = any_number();
        memcpy(made.at + place, &number, length - place < 8 ? length - place : 8);
    }
    memcpy(made.was, made.at, length);
    return made;
}

struct slice copy_of(const void *bytes, size_t length) {
    struct slice made = unwritten(length);
    if (length != 0) memcpy(made.at, bytes, length);
    memcpy(made.was, made.at, length);
    return made;
}

struct slice again(const struct slice *slice) { return copy_of(slice->at, slice->length); }

bool is_guarded(const struct slice *slice) {
    for (size_t place = 0; place < GUARD; place++)
        if (slice->block[place] != guard_at(place)) return false;
    for (size_t place = 0; place < slice->behind; place++)
        if (slice->at[slice->length + place] != guard_at(place)) return false;
    return true;
}

bool is_kept_from(const struct slice *slice, size_t place) {
    return memcmp(slice->at + place, slice->was + place, slice->length - place) == 0;
}

bool begin_alike(const struct slice *one, const struct slice *other, size_t length) {
    return memcmp(one->at, other->at, length) == 0;
}

void give_back(struct slice *slice) {
    free(slice->block);
    free(slice->was);
    memset(slice, 0, sizeof *slice);
}
