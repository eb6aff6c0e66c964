/* Random numbers, and bytes with guard bytes around them. */
#ifndef SLICES_H
#define SLICES_H

#include <stdbool.h>
#include <stddef.h>
#include <stdint.h>

/* Begins the random numbers anew. */
void begin_random(uint64_t seed);

uint64_t any_number(void);

/* A number below `count`, which is not 0. */
size_t below(size_t count);

bool one_in(size_t count);

/*
 * Bytes that a call is given to read or to write. Guard bytes stand before them. Behind them stand guard bytes too, or
 * the block of memory ends there, so that a memory checker sees an access past the end.
 */
struct slice {
    uint8_t *block;
    uint8_t *at;
    size_t length;
    size_t behind; /* how many guard bytes stand behind them */
    uint8_t *was;  /* what they were when they were made */
};

/* Random bytes. */
struct slice room(size_t length);

/* A copy of these bytes. */
struct slice copy_of(const void *bytes, size_t length);

/* A copy of a slice, with guard bytes of its own. */
struct slice again(const struct slice *slice);

/* The guard bytes are as they were made. */
bool is_guarded(const struct slice *slice);

/* The bytes from this place on are as they were made. */
bool is_kept_from(const struct slice *slice, size_t place);

/* The first so many bytes of both are equal. */
bool begin_alike(const struct slice *one, const struct slice *other, size_t length);

void give_back(struct slice *slice);

#endif
