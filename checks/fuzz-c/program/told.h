/* The messages of a capture, in its bytes. */
#ifndef TOLD_H
#define TOLD_H

#include <stdbool.h>

#include "slices.h"
#include "tracebench.h"

/* A message in bytes. */
struct told {
    const uint8_t *at;
    size_t length; /* with its head */
};

unsigned hart_of(const struct told *one);
uint64_t number_of(const struct told *one);

/* The length of the complete message at a place, 0 where there is none. */
size_t length_at(const struct slice *bytes, size_t at);

/* Where messages begin: after a valid header, or at the first byte. */
size_t begin_of(const struct slice *bytes);

/* The same packet, by the call that unpacks; or the same bytes. */
bool are_same(const struct told *one, const struct told *other, bool by_packets);

/* What was sent on a path, what came, and the runs of bytes of no message between. */
enum { MOST_TOLD = 4096 };
struct told_path {
    bool by_packets;
    struct told sent[MOST_TOLD], came[MOST_TOLD];
    struct tracebench_byte_run runs[MOST_TOLD];
    size_t sent_count, came_count, run_count, byte_count;
};

/* Adds a run of bytes. */
void add_run(struct told_path *path, size_t from, size_t to);

#endif
