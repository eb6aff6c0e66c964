#include "memory.h"

#include <stdlib.h>

static long held;

/* How many requests are granted before one is refused; below 0 where none is. */
static long granted_first = -1;
static bool refused;

static bool is_refused(void) {
    if (granted_first < 0) return false;
    if (granted_first-- != 0) return false;
    refused = true;
    return true;
}

void *fuzz_malloc(size_t size) {
    void *block = is_refused() ? NULL : malloc(size);
    held += block != NULL;
    return block;
}

void *fuzz_realloc(void *block, size_t size) { return is_refused() ? NULL : realloc(block, size); }

void fuzz_free(void *block) {
    held -= block != NULL;
    free(block);
}

long blocks_held(void) { return held; }

void refuse_behind(long granted) {
    granted_first = granted;
    refused = false;
}

bool was_refused(void) {
    granted_first = -1;
    return refused;
}
