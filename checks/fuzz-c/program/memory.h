/*
 * The memory that the library takes. include/allocator.c is built with these three in place of malloc, realloc and
 * free, so that a request can be refused, and what is not given back is seen.
 */
#ifndef MEMORY_H
#define MEMORY_H

#include <stdbool.h>
#include <stddef.h>

void *fuzz_malloc(size_t size);
void *fuzz_realloc(void *block, size_t size);
void fuzz_free(void *block);

/* How many blocks the library holds. */
long blocks_held(void);

/* Refuses one request, behind so many that are granted. */
void refuse_behind(long granted);

/* Whether a request was refused since then. From now on none is. */
bool was_refused(void);

#endif
