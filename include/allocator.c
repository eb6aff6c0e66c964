/*
 * What libtracebench_c.a wants of its program besides memcpy, memmove and memset: memory, here over malloc. It stands
 * for the toolchain's own library.
 */
#include <stdbool.h>
#include <stddef.h>
#include <stdint.h>
#include <stdlib.h>

/* Whether memory was found, and where. */
struct tried {
    bool ok;
    uint8_t *at;
};

/* A place for what was not found: it is never read or written. */
static uint8_t nowhere;

#ifdef __cplusplus
extern "C" {
#endif

struct tried rattle_alloc(size_t size, size_t alignment);
struct tried rattle_realloc(uint8_t *block, size_t kept, size_t size, size_t alignment);
void rattle_dealloc(uint8_t *block);

static struct tried found(void *block) {
    struct tried tried = {block != NULL, block != NULL ? (uint8_t *)block : &nowhere};
    return tried;
}

struct tried rattle_alloc(size_t size, size_t alignment) { return found(malloc(size != 0 ? size : alignment)); }

struct tried rattle_realloc(uint8_t *block, size_t kept, size_t size, size_t alignment) {
    (void)kept;
    return found(realloc(block, size != 0 ? size : alignment));
}

void rattle_dealloc(uint8_t *block) { free(block); }

#ifdef __cplusplus
}
#endif
