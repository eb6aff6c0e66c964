/* What the programs of this folder share: files, memory, and their end where a call is refused. Each has a NAME. */
#include "tracebench.h"

#include <stdio.h>
#include <stdlib.h>

struct bytes {
    uint8_t *at;
    size_t length;
};

static inline void stop(const char *what, uint32_t status) {
    fprintf(stderr, NAME ": %s: %s\n", what, tracebench_status_text(status));
    exit(1);
}

static inline void done(const char *what, uint32_t status) {
    if (status != TRACEBENCH_DONE) stop(what, status);
}

static inline void *memory(size_t length) {
    void *at = calloc(length + 1, 1);
    if (at == NULL) stop("memory", TRACEBENCH_MEMORY);
    return at;
}

static inline void unread(const char *path) {
    perror(path);
    exit(1);
}

static inline struct bytes read_file(const char *path) {
    FILE *file = fopen(path, "rb");
    if (file == NULL || fseek(file, 0, SEEK_END) != 0) unread(path);
    struct bytes bytes = {NULL, (size_t)ftell(file)};
    bytes.at = memory(bytes.length);
    rewind(file);
    if (fread(bytes.at, 1, bytes.length, file) != bytes.length) unread(path);
    fclose(file);
    return bytes;
}
