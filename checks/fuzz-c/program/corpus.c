#include "corpus.h"

#include <stdio.h>
#include <stdlib.h>
#include <string.h>

#include "slices.h"

enum { MOST_KEPT = 16384 };

struct program *programs;
size_t program_count;

static _Noreturn void stop(const char *path, const char *what) {
    fprintf(stderr, "fuzz-c: %s: %s\n", path, what);
    exit(2);
}

static void *more(void *block, size_t size) {
    void *made = realloc(block, size);
    if (made == NULL) stop("memory", "refused");
    return made;
}

static uint64_t number_of(const uint8_t *at, size_t length) {
    uint64_t number = 0;
    while (length-- != 0) number = number << 8 | at[length];
    return number;
}

static struct bytes copied(const uint8_t *at, size_t length) {
    struct bytes made = {more(NULL, length + 1), length};
    memcpy(made.at, at, length);
    return made;
}

static void add(struct list *list, struct bytes item) {
    list->items = more(list->items, (list->count + 1) * sizeof *list->items);
    list->items[list->count++] = item;
}

static void add_program(struct bytes record) {
    programs = more(programs, (program_count + 1) * sizeof *programs);
    struct program *program = &programs[program_count++];
    memset(program, 0, sizeof *program);
    program->base = number_of(record.at, 8);
    program->image = copied(record.at + 8, record.length - 8);
    free(record.at);
}

/* Adds a record: `p` is the base and the image of a program, and those behind it are of that program. */
static void add_record(const char *path, uint8_t kind, struct bytes record) {
    if (kind == 'p' && record.length >= 8) {
        add_program(record);
        return;
    }
    if (program_count == 0) stop(path, "does not begin with a program");
    struct program *program = &programs[program_count - 1];
    if (kind == 'l') add(&program->logs, record);
    else if (kind == 't') add(&program->texts, record);
    else if (kind == 'c') add(&program->captures, record);
    else stop(path, "a record of no kind");
}

void read_corpus(const char *path) {
    FILE *file = fopen(path, "rb");
    if (file == NULL) stop(path, "cannot be read");
    uint8_t head[5];
    while (fread(head, 1, sizeof head, file) == sizeof head) {
        struct bytes record = {NULL, (size_t)number_of(head + 1, 4)};
        record.at = more(NULL, record.length + 1);
        if (fread(record.at, 1, record.length, file) != record.length) stop(path, "ends in a record");
        add_record(path, head[0], record);
    }
    fclose(file);
    for (size_t place = 0; place < program_count; place++) {
        const struct program *program = &programs[place];
        if (program->logs.count == 0 || program->texts.count == 0 || program->captures.count == 0)
            stop(path, "a program without logs, texts or captures");
    }
    if (program_count == 0) stop(path, "has no program");
}

const struct bytes *any_of(const struct list *list) { return &list->items[below(list->count)]; }

const struct bytes *any_made(const struct pool *pool) {
    size_t count = pool->made < POOL ? pool->made : POOL;
    return count != 0 ? &pool->items[below(count)] : NULL;
}

void keep(struct pool *pool, const uint8_t *at, size_t length) {
    if (length > MOST_KEPT) return;
    struct bytes *place = &pool->items[pool->made++ % POOL];
    free(place->at);
    *place = copied(at, length);
}
