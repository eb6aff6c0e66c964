/* Programs, with logs and captures of each, from a file that the script writes, and what the calls made of them. */
#ifndef CORPUS_H
#define CORPUS_H

#include <stddef.h>
#include <stdint.h>

struct bytes {
    uint8_t *at;
    size_t length;
};

struct list {
    struct bytes *items;
    size_t count;
};

/* The last few that calls made. */
enum { POOL = 16 };
struct pool {
    struct bytes items[POOL];
    size_t made;
};

struct program {
    uint64_t base;
    struct bytes image;
    struct list logs;     /* texts of legal logs */
    struct list texts;    /* texts of logs, most of them damaged */
    struct list captures; /* captures, many of them damaged */
    struct pool encoded;  /* captures that tracebench_encode wrote */
    struct pool decoded;  /* texts of hart 0 that tracebench_decode_all wrote */
    struct pool encoders; /* states that tracebench_push wrote */
    struct pool decoders; /* states that tracebench_feed wrote */
    struct pool walks;    /* states that tracebench_generate_events wrote */
};

extern struct program *programs;
extern size_t program_count;

/* Reads the file: records of a kind, a length of four bytes, and so many bytes. */
void read_corpus(const char *path);

/* One of a list that is not empty. */
const struct bytes *any_of(const struct list *list);

/* One of a pool, or NULL where nothing is in it. */
const struct bytes *any_made(const struct pool *pool);

/* Copies bytes to a pool, unless they are very many. */
void keep(struct pool *pool, const uint8_t *at, size_t length);

#endif
