/* Bytes that are put together, and damaged. */
#ifndef DRAFT_H
#define DRAFT_H

#include <stddef.h>
#include <stdint.h>

#include "corpus.h"

enum { DRAFT = 1 << 17 };

/* What no longer fits is left off. */
struct draft {
    uint8_t at[DRAFT];
    size_t length;
};

void put(struct draft *draft, const void *bytes, size_t length);
void put_bytes(struct draft *draft, const struct bytes *bytes);
void put_random(struct draft *draft, size_t length);

/* Changes, cuts out, puts in, moves or leaves off bytes behind a place, once or a few times. */
void damage(struct draft *draft, size_t from);

/* A message of a capture: where it begins, and its length. */
struct message {
    size_t at;
    size_t length;
};

/* Bytes of a message before its payload, and of a capture's header. */
enum { HEAD = 11, HEADER = 16, MOST_MESSAGES = 512 };

/* The whole messages of a capture, at most so many. */
size_t messages_of(const struct draft *capture, struct message messages[MOST_MESSAGES]);

/* Loses, doubles, exchanges or changes messages of a capture, once or a few times. */
void damage_messages(struct draft *capture);

#endif
