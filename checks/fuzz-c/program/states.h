/* States and events of the calls step by step: whether numbers stand for one, and ones drawn at random. */
#ifndef STATES_H
#define STATES_H

#include "corpus.h"
#include "slices.h"
#include "tracebench.h"

/* Whether the bytes of a struct are the numbers of an event, of a state of an encoder, of a state of a decoder. */
bool has_event(const uint8_t *numbers);
bool has_encoder(const uint8_t *numbers);
bool has_decoder(const uint8_t *numbers);

/* One out of these, or made; most often as it is, or with a byte changed; or random bytes. */
struct slice drawn_event(const struct list *logs);
struct slice drawn_encoder(const struct pool *pool);
struct slice drawn_decoder(const struct pool *pool);

enum { MOST_EVENTS = 256 };

struct events {
    struct tracebench_event at[MOST_EVENTS];
    size_t count;
};

/* The events of a legal log's text, at most so many. */
struct events events_of(const struct bytes *log);

#endif
