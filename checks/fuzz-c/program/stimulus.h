/* Tries of the calls for stimulus. */
#ifndef STIMULUS_H
#define STIMULUS_H

#include "corpus.h"

/* The image of any mix and seed. */
void try_generate_image(struct program *program);

/* Events of any walk: as many at a call are the same as one by one, and from the first on they are a legal log. */
void try_generate_events(struct program *program);

#endif
