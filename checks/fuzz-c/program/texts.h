/* Tries of the calls that write texts of all harts. */
#ifndef TEXTS_H
#define TEXTS_H

#include "corpus.h"

/* The texts of all harts end one after the other. */
void try_decode_all(struct program *program);

/* How a listing ends is how decoding all harts ends. */
void try_list(struct program *program);

/* How salvaging ends is how listing what it does ends. A capture that is decoded to the end, with each hart closed, is
   salvaged whole. */
void try_salvage(struct program *program);

/* What is refused is what encoding refuses. */
void try_measure(struct program *program);

/* The capture of legal logs is whole against them. How any comparison ends is how decoding all harts ends. */
void try_compare(struct program *program);

/* A log is explained where, and only where, it is not legal. */
void try_explain(struct program *program);

#endif
