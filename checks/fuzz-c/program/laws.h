/* Tries of each call, and what the answers of several have to do with one another. */
#ifndef LAWS_H
#define LAWS_H

#include "corpus.h"

/* A packet that is packed is unpacked again. */
void try_pack(struct program *program);

/* The packet of a payload is packed, and unpacked again. */
void try_unpack(struct program *program);

void try_check(struct program *program);

/*
 * A capture of legal logs dumps without a fault, decodes to these logs, which are legal, to its end, and is whole where
 * it is audited against itself. What it decodes to gives the same capture.
 */
void try_encode(struct program *program);

void try_dump(struct program *program);
/* A log of too many rows is refused. */
void try_too_many_rows(struct program *program);

#endif
