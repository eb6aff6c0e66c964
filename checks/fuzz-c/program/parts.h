/* Messages, headers and lines, read another way. */
#ifndef PARTS_H
#define PARTS_H

#include "corpus.h"

void try_messages(struct program *program);
void try_headers(struct program *program);
void try_lines(struct program *program);

#endif
