/* What a call is given, at random: good things, damaged ones, and any bytes. */
#ifndef DRAWS_H
#define DRAWS_H

#include "calls.h"
#include "corpus.h"

/* The image and the base of a program, or now and then others. */
void draw_program(struct given *given, const struct program *program);

struct given drawn_for_pack(void);
struct given drawn_for_unpack(const struct program *program);
struct given drawn_for_check(const struct program *program);

/* `*plain` is whether each log is one whose text decoding it gives again. */
struct given drawn_for_encode(const struct program *program, bool *plain);
struct given drawn_for_dump(const struct program *program);
struct given drawn_for_decode(const struct program *program);
struct given drawn_for_audit(const struct program *program);

/* What is given to tracebench_decode_all; with symbols and a format to tracebench_list. */
struct given drawn_for_list(const struct program *program);

/* What is given to tracebench_salvage and tracebench_list_salvaged. */
struct given drawn_for_salvage(const struct program *program);

/* A log of one row too many for a log. It takes 134 MB. */
struct given of_too_many_rows(const struct program *program);

#endif
