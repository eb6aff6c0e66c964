/* Audits of all harts by payloads alone, against another reading of the rules. */
#ifndef ALIGNED_H
#define ALIGNED_H

#include "calls.h"
#include "told.h"

/* The most bytes of RECEIVED that are read. */
enum { MOST_READ = 40000 };

/* Reads RECEIVED by the payloads that were sent. */
void read_by_payloads(struct told_path *path, const struct slice *bytes);

/* What is found of a path whose arrays are all written, but for the rows of harts. These are the bytes of RECEIVED. */
void judge_alignment(const struct told_path *path, const uint8_t *received, const struct found *found,
                     const struct tracebench_path_end *ended, bool has_rows);

#endif
