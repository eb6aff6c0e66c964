/* Audits of all harts, against another reading of the rules. */
#ifndef PATHS_H
#define PATHS_H

#include "corpus.h"

void try_audit_all(struct program *program);

#endif
