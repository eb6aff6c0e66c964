/* Images in pieces. */
#ifndef PIECES_H
#define PIECES_H

#include "calls.h"

enum { MOST_PIECES = 8 };

/* The most bytes of an image. */
enum { MOST_BYTES = 1 << 24 };

/* Pieces, each with its bytes in a slice of its own. */
struct pieces {
    size_t count;
    uint64_t base[MOST_PIECES];
    struct slice bytes[MOST_PIECES];
};

/* An image that is cut at even places, with pieces without bytes between. */
void cut(struct pieces *pieces, uint64_t base, const struct slice *image);

/* Any pieces near an image: they may be in any order, overlap, or have an odd base. */
void draw_pieces(struct pieces *pieces, uint64_t base, const struct slice *image);

/* What is wrong with pieces: the status of the first fault, or that all is done. */
uint32_t fault_of(const struct pieces *pieces);

/* The same question over pieces. Its slice of pieces is given back apart. */
struct given in_pieces(const struct given *given, const struct pieces *pieces);

/* Gives pieces back, whose bytes the call has not changed. */
void give_back_pieces(struct pieces *pieces, const struct call *call);

#endif
