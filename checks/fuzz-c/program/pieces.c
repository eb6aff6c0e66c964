#include "pieces.h"

#include <string.h>

#include "judge.h"

static void add(struct pieces *pieces, uint64_t base, const uint8_t *bytes, size_t length) {
    pieces->base[pieces->count] = base;
    pieces->bytes[pieces->count++] = copy_of(bytes, length);
}

void cut(struct pieces *pieces, uint64_t base, const struct slice *image) {
    size_t from = 0;
    pieces->count = 0;
    while (pieces->count < MOST_PIECES - 1 && !one_in(3)) {
        size_t left = image->length - from;
        size_t length = one_in(4) ? 0 : 2 * below(left / 2 + 1);
        add(pieces, base + from, image->at + from, length);
        from += length;
    }
    add(pieces, base + from, image->at + from, image->length - from);
}

void draw_pieces(struct pieces *pieces, uint64_t base, const struct slice *image) {
    size_t count = below(MOST_PIECES);
    uint64_t at = base - below(64);
    pieces->count = 0;
    while (pieces->count < count) {
        size_t from = below(image->length + 1);
        size_t length = below(image->length - from + 1);
        if (length > 60) length = below(60);
        add(pieces, at, image->at + from, length);
        at += one_in(8) ? 0 - (uint64_t)below(40) : length + below(5);
        if (!one_in(20)) at &= ~(uint64_t)1;
    }
}

static bool overlap(const struct pieces *pieces, size_t one, size_t other) {
    for (uint64_t i = 0; i < pieces->bytes[one].length; i++)
        for (uint64_t k = 0; k < pieces->bytes[other].length; k++)
            if (pieces->base[one] + i == pieces->base[other] + k) return true;
    return false;
}

uint32_t fault_of(const struct pieces *pieces) {
    for (size_t place = 1; place < pieces->count; place++)
        if (pieces->base[place] < pieces->base[place - 1]) return TRACEBENCH_NOT_SORTED;
    for (size_t place = 0; place < pieces->count; place++) {
        if (pieces->base[place] % 2 == 1) return TRACEBENCH_ODD_BASE;
        if (UINT64_MAX - pieces->base[place] < pieces->bytes[place].length) return TRACEBENCH_PAST_END;
        for (size_t before = 0; before < place; before++)
            if (overlap(pieces, before, place)) return TRACEBENCH_OVERLAP;
    }
    return TRACEBENCH_DONE;
}

struct given in_pieces(const struct given *given, const struct pieces *pieces) {
    struct tracebench_piece all[MOST_PIECES];
    struct given parts = *given;
    for (size_t place = 0; place < pieces->count; place++) {
        const struct slice *bytes = &pieces->bytes[place];
        all[place] = (struct tracebench_piece){pieces->base[place], bytes->at, bytes->length};
    }
    parts.in_pieces = true;
    parts.pieces = copy_of(all, pieces->count * sizeof *all);
    return parts;
}

void give_back_pieces(struct pieces *pieces, const struct call *call) {
    for (size_t place = 0; place < pieces->count; place++) {
        struct slice *bytes = &pieces->bytes[place];
        require(is_guarded(bytes) && is_kept_from(bytes, 0), call, "a piece changed");
        give_back(bytes);
    }
}
