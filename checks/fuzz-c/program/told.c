#include "told.h"

#include <string.h>

#include "draft.h"
#include "tracebench.h"

unsigned hart_of(const struct told *one) { return one->at[0] | (unsigned)one->at[1] << 8; }

uint64_t number_of(const struct told *one) {
    uint64_t number = 0;
    for (size_t place = 10; place-- != 2;) number = number << 8 | one->at[place];
    return number;
}

size_t length_at(const struct slice *bytes, size_t at) {
    if (bytes->length - at < HEAD) return 0;
    const size_t count = bytes->at[at + HEAD - 1];
    return count == 0 || count > 18 || bytes->length - at < HEAD + count ? 0 : HEAD + count;
}

size_t begin_of(const struct slice *bytes) {
    static const uint8_t mark[] = {0xff, 0xff, 'r', 'v', 't', 'r', 'a', 'c', 'e', '2', 0};
    if (bytes->length < HEADER || memcmp(bytes->at, mark, sizeof mark) != 0) return 0;
    const unsigned period = bytes->at[12] | (unsigned)bytes->at[13] << 8;
    const unsigned harts = bytes->at[14] | (unsigned)bytes->at[15] << 8;
    return bytes->at[11] <= 1 && period != 0 && harts != 0 && harts <= 1024 ? HEADER : 0;
}

bool are_same(const struct told *one, const struct told *other, bool by_packets) {
    if (one->length == other->length && memcmp(one->at + HEAD, other->at + HEAD, one->length - HEAD) == 0) return true;
    struct tracebench_packet first, second;
    memset(&first, 0, sizeof first);
    memset(&second, 0, sizeof second);
    return by_packets && tracebench_unpack(one->at + HEAD, one->length - HEAD, &first) == TRACEBENCH_DONE &&
           tracebench_unpack(other->at + HEAD, other->length - HEAD, &second) == TRACEBENCH_DONE &&
           memcmp(&first, &second, sizeof first) == 0;
}

void add_run(struct told_path *path, size_t from, size_t to) {
    path->runs[path->run_count++] = (struct tracebench_byte_run){from, to - from};
    path->byte_count += to - from;
}
