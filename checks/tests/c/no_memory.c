/*
 * The calls that take no memory, over an image of 16 MiB, with an allocator that refuses each request.
 *
 * Prints nothing and ends with status 0 where each call does what it says and none asked for memory.
 */
#include "tracebench.h"

#include <inttypes.h>
#include <stdbool.h>
#include <stddef.h>
#include <stdint.h>
#include <stdio.h>

enum { LENGTH = 1 << 24, EVENTS = 40, BASE_OF_IMAGE = 0x80000000u };

struct tried {
    bool ok;
    uint8_t *at;
};

static uint8_t nowhere;
static unsigned long requests;

struct tried rattle_alloc(size_t size, size_t alignment);
struct tried rattle_realloc(uint8_t *block, size_t kept, size_t size, size_t alignment);
void rattle_dealloc(uint8_t *block);

static struct tried refused(void) {
    requests++;
    struct tried tried = {false, &nowhere};
    return tried;
}

struct tried rattle_alloc(size_t size, size_t alignment) {
    (void)size;
    (void)alignment;
    return refused();
}

struct tried rattle_realloc(uint8_t *block, size_t kept, size_t size, size_t alignment) {
    (void)block;
    (void)kept;
    (void)size;
    (void)alignment;
    return refused();
}

void rattle_dealloc(uint8_t *block) { (void)block; }

static uint8_t image[LENGTH];
static const struct tracebench_piece program = {BASE_OF_IMAGE, image, LENGTH};

static int failures;

static void expect(const char *what, uint64_t found, uint64_t wanted) {
    if (found == wanted) return;
    printf("%s: %" PRIu64 " for %" PRIu64 "\n", what, found, wanted);
    failures++;
}

int main(void) {
    struct tracebench_encoder_state state;
    struct tracebench_packet opening, packets[EVENTS];
    struct tracebench_event events[EVENTS];
    size_t count = 77, taken = 77;
    uint64_t row = 77;

    for (size_t at = 0; at < LENGTH; at += 2) image[at] = 1; /* C.NOP */
    for (size_t place = 0; place < EVENTS; place++)
        events[place] = (struct tracebench_event){TRACEBENCH_RETIREMENT, 0, 3, 0, 0, BASE_OF_IMAGE + 2 * place, 0};

    expect("encoder", tracebench_encoder(1, TRACEBENCH_FULL, &state, &opening), TRACEBENCH_DONE);
    expect("push", tracebench_push(&program, 1, &state, &events[0], packets, 2, &count), 0);
    expect("packets of a push", count, 0);
    expect("push_checked",
           tracebench_push_checked(&program, 1, &state, &events[1], packets, 2, &count), 0);
    expect("packets of push_checked", count, 1);
    expect("push_all", tracebench_push_all(&program, 1, &state, events + 2, EVENTS - 2, packets, EVENTS,
                                           &taken, &count), 0);
    expect("events of push_all", taken, EVENTS - 2);
    expect("packets of push_all", count, EVENTS - 2);
    expect("finish", tracebench_finish(&program, 1, &state, packets, 2, &count), 0);
    expect("packets of finish", count, 2);
    expect("follow", tracebench_follow(&program, 1, 1, &events[0], &events[1]), 0);
    expect("check_events", tracebench_check_events(&program, 1, events, EVENTS, &row), 0);
    expect("rows", row, EVENTS);

    struct tracebench_walk_state walk = {1, 0, 0, TRACEBENCH_MIXED, 0, 0, 0};
    expect("generate_events", tracebench_generate_events(&program, 1, &walk, events, EVENTS), 0);
    expect("check_events of them", tracebench_check_events(&program, 1, events, EVENTS, &row), 0);

    uint8_t bytes[29];
    struct tracebench_message message;
    struct tracebench_header header = {TRACEBENCH_FULL, 5, 2};
    expect("write_message", tracebench_write_message(1, 2, (const uint8_t *)"ab", 2, bytes, sizeof bytes, &count), 0);
    expect("bytes of a message", count, 13);
    expect("read_message", tracebench_read_message(bytes, count, &message, &taken), 0);
    expect("bytes that were read", taken, 13);
    expect("write_header", tracebench_write_header(&header, bytes, sizeof bytes, &count), 0);
    expect("bytes of a header", count, 16);
    expect("read_header", tracebench_read_header(bytes, count, &header, &taken), 0);
    expect("bytes of a header that were read", taken, 16);
    expect("requests", requests, 0);
    return failures != 0;
}
