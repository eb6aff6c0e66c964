/*
 * Encodes a log and decodes it with many events and many payloads at a call, into buffers that are too small for all of
 * them: what was not taken is handed in again. The version of the library is that of the header.
 *
 *     all_at_once IMAGE
 */
#include "tracebench.h"

#include <inttypes.h>
#include <stdio.h>
#include <stdlib.h>
#include <string.h>

/* The address of the image's first byte. */
#define BASE UINT64_C(0x80000000)

enum { EVENTS = 4, MOST_PACKETS = 1 + 2 * EVENTS + 2, LONGEST_PAYLOAD = 18 };

/* The log of hart 1 of examples/two_harts: an uninferable jump leads back to the second instruction. */
static const struct tracebench_event events[EVENTS] = {
    {TRACEBENCH_RETIREMENT, 0, 3, 0, 0, BASE, 0},
    {TRACEBENCH_RETIREMENT, 0, 3, 0, 0, BASE + 4, 0},
    {TRACEBENCH_RETIREMENT, 6, 3, 0, 0, BASE + 8, 0},
    {TRACEBENCH_RETIREMENT, 0, 3, 0, 0, BASE + 4, 0},
};

static uint8_t image[1 << 16];
static struct tracebench_piece program;

static struct tracebench_packet packets[MOST_PACKETS];
static size_t packets_length;

static uint8_t payloads[MOST_PACKETS * LONGEST_PAYLOAD];
static size_t ends[MOST_PACKETS];

static struct tracebench_event settled[EVENTS];

static void stop(const char *what, uint32_t status) {
    fprintf(stderr, "all_at_once: %s: %s\n", what, tracebench_status_text(status));
    exit(1);
}

static void done(const char *what, uint32_t status) {
    if (status != TRACEBENCH_DONE) stop(what, status);
}

static void version(void) {
    uint8_t text[16];
    size_t length = 0;
    done("version", tracebench_version(text, sizeof text, &length));
    int same = length == sizeof TRACEBENCH_VERSION - 1 && memcmp(text, TRACEBENCH_VERSION, length) == 0;
    printf("version: %d\n", same);
}

/* Pushes the events. The first call has no room for a packet. */
static void push(struct tracebench_encoder_state *encoder) {
    size_t taken = 0;
    size_t count = 0;
    for (size_t at = 0, room = 0; at < EVENTS; at += taken, room = 2) {
        uint32_t status = tracebench_push_all(&program, 1, encoder, events + at, EVENTS - at,
                                              packets + packets_length, room, &taken, &count);
        printf("push: %" PRIu64 " events, %" PRIu64 " packets, %s\n", taken, count, tracebench_status_text(status));
        if (status != TRACEBENCH_DONE && status != TRACEBENCH_TOO_SMALL) stop("push", status);
        packets_length += count;
    }
}

/* Feeds the payloads that end there. The first call has room for one event. */
static void feed(struct tracebench_decoder_state *decoder) {
    size_t taken = 0;
    size_t count = 0;
    uint64_t start = 0;
    size_t length = 0;
    for (size_t at = 0, room = 1; at < packets_length; room = EVENTS - length) {
        uint64_t rest[MOST_PACKETS];
        for (size_t i = at; i < packets_length; i++) rest[i - at] = ends[i] - start;
        uint32_t status = tracebench_feed_all(&program, 1, decoder, payloads + start,
                                              (size_t)(ends[packets_length - 1] - start), rest, packets_length - at,
                                              settled + length, room, &taken, &count);
        printf("feed: %" PRIu64 " payloads, %" PRIu64 " events, %s\n", taken, count, tracebench_status_text(status));
        if (status != TRACEBENCH_DONE && status != TRACEBENCH_TOO_SMALL) stop("feed", status);
        at += taken;
        if (taken != 0) start = ends[at - 1];
        length += count;
    }
    printf("as it was: %d\n", length == EVENTS && memcmp(settled, events, sizeof events) == 0);
}

int main(int words, char **word) {
    struct tracebench_encoder_state encoder;
    struct tracebench_decoder_state decoder;
    size_t count = 0;
    uint64_t end = 0;
    if (words != 2) stop("all_at_once IMAGE", 0);
    FILE *file = fopen(word[1], "rb");
    if (file == NULL) stop(word[1], 0);
    program = tracebench_image(BASE, image, fread(image, 1, sizeof image, file));
    fclose(file);
    version();
    done("encoder", tracebench_encoder(1024, TRACEBENCH_DIFFERENTIAL, &encoder, packets));
    packets_length = 1;
    push(&encoder);
    done("finish", tracebench_finish(&program, 1, &encoder, packets + packets_length, 2, &count));
    packets_length += count;
    for (size_t i = 0; i < packets_length; i++) {
        done("pack", tracebench_pack(&packets[i], payloads + end, LONGEST_PAYLOAD, &count));
        end += count;
        ends[i] = end;
    }
    tracebench_decoder(&decoder);
    feed(&decoder);
    printf("phase %" PRIu32 "\n", decoder.phase);
    return 0;
}
