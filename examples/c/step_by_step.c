/*
 * Encodes a log and decodes it step by step: each event is pushed as it comes, each packet is packed and its payload
 * fed to a decoder, and the events that come out are those that went in.
 *
 *     step_by_step IMAGE
 */
#include "tracebench.h"

#include <inttypes.h>
#include <stdio.h>
#include <stdlib.h>
#include <string.h>

/* The address of the image's first byte. */
#define BASE UINT64_C(0x80000000)

/* The log of hart 1 of examples/two_harts: an uninferable jump leads back to the second instruction. */
static const struct tracebench_event events[] = {
    {TRACEBENCH_RETIREMENT, 0, 3, 0, 0, BASE, 0},
    {TRACEBENCH_RETIREMENT, 0, 3, 0, 0, BASE + 4, 0},
    {TRACEBENCH_RETIREMENT, 6, 3, 0, 0, BASE + 8, 0},
    {TRACEBENCH_RETIREMENT, 0, 3, 0, 0, BASE + 4, 0},
};

static uint8_t image[1 << 16];
static struct tracebench_piece program;

static struct tracebench_decoder_state decoder;

static struct tracebench_event settled[4];
static size_t settled_length;

static void stop(const char *what, uint32_t status) {
    fprintf(stderr, "step_by_step: %s: status %" PRIu32 "\n", what, status);
    exit(1);
}

/* Feeds the payload of a packet to the decoder. The first call has no buffer, and asks how many events there are. */
static void feed(const struct tracebench_packet *packet) {
    uint8_t payload[18];
    size_t length = 0;
    size_t count = 0;
    struct tracebench_event *at = settled + settled_length;
    uint32_t status = tracebench_pack(packet, payload, sizeof payload, &length);
    if (status != TRACEBENCH_DONE) stop("pack", status);
    status = tracebench_feed(&program, 1, &decoder, payload, length, at, 0, &count);
    if (status == TRACEBENCH_TOO_SMALL && count <= 4 - settled_length)
        status = tracebench_feed(&program, 1, &decoder, payload, length, at, count, &count);
    if (status != TRACEBENCH_DONE) stop("feed", status);
    settled_length += count;
    printf("packet of kind %" PRIu32 ": %" PRIu64 " events\n", packet->kind, count);
}

int main(int words, char **word) {
    struct tracebench_encoder_state encoder;
    struct tracebench_packet packets[2];
    size_t count = 0;
    if (words != 2) stop("step_by_step IMAGE", 0);
    FILE *file = fopen(word[1], "rb");
    if (file == NULL) stop(word[1], 0);
    program = tracebench_image(BASE, image, fread(image, 1, sizeof image, file));
    fclose(file);
    tracebench_decoder(&decoder);
    uint32_t status = tracebench_encoder(1024, TRACEBENCH_DIFFERENTIAL, &encoder, &packets[0]);
    if (status != TRACEBENCH_DONE) stop("encoder", status);
    feed(&packets[0]);
    for (size_t i = 0; i < sizeof events / sizeof *events; i++) {
        status = tracebench_push(&program, 1, &encoder, &events[i], packets, 2, &count);
        if (status != TRACEBENCH_DONE) stop("push", status);
        for (size_t k = 0; k < count; k++) feed(&packets[k]);
    }
    status = tracebench_finish(&program, 1, &encoder, packets, 2, &count);
    if (status != TRACEBENCH_DONE) stop("finish", status);
    for (size_t k = 0; k < count; k++) feed(&packets[k]);
    for (size_t i = 0; i < settled_length; i++)
        printf("%" PRIx64 ",%u,%u\n", settled[i].address, settled[i].itype, settled[i].privilege);
    printf("as it was: %d\n", settled_length == 4 && memcmp(settled, events, sizeof events) == 0);
    printf("phase %" PRIu32 "\n", decoder.phase);
    return 0;
}
