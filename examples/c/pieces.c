/*
 * Encodes and decodes a log step by step, of a program that jumps from a boot ROM to RAM: an image in two pieces. Then
 * it says that the log is not one of the ROM alone.
 */
#include "tracebench.h"

#include <inttypes.h>
#include <stdio.h>
#include <stdlib.h>
#include <string.h>

/* The addresses of the first bytes. */
#define ROM UINT64_C(0x1000)
#define RAM UINT64_C(0x80000000)

/* nop; jalr x0, 0(x1) */
static const uint8_t rom[] = {0x13, 0x00, 0x00, 0x00, 0x67, 0x80, 0x00, 0x00};
/* nop */
static const uint8_t ram[] = {0x13, 0x00, 0x00, 0x00};

static const struct tracebench_piece pieces[] = {{ROM, rom, sizeof rom}, {RAM, ram, sizeof ram}};

static const struct tracebench_event events[] = {
    {TRACEBENCH_RETIREMENT, 0, 3, 0, 0, ROM, 0},
    {TRACEBENCH_RETIREMENT, 6, 3, 0, 0, ROM + 4, 0},
    {TRACEBENCH_RETIREMENT, 0, 3, 0, 0, RAM, 0},
};

static struct tracebench_decoder_state decoder;

static struct tracebench_event settled[3];
static size_t settled_length;

static void expect(const char *what, uint32_t status) {
    if (status == TRACEBENCH_DONE) return;
    fprintf(stderr, "pieces: %s: %s\n", what, tracebench_status_text(status));
    exit(1);
}

/* Feeds the payload of a packet to the decoder. */
static void feed(const struct tracebench_packet *packet) {
    uint8_t payload[18];
    size_t length = 0;
    size_t count = 0;
    expect("pack", tracebench_pack(packet, payload, sizeof payload, &length));
    expect("feed", tracebench_feed(pieces, 2, &decoder, payload, length, settled + settled_length, 3 - settled_length,
                                   &count));
    settled_length += count;
    printf("packet of kind %" PRIu32 ": %" PRIu64 " events\n", packet->kind, count);
}

int main(void) {
    struct tracebench_encoder_state encoder;
    struct tracebench_packet packets[2];
    size_t count = 0;
    uint64_t row = 0;
    tracebench_decoder(&decoder);
    expect("encoder", tracebench_encoder(1024, TRACEBENCH_DIFFERENTIAL, &encoder, &packets[0]));
    feed(&packets[0]);
    for (size_t i = 0; i < 3; i++) {
        expect("push", tracebench_push_checked(pieces, 2, &encoder, &events[i], packets, 2, &count));
        for (size_t k = 0; k < count; k++) feed(&packets[k]);
    }
    expect("finish", tracebench_finish(pieces, 2, &encoder, packets, 2, &count));
    for (size_t k = 0; k < count; k++) feed(&packets[k]);
    for (size_t i = 0; i < settled_length; i++)
        printf("%" PRIx64 ",%u,%u\n", settled[i].address, settled[i].itype, settled[i].privilege);
    printf("as it was: %d\n", settled_length == 3 && memcmp(settled, events, sizeof events) == 0);
    const uint32_t status = tracebench_check_events(pieces, 1, events, 3, &row);
    printf("the ROM alone: row %" PRIu64 ": %s\n", row, tracebench_status_text(status));
    return 0;
}
