/*
 * Makes the messages of three harts without a core: a seed gives the image of a program and the events of each hart,
 * which are encoded as they come. Prints each message as `tracebench encode --hex` does, the harts in turns of 8 events.
 * No list grows, and no call takes memory but that for the image.
 *
 *     stimulus
 */
#include "tracebench.h"

#include <inttypes.h>
#include <stdio.h>
#include <stdlib.h>

enum { HARTS = 3, TURNS = 4, EVENTS = 8 };

static void done(const char *what, uint32_t status) {
    if (status == TRACEBENCH_DONE) return;
    fprintf(stderr, "stimulus: %s: %s\n", what, tracebench_status_text(status));
    exit(1);
}

/* What is kept of a hart that sends. */
struct sender {
    struct tracebench_walk_state walk;
    struct tracebench_encoder_state encoder;
    uint64_t number;
};

static void send_all(struct sender *from, const struct tracebench_packet *packets, size_t count) {
    for (size_t i = 0; i < count; i++) {
        uint8_t payload[18];
        size_t length;
        done("pack", tracebench_pack(&packets[i], payload, sizeof payload, &length));
        printf("%u %" PRIu64 " ", from->walk.hart, from->number++);
        for (size_t at = 0; at < length; at++) printf("%02x", payload[at]);
        putchar('\n');
    }
}

int main(void) {
    static uint8_t image[4096];
    struct tracebench_piece program;
    struct tracebench_event events[EVENTS];
    struct tracebench_packet packets[2 * EVENTS];
    struct sender harts[HARTS];
    size_t taken, count;
    done("generate_image", tracebench_generate_image(TRACEBENCH_MIXED, 1, image, sizeof image, &count));
    program = tracebench_image(0x80000000, image, count);
    for (uint16_t hart = 0; hart < HARTS; hart++) {
        const struct tracebench_walk_state first = {1, 0, 0, TRACEBENCH_MIXED, hart, 0, 0};
        harts[hart].walk = first;
        harts[hart].number = 0;
        done("encoder", tracebench_encoder(64, TRACEBENCH_DIFFERENTIAL, &harts[hart].encoder, packets));
        send_all(&harts[hart], packets, 1);
    }
    for (int turn = 0; turn < TURNS * HARTS; turn++) {
        struct sender *hart = &harts[turn % HARTS];
        done("generate_events", tracebench_generate_events(&program, 1, &hart->walk, events, EVENTS));
        done("push_all", tracebench_push_all(&program, 1, &hart->encoder, events, EVENTS, packets, 2 * EVENTS, &taken,
                                             &count));
        send_all(hart, packets, count);
    }
    for (struct sender *hart = harts; hart < harts + HARTS; hart++) {
        done("finish", tracebench_finish(&program, 1, &hart->encoder, packets, 2, &count));
        send_all(hart, packets, count);
    }
    return 0;
}
