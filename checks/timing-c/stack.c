/*
 * How many bytes of stack the calls of the library for C want, over a log.
 *
 *     stack-c BASE IMAGE LOG
 *
 * BASE is hexadecimal. Each call runs in a thread whose stack is filled with one byte before; a line has how far down
 * that byte is gone after it. `malloc` is in it, and the linker's work at a first call. `push` and `feed` go over the
 * first 1,000 events of the log, step by step.
 */
#define _POSIX_C_SOURCE 200112L
#define NAME "stack-c"
#include "given.h"

#include <inttypes.h>
#include <pthread.h>
#include <string.h>

enum { STACK = 1 << 20, FILLED = 0x5a, PERIOD = 64, HEAD = 11, MOST_STEPS = 1000, MOST_EVENTS = 1 << 16 };

static struct tracebench_piece program;
static struct bytes text, capture, out;
static struct tracebench_packet packets[2];
static struct tracebench_event events[MOST_EVENTS];
static size_t steps;
static uint8_t *stack;
static size_t depth;

static void check(void) {
    uint64_t row = 0;
    done("check", tracebench_check(&program, 1, text.at, text.length, &row));
}

static void encode(void) {
    const size_t ends[1] = {text.length};
    size_t wanted = 0;
    struct tracebench_log_place place;
    done("encode", tracebench_encode(&program, 1, text.at, text.length, ends, 1, PERIOD,
                                     TRACEBENCH_DIFFERENTIAL, TRACEBENCH_VERSION_ONE, out.at, out.length, &wanted,
                                     &place));
    if (capture.at != NULL) return;
    capture = (struct bytes){memory(wanted), wanted};
    memcpy(capture.at, out.at, capture.length);
}

static void decode(void) {
    size_t wanted = 0;
    struct tracebench_hart_end end;
    struct tracebench_decode_all_end ended;
    done("decode_all", tracebench_decode_all(&program, 1, 1, capture.at, capture.length, out.at, out.length, &wanted,
                                             &end, 1, &ended));
    done("decode_all", ended.fault);
}

static void dump(void) {
    size_t wanted = 0;
    struct tracebench_dump_end ended;
    done("dump", tracebench_dump(capture.at, capture.length, out.at, out.length, &wanted, &ended));
}

static void audit(void) {
    struct tracebench_hart_row row;
    struct tracebench_arrival arrival;
    struct tracebench_lost_run lost;
    struct tracebench_byte_run run;
    struct tracebench_sent_place refused;
    struct tracebench_path_end ended;
    const uint32_t status = tracebench_audit_all(capture.at, capture.length, capture.at, capture.length, 0, &row, 1,
                                                 &arrival, 0, &lost, 0, &run, 0, &refused, &ended);
    if (status != TRACEBENCH_TOO_SMALL) stop("audit_all", status);
}

static void feed(void) {
    struct tracebench_decoder_state state;
    size_t count = 0;
    steps = 0;
    tracebench_decoder(&state);
    for (size_t at = 0; at < capture.length && steps < MOST_STEPS; at += HEAD + capture.at[at + HEAD - 1]) {
        done("feed", tracebench_feed(&program, 1, &state, capture.at + at + HEAD,
                                     capture.at[at + HEAD - 1], events + steps, MOST_EVENTS - steps, &count));
        steps += count;
    }
}

static void push(void) {
    struct tracebench_encoder_state state;
    size_t count = 0;
    done("encoder", tracebench_encoder(PERIOD, TRACEBENCH_DIFFERENTIAL, &state, packets));
    for (size_t i = 0; i < steps; i++)
        done("push", tracebench_push(&program, 1, &state, &events[i], packets, 2, &count));
    done("finish", tracebench_finish(&program, 1, &state, packets, 2, &count));
}

static void pack_and_unpack(void) {
    size_t wanted = 0;
    for (size_t at = 0; at < capture.length; at += HEAD + capture.at[at + HEAD - 1]) {
        done("unpack", tracebench_unpack(capture.at + at + HEAD, capture.at[at + HEAD - 1], packets));
        done("pack", tracebench_pack(packets, out.at, out.length, &wanted));
    }
}

/* Runs a call, and measures how far down it came. */
static void *measured(void *given) {
    void (**call)(void) = given;
    const uint8_t *top = __builtin_frame_address(0);
    (*call)();
    const uint8_t *at = stack;
    while (*at == FILLED) at++;
    depth = (size_t)(top - at);
    return NULL;
}

static void measure(const char *name, void (*call)(void)) {
    pthread_attr_t attributes;
    pthread_t thread;
    memset(stack, FILLED, STACK);
    if (pthread_attr_init(&attributes) != 0 || pthread_attr_setstack(&attributes, stack, STACK) != 0 ||
        pthread_create(&thread, &attributes, measured, &call) != 0 || pthread_join(thread, NULL) != 0)
        stop(name, TRACEBENCH_MEMORY);
    pthread_attr_destroy(&attributes);
    printf("%-16s %6zu bytes\n", name, depth);
}

int main(int count, char **words) {
    if (count != 4) {
        fputs("usage: stack-c BASE IMAGE LOG\n", stderr);
        return 2;
    }
    const struct bytes image = read_file(words[2]);
    program = tracebench_image(strtoull(words[1], NULL, 16), image.at, image.length);
    text = read_file(words[3]);
    out = (struct bytes){memory(4 * text.length + 4096), 4 * text.length + 4096};
    stack = aligned_alloc(4096, STACK);
    if (stack == NULL) stop("memory", TRACEBENCH_MEMORY);
    measure("check", check);
    measure("encode", encode);
    measure("decode_all", decode);
    measure("dump", dump);
    measure("audit_all", audit);
    measure("feed", feed);
    measure("push, finish", push);
    measure("pack, unpack", pack_and_unpack);
    return 0;
}
