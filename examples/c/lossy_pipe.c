/*
 * Takes the messages of a capture as they come over a transport that may lose some, and prints what is left of each
 * hart's log: stretches of events, and how many messages are missing between them, as `decode --lossy` does.
 *
 *     lossy_pipe BASE IMAGE CAPTURE [HARTS]
 *
 * BASE is hexadecimal. A capture without a header has so many harts, 1 where none is given. Status: 0 where the closing
 * packet of each hart came, 1 where one did not or a message is refused, 2 where the words or the files cannot be used.
 */
#include "tracebench.h"

#include <inttypes.h>
#include <stdio.h>
#include <stdlib.h>
#include <string.h>

struct bytes {
    uint8_t *at;
    size_t length;
};

/* A trace: its program, and the capture's messages, which are of so many harts. */
struct trace {
    struct tracebench_piece program;
    struct bytes messages;
    uint16_t harts;
    uint32_t mode;
};

/* The events of the stretch that is under way. */
struct stretch {
    struct tracebench_event *at;
    size_t count;
    size_t room;
};

static void stop(const char *what, const char *why, int status) {
    fprintf(stderr, "lossy_pipe: %s: %s\n", what, why);
    exit(status);
}

static void *grown(void *at, size_t length) {
    void *larger = realloc(at, length);
    if (larger == NULL) stop("memory", "out of memory", 2);
    return larger;
}

static struct bytes content_of(const char *path) {
    struct bytes content = {NULL, 0};
    FILE *file = fopen(path, "rb");
    if (file == NULL) stop(path, "cannot be read", 2);
    for (size_t more = 1; more != 0; content.length += more) {
        content.at = (uint8_t *)grown(content.at, content.length + 65536);
        more = fread(content.at + content.length, 1, 65536, file);
    }
    fclose(file);
    return content;
}

static uint64_t number_at(const uint8_t *at, size_t length) {
    uint64_t number = 0;
    for (size_t place = length; place != 0; place--) number = number << 8 | at[place - 1];
    return number;
}

/* Reads the header of a capture, if it has one: the mode and the count of harts. */
static void read_header(struct trace *trace) {
    static const uint8_t begins[] = {0xff, 0xff, 'r', 'v', 't', 'r', 'a', 'c', 'e', '2', 0};
    const uint8_t *at = trace->messages.at;
    if (trace->messages.length < 16 || memcmp(at, begins, sizeof begins) != 0) return;
    trace->mode = at[11];
    trace->harts = (uint16_t)number_at(at + 14, 2);
    trace->messages.at += 16;
    trace->messages.length -= 16;
}

static void print_event(const struct tracebench_event *event) {
    const int trap = event->kind == TRACEBENCH_TRAP_TAKEN;
    const unsigned type = trap ? 1u + event->interrupt : event->itype;
    printf("%" PRIx64 ",%x,%x,", event->address, type, (unsigned)event->privilege);
    if (trap) printf("%x", (unsigned)event->cause);
    if (trap && !event->interrupt) printf(",%" PRIx64 "\n", event->tval);
    else printf(",\n");
}

/* Ends the stretch that is under way: prints it, if it has an event. */
static void end_stretch(struct stretch *stretch) {
    if (stretch->count != 0) printf("stretch: %zu events\naddr,itype,priv,cause,tval\n", stretch->count);
    for (size_t place = 0; place < stretch->count; place++) print_event(&stretch->at[place]);
    stretch->count = 0;
}

/* Takes a message of a hart. Where numbers are missing before it, `*missing` is how many, and it is not taken. */
static uint32_t receive(const struct trace *trace, struct tracebench_hart_state *hart, const uint8_t *message,
                        struct stretch *stretch, uint64_t *missing) {
    const uint64_t number = number_at(message + 2, 8);
    for (;;) {
        size_t count = 0;
        const uint32_t status = tracebench_receive(&trace->program, 1, hart, number, message + 11, message[10],
                                                   stretch->at + stretch->count, stretch->room - stretch->count,
                                                   &count, missing);
        if (status == TRACEBENCH_DONE) stretch->count += count;
        if (status != TRACEBENCH_TOO_SMALL) return status;
        stretch->room = 2 * (stretch->count + count);
        stretch->at = (struct tracebench_event *)grown(stretch->at, stretch->room * sizeof *stretch->at);
    }
}

/* Takes a message, also after a loss: the stretch ends there, and the hart goes on at this message. */
static void take(const struct trace *trace, struct tracebench_hart_state *hart, const uint8_t *message,
                 struct stretch *stretch) {
    uint64_t missing = 0;
    uint32_t status = receive(trace, hart, message, stretch, &missing);
    if (status == TRACEBENCH_GAP) {
        end_stretch(stretch);
        printf("gap: %" PRIu64 " messages\n", missing);
        status = tracebench_resume(hart, number_at(message + 2, 8), trace->mode);
        if (status == TRACEBENCH_DONE) status = receive(trace, hart, message, stretch, &missing);
    }
    if (status != TRACEBENCH_DONE) stop("message", tracebench_status_text(status), 1);
}

/* Takes the messages of a hart. Returns whether its closing packet came. */
static int print_hart(const struct trace *trace, uint16_t which, struct stretch *stretch) {
    struct tracebench_hart_state hart;
    hart.expected = 0;
    tracebench_decoder(&hart.decoder);
    printf("hart %u\n", (unsigned)which);
    size_t at = 0;
    while (trace->messages.length - at >= 11) {
        const uint8_t *message = trace->messages.at + at;
        if (trace->messages.length - at - 11 < message[10]) break;
        if (number_at(message, 2) == which) take(trace, &hart, message, stretch);
        at += 11 + (size_t)message[10];
    }
    if (at != trace->messages.length) stop("capture", tracebench_status_text(TRACEBENCH_SHORT), 1);
    end_stretch(stretch);
    return hart.decoder.phase == TRACEBENCH_CLOSED;
}

int main(int count, char **word) {
    if (count < 4 || count > 5) {
        fputs("usage: lossy_pipe BASE IMAGE CAPTURE [HARTS]\n", stderr);
        return 2;
    }
    const struct bytes image = content_of(word[2]);
    struct trace trace = {tracebench_image(strtoull(word[1], NULL, 16), image.at, image.length), content_of(word[3]),
                          (uint16_t)(count == 5 ? strtoul(word[4], NULL, 10) : 1), TRACEBENCH_DIFFERENTIAL};
    struct stretch stretch = {(struct tracebench_event *)grown(NULL, 64 * sizeof *stretch.at), 0, 64};
    int closed = 1;
    read_header(&trace);
    for (uint16_t hart = 0; hart < trace.harts; hart++) closed &= print_hart(&trace, hart, &stretch);
    return closed ? 0 : 1;
}
