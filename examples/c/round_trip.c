/*
 * Encodes the logs of two harts, dumps and decodes the capture, loses a message of it, and audits and decodes what
 * came.
 *
 *     round_trip IMAGE LOG LOG
 */
#include "tracebench.h"

#include <inttypes.h>
#include <stdio.h>
#include <stdlib.h>
#include <string.h>

/* The address of the image's first byte. */
#define BASE UINT64_C(0x80000000)

/* Bytes of the heap. There is always one more than are counted, so that `at` is not null. */
struct bytes {
    uint8_t *at;
    size_t length;
};

static struct tracebench_piece program;

static void stop(const char *what, uint32_t status) {
    fprintf(stderr, "round_trip: %s: status %" PRIu32 "\n", what, status);
    exit(1);
}

static struct bytes room(size_t length) {
    struct bytes bytes = {(uint8_t *)malloc(length + 1), length};
    if (bytes.at == NULL) stop("memory", TRACEBENCH_MEMORY);
    return bytes;
}

static struct bytes read_file(const char *path) {
    FILE *file = fopen(path, "rb");
    if (file == NULL) stop(path, 0);
    struct bytes bytes = room((size_t)1 << 20);
    bytes.length = fread(bytes.at, 1, bytes.length, file);
    fclose(file);
    return bytes;
}

/* The capture of two logs. The first call asks how long it is. */
static struct bytes encode(struct bytes logs, const size_t ends[2]) {
    size_t wanted = 0;
    struct tracebench_log_place place = {0, 0};
    struct bytes capture = room(0);
    uint32_t status = tracebench_encode(&program, 1, logs.at, logs.length, ends, 2, 1024,
                                        TRACEBENCH_DIFFERENTIAL, TRACEBENCH_VERSION_TWO, capture.at, 0, &wanted,
                                        &place);
    if (status != TRACEBENCH_TOO_SMALL) {
        fprintf(stderr, "log %" PRIu64 " row %" PRIu64 "\n", place.log, place.row);
        stop("encode", status);
    }
    free(capture.at);
    capture = room(wanted);
    status = tracebench_encode(&program, 1, logs.at, logs.length, ends, 2, 1024,
                               TRACEBENCH_DIFFERENTIAL, TRACEBENCH_VERSION_TWO, capture.at, capture.length, &wanted,
                               &place);
    if (status != TRACEBENCH_DONE) stop("encode", status);
    return capture;
}

/* Prints the log of each hart of a capture, and how decoding ended. */
static void decode(struct bytes capture) {
    static uint8_t text[1 << 20];
    struct tracebench_hart_end ends[2];
    struct tracebench_decode_all_end ended = {0, 0, 0};
    size_t wanted = 0;
    size_t start = 0;
    uint32_t status = tracebench_decode_all(&program, 1, 2, capture.at, capture.length, text, sizeof text, &wanted,
                                            ends, 2, &ended);
    if (status != TRACEBENCH_DONE) stop("decode", status);
    for (unsigned hart = 0; hart < 2; hart++) {
        printf("hart %u of %zu: closed %" PRIu32 ", ends at message %" PRIu64 " with status %" PRIu32 "\n",
               hart, ended.harts, ends[hart].closed, ended.place, ended.fault);
        fwrite(text + start, 1, ends[hart].end - start, stdout);
        start = ends[hart].end;
    }
}

/* Prints what became of the messages of each hart: there is room for the rows alone. */
static void audit(struct bytes sent, struct bytes received) {
    struct tracebench_hart_row rows[2];
    struct tracebench_arrival arrival;
    struct tracebench_lost_run lost;
    struct tracebench_byte_run run;
    struct tracebench_sent_place refused;
    struct tracebench_path_end ended;
    uint32_t status = tracebench_audit_all(sent.at, sent.length, received.at, received.length, 0, rows, 2, &arrival, 0,
                                           &lost, 0, &run, 0, &refused, &ended);
    if (status != TRACEBENCH_TOO_SMALL) stop("audit", status);
    for (unsigned hart = 0; hart < 2; hart++) {
        const struct tracebench_tally tally = rows[hart].tally;
        printf("hart %u of %zu: %" PRIu64 " sent, %" PRIu64 " came, %" PRIu64 " lost, whole %" PRIu32
               ", strangers %" PRIu64 "\n",
               hart, ended.harts, tally.sent, tally.came, tally.lost, tally.whole, ended.strangers);
    }
}

static void dump(struct bytes capture) {
    static uint8_t text[1 << 20];
    struct tracebench_dump_end ended = {0, 0, 0};
    size_t wanted = 0;
    uint32_t status = tracebench_dump(capture.at, capture.length, text, sizeof text, &wanted, &ended);
    if (status != TRACEBENCH_DONE) stop("dump", status);
    fwrite(text, 1, wanted, stdout);
    printf("bad %" PRIu32 ", ends at message %" PRIu64 " with status %" PRIu32 "\n", ended.bad, ended.place,
           ended.fault);
}

/* Takes the second message out of a capture with a header of 16 bytes. A message has 11 bytes before its payload, the
 * last of which is the payload's length. */
static void lose_second(struct bytes *capture) {
    size_t second = 16 + 11 + capture->at[16 + 10];
    size_t third = second + 11 + capture->at[second + 10];
    memmove(capture->at + second, capture->at + third, capture->length - third);
    capture->length -= third - second;
}

int main(int count, char **words) {
    if (count != 4) stop("round_trip IMAGE LOG LOG", 0);
    struct bytes image = read_file(words[1]);
    program = tracebench_image(BASE, image.at, image.length);
    struct bytes first = read_file(words[2]);
    struct bytes second = read_file(words[3]);
    uint64_t row = 0;
    uint32_t status = tracebench_check(&program, 1, first.at, first.length, &row);
    printf("check: status %" PRIu32 ", row %" PRIu64 "\n", status, row);
    struct bytes logs = room(first.length + second.length);
    memcpy(logs.at, first.at, first.length);
    memcpy(logs.at + first.length, second.at, second.length);
    const size_t ends[2] = {first.length, first.length + second.length};
    struct bytes capture = encode(logs, ends);
    printf("capture of %zu bytes\n", capture.length);
    dump(capture);
    decode(capture);
    struct bytes received = room(capture.length);
    memcpy(received.at, capture.at, capture.length);
    lose_second(&received);
    puts("without the second message");
    audit(capture, received);
    decode(received);
    struct tracebench_packet packet;
    memset(&packet, 0, sizeof packet);
    packet.kind = TRACEBENCH_SYNC;
    packet.privilege = 3;
    packet.address = BASE;
    uint8_t payload[18];
    size_t wanted = 0;
    status = tracebench_pack(&packet, payload, sizeof payload, &wanted);
    printf("pack: status %" PRIu32 ", %" PRIu64 " bytes\n", status, wanted);
    status = tracebench_unpack(payload, wanted, &packet);
    printf("unpack: status %" PRIu32 ", address %" PRIx64 "\n", status, packet.address);
    free(image.at);
    free(first.at);
    free(second.at);
    free(logs.at);
    free(capture.at);
    free(received.at);
    return 0;
}
