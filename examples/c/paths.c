/*
 * Makes a capture of lines, reads its header and its messages, and writes what a path made of them, message by message:
 * some are lost, late, repeated, changed or of a hart that is none, and five bytes are of no message. Prints what
 * `tracebench audit` and `tracebench audit --unnumbered` find of that path, each by one call: each struct field by
 * field and by name. Any two fields of one struct that have one type hold different numbers in some line.
 *
 *     paths
 */
#include "tracebench.h"

#include <inttypes.h>
#include <stdio.h>
#include <stdlib.h>
#include <string.h>

/* A message that came: its hart, its number and the one byte of its payload. */
struct came {
    uint16_t hart;
    uint64_t number;
    char payload;
};

enum { HEADER = 16, MOST = 64 };

static void stop(const char *what, uint32_t status) {
    fprintf(stderr, "paths: %s: %s\n", what, tracebench_status_text(status));
    exit(1);
}

static void done(const char *what, uint32_t status) {
    if (status != TRACEBENCH_DONE) stop(what, status);
}

static void print_header(const char *before, const struct tracebench_header *it, const char *after) {
    printf("%sHeader { mode: %" PRIu32 ", period: %u, harts: %u }%s", before, it->mode, it->period, it->harts, after);
}

static void print_row(const struct tracebench_hart_row *it) {
    const struct tracebench_tally *tally = &it->tally;
    printf("HartRow { tally: Tally { sent: %" PRIu64 ", came: %" PRIu64 ", lost: %" PRIu64 ", repeated: %" PRIu64,
           tally->sent, tally->came, tally->lost, tally->repeated);
    printf(", late: %" PRIu64 ", changed: %" PRIu64 ", whole: %" PRIu32 " }", tally->late, tally->changed,
           tally->whole);
    printf(", strange: %" PRIu64 ", extra: %" PRIu64 ", runs: %" PRIu64 ", longest: %" PRIu64 ", latest: %" PRIu64,
           it->strange, it->extra, it->runs, it->longest, it->latest);
    printf(", exchanged: %" PRIu64 ", exchanged_hart: %" PRIu64 " }\n", it->exchanged, it->exchanged_hart);
}

static void print_arrival(const struct tracebench_arrival *it) {
    printf("Arrival { number: %" PRIu64 ", by: %" PRIu64 ", offset: %" PRIu64 ", fate: %" PRIu32 ", hart: %u }\n",
           it->number, it->by, it->offset, it->fate, it->hart);
}

static void print_lost(const struct tracebench_lost_run *it) {
    printf("LostRun { first: %" PRIu64 ", last: %" PRIu64 ", hart: %" PRIu64 " }\n", it->first, it->last, it->hart);
}

static void print_end(const struct tracebench_path_end *it) {
    printf("PathEnd { harts: %zu, messages: %zu, lost_runs: %zu, byte_runs: %zu", it->harts, it->messages,
           it->lost_runs, it->byte_runs);
    printf(", bytes: %" PRIu64 ", strangers: %" PRIu64 ", first: %" PRIu64, it->bytes, it->strangers, it->first);
    print_header(", sent_header: ", &it->sent_header, "");
    print_header(", received_header: ", &it->received_header, "");
    printf(", has_sent_header: %" PRIu32 ", has_received_header: %" PRIu32 ", header_fault: %" PRIu32,
           it->has_sent_header, it->has_received_header, it->header_fault);
    printf(", headers_differ: %" PRIu32 ", has_first: %" PRIu32 ", whole: %" PRIu32 " }\n", it->headers_differ,
           it->has_first, it->whole);
}

/* What was sent: messages of one byte, of two harts. */
static const char lines[] =
    "0 61\n1 41\n0 62\n1 42\n0 63\n1 43\n0 64\n0 65\n0 66\n0 67\n0 68\n0 69\n0 6a\n0 6b\n0 6c\n";

/* What came of it: up to five bytes of no message, and after them. */
static const struct came first_came[] = {
    {0, 0, 'a'}, {1, 0, 'A'}, {0, 1, 'b'}, {1, 1, 'B'}, {0, 3, 'd'},
    {0, 7, 'h'}, {0, 2, 'c'}, {2, 0, 'a'}, {0, 0, 'a'}, {1, 1, 'B'},
};
static const struct came then_came[] = {
    {0, 8, 'i'}, {0, 9, 'x'}, {0, 10, 'k'}, {0, 10, 'k'}, {1, 1, 'B'}, {0, 11, 'l'}, {1, 2, 'x'}, {2, 1, 'a'},
};

#define COUNT(array) (sizeof(array) / sizeof *(array))

static size_t capture_lines(uint8_t *capture, size_t room) {
    size_t wanted = 0;
    uint64_t line = 0;
    done("capture_of_lines",
         tracebench_capture_of_lines((const uint8_t *)lines, sizeof lines - 1, TRACEBENCH_VERSION_TWO, TRACEBENCH_FULL,
                                     5, 0, 0, capture, room, &wanted, &line));
    return wanted;
}

/* Prints the header and each message of a capture. */
static void read_capture(const uint8_t *capture, size_t length) {
    struct tracebench_header header = {0, 0, 0};
    struct tracebench_message message;
    size_t taken = 0;
    done("read_header", tracebench_read_header(capture, length, &header, &taken));
    print_header("", &header, "\n");
    for (size_t at = taken; at < length; at += taken) {
        done("read_message", tracebench_read_message(capture + at, length - at, &message, &taken));
        printf("Message { number: %" PRIu64 ", payload_length: %zu, hart: %u, payload: ", message.number,
               message.payload_length, message.hart);
        for (size_t i = 0; i < message.payload_length; i++) printf("%02x", message.payload[i]);
        printf(" }\n");
    }
}

/* A second line with a number and no bytes. */
static void refused_line(void) {
    static const char text[] = "0 61\n0 1 62\n";
    uint8_t capture[1];
    size_t wanted = 0;
    uint64_t line = 0;
    const uint32_t status = tracebench_capture_of_lines((const uint8_t *)text, sizeof text - 1, TRACEBENCH_VERSION_TWO,
                                                        TRACEBENCH_FULL, 5, 0, 0, capture, 0, &wanted, &line);
    printf("line %" PRIu64 ": status %" PRIu32 "\n", line, status);
}

static size_t write_messages(uint8_t *at, size_t room, const struct came *messages, size_t count) {
    size_t length = 0, wanted = 0;
    for (size_t i = 0; i < count; i++) {
        done("write_message", tracebench_write_message(messages[i].hart, messages[i].number,
                                                       (const uint8_t *)&messages[i].payload, 1, at + length,
                                                       room - length, &wanted));
        length += wanted;
    }
    return length;
}

/* What came, after a header of its own. */
static size_t write_received(uint8_t *at, size_t room) {
    const struct tracebench_header header = {TRACEBENCH_DIFFERENTIAL, 7, 3};
    size_t length = 0;
    done("write_header", tracebench_write_header(&header, at, room, &length));
    length += write_messages(at + length, room - length, first_came, COUNT(first_came));
    memset(at + length, 0xee, 5);
    length += 5;
    return length + write_messages(at + length, room - length, then_came, COUNT(then_came));
}

/* Audits a path, by numbers or by payloads alone. Prints all that is found, or the end. */
static void audit_by(uint32_t flags, const uint8_t *sent, size_t sent_length, const uint8_t *received,
                     size_t received_length, int all) {
    static struct tracebench_hart_row rows[MOST];
    static struct tracebench_arrival arrivals[MOST];
    static struct tracebench_lost_run lost[MOST];
    static struct tracebench_byte_run runs[MOST];
    struct tracebench_sent_place refused;
    struct tracebench_path_end ended;
    done("audit_all", tracebench_audit_all(sent, sent_length, received, received_length, flags, rows, MOST, arrivals,
                                           MOST, lost, MOST, runs, MOST, &refused, &ended));
    for (size_t i = 0; all && i < ended.harts; i++) print_row(&rows[i]);
    for (size_t i = 0; all && i < ended.messages; i++) print_arrival(&arrivals[i]);
    for (size_t i = 0; all && i < ended.lost_runs; i++) print_lost(&lost[i]);
    for (size_t i = 0; all && i < ended.byte_runs; i++)
        printf("ByteRun { offset: %" PRIu64 ", count: %" PRIu64 " }\n", runs[i].offset, runs[i].count);
    print_end(&ended);
}

static void audit(const uint8_t *sent, size_t sent_length, const uint8_t *received, size_t received_length, int all) {
    audit_by(0, sent, sent_length, received, received_length, all);
    audit_by(TRACEBENCH_UNNUMBERED, sent, sent_length, received, received_length, all);
}

/* What is refused as SENT: its last message is not the next of its hart. */
static void refused_sent(void) {
    static const struct came messages[] = {{0, 0, 'a'}, {1, 0, 'A'}, {0, 1, 'b'}, {1, 3, 'D'}};
    uint8_t sent[MOST];
    struct tracebench_sent_place refused = {0, 0};
    struct tracebench_path_end ended;
    struct tracebench_hart_row row;
    struct tracebench_arrival arrival;
    struct tracebench_lost_run lost;
    struct tracebench_byte_run run;
    const size_t length = write_messages(sent, sizeof sent, messages, COUNT(messages));
    const uint32_t status = tracebench_audit_all(sent, length, sent, length, 0, &row, 0, &arrival, 0, &lost, 0, &run, 0,
                                                 &refused, &ended);
    if (status != TRACEBENCH_GAP) stop("audit_all", status);
    printf("SentPlace { message: %" PRIu64 ", expected: %" PRIu64 " }\n", refused.message, refused.expected);
}

int main(void) {
    uint8_t sent[1024], received[1024], bad[HEADER];
    const size_t length = capture_lines(sent, sizeof sent);
    read_capture(sent, length);
    refused_line();
    const size_t other = write_received(received, sizeof received);
    audit(sent, length, received, other, 1);
    /* RECEIVED has no header; SENT has none, and the period of RECEIVED's is 0; and all came. */
    audit(sent, length, received + HEADER, other - HEADER, 0);
    memcpy(bad, sent, HEADER);
    bad[12] = bad[13] = 0;
    audit(sent + HEADER, length - HEADER, bad, HEADER, 0);
    audit(sent, length, sent, length, 0);
    refused_sent();
    return 0;
}
