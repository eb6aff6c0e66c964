/*
 * What the package of tracebench.sv calls: the calls of tracebench.h, with numbers as DPI passes them. A packed struct
 * comes as words of 32 bits, the lowest first. On x86-64 that is the struct of C, byte by byte. It is C and C++.
 */
#include "tracebench.h"

#include <assert.h>
#include <stdlib.h>
#include <string.h>
#include <svdpi.h>

#ifdef __cplusplus
extern "C" {
#endif

/* The bytes of the longest payload. */
#define MOST_BYTES 18

/*
 * An image in pieces, which are sorted by base. The bytes of each are in a block of its own. `text` is the last text
 * that was written over it, up to the next one.
 */
struct image {
    struct tracebench_piece *pieces;
    size_t count;
    uint8_t *text;
};

static_assert(sizeof(struct tracebench_packet) == 56, "the bits of packet_t");
static_assert(sizeof(struct tracebench_event) == 24, "the bits of event_t");
static_assert(sizeof(struct tracebench_encoder_state) == 56, "the bits of encoder_state_t");
static_assert(sizeof(struct tracebench_decoder_state) == 72, "the bits of decoder_state_t");
static_assert(sizeof(struct tracebench_hart_state) == 80, "the bits of hart_state_t");
static_assert(sizeof(struct tracebench_walk_state) == 32, "the bits of walk_state_t");
static_assert(sizeof(struct tracebench_message) == 40, "the bits of message_t");
static_assert(sizeof(struct tracebench_header) == 8, "the bits of header_t");
static_assert(sizeof(struct tracebench_hart_row) == 112, "the bits of hart_row_t");
static_assert(sizeof(struct tracebench_arrival) == 32, "the bits of arrival_t");
static_assert(sizeof(struct tracebench_lost_run) == 24, "the bits of lost_run_t");
static_assert(sizeof(struct tracebench_byte_run) == 16, "the bits of byte_run_t");
static_assert(sizeof(struct tracebench_sent_place) == 16, "the bits of sent_place_t");
static_assert(sizeof(struct tracebench_path_end) == 96, "the bits of path_end_t");
static_assert(sizeof(struct tracebench_hart_end) == 16, "the bits of hart_end_t");
static_assert(sizeof(struct tracebench_decode_all_end) == 24, "the bits of decode_all_end_t");
static_assert(sizeof(struct tracebench_text_end) == 32, "the bits of text_end_t");
static_assert(sizeof(struct tracebench_log_place) == 16, "the bits of log_place_t");
static_assert(sizeof(struct tracebench_explain_end) == 16, "the bits of explain_end_t");

const char *tracebench_dpi_status_text(uint32_t status) { return tracebench_status_text(status); }

/* A copy of an array of SystemVerilog, in a block that is never empty. */
static uint8_t *copied(const svOpenArrayHandle bytes, size_t length) {
    uint8_t *copy = (uint8_t *)malloc(length + 1);
    for (size_t i = 0; copy != NULL && i < length; i++)
        copy[i] = *(const uint8_t *)svGetArrElemPtr1(bytes, svLow(bytes, 1) + (int)i);
    return copy;
}

uint32_t tracebench_dpi_add_piece(void *image, uint64_t base, const svOpenArrayHandle bytes) {
    struct image *of = (struct image *)image;
    if (of == NULL) return TRACEBENCH_MEMORY;
    const size_t length = (size_t)svSize(bytes, 1);
    void *pieces = realloc(of->pieces, (of->count + 1) * sizeof *of->pieces);
    if (pieces == NULL) return TRACEBENCH_MEMORY;
    of->pieces = (struct tracebench_piece *)pieces;
    uint8_t *copy = copied(bytes, length);
    if (copy == NULL) return TRACEBENCH_MEMORY;
    size_t place = of->count++;
    for (; place != 0 && base < of->pieces[place - 1].base; place--) of->pieces[place] = of->pieces[place - 1];
    of->pieces[place].base = base;
    of->pieces[place].bytes = copy;
    of->pieces[place].length = length;
    return TRACEBENCH_DONE;
}

void tracebench_dpi_free_image(void *image) {
    struct image *of = (struct image *)image;
    if (of == NULL) return;
    for (size_t i = 0; i < of->count; i++) free((void *)(uintptr_t)of->pieces[i].bytes);
    free(of->pieces);
    free(of->text);
    free(of);
}

void *tracebench_dpi_new_image(uint64_t base, const svOpenArrayHandle bytes) {
    struct image *image = (struct image *)calloc(1, sizeof *image);
    if (tracebench_dpi_add_piece(image, base, bytes) == TRACEBENCH_DONE) return image;
    tracebench_dpi_free_image(image);
    return NULL;
}

uint32_t tracebench_dpi_pack(const svBitVecVal *packet, svBitVecVal *payload, uint32_t *length) {
    struct tracebench_packet given;
    uint8_t bytes[MOST_BYTES] = {0};
    size_t wanted = 0;
    memcpy(&given, packet, sizeof given);
    const uint32_t status = tracebench_pack(&given, bytes, sizeof bytes, &wanted);
    memset(payload, 0, SV_PACKED_DATA_NELEMS(8 * MOST_BYTES) * sizeof *payload);
    memcpy(payload, bytes, sizeof bytes);
    *length = (uint32_t)wanted;
    return status;
}

uint32_t tracebench_dpi_unpack(const svBitVecVal *payload, uint32_t length, svBitVecVal *packet) {
    struct tracebench_packet unpacked;
    memset(&unpacked, 0, sizeof unpacked);
    const uint32_t status =
        length > MOST_BYTES ? TRACEBENCH_TOO_LONG : tracebench_unpack((const uint8_t *)payload, length, &unpacked);
    memcpy(packet, &unpacked, sizeof unpacked);
    return status;
}

uint32_t tracebench_dpi_encoder(uint16_t period, uint32_t mode, svBitVecVal *state, svBitVecVal *opening) {
    struct tracebench_encoder_state first;
    struct tracebench_packet packet;
    memset(&first, 0, sizeof first);
    memset(&packet, 0, sizeof packet);
    const uint32_t status = tracebench_encoder(period, mode, &first, &packet);
    memcpy(state, &first, sizeof first);
    memcpy(opening, &packet, sizeof packet);
    return status;
}

/* A call that takes the next event of a log. */
typedef uint32_t push_call(const struct tracebench_piece *pieces, size_t pieces_length,
                           struct tracebench_encoder_state *state, const struct tracebench_event *event,
                           struct tracebench_packet *packets, size_t packets_length, size_t *count);

static uint32_t push_by(push_call *call, const struct image *of, svBitVecVal *state, const svBitVecVal *next,
                        svBitVecVal *packets, uint32_t *count) {
    struct tracebench_encoder_state kept;
    struct tracebench_event event;
    struct tracebench_packet due[2];
    size_t made = 0;
    memset(due, 0, sizeof due);
    memcpy(&kept, state, sizeof kept);
    memcpy(&event, next, sizeof event);
    const uint32_t status = of == NULL ? TRACEBENCH_MEMORY
                                       : call(of->pieces, of->count, &kept, &event, due, 2, &made);
    memcpy(state, &kept, sizeof kept);
    memcpy(packets, due, sizeof due);
    *count = (uint32_t)made;
    return status;
}

uint32_t tracebench_dpi_push(void *image, svBitVecVal *state, const svBitVecVal *next, svBitVecVal *packets,
                             uint32_t *count) {
    return push_by(tracebench_push, (const struct image *)image, state, next, packets, count);
}

uint32_t tracebench_dpi_push_checked(void *image, svBitVecVal *state, const svBitVecVal *next, svBitVecVal *packets,
                                     uint32_t *count) {
    return push_by(tracebench_push_checked, (const struct image *)image, state, next, packets, count);
}

uint32_t tracebench_dpi_follow(void *image, uint32_t has_before, const svBitVecVal *before, const svBitVecVal *next) {
    const struct image *of = (const struct image *)image;
    struct tracebench_event earlier;
    struct tracebench_event event;
    memcpy(&earlier, before, sizeof earlier);
    memcpy(&event, next, sizeof event);
    return of == NULL ? TRACEBENCH_MEMORY
                      : tracebench_follow(of->pieces, of->count, has_before, &earlier, &event);
}

uint32_t tracebench_dpi_finish(void *image, const svBitVecVal *state, svBitVecVal *packets, uint32_t *count) {
    const struct image *of = (const struct image *)image;
    struct tracebench_encoder_state kept;
    struct tracebench_packet due[2];
    size_t made = 0;
    memset(due, 0, sizeof due);
    memcpy(&kept, state, sizeof kept);
    const uint32_t status =
        of == NULL ? TRACEBENCH_MEMORY : tracebench_finish(of->pieces, of->count, &kept, due, 2, &made);
    memcpy(packets, due, sizeof due);
    *count = (uint32_t)made;
    return status;
}

void tracebench_dpi_decoder(svBitVecVal *state) {
    struct tracebench_decoder_state first;
    tracebench_decoder(&first);
    memcpy(state, &first, sizeof first);
}

/* Hands events to an array of SystemVerilog, the first to its lowest index. */
static void hand_out(const struct tracebench_event *events, size_t count, const svOpenArrayHandle to) {
    for (size_t i = 0; i < count; i++) {
        svBitVecVal words[sizeof *events / sizeof(svBitVecVal)];
        memcpy(words, &events[i], sizeof *events);
        svPutBitArrElem1VecVal(to, words, svLow(to, 1) + (int)i);
    }
}

uint32_t tracebench_dpi_generate_events(void *image, svBitVecVal *walk, const svOpenArrayHandle events) {
    const struct image *of = (const struct image *)image;
    const size_t count = (size_t)svSize(events, 1);
    struct tracebench_event *at = (struct tracebench_event *)malloc((count + 1) * sizeof *at);
    struct tracebench_walk_state kept;
    memcpy(&kept, walk, sizeof kept);
    const uint32_t status = of == NULL || at == NULL
                                ? TRACEBENCH_MEMORY
                                : tracebench_generate_events(of->pieces, of->count, &kept, at, count);
    memcpy(walk, &kept, sizeof kept);
    if (status == TRACEBENCH_DONE) hand_out(at, count, events);
    free(at);
    return status;
}

uint32_t tracebench_dpi_feed(void *image, svBitVecVal *state, const svBitVecVal *payload, uint32_t length,
                             const svOpenArrayHandle events, uint32_t *count) {
    const struct image *of = (const struct image *)image;
    const size_t room = (size_t)svSize(events, 1);
    struct tracebench_decoder_state kept;
    uint64_t settled = 0;
    *count = 0;
    if (length > MOST_BYTES) return TRACEBENCH_TOO_LONG;
    struct tracebench_event *at = (struct tracebench_event *)malloc((room + 1) * sizeof *at);
    if (of == NULL || at == NULL) {
        free(at);
        return TRACEBENCH_MEMORY;
    }
    memcpy(&kept, state, sizeof kept);
    const uint32_t status = tracebench_feed(of->pieces, of->count, &kept, (const uint8_t *)payload, length,
                                            at, room, &settled);
    memcpy(state, &kept, sizeof kept);
    if (status == TRACEBENCH_DONE) hand_out(at, settled, events);
    *count = (uint32_t)settled;
    free(at);
    return status;
}

uint32_t tracebench_dpi_receive(void *image, svBitVecVal *hart, uint64_t number, const svBitVecVal *payload,
                                uint32_t length, const svOpenArrayHandle events, uint32_t *count, uint64_t *missing) {
    const struct image *of = (const struct image *)image;
    const size_t room = (size_t)svSize(events, 1);
    struct tracebench_hart_state kept;
    uint64_t settled = 0;
    *count = 0;
    *missing = 0;
    if (length > MOST_BYTES) return TRACEBENCH_TOO_LONG;
    struct tracebench_event *at = (struct tracebench_event *)malloc((room + 1) * sizeof *at);
    if (of == NULL || at == NULL) {
        free(at);
        return TRACEBENCH_MEMORY;
    }
    memcpy(&kept, hart, sizeof kept);
    const uint32_t status = tracebench_receive(of->pieces, of->count, &kept, number,
                                               (const uint8_t *)payload, length, at, room, &settled, missing);
    memcpy(hart, &kept, sizeof kept);
    if (status == TRACEBENCH_DONE) hand_out(at, settled, events);
    *count = (uint32_t)settled;
    free(at);
    return status;
}

uint32_t tracebench_dpi_resume(svBitVecVal *hart, uint64_t number, uint32_t mode) {
    struct tracebench_hart_state kept;
    memcpy(&kept, hart, sizeof kept);
    const uint32_t status = tracebench_resume(&kept, number, mode);
    memcpy(hart, &kept, sizeof kept);
    return status;
}

uint32_t tracebench_dpi_write_message(uint16_t hart, uint64_t number, const svBitVecVal *payload, uint32_t length,
                                      svBitVecVal *bytes, uint32_t *size) {
    uint8_t written[29] = {0};
    size_t wanted = 0;
    const uint32_t status = length > MOST_BYTES ? TRACEBENCH_TOO_LONG
                                                : tracebench_write_message(hart, number, (const uint8_t *)payload,
                                                                           length, written, sizeof written, &wanted);
    memset(bytes, 0, SV_PACKED_DATA_NELEMS(8 * sizeof written) * sizeof *bytes);
    memcpy(bytes, written, sizeof written);
    *size = (uint32_t)wanted;
    return status;
}

/* Bytes in a block of their own, which is NULL where an allocation failed. */
struct taken_bytes {
    uint8_t *at;
    size_t length;
};

/* The first so many bytes of an array, or all. */
static struct taken_bytes bytes_of(const svOpenArrayHandle array, uint32_t length) {
    const size_t all = (size_t)svSize(array, 1);
    struct taken_bytes bytes;
    bytes.length = length < all ? length : all;
    bytes.at = copied(array, bytes.length);
    return bytes;
}

uint32_t tracebench_dpi_read_message(const svOpenArrayHandle array, uint32_t length, uint32_t from,
                                     svBitVecVal *message, uint32_t *taken) {
    struct tracebench_message found;
    struct taken_bytes bytes = bytes_of(array, length);
    size_t used = 0;
    memset(&found, 0, sizeof found);
    const size_t start = from < bytes.length ? from : bytes.length;
    const uint32_t status = bytes.at == NULL ? TRACEBENCH_MEMORY
                                             : tracebench_read_message(bytes.at + start, bytes.length - start, &found,
                                                                       &used);
    free(bytes.at);
    memcpy(message, &found, sizeof found);
    *taken = (uint32_t)used;
    return status;
}

uint32_t tracebench_dpi_write_header(const svBitVecVal *header, svBitVecVal *bytes) {
    struct tracebench_header given;
    uint8_t written[16] = {0};
    size_t wanted = 0;
    memcpy(&given, header, sizeof given);
    const uint32_t status = tracebench_write_header(&given, written, sizeof written, &wanted);
    memcpy(bytes, written, sizeof written);
    return status;
}

uint32_t tracebench_dpi_read_header(const svOpenArrayHandle array, uint32_t length, svBitVecVal *header,
                                    uint32_t *taken) {
    struct tracebench_header found;
    struct taken_bytes bytes = bytes_of(array, length);
    size_t used = 0;
    memset(&found, 0, sizeof found);
    const uint32_t status =
        bytes.at == NULL ? TRACEBENCH_MEMORY : tracebench_read_header(bytes.at, bytes.length, &found, &used);
    free(bytes.at);
    memcpy(header, &found, sizeof found);
    *taken = (uint32_t)used;
    return status;
}

/* Hands bytes to an array of SystemVerilog, the first to its lowest index. */
static void hand_out_bytes(const uint8_t *bytes, size_t count, const svOpenArrayHandle to) {
    for (size_t i = 0; i < count; i++) *(uint8_t *)svGetArrElemPtr1(to, svLow(to, 1) + (int)i) = bytes[i];
}

uint32_t tracebench_dpi_generate_image(uint32_t mix, uint64_t seed, const svOpenArrayHandle bytes, uint32_t *size) {
    const size_t room = (size_t)svSize(bytes, 1);
    size_t wanted = 0;
    uint8_t *at = (uint8_t *)malloc(room + 1);
    const uint32_t status =
        at == NULL ? TRACEBENCH_MEMORY : tracebench_generate_image(mix, seed, at, room, &wanted);
    if (status == TRACEBENCH_DONE) hand_out_bytes(at, wanted, bytes);
    *size = (uint32_t)wanted;
    free(at);
    return status;
}

uint32_t tracebench_dpi_capture_of_lines(const char *lines, uint32_t version, uint32_t mode, uint16_t period,
                                         uint16_t harts, uint64_t numbers, const svOpenArrayHandle capture,
                                         uint32_t *size, uint64_t *line) {
    const size_t room = (size_t)svSize(capture, 1);
    size_t wanted = 0;
    *line = 0;
    uint8_t *at = (uint8_t *)malloc(room + 1);
    const uint32_t status =
        at == NULL ? TRACEBENCH_MEMORY
                   : tracebench_capture_of_lines((const uint8_t *)lines, strlen(lines), version, mode, period, harts,
                                                 numbers, at, room, &wanted, line);
    if (status == TRACEBENCH_DONE) hand_out_bytes(at, wanted, capture);
    *size = (uint32_t)wanted;
    free(at);
    return status;
}

/* Where logs end, in a block that is never empty. */
static size_t *ends_of(const svOpenArrayHandle ends, size_t *count) {
    *count = (size_t)svSize(ends, 1);
    size_t *copy = (size_t *)malloc((*count + 1) * sizeof *copy);
    for (size_t i = 0; copy != NULL && i < *count; i++)
        copy[i] = (size_t)*(const uint64_t *)svGetArrElemPtr1(ends, svLow(ends, 1) + (int)i);
    return copy;
}

uint32_t tracebench_dpi_encode(void *image, const char *logs, const svOpenArrayHandle ends, uint16_t period,
                               uint32_t mode, uint32_t version, const svOpenArrayHandle capture, uint32_t *size,
                               svBitVecVal *place) {
    const struct image *of = (const struct image *)image;
    const size_t room = (size_t)svSize(capture, 1);
    struct tracebench_log_place refused;
    size_t count, wanted = 0;
    size_t *log_ends = ends_of(ends, &count);
    uint8_t *at = (uint8_t *)malloc(room + 1);
    memset(&refused, 0, sizeof refused);
    const uint32_t status = of == NULL || log_ends == NULL || at == NULL
                                ? TRACEBENCH_MEMORY
                                : tracebench_encode(of->pieces, of->count, (const uint8_t *)logs,
                                                                strlen(logs), log_ends, count, period, mode, version,
                                                                at, room, &wanted, &refused);
    if (status == TRACEBENCH_DONE) hand_out_bytes(at, wanted, capture);
    memcpy(place, &refused, sizeof refused);
    *size = (uint32_t)wanted;
    free(log_ends);
    free(at);
    return status;
}

/* Hands structs of so many bytes to an array of SystemVerilog, the first to its lowest index. */
static void hand_out_structs(const void *structs, size_t size, size_t count, const svOpenArrayHandle to) {
    for (size_t i = 0; i < count; i++) {
        svBitVecVal words[sizeof(struct tracebench_hart_row) / sizeof(svBitVecVal)];
        memcpy(words, (const uint8_t *)structs + i * size, size);
        svPutBitArrElem1VecVal(to, words, svLow(to, 1) + (int)i);
    }
}

uint32_t tracebench_dpi_audit_all(const svOpenArrayHandle sent, uint32_t sent_length,
                                  const svOpenArrayHandle received, uint32_t received_length, uint32_t flags,
                                  const svOpenArrayHandle rows, const svOpenArrayHandle arrivals,
                                  const svOpenArrayHandle lost, const svOpenArrayHandle runs, svBitVecVal *refused,
                                  svBitVecVal *ended) {
    const size_t room[] = {(size_t)svSize(rows, 1), (size_t)svSize(arrivals, 1), (size_t)svSize(lost, 1),
                           (size_t)svSize(runs, 1)};
    struct taken_bytes of_sent = bytes_of(sent, sent_length);
    struct taken_bytes of_received = bytes_of(received, received_length);
    struct tracebench_hart_row *row = (struct tracebench_hart_row *)malloc((room[0] + 1) * sizeof *row);
    struct tracebench_arrival *arrival = (struct tracebench_arrival *)malloc((room[1] + 1) * sizeof *arrival);
    struct tracebench_lost_run *gap = (struct tracebench_lost_run *)malloc((room[2] + 1) * sizeof *gap);
    struct tracebench_byte_run *run = (struct tracebench_byte_run *)malloc((room[3] + 1) * sizeof *run);
    struct tracebench_sent_place at;
    struct tracebench_path_end end;
    memset(&at, 0, sizeof at);
    memset(&end, 0, sizeof end);
    const int lacks = of_sent.at == NULL || of_received.at == NULL || row == NULL || arrival == NULL || gap == NULL ||
                      run == NULL;
    const uint32_t status = lacks ? TRACEBENCH_MEMORY
                                  : tracebench_audit_all(of_sent.at, of_sent.length, of_received.at,
                                                         of_received.length, flags, row, room[0], arrival, room[1],
                                                         gap, room[2], run, room[3], &at, &end);
    if (status == TRACEBENCH_DONE || status == TRACEBENCH_TOO_SMALL) {
        if (end.harts <= room[0]) hand_out_structs(row, sizeof *row, end.harts, rows);
        if (end.messages <= room[1]) hand_out_structs(arrival, sizeof *arrival, end.messages, arrivals);
        if (end.lost_runs <= room[2]) hand_out_structs(gap, sizeof *gap, end.lost_runs, lost);
        if (end.byte_runs <= room[3]) hand_out_structs(run, sizeof *run, end.byte_runs, runs);
    }
    memcpy(refused, &at, sizeof at);
    memcpy(ended, &end, sizeof end);
    free(of_sent.at);
    free(of_received.at);
    free(row);
    free(arrival);
    free(gap);
    free(run);
    return status;
}

/* What a call for a text is given, and what it writes besides; each call takes some of it. */
struct asked {
    uint16_t harts;
    struct taken_bytes capture;
    const char *words; /* symbols, logs or a log */
    size_t *log_ends;
    size_t logs;
    uint16_t period;
    uint32_t choice; /* a format or a mode */
    struct tracebench_hart_end *hart_ends;
    size_t hart_room;
    struct tracebench_decode_all_end all;
    struct tracebench_text_end text;
    struct tracebench_log_place place;
    struct tracebench_explain_end explained;
};

#define WORDS (const uint8_t *)asked->words, strlen(asked->words)
#define PIECES of->pieces, of->count

static uint32_t ask_decode_all(const struct image *of, struct asked *asked, uint8_t *at, size_t room, size_t *wanted) {
    return tracebench_decode_all(PIECES, asked->harts, asked->capture.at, asked->capture.length, at, room,
                                             wanted, asked->hart_ends, asked->hart_room, &asked->all);
}

static uint32_t ask_list(const struct image *of, struct asked *asked, uint8_t *at, size_t room, size_t *wanted) {
    return tracebench_list(PIECES, asked->harts, asked->capture.at, asked->capture.length, WORDS,
                                       asked->choice, at, room, wanted, &asked->text);
}

static uint32_t ask_salvage(const struct image *of, struct asked *asked, uint8_t *at, size_t room, size_t *wanted) {
    return tracebench_salvage(PIECES, asked->harts, asked->capture.at, asked->capture.length,
                                          asked->choice, at, room, wanted, &asked->text);
}

static uint32_t ask_list_salvaged(const struct image *of, struct asked *asked, uint8_t *at, size_t room,
                                  size_t *wanted) {
    return tracebench_list_salvaged(PIECES, asked->harts, asked->capture.at, asked->capture.length, WORDS,
                                                asked->choice, at, room, wanted, &asked->text);
}

static uint32_t ask_measure(const struct image *of, struct asked *asked, uint8_t *at, size_t room, size_t *wanted) {
    return tracebench_measure(PIECES, WORDS, asked->log_ends, asked->logs, asked->period, asked->choice,
                                          at, room, wanted, &asked->place);
}

static uint32_t ask_compare(const struct image *of, struct asked *asked, uint8_t *at, size_t room, size_t *wanted) {
    return tracebench_compare(PIECES, asked->harts, asked->capture.at, asked->capture.length, WORDS,
                                          asked->log_ends, asked->logs, at, room, wanted, &asked->text,
                                          &asked->place);
}

static uint32_t ask_explain(const struct image *of, struct asked *asked, uint8_t *at, size_t room, size_t *wanted) {
    return tracebench_explain(PIECES, WORDS, at, room, wanted, &asked->explained);
}

/* The room for a text at first. */
#define FIRST_ROOM 65536

typedef uint32_t text_call(const struct image *of, struct asked *asked, uint8_t *at, size_t room, size_t *wanted);

/* Calls with room for a short text, and where that is too small, with as much as is wanted. */
static uint32_t text_by(text_call *call, void *image, struct asked *asked, const char **text) {
    struct image *of = (struct image *)image;
    size_t room = FIRST_ROOM, wanted = 0;
    *text = "";
    while (of != NULL) {
        uint8_t *at = (uint8_t *)realloc(of->text, room + 1);
        if (at == NULL) break;
        of->text = at;
        const uint32_t status = call(of, asked, at, room, &wanted);
        if (status == TRACEBENCH_TOO_SMALL && wanted > room) {
            room = wanted;
            continue;
        }
        if (status == TRACEBENCH_DONE) {
            at[wanted] = 0;
            *text = (const char *)at;
        }
        return status;
    }
    return TRACEBENCH_MEMORY;
}

uint32_t tracebench_dpi_decode_all(void *image, uint16_t harts, const svOpenArrayHandle capture, uint32_t length,
                                   const svOpenArrayHandle ends, const char **text, svBitVecVal *ended) {
    struct asked asked;
    memset(&asked, 0, sizeof asked);
    asked.harts = harts;
    asked.capture = bytes_of(capture, length);
    asked.hart_room = (size_t)svSize(ends, 1);
    asked.hart_ends = (struct tracebench_hart_end *)calloc(asked.hart_room + 1, sizeof *asked.hart_ends);
    const int lacks = asked.capture.at == NULL || asked.hart_ends == NULL;
    const uint32_t status = text_by(ask_decode_all, lacks ? NULL : image, &asked, text);
    if (status == TRACEBENCH_DONE)
        hand_out_structs(asked.hart_ends, sizeof *asked.hart_ends, asked.all.harts, ends);
    memcpy(ended, &asked.all, sizeof asked.all);
    free(asked.capture.at);
    free(asked.hart_ends);
    return status;
}

/* Calls for a text about a capture that says how it ends; a call without symbols takes "" for them. */
static uint32_t text_of_capture(text_call *call, void *image, uint16_t harts, const svOpenArrayHandle capture,
                                uint32_t length, const char *symbols, uint32_t format, const char **text,
                                svBitVecVal *ended) {
    struct asked asked;
    memset(&asked, 0, sizeof asked);
    asked.harts = harts;
    asked.capture = bytes_of(capture, length);
    asked.words = symbols;
    asked.choice = format;
    const uint32_t status = text_by(call, asked.capture.at == NULL ? NULL : image, &asked, text);
    memcpy(ended, &asked.text, sizeof asked.text);
    free(asked.capture.at);
    return status;
}

uint32_t tracebench_dpi_list(void *image, uint16_t harts, const svOpenArrayHandle capture, uint32_t length,
                             const char *symbols, uint32_t format, const char **text, svBitVecVal *ended) {
    return text_of_capture(ask_list, image, harts, capture, length, symbols, format, text, ended);
}

uint32_t tracebench_dpi_salvage(void *image, uint16_t harts, const svOpenArrayHandle capture, uint32_t length,
                                uint32_t format, const char **text, svBitVecVal *ended) {
    return text_of_capture(ask_salvage, image, harts, capture, length, "", format, text, ended);
}

uint32_t tracebench_dpi_list_salvaged(void *image, uint16_t harts, const svOpenArrayHandle capture, uint32_t length,
                                      const char *symbols, uint32_t format, const char **text, svBitVecVal *ended) {
    return text_of_capture(ask_list_salvaged, image, harts, capture, length, symbols, format, text, ended);
}

uint32_t tracebench_dpi_measure(void *image, const char *logs, const svOpenArrayHandle ends, uint16_t period,
                                uint32_t mode, const char **text, svBitVecVal *place) {
    struct asked asked;
    memset(&asked, 0, sizeof asked);
    asked.words = logs;
    asked.log_ends = ends_of(ends, &asked.logs);
    asked.period = period;
    asked.choice = mode;
    const uint32_t status = text_by(ask_measure, asked.log_ends == NULL ? NULL : image, &asked, text);
    memcpy(place, &asked.place, sizeof asked.place);
    free(asked.log_ends);
    return status;
}

uint32_t tracebench_dpi_compare(void *image, uint16_t harts, const svOpenArrayHandle capture, uint32_t length,
                                const char *logs, const svOpenArrayHandle ends, const char **text, svBitVecVal *ended,
                                svBitVecVal *place) {
    struct asked asked;
    memset(&asked, 0, sizeof asked);
    asked.harts = harts;
    asked.capture = bytes_of(capture, length);
    asked.words = logs;
    asked.log_ends = ends_of(ends, &asked.logs);
    const int lacks = asked.capture.at == NULL || asked.log_ends == NULL;
    const uint32_t status = text_by(ask_compare, lacks ? NULL : image, &asked, text);
    memcpy(ended, &asked.text, sizeof asked.text);
    memcpy(place, &asked.place, sizeof asked.place);
    free(asked.capture.at);
    free(asked.log_ends);
    return status;
}

uint32_t tracebench_dpi_explain(void *image, const char *log, const char **text, svBitVecVal *ended) {
    struct asked asked;
    memset(&asked, 0, sizeof asked);
    asked.words = log;
    const uint32_t status = text_by(ask_explain, image, &asked, text);
    memcpy(ended, &asked.explained, sizeof asked.explained);
    return status;
}

#ifdef __cplusplus
}
#endif
