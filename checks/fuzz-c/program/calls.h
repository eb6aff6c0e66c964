/* The calls of the library, what each is given and what the header says that it writes. */
#ifndef CALLS_H
#define CALLS_H

#include "slices.h"
#include "tracebench.h"

/* What a call is given to read; each call takes some of it. */
struct given {
    uint64_t base;
    uint64_t number; /* of a message */
    struct slice image;
    struct slice bytes; /* a payload, the text of a log or of several, a capture, or SENT */
    struct slice other; /* RECEIVED, or where each log ends, or the numbers of a packet or an event */
    struct slice pieces; /* the image in several pieces */
    bool in_pieces;      /* these are handed in in place of one */
    struct slice state; /* of an encoder or a decoder, before the call; or the numbers of an event before */
    struct slice beside; /* symbols; or the texts of logs that a capture is compared with */
    uint16_t harts; /* or for how many elements there is room */
    uint16_t hart;
    uint16_t period;
    uint32_t mode; /* or whether there is an event before, or the format of a listing */
    uint32_t version;
};

/* The status of a call, and what it was given to write. */
struct answer {
    uint32_t status;
    struct slice buffer;
    struct slice wanted;
    struct slice first;  /* the struct, or the row, that is written besides */
    struct slice second; /* and one more */
};

/* A struct that a call writes: its size, and how many bytes of it have a meaning; padding has none. */
struct written {
    size_t size;
    size_t meaning;
};

/* From one status to another. The last of a list begins behind its end. */
struct span {
    uint32_t from;
    uint32_t to;
};

/* The statuses with which a struct is written: with all done, with a buffer that is too small, with any other. */
enum { WITH_DONE = 1, WITH_TOO_SMALL = 2, WITH_REFUSAL = 4 };

struct call {
    const char *name;
    uint32_t (*make)(const struct given *given, struct answer *answer);
    const struct span *statuses; /* those that the header lists */
    const struct span *faults;   /* those that may be written as a fault; NULL for a call that writes none */
    uint32_t (*fault)(const struct answer *answer);
    struct written first;
    struct written second;
    size_t unit; /* how many bytes an element has that it hands out through a buffer; 0 where it hands out none */
    int written; /* with which statuses `first` and `second` are written */
    size_t least; /* it is always given room for so many elements */
    bool takes_image; /* as one piece or as several */
    bool goes_on; /* `first` is a state, which is at first the one that is given */
    bool in_texts; /* an allocation that fails ends the text of each hart, and so of all not at one place */
    bool (*is_short)(const struct answer *answer); /* too small is what is given besides the buffer; NULL: never */
};

enum { CALLS = 33, STATUSES = 256 };

/* Room for what is found of a path: arrays of these lengths, one after the other behind the message that is refused. */
enum { MOST_HART_ROWS = 4, MOST_ARRIVALS = 64, MOST_LOST = 32, MOST_RUNS = 32 };
struct found {
    struct tracebench_sent_place refused;
    struct tracebench_hart_row rows[MOST_HART_ROWS];
    struct tracebench_arrival arrivals[MOST_ARRIVALS];
    struct tracebench_lost_run lost[MOST_LOST];
    struct tracebench_byte_run runs[MOST_RUNS];
};

/* The most elements that a call of many steps is given room for. */
enum { MOST_AT_ONCE = 16 };

/* The most harts that tracebench_decode_all is given room for. */
enum { MOST_ENDS = 32 };

extern const struct call pack, unpack, check, encode, dump, encoder, push, finish, decoder, feed;
extern const struct call follow, check_events, push_checked, receive, resume, push_all, feed_all, version;
extern const struct call write_message, read_message, write_header, read_header, capture_of_lines, audit_all;
extern const struct call decode_all, list_capture, measure, compare_logs, explain;
extern const struct call salvage, list_salvaged, generate_image, generate_events;

/* All of them. */
extern const struct call *const calls[CALLS];

/* Whether one of the spans has the status. */
bool is_listed(const struct span *spans, uint32_t status);

/* Whether a status is one of an answer: all is done, or but for a buffer that is too small. */
bool is_answer(uint32_t status);

/* Whether `first` and `second` are written with this status. */
bool is_written(const struct call *call, uint32_t status);

uint64_t wanted_of(const struct answer *answer);

/* The structs that are written, with what stands for the padding as it is. */
struct tracebench_packet packet_of(const struct answer *answer);
struct tracebench_dump_end dump_end_of(const struct answer *answer);
struct tracebench_path_end path_end_of(const struct answer *answer);
struct tracebench_decode_all_end decode_all_end_of(const struct answer *answer);
struct tracebench_text_end text_end_of(const struct answer *answer);
struct tracebench_explain_end explain_end_of(const struct answer *answer);

/* What a call is given that takes these bytes and no program. */
struct given given_bytes(struct slice bytes);

void give_back_given(struct given *given);
void give_back_answer(struct answer *answer);
void forget(struct given *given, struct answer *answer);

#endif
