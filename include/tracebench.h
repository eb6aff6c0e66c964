/* The bench for C and C++: which logs are legal, which capture they give, what a capture holds and decodes to, and
 * packets and their payloads. Each call is a few lines over one whose promises are proved.
 *
 * A slice is a pointer and the number of elements from there on. What every caller owes: no pointer is null, also
 * where the slice has no element; what a call is given to write overlaps nothing else that it is given; no call is
 * made in a signal handler, or in a forked child of a process with threads. Several threads may call at once, where
 * none of them writes what another is given. A call keeps nothing: the state of a log or trace is the caller's struct.
 *
 * Each call returns a status. TRACEBENCH_DONE says that an answer is written, not that it is a good one: that is in
 * `fault`, `bad`, `closed` and `whole`. With another status nothing is written but what the call names. Bytes go into
 * a buffer of the caller's, and `*wanted` is how many there are. Where the buffer has fewer, none is written to it,
 * and the status is TRACEBENCH_TOO_SMALL: a call with a buffer of length 0 asks for the size, and takes as long as one
 * that writes. With packets or events in place of bytes, `*count` is how many there are.
 *
 * TRACEBENCH_MEMORY comes only where an allocation failed. A call gives all memory back before it returns, and asks
 * the linked allocator alone. tracebench_encoder, tracebench_push_all, tracebench_finish, tracebench_check_events,
 * tracebench_generate_events, tracebench_decoder, tracebench_resume and the calls for one packet, message or header
 * take none, but for the list of the pieces where there are two or more. Time grows with the bytes, events and
 * payloads that are given and settled, not with the image; and with the square of the number of pieces. Once a packet
 * is refused, the calls that salvage make a table of 4 bytes for each byte of it. No proof bounds the stack: over logs
 * of 200,000 rows and images of up to 16 MiB calls took at most 19 kB of it. The library is built for x86-64-v2, 64-bit
 * processors with SSE4.2 and POPCNT, and does not check for them. */
#ifndef TRACEBENCH_H
#define TRACEBENCH_H

#include <stddef.h>
#include <stdint.h>

/* The version of this header, and of the program whose library it is. tracebench_version says that of the library. */
#define TRACEBENCH_VERSION "1.0.0"

#ifdef __cplusplus
extern "C" {
#endif

/* How a call ends, and why a capture stops: TRACEBENCH_ and a name, the number, and what the program reports of it,
 * without the row, the number or the file that an error line names. */
#define TRACEBENCH_STATUSES(STATUS) \
    STATUS(DONE, 0u, "all is done") \
    STATUS(TOO_SMALL, 1u, "the buffer is too small") \
    STATUS(MEMORY, 2u, "out of memory") \
    STATUS(OUT_OF_RANGE, 4u, "a number is out of its range") \
    STATUS(BAD_ENDS, 5u, "a log ends before its start, or past the texts") \
    STATUS(SHORT, 16u, "the capture ends inside a message") \
    STATUS(BAD_LENGTH, 17u, "payload length is not 1 to 18") \
    STATUS(BAD_HEADER, 20u, "capture header is not valid") \
    STATUS(EMPTY, 32u, "bad packet: Empty") \
    STATUS(TOO_LONG, 33u, "bad packet: TooLong") \
    STATUS(BAD_PAD, 34u, "bad packet: BadPad") \
    STATUS(UNSUPPORTED, 35u, "bad packet: Unsupported") \
    STATUS(BAD_PRIVILEGE, 36u, "bad packet: BadPrivilege") \
    STATUS(BAD_REPORT, 37u, "bad packet: BadReport") \
    STATUS(NO_PACKET, 38u, "no packet of the profile has these numbers") \
    STATUS(ODD_BASE, 48u, "base is odd") \
    STATUS(TOO_LARGE, 49u, "image is larger than 16777216 bytes") \
    STATUS(PAST_END, 50u, "image runs past the last address") \
    STATUS(OVERLAP, 51u, "overlaps") \
    STATUS(TOO_MUCH, 52u, "more than 67108864 bytes in all") \
    STATUS(TOO_MANY_PIECES, 53u, "more than 1024 pieces") \
    STATUS(NOT_SORTED, 54u, "a piece's base is below that of the piece before it") \
    STATUS(WRONG_HEADER, 64u, "wrong header") \
    STATUS(WRONG_FIELDS, 65u, "wrong number of fields") \
    STATUS(NO_NUMBER, 66u, "not a number") \
    STATUS(ODD_ADDRESS, 67u, "odd address") \
    STATUS(WRONG_ROW_TYPE, 68u, "unknown type") \
    STATUS(WRONG_ROW_PRIVILEGE, 69u, "unknown privilege") \
    STATUS(LARGE_CAUSE, 70u, "cause above 3f") \
    STATUS(WRONG_TRAP_FIELDS, 71u, "cause or value missing or not wanted") \
    STATUS(VALUED_INTERRUPT, 72u, "an interrupt has a value") \
    STATUS(TOO_MANY_ROWS, 73u, "more than 16777216 rows") \
    STATUS(OFF_PROGRAM, 80u, "OffProgram") \
    STATUS(NOT_RETIRABLE, 81u, "NotRetirable") \
    STATUS(WRONG_TYPE, 82u, "WrongType") \
    STATUS(WRONG_NEXT, 83u, "WrongNext") \
    STATUS(WRONG_PRIVILEGE, 84u, "WrongPrivilege") \
    STATUS(WRONG_EPC, 85u, "WrongEpc") \
    STATUS(STRANGER, 96u, "stranger") \
    STATUS(REPEAT, 97u, "repeat") \
    STATUS(GAP, 98u, "gap") \
    STATUS(AFTER_CLOSE, 99u, "after close") \
    STATUS(OTHER_MODE, 100u, "open of another mode") \
    STATUS(NOT_OPENED, 112u, "not decoded: NotOpened") \
    STATUS(WALKS_OFF_PROGRAM, 113u, "not decoded: OffProgram") \
    STATUS(MISSED_NOTIFY, 114u, "not decoded: MissedNotify") \
    STATUS(WRONG_BRANCHES, 115u, "not decoded: Branches") \
    STATUS(WRONG_PLACE, 116u, "not decoded: WrongPlace") \
    STATUS(WALKS_AT_WRONG_PRIVILEGE, 117u, "not decoded: WrongPrivilege") \
    STATUS(AFTER_CLOSING_PACKET, 118u, "not decoded: AfterClose") \
    STATUS(BAD_STATE, 128u, "no encoder or decoder has this state") \
    STATUS(NO_EVENT, 129u, "no event has these numbers") \
    STATUS(BAD_BEFORE, 130u, "the event before is illegal, whatever comes before it") \
    STATUS(LINE_FIELDS, 144u, "wrong number of fields") \
    STATUS(LINE_HART_ONE, 145u, "hart is not a number below 64") \
    STATUS(LINE_HART_TWO, 146u, "hart is not a number below 1024") \
    STATUS(LINE_NUMBER, 147u, "number is not a number") \
    STATUS(LINE_BYTES, 148u, "bytes are not 1 to 18") \
    STATUS(LINE_ABOVE, 149u, "hart is not below --harts") \
    STATUS(NO_SYMBOL, 150u, "no symbol of code: give it what nm prints") \
    STATUS(SYMBOLS_TOO_LARGE, 151u, "larger than 16777216 bytes") \
    STATUS(UNEQUAL_COUNTS, 152u, "there are more or fewer logs than harts")

enum tracebench_status {
#define TRACEBENCH_NUMBER(name, number, text) TRACEBENCH_##name = number,
    TRACEBENCH_STATUSES(TRACEBENCH_NUMBER)
#undef TRACEBENCH_NUMBER
};

/* A status as text, and "no status" for another number. The text is never null, and stays.
 *     if (status != TRACEBENCH_DONE) puts(tracebench_status_text(status)); */
static inline const char *tracebench_status_text(uint32_t status) {
    switch (status) {
#define TRACEBENCH_CASE(name, number, text) case number: return text;
    TRACEBENCH_STATUSES(TRACEBENCH_CASE)
#undef TRACEBENCH_CASE
    default: return "no status";
    }
}

/* Writes the version of the library as text, without a 0.
 *     status = tracebench_version(version, sizeof version, &wanted); */
uint32_t tracebench_version(uint8_t *buffer, size_t buffer_length, size_t *wanted);

/* The program: pieces of its image. */

/* A piece of an image: bytes from an address on. A program is an array of these, sorted by base: one, or a boot ROM,
 * flash and RAM. Pieces that touch act as one: an instruction may begin in one and end in the next. A piece without
 * bytes overlaps nothing. Without any piece, a program has no instruction.
 *
 * Where a call says what is wrong with the pieces, its status is TRACEBENCH_NOT_SORTED where a piece's base is below
 * that of the piece before it; else, of the first piece at fault, TRACEBENCH_ODD_BASE, TRACEBENCH_TOO_LARGE above 2^24
 * bytes, TRACEBENCH_PAST_END, TRACEBENCH_OVERLAP with a piece before it, TRACEBENCH_TOO_MUCH where the pieces up to it
 * have more than 2^26 bytes, or TRACEBENCH_TOO_MANY_PIECES where it is piece 1,025. One piece takes no memory. Of two
 * or more a call makes a list; where that fails, the status is TRACEBENCH_MEMORY, and counts, rows and places are 0. */
struct tracebench_piece {
    uint64_t base;        /* the address of the first byte, which is even */
    const uint8_t *bytes; /* the bytes; not null, also where there are none */
    size_t length;        /* how many bytes there are */
};

/* The piece of an image whose first byte is at `base`.
 *     const struct tracebench_piece program = tracebench_image(0x80000000, image, sizeof image);
 *     status = tracebench_check(&program, 1, log, log_length, &row); */
static inline struct tracebench_piece tracebench_image(uint64_t base, const uint8_t *image, size_t length) {
    struct tracebench_piece piece;
    piece.base = base;
    piece.bytes = image;
    piece.length = length;
    return piece;
}

/* Packets. */

/* What a packet is. */
#define TRACEBENCH_SYNC 0u      /* where the trace is: format 3, subformat 0 */
#define TRACEBENCH_TRAP 1u      /* an exception or an interrupt: format 3, subformat 1 */
#define TRACEBENCH_OPEN 2u      /* the trace is opened: format 3, subformat 3 */
#define TRACEBENCH_ENDED_REP 3u /* the trace is closed, and the last address was reported only because of that */
#define TRACEBENCH_ENDED_NTR 4u /* the trace is closed, and the last address would have been reported anyway */
#define TRACEBENCH_ADDRESS 5u   /* an address, with outcomes or without: format 1 or 2 */
#define TRACEBENCH_MAP 6u       /* the outcomes of 31 branches, without an address: format 1 without branches */

/* What address fields hold. */
#define TRACEBENCH_DIFFERENTIAL 0u /* differences */
#define TRACEBENCH_FULL 1u         /* addresses */

/* Why an address is reported. */
#define TRACEBENCH_PLAIN 0u    /* neither of the other two */
#define TRACEBENCH_UPDISCON 1u /* the instruction follows an uninferable discontinuity */
#define TRACEBENCH_NOTIFY 2u   /* the instruction is a backward jump */

/* Versions of a capture. */
#define TRACEBENCH_VERSION_ONE 1u /* without a header */
#define TRACEBENCH_VERSION_TWO 2u /* with one */

/* A packet as numbers. A flag is 0 or 1. What a packet of this kind does not have is 0. */
struct tracebench_packet {
    uint32_t kind;      /* TRACEBENCH_SYNC to TRACEBENCH_MAP */
    uint32_t taken;     /* of a sync or trap: the address holds a branch that was taken */
    uint32_t privilege; /* of a sync or trap: 0, 1 or 3 */
    uint32_t cause;     /* of a trap: below 64 */
    uint32_t interrupt; /* of a trap: it is an interrupt */
    uint32_t handler;   /* of a trap: address and privilege are those of the handler's first instruction */
    uint32_t mode;      /* of an open: TRACEBENCH_DIFFERENTIAL or TRACEBENCH_FULL */
    uint32_t report;    /* of an address: TRACEBENCH_PLAIN, TRACEBENCH_UPDISCON or TRACEBENCH_NOTIFY */
    uint32_t outcomes;  /* of an address or a map: how many outcomes of branches there are, 0 to 31 */
    uint32_t map;       /* these outcomes, the oldest in the lowest bit; a taken branch is 0 */
    uint64_t address;   /* of a sync or trap the address, of an address what names it; even */
    uint64_t tval;      /* of an exception: the trap value */
};

/* Writes the shortest payload of a packet, at most 18 bytes. The status may be TRACEBENCH_NO_PACKET: no packet of the
 * profile has these numbers.
 *     status = tracebench_pack(&packet, payload, sizeof payload, &length); */
uint32_t tracebench_pack(const struct tracebench_packet *packet, uint8_t *buffer, size_t buffer_length,
                         size_t *wanted);

/* Writes the packet of a payload. TRACEBENCH_EMPTY to TRACEBENCH_BAD_REPORT say why it is that of no packet.
 *     status = tracebench_unpack(payload, length, &packet); */
uint32_t tracebench_unpack(const uint8_t *payload, size_t payload_length, struct tracebench_packet *packet);

/* Events in, their packets out. */

/* What an event is. */
#define TRACEBENCH_RETIREMENT 0u /* an instruction retired */
#define TRACEBENCH_TRAP_TAKEN 1u /* an exception or an interrupt was taken */

/* An event as numbers. What an event of this kind does not have is 0: of a retirement the cause, the interrupt and the
 * trap value, of a trap the type. The others may be any; tracebench_check_events says whether a log may have them. */
struct tracebench_event {
    uint32_t kind;     /* TRACEBENCH_RETIREMENT or TRACEBENCH_TRAP_TAKEN */
    uint8_t itype;     /* of a retirement: 0 for none of the others, 3 for a return from a trap, 4 for a branch not
                          taken, 5 for a branch taken, 6 for an uninferable jump */
    uint8_t privilege; /* that the instruction retired at, or that the trap was taken from: 0, 1 or 3 */
    uint8_t cause;     /* of a trap: below 64 */
    uint8_t interrupt; /* of a trap: 1 where it is an interrupt */
    uint64_t address;  /* of a retirement the address, of a trap the exception program counter; even */
    uint64_t tval;     /* of an exception: the trap value */
};

/* What is due for the event that an encoder holds back. */
#define TRACEBENCH_DUE_NOTHING 0u         /* nothing, unless what comes next or the event itself calls for a packet */
#define TRACEBENCH_DUE_SYNC 1u            /* a sync */
#define TRACEBENCH_DUE_TARGET 2u          /* an address, as the target of an uninferable discontinuity */
#define TRACEBENCH_DUE_TRAP 3u            /* a trap, with its own address */
#define TRACEBENCH_DUE_TRAP_OR_HANDLER 4u /* a trap, with its handler if a retirement comes next */
#define TRACEBENCH_DUE_HANDLER 5u         /* nothing more: the event is a handler, and was reported with its trap */

/* What an encoder keeps from one event to the next. It may be copied, and goes on from each copy. These are the
 * numbers of an encoder, and with others the status is TRACEBENCH_BAD_STATE: `mode` is 0 or 1, `due` 0 to 5,
 * `outcomes` 0 to 31, and `map` has no bit from `outcomes` on. Either `holds` is 1 and `held` has the numbers of an
 * event, or it is 0 and so is all of `held`. The other three may be any numbers. */
struct tracebench_encoder_state {
    uint16_t between;             /* how many retirements come between two periodic syncs: the period less 1 */
    uint16_t left;                /* how many retirements come before the next periodic sync */
    uint32_t mode;                /* TRACEBENCH_DIFFERENTIAL or TRACEBENCH_FULL */
    uint32_t holds;               /* 1 where an event is held back until it is known what follows, and else 0 */
    uint32_t due;                 /* TRACEBENCH_DUE_NOTHING to TRACEBENCH_DUE_HANDLER */
    uint32_t outcomes;            /* how many outcomes of branches no packet has reported yet, 0 to 31 */
    uint32_t map;                 /* these outcomes, the oldest in the lowest bit; a taken branch is 0 */
    uint64_t reported;            /* the last reported address; 0 before the first */
    struct tracebench_event held; /* the event that is held back; all 0 where none is */
};

/* Writes the state of an encoder before the first event of a log, and the packet that opens the trace. There is a
 * periodic sync at each retirement whose number, from 0, the period divides. TRACEBENCH_OUT_OF_RANGE says that the
 * period is 0 or the mode is none.
 *     status = tracebench_encoder(1024, TRACEBENCH_DIFFERENTIAL, &state, &opening); */
uint32_t tracebench_encoder(uint16_t period, uint32_t mode, struct tracebench_encoder_state *state,
                            struct tracebench_packet *opening);

/* Takes the next events of a log, and writes the packets that they make due, 0 to 2 for each, the oldest first.
 * `*taken` is how many events were taken, and `*count` how many packets were written. `*state` is the state after
 * those events. The packets are those of the log where it is legal, which this call does not check. It is fastest with
 * many events and room for a packet of each. Where not all events were taken, the status says why the next one was
 * not: TRACEBENCH_TOO_SMALL where the rest of the buffer has no room for its packets, so that at most one more fits,
 * or TRACEBENCH_NO_EVENT where no event has its numbers. Or none was taken, and `*taken` and `*count` are 0:
 * TRACEBENCH_BAD_STATE, or what is wrong with the pieces.
 *     status = tracebench_push_all(&program, 1, &state, events, 100, packets, 64, &taken, &count); */
uint32_t tracebench_push_all(const struct tracebench_piece *pieces, size_t pieces_length,
                             struct tracebench_encoder_state *state, const struct tracebench_event *events,
                             size_t events_length, struct tracebench_packet *packets, size_t packets_length,
                             size_t *taken, size_t *count);

/* Takes one event as tracebench_push_all does, or with another status than TRACEBENCH_DONE writes nothing but `*count`,
 * which is 2 with TRACEBENCH_TOO_SMALL: a buffer for two packets is always large enough.
 *     status = tracebench_push(&program, 1, &state, &event, packets, 2, &count); */
static inline uint32_t tracebench_push(const struct tracebench_piece *pieces, size_t pieces_length,
                                       struct tracebench_encoder_state *state, const struct tracebench_event *event,
                                       struct tracebench_packet *packets, size_t packets_length, size_t *count) {
    size_t taken, made;
    const uint32_t status =
        tracebench_push_all(pieces, pieces_length, state, event, 1, packets, packets_length, &taken, &made);
    if (status == TRACEBENCH_DONE) *count = made;
    if (status == TRACEBENCH_TOO_SMALL) *count = 2;
    return status;
}

/* Takes the end of a log, and writes the packets that are left, 1 or 2. The last of them closes the trace. The status
 * may be TRACEBENCH_BAD_STATE, or say what is wrong with the pieces.
 *     status = tracebench_finish(&program, 1, &state, packets, 2, &count); */
uint32_t tracebench_finish(const struct tracebench_piece *pieces, size_t pieces_length,
                           const struct tracebench_encoder_state *state, struct tracebench_packet *packets,
                           size_t packets_length, size_t *count);

/* Says whether events are a legal log. Where they are, `*row` is how many there are. Else the status is of the first
 * row that is at fault, TRACEBENCH_NO_EVENT where no event has its numbers, and else TRACEBENCH_OFF_PROGRAM to
 * TRACEBENCH_WRONG_EPC; `*row` is that row, from 1 on. Or `*row` is 0: TRACEBENCH_TOO_MANY_ROWS above 16,777,216
 * events, or what is wrong with the pieces.
 *     status = tracebench_check_events(&program, 1, events, 4, &row); */
uint32_t tracebench_check_events(const struct tracebench_piece *pieces, size_t pieces_length,
                                 const struct tracebench_event *events, size_t events_length, uint64_t *row);

/* Says whether an event is legal after the event before it, or where `has_before` is 0 as the first of a log. So
 * `holds` and `held` of an encoder's state may be handed in, and `has_last` and `last` of a decoder's. The event
 * before is only checked by itself: TRACEBENCH_BAD_BEFORE says that it is illegal whatever comes before it. Events
 * that were each legal after the one before are a legal log. Another flag is TRACEBENCH_OUT_OF_RANGE.
 *     status = tracebench_follow(&program, 1, state.holds, &state.held, &event); */
static inline uint32_t tracebench_follow(const struct tracebench_piece *pieces, size_t pieces_length,
                                         uint32_t has_before, const struct tracebench_event *before,
                                         const struct tracebench_event *event) {
    struct tracebench_event both[2];
    uint64_t row;
    uint32_t status;
    if (has_before > 1) return TRACEBENCH_OUT_OF_RANGE;
    both[0] = has_before ? *before : *event;
    both[1] = *event;
    status = tracebench_check_events(pieces, pieces_length, both, has_before ? 2 : 1, &row);
    if (has_before && row == 1 && status >= TRACEBENCH_OFF_PROGRAM && status <= TRACEBENCH_WRONG_EPC)
        return TRACEBENCH_BAD_BEFORE;
    return status;
}

/* As tracebench_push, where the event is legal after the one that the state holds. Where it is not, the status says
 * why, as tracebench_follow does, and nothing is written: the next call may hand in another event.
 *     status = tracebench_push_checked(&program, 1, &state, &event, packets, 2, &count); */
static inline uint32_t tracebench_push_checked(const struct tracebench_piece *pieces, size_t pieces_length,
                                               struct tracebench_encoder_state *state,
                                               const struct tracebench_event *event,
                                               struct tracebench_packet *packets, size_t packets_length,
                                               size_t *count) {
    uint32_t status;
    if (state->holds > 1) return TRACEBENCH_BAD_STATE;
    status = tracebench_follow(pieces, pieces_length, state->holds, &state->held, event);
    if (status != TRACEBENCH_DONE) return status;
    return tracebench_push(pieces, pieces_length, state, event, packets, packets_length, count);
}

/* Stimulus: what `tracebench generate` draws from a seed, for a path whose owner has no core. */

/* What a program does, and how the harts behave that run it. */
#define TRACEBENCH_MIXED 0u    /* loops, computed jumps, branches of both outcomes, all levels, and traps */
#define TRACEBENCH_BRANCHES 1u /* branches alone */
#define TRACEBENCH_JUMPS 2u    /* a computed jump at every second instruction */
#define TRACEBENCH_TRAPS 3u    /* traps at a third of all events */
#define TRACEBENCH_LONGEST 4u  /* traps with long values at three quarters of all events */
#define TRACEBENCH_STRAIGHT 5u /* plain instructions, and few traps */

/* Writes the image of the program that a mix and a seed give, as `tracebench generate image` does: 4,096 bytes. The
 * status may be TRACEBENCH_OUT_OF_RANGE, where no mix has this number, or TRACEBENCH_MEMORY.
 *     status = tracebench_generate_image(TRACEBENCH_MIXED, 1, image, sizeof image, &wanted); */
uint32_t tracebench_generate_image(uint32_t mix, uint64_t seed, uint8_t *buffer, size_t buffer_length,
                                   size_t *wanted);

/* The walk of a hart through a program. Before its first event the seed, the mix and the hart are set, and the rest is
 * 0. It may be copied, and goes on from each copy. A state that no call wrote is as it is: its events may be no legal
 * log. `generate` has harts 0 to 1,023; here each number is a hart. */
struct tracebench_walk_state {
    uint64_t seed;     /* what all draws are decided by */
    uint64_t random;   /* the state of the generator that the hart draws from */
    uint64_t at;       /* where the next instruction is, if no trap comes before it */
    uint32_t mix;      /* TRACEBENCH_MIXED to TRACEBENCH_STRAIGHT */
    uint16_t hart;     /* the hart's number */
    uint8_t privilege; /* that of the next event */
    uint8_t next;      /* 0 before the first event, 1 where the next may be anywhere, 2 where it is at `at` */
};

/* Fills the buffer with the next events of a hart that runs the program, which are those of `tracebench generate log`.
 * They are a legal log of the program, which may be any, as long as it is the same at each call. With
 * tracebench_push_all and tracebench_write_message they become messages, of as many harts as there are states. Else
 * nothing is written: TRACEBENCH_OUT_OF_RANGE for `mix` or `next`, or what is wrong with the pieces.
 *     struct tracebench_walk_state hart_3 = {1, 0, 0, TRACEBENCH_MIXED, 3, 0, 0};
 *     status = tracebench_generate_events(&program, 1, &hart_3, events, 64); */
uint32_t tracebench_generate_events(const struct tracebench_piece *pieces, size_t pieces_length,
                                    struct tracebench_walk_state *state, struct tracebench_event *events,
                                    size_t events_length);

/* Payloads in, their events out. */

/* How far a trace has come. */
#define TRACEBENCH_UNOPENED 0u     /* no packet came */
#define TRACEBENCH_RUNNING 1u      /* it was opened */
#define TRACEBENCH_PASSING_OVER 2u /* packets were lost, those that come are passed over until a sync; see below */
#define TRACEBENCH_CLOSED 3u       /* it was closed */

/* What a decoder keeps from one payload to the next. It may be copied, and goes on from each copy. A flag is 0 or 1.
 * What a flag says is not there is 0. These are the numbers of a decoder, and with others the status is
 * TRACEBENCH_BAD_STATE: `phase` is 0 to 3, `mode` 0 or 1, `is_announced` 0 or 1, `announced` 0 to `is_announced`,
 * `outcomes` 0 to 31, and `map` has no bit from `outcomes` on. Either `waits` is 1, or it is 0 and so are `outcomes`,
 * `map` and `delta`. Either `has_last` is 1 and `last` has the numbers of an event, or it is 0 and so is all of
 * `last`. A decoder that passes over packets, after tracebench_resume, takes each up to the next sync, settles
 * nothing, and keeps its state, but for a packet that closes the trace. From the sync on it goes on as if that came
 * right after the packet which opens the trace. */
struct tracebench_decoder_state {
    uint32_t phase;               /* TRACEBENCH_UNOPENED to TRACEBENCH_CLOSED */
    uint32_t mode;                /* TRACEBENCH_DIFFERENTIAL or TRACEBENCH_FULL */
    uint32_t is_announced;        /* 1 where the packet that opens the trace came */
    uint32_t announced;           /* the mode that it announced */
    uint32_t has_last;            /* 1 where there is a last event */
    uint32_t waits;               /* 1 where an address packet waits for the one that follows it */
    uint32_t outcomes;            /* how many outcomes of branches it has, 0 to 31 */
    uint32_t map;                 /* these outcomes, the oldest in the lowest bit; a taken branch is 0 */
    uint64_t delta;               /* what its address field holds */
    uint64_t reported;            /* the last reported address; 0 before the first */
    struct tracebench_event last; /* the last event */
};

/* Writes the state of a decoder before the first packet.
 *     tracebench_decoder(&state); */
void tracebench_decoder(struct tracebench_decoder_state *state);

/* Takes the next payloads of a trace, and writes the events that they settle, the oldest first. `payloads` holds the
 * payloads one after the other, and `ends` where each ends. `*taken` is how many payloads were taken, `*count` how
 * many events were written, and `*state` the state after those payloads. An address packet with plain bits is settled
 * by the packet that follows it, so its events come with that packet's; all other events come at once. A payload has
 * up to 64 events for each two bytes of the image, and two. Where not all were taken, the status says why the next one
 * was not: TRACEBENCH_TOO_SMALL where the rest of the buffer has no room for its events, TRACEBENCH_OUT_OF_RANGE where
 * its end is before its start or past the payloads, TRACEBENCH_EMPTY to TRACEBENCH_BAD_REPORT where it is that of no
 * packet, TRACEBENCH_NOT_OPENED to TRACEBENCH_AFTER_CLOSING_PACKET where no log has these packets, or
 * TRACEBENCH_MEMORY. Or none was taken, and `*taken` and `*count` are 0: TRACEBENCH_BAD_STATE, or what is wrong with
 * the pieces.
 *     const size_t ends[] = {1, 6, 7};
 *     status = tracebench_feed_all(&program, 1, &state, payloads, 7, ends, 3, events, 64, &taken, &count); */
uint32_t tracebench_feed_all(const struct tracebench_piece *pieces, size_t pieces_length,
                             struct tracebench_decoder_state *state, const uint8_t *payloads, size_t payloads_length,
                             const size_t *ends, size_t ends_length, struct tracebench_event *events,
                             size_t events_length, size_t *taken, size_t *count);

/* What is kept of a hart from one message to the next, where messages may be lost. It may be copied, and goes on from
 * each copy. Before the first message, the decoder is as tracebench_decoder writes it, and number 0 is expected. */
struct tracebench_hart_state {
    struct tracebench_decoder_state decoder; /* what the hart's decoder keeps */
    uint64_t expected;                       /* the number of the message that is expected */
};

/* Takes the next message of a hart, which has this number. Messages before it may be lost. With TRACEBENCH_DONE the
 * events that it settles are written, `*count` is how many they are, and the number after this one is expected. With
 * TRACEBENCH_GAP `*missing` is how many numbers are missing before this one, and the message is not taken: the caller
 * ends the stretch of events that is under way, calls tracebench_resume, and hands the message in again. Else the
 * status is the first of these that applies, and nothing has changed but `*count` with TRACEBENCH_TOO_SMALL:
 * TRACEBENCH_AFTER_CLOSE where the trace was closed, or the number that is expected is 2^63; TRACEBENCH_REPEAT where
 * the number is below that; TRACEBENCH_OUT_OF_RANGE where it is 2^63 or more; TRACEBENCH_EMPTY to
 * TRACEBENCH_BAD_REPORT, also where numbers are missing; TRACEBENCH_BAD_STATE, what is wrong with the pieces, and as
 * with tracebench_feed_all.
 *     status = tracebench_receive(&program, 1, &hart, number, payload, length, events, 64, &count, &missing);
 *     if (status == TRACEBENCH_GAP) status = tracebench_resume(&hart, number, TRACEBENCH_DIFFERENTIAL); */
uint32_t tracebench_receive(const struct tracebench_piece *pieces, size_t pieces_length,
                            struct tracebench_hart_state *hart, uint64_t number, const uint8_t *payload,
                            size_t payload_length, struct tracebench_event *events, size_t events_length,
                            size_t *count, uint64_t *missing);

/* Takes one payload of a trace, as tracebench_receive takes a message of which none before it is lost. With
 * TRACEBENCH_TOO_SMALL it is not taken, and `*count` is how many events it has. After the packet that closes the trace
 * the status is TRACEBENCH_AFTER_CLOSING_PACKET.
 *     status = tracebench_feed(&program, 1, &state, payload, length, events, 64, &count); */
static inline uint32_t tracebench_feed(const struct tracebench_piece *pieces, size_t pieces_length,
                                       struct tracebench_decoder_state *state, const uint8_t *payload,
                                       size_t payload_length, struct tracebench_event *events, size_t events_length,
                                       size_t *count) {
    struct tracebench_hart_state hart;
    uint64_t missing;
    uint32_t status;
    hart.decoder = *state;
    hart.expected = 0;
    status = tracebench_receive(pieces, pieces_length, &hart, 0, payload, payload_length, events, events_length, count,
                                &missing);
    *state = hart.decoder;
    if (status == TRACEBENCH_AFTER_CLOSE) return TRACEBENCH_AFTER_CLOSING_PACKET;
    return status;
}

/* Lets a hart go on at the message with this number, before which others are lost. The decoder drops the packet that
 * waits, forgets the last event, and passes over packets until a sync comes: that begins a stretch, which the caller
 * keeps apart from the events before. Addresses are read in the mode that the packet announced which opened the trace;
 * where that packet did not come, in `mode`. Else nothing has changed: TRACEBENCH_BAD_STATE, TRACEBENCH_OUT_OF_RANGE
 * where the mode is none, or for the number as tracebench_receive.
 *     status = tracebench_resume(&hart, number, TRACEBENCH_DIFFERENTIAL); */
uint32_t tracebench_resume(struct tracebench_hart_state *hart, uint64_t number, uint32_t mode);

/* Messages and headers: the bytes of a capture, one part at a time. */

/* A message in numbers. */
struct tracebench_message {
    uint64_t number;       /* how many messages of its hart come before it */
    size_t payload_length; /* how many bytes its payload has, 1 to 18 */
    uint16_t hart;         /* the hart whose trace the payload belongs to */
    uint8_t payload[18];   /* the bytes of its payload, and then 0 */
};

/* Writes the bytes of a message, at most 29. A sender numbers the messages of each hart from 0. The hart and the
 * number may be any; the calls that decode know harts below 1,024. TRACEBENCH_EMPTY says that the payload has no byte,
 * TRACEBENCH_TOO_LONG that it has more than 18.
 *     status = tracebench_write_message(hart, number++, payload, length, bytes, sizeof bytes, &wanted); */
uint32_t tracebench_write_message(uint16_t hart, uint64_t number, const uint8_t *payload, size_t payload_length,
                                  uint8_t *buffer, size_t buffer_length, size_t *wanted);

/* Writes the message that bytes begin with. `*taken` is how many of the bytes are the message's; 0 where there is no
 * byte at all. Else `*taken` is 0 and `*message` as it was: TRACEBENCH_SHORT where the bytes end inside the message,
 * or TRACEBENCH_BAD_LENGTH where the byte for its payload's length is 0 or above 18.
 *     for (size_t at = 0, taken = 0; at < length && status == TRACEBENCH_DONE; at += taken)
 *         status = tracebench_read_message(bytes + at, length - at, &message, &taken); */
uint32_t tracebench_read_message(const uint8_t *bytes, size_t bytes_length, struct tracebench_message *message,
                                 size_t *taken);

/* The header of a capture of version 2, in numbers. */
struct tracebench_header {
    uint32_t mode;   /* TRACEBENCH_DIFFERENTIAL or TRACEBENCH_FULL */
    uint16_t period; /* how many retirements there are from one periodic sync to the next, 1 or more */
    uint16_t harts;  /* how many harts there are, 1 to 1,024; those of the messages are below it */
};

/* Writes the 16 bytes of a header. TRACEBENCH_OUT_OF_RANGE says that a number of it is out of its range.
 *     status = tracebench_write_header(&header, bytes, sizeof bytes, &wanted); */
uint32_t tracebench_write_header(const struct tracebench_header *header, uint8_t *buffer, size_t buffer_length,
                                 size_t *wanted);

/* Writes the header that bytes begin with, and `*taken` is 16. It is 0 where they do not begin as a capture of version
 * 2 does. Else `*taken` is 0 and `*header` as it was: TRACEBENCH_SHORT where the bytes end inside the header, after
 * the 11 with which it begins, or TRACEBENCH_BAD_HEADER where a number of it is out of its range.
 *     status = tracebench_read_header(bytes, length, &header, &taken); */
uint32_t tracebench_read_header(const uint8_t *bytes, size_t bytes_length, struct tracebench_header *header,
                                size_t *taken);

/* Whole logs and captures. Each text is put together once, also where a call only asks for its size. */

/* Checks that a text is that of a legal log. Where it is, `*row` is the count of events. Else it is the row that is
 * named, from 1 on, or 0, and the status says what is wrong with the pieces, with the text (TRACEBENCH_WRONG_HEADER to
 * TRACEBENCH_TOO_MANY_ROWS), or with the log (TRACEBENCH_OFF_PROGRAM to TRACEBENCH_WRONG_EPC).
 *     status = tracebench_check(&program, 1, log, log_length, &row); */
uint32_t tracebench_check(const struct tracebench_piece *pieces, size_t pieces_length, const uint8_t *log,
                          size_t log_length, uint64_t *row);

/* How a log ends that is explained. */
struct tracebench_explain_end {
    uint64_t row;   /* the row at fault, from 1 on, or 0; where none is, the count of events */
    uint32_t fault; /* why it is at fault, as tracebench_check says it; 0 where none is */
};

/* Writes the lines that explain the first illegal row of a log, as `tracebench check --explain` prints them below the
 * line of the log. A legal log has none. The status is TRACEBENCH_DONE also where the log is illegal: why it is, is in
 * `ended->fault`. Or it says what is wrong with the pieces or with the text; `*ended` has the same and the row then.
 *     status = tracebench_explain(&program, 1, log, log_length, text, sizeof text, &wanted, &ended); */
uint32_t tracebench_explain(const struct tracebench_piece *pieces, size_t pieces_length, const uint8_t *log,
                            size_t log_length, uint8_t *buffer, size_t buffer_length, size_t *wanted,
                            struct tracebench_explain_end *ended);

/* The log, counted from 0, and its row, counted from 1, that are at fault; 0 where none is named. */
struct tracebench_log_place {
    uint64_t log;
    uint64_t row;
};

/* Writes the capture of harts' logs, hart 0 first. `logs` holds the texts of the logs one after the other, and `ends`
 * where each ends. There are 1 to 1,024 logs, in version 1 at most 64, and the period is 1 or more. Where there is no
 * capture, `*place` is written, and the status is TRACEBENCH_OUT_OF_RANGE for one of these numbers, what is wrong with
 * the pieces, or of the first log at fault: as with tracebench_check, or TRACEBENCH_BAD_ENDS where its end is before
 * its start or past the texts.
 *     status = tracebench_encode(&program, 1, logs, logs_length, ends, 2, 1024, TRACEBENCH_DIFFERENTIAL,
 *                                TRACEBENCH_VERSION_TWO, buffer, buffer_length, &wanted, &place); */
uint32_t tracebench_encode(const struct tracebench_piece *pieces, size_t pieces_length, const uint8_t *logs,
                           size_t logs_length, const size_t *ends, size_t ends_length, uint16_t period, uint32_t mode,
                           uint32_t version, uint8_t *buffer, size_t buffer_length, size_t *wanted,
                           struct tracebench_log_place *place);

/* Writes the table of what the logs of harts cost, as `tracebench measure` prints it: how many packets of each kind
 * they give at the period and in the mode, and how many bytes. Logs, statuses and `*place` are those of
 * tracebench_encode, of 1 to 1,024 logs.
 *     status = tracebench_measure(&program, 1, logs, logs_length, ends, 2, 1024, TRACEBENCH_DIFFERENTIAL, text,
 *                                 sizeof text, &wanted, &place); */
uint32_t tracebench_measure(const struct tracebench_piece *pieces, size_t pieces_length, const uint8_t *logs,
                            size_t logs_length, const size_t *ends, size_t ends_length, uint16_t period,
                            uint32_t mode, uint8_t *buffer, size_t buffer_length, size_t *wanted,
                            struct tracebench_log_place *place);

/* Writes the capture of the lines of a text, one message a line, as `tracebench capture` does. A line is HART NUMBER
 * BYTES, or HART BYTES; then the messages of each hart are numbered from 0. The header counts so many harts, with 0
 * those up to the highest of the lines. A NUMBER is one of `numbers`, 2 or more, and then begins again at 0; with 0 it
 * is the message's own. TRACEBENCH_OUT_OF_RANGE is as with tracebench_encode. TRACEBENCH_LINE_FIELDS to _LINE_ABOVE say
 * what is wrong with the first line that has a fault, and `*line` is that line, from 1 on, and else 0.
 *     status = tracebench_capture_of_lines(text, text_length, TRACEBENCH_VERSION_TWO, TRACEBENCH_DIFFERENTIAL, 1024, 0,
 *                                          0, buffer, buffer_length, &wanted, &line); */
uint32_t tracebench_capture_of_lines(const uint8_t *text, size_t text_length, uint32_t version, uint32_t mode,
                                     uint16_t period, uint16_t harts, uint64_t numbers, uint8_t *buffer,
                                     size_t buffer_length, size_t *wanted, uint64_t *line);

/* How a dump ends. */
struct tracebench_dump_end {
    uint64_t place; /* after how many messages it ends before the capture does; 0 where `fault` is 0 */
    uint32_t fault; /* why: TRACEBENCH_SHORT, TRACEBENCH_BAD_LENGTH or TRACEBENCH_BAD_HEADER; 0 at the end */
    uint32_t bad;   /* 1 where the payload of some message is no packet */
};

/* Writes a capture as text: a line for its header, if it has one, and a line for each message. `*ended` is written
 * unless the status is TRACEBENCH_MEMORY.
 *     status = tracebench_dump(capture, capture_length, text, sizeof text, &wanted, &ended); */
uint32_t tracebench_dump(const uint8_t *capture, size_t capture_length, uint8_t *buffer, size_t buffer_length,
                         size_t *wanted, struct tracebench_dump_end *ended);

/* Where the text of a hart ends, and whether the hart is closed. */
struct tracebench_hart_end {
    size_t end;      /* where the text ends; it starts where that of the hart before ends, and for hart 0 at 0 */
    uint32_t closed; /* 1 where the closing packet of the hart was decoded */
};

/* How decoding a capture ends. Where it stops before the end, `fault` is TRACEBENCH_SHORT to TRACEBENCH_BAD_HEADER for
 * the bytes, TRACEBENCH_BAD_PAD to TRACEBENCH_BAD_REPORT for a payload, TRACEBENCH_STRANGER to TRACEBENCH_OTHER_MODE
 * for a message, TRACEBENCH_NOT_OPENED to TRACEBENCH_WALKS_AT_WRONG_PRIVILEGE for a packet, or TRACEBENCH_MEMORY where
 * an allocation failed for events. */
struct tracebench_decode_all_end {
    size_t harts;   /* how many harts there are: as the header counts, or else as are asked for */
    uint64_t place; /* the message, counted from 0, at which decoding stops before the end; 0 where `fault` is 0 */
    uint32_t fault; /* why it stops there, as a status; 0 where it comes to the end */
};

/* Decodes a capture, and writes the logs of all its harts as text, one after the other, as far as its messages settle
 * them. `ends` says of each hart where its text ends. The harts are those that the capture's header counts, or without
 * a header those below `harts`. TRACEBENCH_TOO_SMALL comes where `buffer` has fewer than `*wanted` bytes or `ends`
 * fewer than `ended->harts` elements; then neither is written to, but `*ended` is.
 *     status = tracebench_decode_all(&program, 1, 1, capture, length, text, room, &wanted, ends, 1024, &ended); */
uint32_t tracebench_decode_all(const struct tracebench_piece *pieces, size_t pieces_length, uint16_t harts,
                               const uint8_t *capture, size_t capture_length, uint8_t *buffer, size_t buffer_length,
                               size_t *wanted, struct tracebench_hart_end *ends, size_t ends_length,
                               struct tracebench_decode_all_end *ended);

/* How a text about a capture ends. */
struct tracebench_text_end {
    size_t harts;      /* how many harts there are */
    size_t unclosed;   /* the lowest hart whose closing packet was not decoded; where each was, as `harts` */
    uint64_t place;    /* the message, counted from 0, at which decoding stops before the end; 0 where `fault` is 0 */
    uint32_t fault;    /* why it stops there, as in tracebench_decode_all_end; 0 where it comes to the end */
    uint32_t whole;    /* 1 where the program ends with status 0 after this text */
};

/* How a text is laid out. */
#define TRACEBENCH_TEXT 0u    /* lines */
#define TRACEBENCH_CSV 1u     /* a table of CSV */
#define TRACEBENCH_SUMMARY 2u /* of tracebench_salvage alone: lines without the rows of logs */

/* Writes the listing of a capture, as `tracebench list` prints it: a line for each message, with its packet and the
 * events that it settles. Places are named by the symbols, which are lines as nm prints them, if there are any. The
 * harts are those of tracebench_decode_all. `*ended` is written, unless the status is TRACEBENCH_OUT_OF_RANGE for the
 * format, TRACEBENCH_MEMORY, what is wrong with the pieces, TRACEBENCH_NO_SYMBOL or TRACEBENCH_SYMBOLS_TOO_LARGE.
 *     status = tracebench_list(&program, 1, 1, capture, length, symbols, symbols_length, TRACEBENCH_TEXT, text,
 *                              sizeof text, &wanted, &ended); */
uint32_t tracebench_list(const struct tracebench_piece *pieces, size_t pieces_length, uint16_t harts,
                         const uint8_t *capture, size_t capture_length, const uint8_t *symbols, size_t symbols_length,
                         uint32_t format, uint8_t *buffer, size_t buffer_length, size_t *wanted,
                         struct tracebench_text_end *ended);

/* A count of harts for tracebench_salvage and tracebench_list_salvaged: as many as the messages show. */
#define TRACEBENCH_HARTS_SHOWN 65535u

/* Writes what is left of the logs of a capture, whatever happened to its bytes, as `tracebench salvage` prints it:
 * messages may be lost, repeated, out of order, changed or cut, and other bytes may be among them. The harts are those
 * that a valid header counts. Without one they are those below `harts`, and with TRACEBENCH_HARTS_SHOWN those up to
 * the highest hart of a message, hart 0 at least. Statuses are those of tracebench_list. In `*ended` `place` is 0, and
 * `fault` is TRACEBENCH_SHORT or TRACEBENCH_BAD_HEADER where the capture begins as one of version 2 does and its
 * header is cut short or bad. `whole` is 1 if and only if `fault` is 0, each hart is closed, no number is missing,
 * bad, doubtful or alone, no message is of another hart, and each byte belongs to a message. A number that came too
 * early to be believed is named as far, and no gap is counted before it.
 *     status = tracebench_salvage(&program, 1, TRACEBENCH_HARTS_SHOWN, capture, length, TRACEBENCH_SUMMARY, text,
 *                                 sizeof text, &wanted, &ended); */
uint32_t tracebench_salvage(const struct tracebench_piece *pieces, size_t pieces_length, uint16_t harts,
                            const uint8_t *capture, size_t capture_length, uint32_t format, uint8_t *buffer,
                            size_t buffer_length, size_t *wanted, struct tracebench_text_end *ended);

/* Writes what tracebench_salvage does with each message of a capture, as `tracebench list --salvage` prints it: where
 * the message is, what it says, and whether it adds events, is passed over, a copy, doubtful, alone, bad or a
 * stranger, far or late; and where bytes belong to no message. Symbols, formats and statuses are those of
 * tracebench_list, messages, `harts` and `*ended` those of tracebench_salvage. The messages are worked through twice.
 *     status = tracebench_list_salvaged(&program, 1, TRACEBENCH_HARTS_SHOWN, capture, length, symbols, 0,
 *                                       TRACEBENCH_CSV, text, sizeof text, &wanted, &ended); */
uint32_t tracebench_list_salvaged(const struct tracebench_piece *pieces, size_t pieces_length, uint16_t harts,
                                  const uint8_t *capture, size_t capture_length, const uint8_t *symbols,
                                  size_t symbols_length, uint32_t format, uint8_t *buffer, size_t buffer_length,
                                  size_t *wanted, struct tracebench_text_end *ended);

/* Writes how a capture compares with the logs of its harts, as `tracebench compare` prints it: below the line of a hart
 * that is not whole are the first row in which its log and what is decoded differ, of both, and the message of the
 * capture that settles it, closes the hart, stops decoding, or is the hart's last. `logs` and `ends` are those of
 * tracebench_encode, and the harts those of tracebench_decode_all. `*ended` is written; or `*place` where the status is
 * TRACEBENCH_UNEQUAL_COUNTS, as there is not a log for each hart, TRACEBENCH_MEMORY, says what is wrong with the
 * pieces, or is of the first log that is no legal log, as with tracebench_encode.
 *     status = tracebench_compare(&program, 1, 2, capture, length, logs, logs_length, ends, 2, text, sizeof text,
 *                                 &wanted, &ended, &place); */
uint32_t tracebench_compare(const struct tracebench_piece *pieces, size_t pieces_length, uint16_t harts,
                            const uint8_t *capture, size_t capture_length, const uint8_t *logs, size_t logs_length,
                            const size_t *ends, size_t ends_length, uint8_t *buffer, size_t buffer_length,
                            size_t *wanted, struct tracebench_text_end *ended, struct tracebench_log_place *place);

/* What a path did to a capture. */

/* How an audit compares messages: flags, which may be added. */
#define TRACEBENCH_BY_PACKETS 1u /* payloads by the packets that they unpack to, and not by their bytes */
#define TRACEBENCH_UNNUMBERED 2u /* messages by their payloads alone: the numbers of RECEIVED are not looked at */

/* What became of a message of RECEIVED. Without TRACEBENCH_UNNUMBERED, it is the first of these that applies, from
 * STRANGER on. With it, SENT has no hart of a stranger, and a message that is matched is in order. */
#define TRACEBENCH_FATE_IN_ORDER 0u /* none of the others */
#define TRACEBENCH_FATE_LATE 1u     /* an earlier true message of its hart has a greater number */
#define TRACEBENCH_FATE_REPEAT 2u   /* an earlier true message has its hart and number */
#define TRACEBENCH_FATE_CHANGED 3u  /* SENT has its hart and number with another payload */
#define TRACEBENCH_FATE_STRANGER 4u /* SENT has no message of its hart and number */
#define TRACEBENCH_FATE_EXTRA 5u    /* it is matched with no message of SENT: with TRACEBENCH_UNNUMBERED alone */

/* What became of the messages of a hart. What TRACEBENCH_UNNUMBERED does not find is 0. */
struct tracebench_tally {
    uint64_t sent;     /* how many messages of the hart SENT has */
    uint64_t came;     /* how many messages of the hart RECEIVED has, strangers among them */
    uint64_t lost;     /* how many numbers of the hart no true message of RECEIVED has, or none is matched with */
    uint64_t repeated; /* how many messages of the hart are repeats */
    uint64_t late;     /* how many messages of the hart are late */
    uint64_t changed;  /* how many messages of the hart are changed */
    uint32_t whole;    /* 1 where the messages of the hart in RECEIVED are just those in SENT, in order */
};

/* What is found of a hart of SENT. */
struct tracebench_hart_row {
    struct tracebench_tally tally; /* what became of its messages */
    uint64_t strange;              /* how many messages of the hart are strangers */
    uint64_t extra;                /* how many messages of the hart are extra */
    uint64_t runs;                 /* in how many longest runs its lost numbers are */
    uint64_t longest;              /* how many numbers the longest of these runs has; 0 where none is lost */
    uint64_t latest;               /* the most by which a message of the hart is late; 0 where none is */
    uint64_t exchanged;            /* how many that are not true are another hart's: 8 at least, most of them; or 0 */
    uint64_t exchanged_hart;       /* the other hart; 0 where there is none */
};

/* A message of RECEIVED that is taken, and what became of it. Its place is that in the array, from 0 on. */
struct tracebench_arrival {
    uint64_t number; /* its number; with TRACEBENCH_UNNUMBERED that of SENT which it is matched with, or 0 */
    uint64_t by;     /* by how much a late one is late, or how many numbers one in order skips; 0 for the others */
    uint64_t offset; /* where its first byte is in RECEIVED */
    uint32_t fate;   /* TRACEBENCH_FATE_IN_ORDER to TRACEBENCH_FATE_EXTRA */
    uint16_t hart;   /* its hart */
};

/* A longest run of numbers of a hart that were lost. */
struct tracebench_lost_run {
    uint64_t first; /* the first of them */
    uint64_t last;  /* the last of them */
    uint64_t hart;  /* the hart */
};

/* A longest run of bytes of RECEIVED that are of no message. */
struct tracebench_byte_run {
    uint64_t offset; /* where the first of them is */
    uint64_t count;  /* how many there are, 1 or more */
};

/* The message of SENT that is refused. */
struct tracebench_sent_place {
    uint64_t message;  /* from 0 on; 0 where the header is refused, or an allocation failed */
    uint64_t expected; /* with TRACEBENCH_GAP the number that is expected in place of the message's; else 0 */
};

/* What is found of a path, beside its harts and its messages. Headers are all 0 where there is none that is valid. */
struct tracebench_path_end {
    size_t harts;                             /* how many harts SENT has */
    size_t messages;                          /* how many messages of RECEIVED are taken */
    size_t lost_runs;                         /* how many longest runs of numbers were lost, of all harts */
    size_t byte_runs;                         /* how many longest runs of bytes are of no message */
    uint64_t bytes;                           /* how many bytes these have */
    uint64_t strangers;                       /* how many strangers came, of whatever hart */
    uint64_t first;                           /* the place of the first that is not in order or skips numbers */
    struct tracebench_header sent_header;     /* the header of SENT */
    struct tracebench_header received_header; /* that of RECEIVED */
    uint32_t has_sent_header;                 /* 1 where SENT has a header */
    uint32_t has_received_header;             /* 1 where RECEIVED has one that is valid */
    uint32_t header_fault;                    /* TRACEBENCH_SHORT or TRACEBENCH_BAD_HEADER where RECEIVED only begins as
                                                 a capture of version 2 does; else 0 */
    uint32_t headers_differ;                  /* 1 where both have one and these differ, or SENT has one and that of
                                                 RECEIVED is cut or not valid */
    uint32_t has_first;                       /* 1 where there is a `first`, which is else 0 */
    uint32_t whole;                           /* 1 where every hart is whole, no stranger came, headers do not differ,
                                                 each byte of RECEIVED is one of a message, and `header_fault` is 0 */
};

/* Audits RECEIVED against SENT, both captures, and reports what became of the messages of all harts of SENT: what
 * `tracebench audit` prints. SENT is checked to its end first. In RECEIVED the messages are found among damaged bytes.
 * With TRACEBENCH_UNNUMBERED, as with `audit --unnumbered`, they are found by hart and payload, and the payloads of
 * each hart that came are matched in order with those that were sent. What was sent and is not matched is lost; what
 * came and is not matched is extra. Where both `lost` and `extra` of a hart are above 0, and above 256 together, more
 * may match than is reported.
 *
 * A flag that is not known is TRACEBENCH_OUT_OF_RANGE. `rows` is for what is found of each hart, hart 0 first,
 * `arrivals` for the messages of RECEIVED that are taken, in their order, `lost` for the longest runs of numbers that
 * were lost, hart by hart, and `runs` for the longest runs of bytes of no message. `*ended` is how many there are of
 * each, and what else is found. Each array that is large enough is written; one that is not stays as it was, and the
 * status is TRACEBENCH_TOO_SMALL. Where SENT is refused, `*refused` names its message, and the status is
 * TRACEBENCH_SHORT to TRACEBENCH_BAD_HEADER or TRACEBENCH_STRANGER to TRACEBENCH_GAP.
 *     status = tracebench_audit_all(sent, sent_length, received, received_length, TRACEBENCH_UNNUMBERED, rows, 4,
 *                                   arrivals, 1000, lost, 100, runs, 100, &refused, &ended); */
uint32_t tracebench_audit_all(const uint8_t *sent, size_t sent_length, const uint8_t *received, size_t received_length,
                              uint32_t flags, struct tracebench_hart_row *rows, size_t rows_length,
                              struct tracebench_arrival *arrivals, size_t arrivals_length,
                              struct tracebench_lost_run *lost, size_t lost_length, struct tracebench_byte_run *runs,
                              size_t runs_length, struct tracebench_sent_place *refused,
                              struct tracebench_path_end *ended);

#ifdef __cplusplus
}
#endif

#endif
