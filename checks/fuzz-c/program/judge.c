#include "judge.h"

#include <inttypes.h>
#include <stdio.h>
#include <stdlib.h>

#include "memory.h"
#include "pieces.h"

uint64_t calls_made;

static uint64_t ended[CALLS][STATUSES];
static uint64_t stopped[CALLS][STATUSES];

void require(bool held, const struct call *call, const char *wrong) {
    if (held) return;
    fprintf(stderr, "fuzz-c: call %" PRIu64 ", %s: %s\n", calls_made, call->name, wrong);
    abort();
}

static void count(const struct call *call, const struct answer *answer) {
    size_t place = 0;
    while (calls[place] != call) place++;
    calls_made++;
    require(is_listed(call->statuses, answer->status), call, "a status that the header does not list");
    ended[place][answer->status]++;
    if (call->fault == NULL || !is_answer(answer->status)) return;
    uint32_t fault = call->fault(answer);
    require(is_listed(call->faults, fault), call, "a fault that the header does not list");
    stopped[place][fault]++;
}

static void judge_buffer(const struct call *call, const struct answer *answer) {
    if (call->unit == 0 || !is_answer(answer->status)) {
        require(is_kept_from(&answer->wanted, 0), call, "`*wanted` is written without an answer");
        require(is_kept_from(&answer->buffer, 0), call, "the buffer is written without an answer");
        return;
    }
    bool done = answer->status == TRACEBENCH_DONE;
    uint64_t wanted = wanted_of(answer);
    bool is_short = call->is_short != NULL && call->is_short(answer);
    require(done == (!is_short && wanted <= answer->buffer.length / call->unit), call,
            "the status does not fit what is wanted");
    size_t written = done ? (size_t)wanted * call->unit : 0;
    require(is_kept_from(&answer->buffer, written), call, "too much of the buffer is written");
}

static void judge(const struct call *call, const struct given *given, const struct answer *answer) {
    const struct slice *const read[] = {&given->image, &given->bytes, &given->other, &given->state,
                                        &given->beside, &given->pieces};
    const struct slice *const written[] = {&answer->buffer, &answer->wanted, &answer->first, &answer->second};
    for (size_t place = 0; place < sizeof read / sizeof *read; place++)
        require(is_guarded(read[place]) && is_kept_from(read[place], 0), call, "what it was given to read changed");
    for (size_t place = 0; place < sizeof written / sizeof *written; place++)
        require(is_guarded(written[place]), call, "it wrote beside what it was given to write");
    judge_buffer(call, answer);
    bool kept = is_kept_from(&answer->first, 0) && is_kept_from(&answer->second, 0);
    require(kept || is_written(call, answer->status), call, "a struct is written with this status");
    require(blocks_held() == 0, call, "memory is not given back");
}

struct answer run(const struct call *call, const struct given *given, size_t length) {
    if (length < call->least) length = call->least;
    struct answer answer = {
        TRACEBENCH_DONE, room(length * call->unit), room(sizeof(uint64_t)),
        call->goes_on ? again(&given->state) : room(call->first.size), room(call->second.size),
    };
    answer.status = call->make(given, &answer);
    count(call, &answer);
    judge(call, given, &answer);
    return answer;
}

/* A struct is written the same, or not at all. */
static bool are_alike(const struct slice *one, const struct slice *other, size_t meaning) {
    return (is_kept_from(one, 0) && is_kept_from(other, 0)) || begin_alike(one, other, meaning);
}

/* Two answers to the same question say the same. */
static void agree(const struct call *call, const struct answer *one, const struct answer *other) {
    bool answers = is_answer(one->status) && is_answer(other->status);
    require(answers || one->status == other->status, call, "another status than before");
    if (call->unit != 0 && answers) {
        require(wanted_of(one) == wanted_of(other), call, "more or less is wanted than before");
        bool both = one->status == TRACEBENCH_DONE && other->status == TRACEBENCH_DONE;
        size_t length = both ? (size_t)wanted_of(one) * call->unit : 0;
        require(begin_alike(&one->buffer, &other->buffer, length), call, "another answer than before");
    }
    if (!is_written(call, one->status) || !is_written(call, other->status)) return;
    require(are_alike(&one->first, &other->first, call->first.meaning) &&
                are_alike(&one->second, &other->second, call->second.meaning),
            call, "another struct than before");
}

/* Refuses a request for memory. The status says so, or decoding stops there, or the answer is as with ample memory. */
static void run_refused(const struct call *call, const struct given *given, size_t length, const struct answer *whole) {
    refuse_behind((long)below(12));
    struct answer answer = run(call, given, length);
    bool refused = was_refused();
    bool stops = call->fault != NULL && is_answer(answer.status) && call->fault(&answer) == TRACEBENCH_MEMORY;
    if (refused && stops) {
        bool fits = answer.status == TRACEBENCH_DONE && whole->status == TRACEBENCH_DONE;
        size_t size = fits ? (size_t)wanted_of(&answer) * call->unit : 0;
        require(call->in_texts || (fits && begin_alike(&answer.buffer, &whole->buffer, size)), call,
                "where an allocation fails, the text is no beginning of the whole one");
    } else if (!refused || answer.status != TRACEBENCH_MEMORY) {
        agree(call, &answer, whole);
    }
    give_back_answer(&answer);
}

/* The same over the image in pieces that touch, which changes nothing. */
static void run_cut(const struct call *call, const struct given *given, size_t length, const struct answer *whole) {
    struct pieces pieces;
    bool wraps = given->base + given->image.length < given->base; /* a piece would begin at 0 */
    if (wraps || given->image.length > MOST_BYTES) return;        /* each piece may be small enough */
    cut(&pieces, given->base, &given->image);
    struct given parts = in_pieces(given, &pieces);
    struct answer answer = run(call, &parts, length);
    agree(call, &answer, whole);
    if (one_in(3)) run_refused(call, &parts, length, whole);
    give_back_answer(&answer);
    give_back(&parts.pieces);
    give_back_pieces(&pieces, call);
}

/* Any pieces: where the status is of an image, it is that of the first fault. */
static void run_pieces(const struct call *call, const struct given *given, size_t length) {
    struct pieces pieces;
    draw_pieces(&pieces, given->base, &given->image);
    struct given parts = in_pieces(given, &pieces);
    struct answer answer = run(call, &parts, length);
    uint32_t fault = fault_of(&pieces);
    bool of_image = TRACEBENCH_ODD_BASE <= answer.status && answer.status <= TRACEBENCH_NOT_SORTED;
    require(!of_image || answer.status == fault, call, "another fault than that of the pieces");
    require(fault == TRACEBENCH_DONE || !is_answer(answer.status), call, "pieces at fault are taken");
    give_back_answer(&answer);
    give_back(&parts.pieces);
    give_back_pieces(&pieces, call);
}

struct answer exercise(const struct call *call, const struct given *given) {
    struct answer any = run(call, given, one_in(3) ? below(20) : below(call->unit > 1 ? 70 : 4000));
    bool sized = call->unit != 0 && is_answer(any.status);
    size_t length = sized ? (size_t)wanted_of(&any) : below(64);
    struct answer whole = run(call, given, length);
    agree(call, &any, &whole);
    bool is_short = call->is_short != NULL && call->is_short(&whole);
    require(!sized || is_short || whole.status == TRACEBENCH_DONE, call, "a buffer as large as is wanted is too small");
    if (sized && length != 0 && one_in(4)) {
        struct answer small = run(call, given, below(length));
        agree(call, &small, &whole);
        give_back_answer(&small);
    }
    if (one_in(4)) run_refused(call, given, length, &whole);
    if (call->takes_image && one_in(3)) run_cut(call, given, length, &whole);
    if (call->takes_image && one_in(6)) run_pieces(call, given, length);
    give_back_answer(&any);
    return whole;
}

void print_counts(void) {
    for (size_t place = 0; place < CALLS; place++)
        for (uint32_t status = 0; status < STATUSES; status++) {
            if (ended[place][status] != 0)
                printf("%s ended %" PRIu32 " %" PRIu64 "\n", calls[place]->name, status, ended[place][status]);
            if (stopped[place][status] != 0)
                printf("%s stopped %" PRIu32 " %" PRIu64 "\n", calls[place]->name, status, stopped[place][status]);
        }
}
