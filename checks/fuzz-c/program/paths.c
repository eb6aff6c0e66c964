#include "paths.h"

#include <stdlib.h>
#include <string.h>

#include "aligned.h"
#include "draft.h"
#include "draws.h"
#include "judge.h"
#include "told.h"

static struct told_path path;

static const struct told *sent_as(const struct told *one) {
    for (size_t place = 0; place < path.sent_count; place++)
        if (memcmp(path.sent[place].at, one->at, 10) == 0) return &path.sent[place];
    return NULL;
}

static bool is_true(const struct told *one) {
    const struct told *own = sent_as(one);
    return own != NULL && are_same(own, one, path.by_packets);
}

/* Whether the message at a place is taken, by the rules of `tracebench audit`. */
static bool is_taken(const struct slice *bytes, size_t at) {
    const struct told one = {bytes->at + at, length_at(bytes, at)};
    if (one.length == 0) return false;
    if (is_true(&one)) return true;
    const size_t next = at + one.length;
    if (next == bytes->length) return true;
    const struct told then = {bytes->at + next, length_at(bytes, next)};
    if (then.length == 0) return false;
    if (sent_as(&then) != NULL) return true;
    const size_t last = next + then.length;
    return last == bytes->length || length_at(bytes, last) != 0;
}

static void read_received(const struct slice *bytes) {
    size_t at = begin_of(bytes);
    while (at < bytes->length) {
        if (is_taken(bytes, at)) {
            path.came[path.came_count++] = (struct told){bytes->at + at, length_at(bytes, at)};
            at += path.came[path.came_count - 1].length;
            continue;
        }
        const size_t from = at++;
        while (at < bytes->length) {
            const struct told one = {bytes->at + at, length_at(bytes, at)};
            if (one.length != 0 && is_true(&one)) break;
            at++;
        }
        add_run(&path, from, at);
    }
}

/* What became of a message, by those before it. */
static struct tracebench_arrival fate_of(size_t place, const uint8_t *first) {
    const struct told *one = &path.came[place];
    struct tracebench_arrival found;
    memset(&found, 0, sizeof found);
    found.number = number_of(one);
    found.hart = (uint16_t)hart_of(one);
    found.offset = (uint64_t)(one->at - first);
    bool some = false, again = false;
    uint64_t greatest = 0;
    for (size_t earlier = 0; earlier < place; earlier++) {
        if (hart_of(&path.came[earlier]) != hart_of(one) || !is_true(&path.came[earlier])) continue;
        const uint64_t number = number_of(&path.came[earlier]);
        again |= number == found.number;
        greatest = !some || number > greatest ? number : greatest;
        some = true;
    }
    if (sent_as(one) == NULL) found.fate = TRACEBENCH_FATE_STRANGER;
    else if (!is_true(one)) found.fate = TRACEBENCH_FATE_CHANGED;
    else if (again) found.fate = TRACEBENCH_FATE_REPEAT;
    else if (some && greatest > found.number) found.fate = TRACEBENCH_FATE_LATE;
    if (found.fate == TRACEBENCH_FATE_LATE) found.by = greatest - found.number;
    if (found.fate == TRACEBENCH_FATE_IN_ORDER) found.by = some ? found.number - greatest - 1 : found.number;
    return found;
}

static bool is_lost(const struct told *one) {
    for (size_t place = 0; place < path.came_count; place++)
        if (memcmp(path.came[place].at, one->at, 10) == 0 && is_true(&path.came[place])) return false;
    return true;
}

static void judge_arrivals(const struct given *given, const struct found *found,
                           const struct tracebench_path_end *ended) {
    uint64_t strangers = 0, first = 0;
    bool has_first = false;
    for (size_t place = 0; place < path.came_count; place++) {
        const struct tracebench_arrival wanted = fate_of(place, given->other.at);
        const bool plain = wanted.fate == TRACEBENCH_FATE_IN_ORDER && wanted.by == 0;
        strangers += wanted.fate == TRACEBENCH_FATE_STRANGER;
        first = !plain && !has_first ? place : first;
        has_first |= !plain;
        if ((given->harts & 2) == 0 || path.came_count > MOST_ARRIVALS) continue;
        const struct tracebench_arrival *one = &found->arrivals[place];
        require(one->number == wanted.number && one->by == wanted.by && one->offset == wanted.offset &&
                    one->fate == wanted.fate && one->hart == wanted.hart,
                &audit_all, "another fate of a message");
    }
    require(ended->strangers == strangers, &audit_all, "another count of strangers");
    require(ended->has_first == has_first && ended->first == first, &audit_all, "another first message");
}

static void judge_harts(const struct given *given, const struct found *found,
                        const struct tracebench_path_end *ended) {
    size_t lost_runs = 0;
    bool whole = true;
    for (size_t hart = 0; hart < ended->harts; hart++) {
        uint64_t count = 0, lost = 0, arrived = 0, last = 0;
        bool running = false, same = true;
        for (size_t place = 0; place < path.sent_count; place++) {
            if (hart_of(&path.sent[place]) != hart) continue;
            const bool gone = is_lost(&path.sent[place]);
            lost_runs += gone && !running;
            running = gone;
            lost += gone;
            last = number_of(&path.sent[place]);
            if (gone && (given->harts & 4) != 0 && ended->lost_runs <= MOST_LOST)
                require(found->lost[lost_runs - 1].hart == hart && found->lost[lost_runs - 1].first <= last &&
                            found->lost[lost_runs - 1].last >= last,
                        &audit_all, "another run of lost numbers");
            count++;
        }
        for (size_t place = 0; place < path.came_count; place++) {
            if (hart_of(&path.came[place]) != hart) continue;
            same &= number_of(&path.came[place]) == arrived && is_true(&path.came[place]);
            arrived++;
        }
        same &= arrived == count;
        whole &= same;
        if ((given->harts & 1) == 0 || ended->harts > MOST_HART_ROWS) continue;
        const struct tracebench_hart_row *row = &found->rows[hart];
        require(row->tally.sent == count && row->tally.came == arrived && row->tally.lost == lost &&
                    row->tally.whole == (uint32_t)same,
                &audit_all, "another row of a hart");
    }
    require(ended->lost_runs == lost_runs, &audit_all, "another count of runs of lost numbers");
    require(ended->whole == (whole && ended->strangers == 0 && ended->headers_differ == 0 && path.byte_count == 0 &&
                             ended->header_fault == 0),
            &audit_all, "another verdict");
}

static void judge_path(const struct given *given, const struct answer *answer) {
    struct tracebench_path_end ended;
    static struct found found;
    memcpy(&ended, answer->first.at, sizeof ended);
    memcpy(&found, answer->second.at, sizeof found);
    path.by_packets = (given->mode & TRACEBENCH_BY_PACKETS) != 0;
    path.sent_count = path.came_count = path.run_count = path.byte_count = 0;
    for (size_t at = begin_of(&given->bytes); at < given->bytes.length; at += path.sent[path.sent_count - 1].length) {
        if (path.sent_count == MOST_TOLD) return;
        path.sent[path.sent_count++] = (struct told){given->bytes.at + at, length_at(&given->bytes, at)};
    }
    const bool is_unnumbered = (given->mode & TRACEBENCH_UNNUMBERED) != 0;
    if (is_unnumbered) read_by_payloads(&path, &given->other);
    else read_received(&given->other);
    require(ended.messages == path.came_count && ended.byte_runs == path.run_count && ended.bytes == path.byte_count,
            &audit_all, "other messages, or bytes of none");
    require((given->harts & 8) == 0 || path.run_count > MOST_RUNS ||
                memcmp(found.runs, path.runs, path.run_count * sizeof *path.runs) == 0,
            &audit_all, "another run of bytes");
    const bool has_arrivals = (given->harts & 2) != 0 && path.came_count <= MOST_ARRIVALS;
    const bool has_lost = (given->harts & 4) != 0 && ended.lost_runs <= MOST_LOST;
    if (!is_unnumbered) {
        judge_arrivals(given, &found, &ended);
        judge_harts(given, &found, &ended);
    } else if ((path.came_count == 0 || has_arrivals) && (ended.lost_runs == 0 || has_lost)) {
        judge_alignment(&path, given->other.at, &found, &ended, (given->harts & 1) != 0 && ended.harts <= MOST_HART_ROWS);
    }
    const bool fits = (ended.harts == 0 || ((given->harts & 1) != 0 && ended.harts <= MOST_HART_ROWS)) &&
                      (path.came_count == 0 || has_arrivals) && (ended.lost_runs == 0 || has_lost) &&
                      (path.run_count == 0 || ((given->harts & 8) != 0 && path.run_count <= MOST_RUNS));
    require(answer->status == (fits ? TRACEBENCH_DONE : TRACEBENCH_TOO_SMALL), &audit_all,
            "another status than the arrays have");
}

/* The message of SENT that is refused: the first that is not complete, or not the next one of a known hart. */
static void judge_refusal(const struct given *given, const struct answer *answer) {
    static uint64_t next[1024];
    const size_t begin = begin_of(&given->bytes);
    const unsigned harts = begin == 0 ? 1024 : given->bytes.at[14] | (unsigned)given->bytes.at[15] << 8;
    struct tracebench_sent_place place;
    uint64_t message = 0;
    memcpy(&place, answer->second.at + offsetof(struct found, refused), sizeof place);
    memset(next, 0, sizeof next);
    for (size_t at = begin; at < given->bytes.length; message++) {
        const struct told one = {given->bytes.at + at, length_at(&given->bytes, at)};
        if (one.length == 0 || hart_of(&one) >= harts) break;
        const uint64_t expected = next[hart_of(&one)]++;
        if (number_of(&one) != expected) {
            const bool gap = number_of(&one) > expected;
            require(answer->status == (gap ? TRACEBENCH_GAP : TRACEBENCH_REPEAT), &audit_all,
                    "another refusal of SENT");
            require(place.expected == (gap ? expected : 0), &audit_all, "another number is expected");
            break;
        }
        at += one.length;
    }
    require(place.message == message, &audit_all, "another message of SENT is refused");
}

void try_audit_all(struct program *program) {
    struct given given = drawn_for_audit(program);
    given.mode = one_in(16) ? (uint32_t)any_number() : (uint32_t)below(4);
    given.harts = (uint16_t)(one_in(3) ? below(16) : 15);
    if (given.bytes.length > 40000 || given.other.length > MOST_READ) given.mode = 4;
    struct answer answer = exercise(&audit_all, &given);
    if (given.mode > (TRACEBENCH_BY_PACKETS | TRACEBENCH_UNNUMBERED)) {
        require(answer.status == TRACEBENCH_OUT_OF_RANGE, &audit_all, "a flag that is not known is taken");
    } else if (is_answer(answer.status)) {
        judge_path(&given, &answer);
    } else if (answer.status != TRACEBENCH_MEMORY) {
        judge_refusal(&given, &answer);
    }
    forget(&given, &answer);
}
