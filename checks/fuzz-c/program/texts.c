#include "texts.h"

#include <string.h>

#include "draws.h"
#include "judge.h"

/* Whether a status is what is wrong with an image. */
static bool is_of_image(uint32_t status) { return TRACEBENCH_ODD_BASE <= status && status <= TRACEBENCH_NOT_SORTED; }

/* Where the text of a hart ends. */
static struct tracebench_hart_end hart_end_of(const struct answer *answer, size_t hart) {
    struct tracebench_hart_end end;
    memcpy(&end, answer->second.at + hart * sizeof end, sizeof end);
    return end;
}

void try_decode_all(struct program *program) {
    struct given given = drawn_for_decode(program);
    struct answer answer = exercise(&decode_all, &given);
    size_t harts = is_answer(answer.status) ? decode_all_end_of(&answer).harts : 0;
    if (answer.status == TRACEBENCH_DONE) {
        require(harts == 0 || hart_end_of(&answer, harts - 1).end == wanted_of(&answer), &decode_all,
                "the last text does not end where all end");
        require(is_kept_from(&answer.second, harts * sizeof(struct tracebench_hart_end)), &decode_all,
                "the end of a hart is written that the capture has not");
        for (size_t hart = 0, from = 0; hart < harts; from = hart_end_of(&answer, hart++).end)
            require(from <= hart_end_of(&answer, hart).end, &decode_all, "a text ends before it begins");
        keep(&program->decoded, answer.buffer.at, harts == 0 ? 0 : hart_end_of(&answer, 0).end);
    } else {
        require(is_kept_from(&answer.second, 0), &decode_all, "ends are written without their texts");
    }
    forget(&given, &answer);
}

/* How many harts a capture has, the lowest that is not closed, and where decoding ends, are those of decoding all. */
static void compare_end(const struct call *call, const struct given *given, const struct answer *answer) {
    if (!is_answer(answer->status)) return;
    struct tracebench_text_end ended = text_end_of(answer);
    struct answer all = run(&decode_all, given, 1 << 16);
    require(is_answer(all.status), call, "a capture that is not decoded");
    struct tracebench_decode_all_end end = decode_all_end_of(&all);
    require(ended.harts == end.harts && ended.place == end.place && ended.fault == end.fault, call,
            "another end than that of decoding all harts");
    require(ended.unclosed <= ended.harts && ended.whole <= 1, call, "a number is out of its range");
    if (all.status == TRACEBENCH_DONE) {
        size_t hart = 0;
        while (hart < end.harts && hart_end_of(&all, hart).closed == 1) hart++;
        require(ended.unclosed == hart, call, "another hart is the lowest that is not closed");
    }
    give_back_answer(&all);
}

void try_list(struct program *program) {
    struct given given = drawn_for_list(program);
    struct answer answer = exercise(&list_capture, &given);
    compare_end(&list_capture, &given, &answer);
    if (is_answer(answer.status)) {
        struct tracebench_text_end ended = text_end_of(&answer);
        bool good = ended.fault == TRACEBENCH_DONE && ended.unclosed == ended.harts;
        require(ended.whole == good, &list_capture, "the listing is whole, or is not, against its end");
        require(given.mode <= TRACEBENCH_CSV, &list_capture, "a format that is none is taken");
    }
    forget(&given, &answer);
}

/* Whether all harts of a capture are decoded to its end, and closed. */
static bool is_decoded_whole(const struct given *given) {
    struct answer all = run(&decode_all, given, 1 << 16);
    bool whole = all.status == TRACEBENCH_DONE;
    struct tracebench_decode_all_end end = decode_all_end_of(&all);
    whole = whole && end.fault == TRACEBENCH_DONE && 0 < end.harts && end.harts <= MOST_ENDS;
    for (size_t hart = 0; whole && hart < end.harts; hart++) whole = hart_end_of(&all, hart).closed == 1;
    give_back_answer(&all);
    return whole;
}

void try_salvage(struct program *program) {
    struct given given = drawn_for_salvage(program);
    struct answer left = exercise(&salvage, &given), listed = exercise(&list_salvaged, &given);
    if (is_answer(left.status)) {
        struct tracebench_text_end end = text_end_of(&left);
        require(given.mode <= TRACEBENCH_SUMMARY, &salvage, "a format that is none is taken");
        require(end.place == 0 && end.unclosed <= end.harts && end.whole <= 1, &salvage,
                "a number is out of its range");
        require(end.whole == 0 || (end.fault == TRACEBENCH_DONE && end.unclosed == end.harts), &salvage,
                "what is left is whole, against its end");
        require(end.whole == 1 || given.harts == TRACEBENCH_HARTS_SHOWN || !is_decoded_whole(&given), &salvage,
                "a capture that is decoded whole is not salvaged whole");
        if (is_answer(listed.status)) {
            require(given.mode <= TRACEBENCH_CSV, &list_salvaged, "a format that is none is taken");
            require(memcmp(listed.first.at, left.first.at, sizeof end) == 0, &list_salvaged,
                    "another end than that of salvaging");
        }
    }
    give_back_answer(&listed);
    forget(&given, &left);
}

void try_measure(struct program *program) {
    bool plain;
    struct given given = drawn_for_encode(program, &plain);
    given.version = TRACEBENCH_VERSION_TWO;
    struct answer answer = exercise(&measure, &given), encoded = run(&encode, &given, 1 << 16);
    bool answers = is_answer(answer.status) && is_answer(encoded.status);
    require(answers || answer.status == encoded.status, &measure, "another status than that of encoding");
    bool kept = is_kept_from(&answer.first, 0) && is_kept_from(&encoded.first, 0);
    require(answers || kept || begin_alike(&answer.first, &encoded.first, answer.first.length), &measure,
            "another place than that of encoding");
    give_back_answer(&encoded);
    forget(&given, &answer);
}

/* A capture, the texts of logs and where each ends: most often the capture of these logs, which may be damaged. */
static struct given drawn_for_compare(const struct program *program, bool *whole) {
    bool plain;
    struct given logs = drawn_for_encode(program, &plain);
    struct answer encoded = run(&encode, &logs, 1 << 16);
    struct given given = drawn_for_decode(program);
    *whole = encoded.status == TRACEBENCH_DONE && !one_in(3);
    give_back(&given.other);
    give_back(&given.beside);
    given.beside = logs.bytes;
    given.other = logs.other;
    given.harts = one_in(8) ? given.harts : (uint16_t)(given.other.length / sizeof(uint64_t));
    if (*whole) {
        give_back(&given.bytes);
        given.bytes = copy_of(encoded.buffer.at, (size_t)wanted_of(&encoded));
        give_back(&given.image);
        given.image = logs.image;
        given.base = logs.base;
        *whole = logs.version == TRACEBENCH_VERSION_TWO;
    } else {
        give_back(&logs.image);
    }
    give_back(&logs.state);
    give_back(&logs.beside);
    give_back(&logs.pieces);
    give_back_answer(&encoded);
    return given;
}

void try_compare(struct program *program) {
    bool whole;
    struct given given = drawn_for_compare(program, &whole);
    struct answer answer = exercise(&compare_logs, &given);
    compare_end(&compare_logs, &given, &answer);
    require(is_kept_from(is_answer(answer.status) ? &answer.second : &answer.first, 0), &compare_logs,
            "a place is written with an answer, or an end without one");
    if (is_answer(answer.status)) {
        struct tracebench_text_end ended = text_end_of(&answer);
        bool good = ended.fault == TRACEBENCH_DONE && ended.unclosed == ended.harts;
        require(good || ended.whole == 0, &compare_logs, "a comparison is whole against its end");
        require(ended.harts == given.other.length / sizeof(uint64_t), &compare_logs,
                "another count of harts than of logs");
    }
    require(!whole || (is_answer(answer.status) && text_end_of(&answer).whole == 1), &compare_logs,
            "the capture of legal logs is not whole against them");
    forget(&given, &answer);
}

void try_explain(struct program *program) {
    struct given given = drawn_for_check(program);
    struct answer answer = exercise(&explain, &given), checked = run(&check, &given, 0);
    struct tracebench_explain_end ended = explain_end_of(&answer);
    bool illegal = TRACEBENCH_OFF_PROGRAM <= checked.status && checked.status <= TRACEBENCH_WRONG_EPC;
    uint64_t row;
    memcpy(&row, checked.first.at, sizeof row);
    require(ended.fault == checked.status, &explain, "another fault than that of a check");
    require(is_of_image(checked.status) || ended.row == row, &explain, "another row than that of a check");
    if (illegal || checked.status == TRACEBENCH_DONE) {
        require(is_answer(answer.status), &explain, "a log that is read is not explained");
        require((wanted_of(&answer) != 0) == illegal, &explain, "a legal log is explained, or an illegal one is not");
    } else {
        require(answer.status == checked.status, &explain, "another status than that of a check");
    }
    give_back_answer(&checked);
    forget(&given, &answer);
}
