/*
 * Calls the library with random bytes and sizes, with good and damaged captures and logs, and stops at an answer that
 * is not as the header promises.
 *
 *     fuzz-c CORPUS SEED COUNT [rows]
 *
 * It makes COUNT calls or a few more, over the programs of CORPUS. With `rows` it also checks a log of too many rows.
 * It prints how many calls it made, and how often each ended with each status.
 */
#include <inttypes.h>
#include <stdio.h>
#include <stdlib.h>
#include <string.h>

#include "corpus.h"
#include "judge.h"
#include "laws.h"
#include "parts.h"
#include "paths.h"
#include "slices.h"
#include "steps.h"
#include "stimulus.h"
#include "texts.h"

int main(int count, char **words) {
    static void (*const tries[])(struct program *) = {try_pack,   try_unpack,  try_check, try_encode, try_dump, try_log_in_steps,
                                                      try_encoder, try_push, try_finish, try_feed,
                                                      try_follow, try_check_events, try_receive, try_resume,
                                                      try_push_all, try_feed_all, try_version, try_messages,
                                                      try_headers, try_lines, try_audit_all, try_decode_all,
                                                      try_list, try_measure, try_compare, try_explain,
                                                      try_salvage, try_generate_image, try_generate_events};
    if (count < 4 || count > 5 || (count == 5 && strcmp(words[4], "rows") != 0)) {
        fputs("usage: fuzz-c CORPUS SEED COUNT [rows]\n", stderr);
        return 2;
    }
    uint64_t wanted = strtoull(words[3], NULL, 10);
    read_corpus(words[1]);
    begin_random(strtoull(words[2], NULL, 10));
    if (count == 5) try_too_many_rows(&programs[0]);
    while (calls_made < wanted) tries[below(sizeof tries / sizeof *tries)](&programs[below(program_count)]);
    printf("calls %" PRIu64 "\n", calls_made);
    print_counts();
    return 0;
}
