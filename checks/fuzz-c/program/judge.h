/* Runs of calls, judged by what the header promises of each. */
#ifndef JUDGE_H
#define JUDGE_H

#include "calls.h"

/* How many calls were made. */
extern uint64_t calls_made;

/* Where it does not hold, says what is wrong with the last call, and ends the program. */
void require(bool held, const struct call *call, const char *wrong);

/* Makes a call with a buffer of so many elements. */
struct answer run(const struct call *call, const struct given *given, size_t length);

/*
 * Makes a call several times: with a buffer of any size, then with one that is as large as it wants, now and then with
 * one that is too small, and with an allocation that fails. Returns the second answer.
 */
struct answer exercise(const struct call *call, const struct given *given);

/* Prints how often each call ended with each status, and how often each fault was written. */
void print_counts(void);

#endif
