/* report.h: what both fuzzers, fuzz.c and desk.c, tell clang's libFuzzer and `run`: that something is wrong, what was
 * counted, and what is new. It calls print_counts and print_last, which each of them has. */
#ifndef REPORT_H
#define REPORT_H

#include <stdbool.h>
#include <stddef.h>
#include <stdint.h>

/* Ends the program where something doesn't hold; the fuzzer keeps the input then. */
void check(bool holds, const char *what);

/* Counts a state, by three numbers, as something that this input reached: the libraries aren't instrumented, so it is
 * this by which libFuzzer sees which inputs are new. */
void note(uint32_t one, uint32_t other, uint32_t third);

/* Writes a line `count: WHAT NUMBER` to standard error for each thing that is counted. At the end it is called by
 * itself. */
void print_counts(void);

/* Writes to standard error what was done last, behind what is found; nothing where that says nothing. */
void print_last(void);

#endif
