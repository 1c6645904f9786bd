/* c_calls.h: what the parts of the measure of turn_client.h share. */
#ifndef C_CALLS_H
#define C_CALLS_H

#include <stddef.h>
#include <stdint.h>

/* How many calls of malloc and realloc there were. */
extern size_t allocations;

/* Nanoseconds of the clock that only goes forward. */
uint64_t clock_now(void);

/* Prints what a call took. */
void print_time(const char *name, double nanoseconds, size_t taken);

/* What CONNECTION_ATTEMPTs cost a client that many wait in (attempts.c). Ends the program where an answer is wrong. */
void tell_attempts(void);

#endif
