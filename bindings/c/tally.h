/* tally.h: the clock and the payloads of turn_client.c: what is in each, when it went, and how long it took until it
 * was back. */
#ifndef TALLY_H
#define TALLY_H

#include <stdbool.h>
#include <stddef.h>
#include <stdint.h>

#define MILLISECOND UINT64_C(1000000)
#define SECOND UINT64_C(1000000000)

/* Now, in nanoseconds of the monotonic clock. */
uint64_t clock_now(void);

struct tally {
    uint32_t count, size;          /* how many there are to be, and bytes of each, at least 4 */
    uint32_t sent, back;
    uint64_t last;                 /* when the last one went */
    uint64_t *sent_at, *trips;     /* of each payload that isn't back when it went, else 0; how long the others took */
};

/* Whether there is memory for so many. */
bool tally_open(struct tally *tally, uint32_t count, uint32_t size);
void tally_close(struct tally *tally);

/* Writes the next payload: its number, and then bytes that depend on that. */
void tally_next(const struct tally *tally, uint8_t *payload);

/* That one went, at a moment that isn't 0. */
void tally_goes(struct tally *tally, uint64_t now);

/* Bytes came: the number of the payload that is back with them, or -1 where they are none that is awaited. */
int64_t tally_comes(struct tally *tally, const uint8_t *bytes, size_t size, uint64_t now);

/* How long the last one took that came back, in milliseconds. */
double tally_last_trip(const struct tally *tally);

/* Prints how many came back, and the least, the median and the greatest time that they took. */
void tally_print(struct tally *tally);

#endif
