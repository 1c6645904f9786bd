/* c_calls.c: how long the calls of turn_client.h take, and how many allocations each makes: of exchanges with a server
 * whose bytes are stored (tests/c/samples.h, `timed`), and of attempts of peers (attempts.c). Each time is the least
 * mean of the rounds, the clock's own taken off.
 *
 *     cc -std=c11 -O2 -Wall -Wextra c_calls.c attempts.c messages.c ../tests/c/steps.c ../tests/fuzz/sign.c \
 *         $(pkg-config --cflags --libs turn_client) -Wl,--wrap=malloc,--wrap=realloc -o c_calls && ./c_calls [ROUNDS]
 *
 * `c_calls.py` does that, and can write results/speed.md.
 *
 * Each answer is held against what is wanted, and each byte in the first turn: the exit status is 1 where one
 * differs. */
#define _GNU_SOURCE
#include "../tests/c/steps.h"
#include "c_calls.h"

#include <stdio.h>
#include <stdlib.h>
#include <string.h>
#include <time.h>

enum { STEPS_MAX = 64, TURNS = 500 };

/* ---- what is counted */

size_t allocations;

void *__real_malloc(size_t size);
void *__real_realloc(void *block, size_t size);
void *__wrap_malloc(size_t size);
void *__wrap_realloc(void *block, size_t size);

void *__wrap_malloc(size_t size)
{
    allocations++;
    return __real_malloc(size);
}

void *__wrap_realloc(void *block, size_t size)
{
    allocations++;
    return __real_realloc(block, size);
}

uint64_t clock_now(void)
{
    struct timespec now;
    clock_gettime(CLOCK_MONOTONIC, &now);
    return (uint64_t)now.tv_sec * 1000000000 + (uint64_t)now.tv_nsec;
}

/* What the steps of an exchange took: in one round, and at least. */
struct times {
    uint64_t spent[STEPS_MAX], clock;
    double least[STEPS_MAX];
    size_t allocations[STEPS_MAX];
};

static unsigned repeats_of(const struct step *step)
{
    return step->repeats ? step->repeats : 1;
}

/* ---- what is timed */

static struct walker walker;

static void differs(const struct exchange *exchange, size_t k, const char *what)
{
    printf("%s: step %zu has another %s\n", exchange->name, k + 1, what);
    exit(1);
}

/* Makes the calls of a step. */
static void time_step(const struct exchange *exchange, size_t k, bool is_first, struct times *times)
{
    const struct step *step = &exchange->parts[0].steps[k];
    const unsigned repeats = repeats_of(step);
    const size_t before = allocations;
    int32_t answer = 0;
    const uint64_t began = clock_now();
    for (unsigned i = 0; i < repeats; i++)
        answer = step_call(&walker, step);
    times->spent[k] += clock_now() - began;
    times->allocations[k] = (allocations - before) / repeats;
    if (answer != step->want.answer)
        differs(exchange, k, "answer");
    if (!is_first)
        return;
    struct told told = step_told(&walker, step, answer);
    const char *difference = step_difference(&step->want, &told);
    if (difference != NULL)
        differs(exchange, k, difference);
}

static void time_turn(const struct exchange *exchange, bool is_first, struct times *times)
{
    const uint64_t began = clock_now();
    times->clock += clock_now() - began;
    walker.client = (turn_client)TURN_CLIENT_INIT;
    walker.exchange = exchange;
    for (size_t k = 0; k < exchange->parts[0].count; k++)
        time_step(exchange, k, is_first, times);
}

static void time_round(const struct exchange *exchange, bool is_first, struct times *times)
{
    const size_t count = exchange->parts[0].count;
    memset(times->spent, 0, sizeof times->spent);
    times->clock = 0;
    for (int turn = 0; turn < TURNS; turn++)
        time_turn(exchange, is_first && turn == 0, times);
    for (size_t k = 0; k < count; k++) {
        const double spent = (double)times->spent[k] - (double)times->clock;
        const double mean = spent / TURNS / repeats_of(&exchange->parts[0].steps[k]);
        if (is_first || mean < times->least[k])
            times->least[k] = mean;
    }
}

void print_time(const char *name, double nanoseconds, size_t taken)
{
    printf("  %-42s %8.0f ns  %zu allocations\n", name, nanoseconds, taken);
}

static void print_times(const struct exchange *exchange, const struct times *times)
{
    printf("%s\n", exchange->name);
    for (size_t k = 0; k < exchange->parts[0].count; k++) {
        const char *name = exchange->parts[0].steps[k].name;
        if (name != NULL)
            print_time(name, times->least[k], times->allocations[k]);
    }
}

int main(int argc, char **argv)
{
    static struct times times;
    const long rounds = argc > 1 ? strtol(argv[1], NULL, 10) : 40;
    for (size_t i = 0; i < timed_count; i++) {
        if (timed[i].count != 1 || timed[i].parts[0].count > STEPS_MAX) {
            printf("too many steps\n");
            return 1;
        }
        for (long round = 0; round < rounds; round++)
            time_round(&timed[i], round == 0, &times);
        print_times(&timed[i], &times);
    }
    tell_attempts();
    return 0;
}
