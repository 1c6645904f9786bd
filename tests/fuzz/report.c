/* report.c: what report.h declares. */
#include "report.h"

#include <stdio.h>
#include <stdlib.h>

int LLVMFuzzerInitialize(int *argc, char ***argv);

int LLVMFuzzerInitialize(int *argc, char ***argv)
{
    (void)argc, (void)argv;
    atexit(print_counts);
    return 0;
}

void check(bool holds, const char *what)
{
    if (holds)
        return;
    fprintf(stderr, "FOUND: %s", what);
    print_last();
    fputc('\n', stderr);
    print_counts();
    abort();
}

/* libFuzzer takes these for counters of code. */
enum { FEATURES = 1 << 14 };
__attribute__((section("__libfuzzer_extra_counters"))) static uint8_t features[FEATURES];

void note(uint32_t one, uint32_t other, uint32_t third)
{
    const uint32_t hash = (one * 2654435761u) ^ (other * 2246822519u) ^ (third * 3266489917u);
    uint8_t *feature = &features[(hash ^ hash >> 15) % FEATURES];
    if (*feature < UINT8_MAX)
        (*feature)++;
}
