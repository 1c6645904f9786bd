/* fuzz.h: what the parts of the fuzzer have of each other. */
#ifndef FUZZ_H
#define FUZZ_H

#include "report.h"
#include "steps.h"

/* The last call of the library and its answer, for what is told then. */
extern enum call last_call;
extern int32_t last_answer;

/* How many inputs reached what. */
enum reach {
    REACH_ALLOCATION, REACH_PERMISSION, REACH_CHANNEL, REACH_PAYLOAD, REACH_JOINED, REACH_ICMP, REACH_CONNECTION,
    REACH_BOUND, REACH_REFUSED_MEMORY, REACH_FAILED, REACH_ENDED, REACH_WHOLE, REACH_REJECTED, REACH_CAUSE,
    REACHES
};
void reach(enum reach what);

/* A client, its last call, and what is known of it. */
struct fuzzed {
    struct walker walker;      /* the exchange, and what the last call told */
    turn_client *client;       /* its handle, in memory of its own */
    turn_settings settings;    /* of the client that is open */
    size_t waiting;            /* joined bytes that wait */
    size_t allocations;        /* that the getters showed last */
    bool is_open, has_failed;
    bool has_zero_seed;        /* it is opened under a seed of zeros */
    bool has_lost_notes;       /* memory was refused for what it notes of events */
    bool is_undisturbed;       /* no call but those of the exchange changed anything */
};

/* Makes the call of a step, with so much room for what it writes: its answer. Where it breaks what the header says,
 * the program ends. */
int32_t call_checked(struct fuzzed *fuzzed, const struct step *step, size_t room);

/* Whether a call reads what the client notes beside what it holds: it changes nothing, and needs no memory. */
bool is_note(enum call call);

/* The room that a call wants. */
size_t room_wanted(const struct fuzzed *fuzzed, const struct step *step);

/* Opens a client with these settings, name and password. */
int32_t open_checked(struct fuzzed *fuzzed, const turn_settings *settings, struct bytes user, struct bytes password);

/* A digest of all that the getters show. */
uint64_t shown(struct fuzzed *fuzzed);

#endif
