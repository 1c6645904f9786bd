// What an agent's calls cost beside others of its requests that are outstanding.
#include <float.h>
#include <stdio.h>

#include "bench.h"

size_t stun_bench_agent(bool is_tcp, size_t requests, uint32_t asks, size_t rounds, uint64_t from, uint64_t until);

// ---- an agent that has requests outstanding, sent a microsecond apart

enum {
    AGENT_RUNS = 5,
    AGENT_ASKS = 1000000,       // in one run of a row in which nothing is to be done
    AGENT_REQUESTS = 20000,     // at least so many in one run of any other row, by as many agents
    MILLION = 1000000,          // nanoseconds of a millisecond
};

// what is asked; over UDP a request is sent again half a second and one and a half behind the first time,
// over TCP it ends 39.5 seconds behind
enum agent_asks { SENDS_ALONE = 0, ASKS_TRANSMIT = 1, ASKS_POLL = 2, ASKS_BOTH = 3 };

struct agent_row {
    const char *name;
    enum agent_asks asks;
    bool is_tcp;
    unsigned from, until;       // milliseconds behind the first sending
    unsigned each;              // asks for each request; where it is 0, AGENT_ASKS in all
    double wanted;              // nanoseconds at most, beside 10,000
};

static const struct agent_row agent_rows[] = {
    {"poll_transmit with nothing due", ASKS_TRANSMIT, false, 100, 100, 0, 20},
    {"poll with nothing due", ASKS_POLL, false, 100, 100, 0, 20},
    {"a transmission, of a burst", ASKS_BOTH, false, 900, 900, 1, 400},
    {"a transmission, of those that come due one by one", ASKS_BOTH, false, 500, 900, 2, 8000},
    {"an end, of a burst", ASKS_BOTH, true, 40000, 40000, 1, 8000},
    {"send_request", SENDS_ALONE, false, 0, 0, 1, 4000},
};

static const size_t outstanding[] = {1, 100, 10000};

// the least time of so many agents that send so many requests each, and are asked so many times
static double agents_time(const struct agent_row *row, size_t agents, size_t requests, size_t asks) {
    size_t done = row->each && asks ? requests : 0;
    double fastest = DBL_MAX;
    for (unsigned run = 0; run < AGENT_RUNS; run++) {
        double begun = now();
        for (size_t i = 0; i < agents; i++) {
            must(stun_bench_agent(row->is_tcp, requests, row->asks, asks, (uint64_t)row->from * MILLION,
                                  (uint64_t)row->until * MILLION) == done,
                 row->name);
        }
        double ended = now() - begun;
        fastest = ended < fastest ? ended : fastest;
    }
    return fastest;
}

// what an ask takes, or a request where each has so many asks: the difference that the asks make; of sending
// that which the requests make
static double agent_time(const struct agent_row *row, size_t requests) {
    if (!row->each) {
        return (agents_time(row, 1, requests, AGENT_ASKS) - agents_time(row, 1, requests, 0)) / AGENT_ASKS;
    }
    size_t agents = AGENT_REQUESTS / requests;
    bool sends = row->asks == SENDS_ALONE;
    double all = agents_time(row, agents, requests, sends ? 0 : row->each * requests);
    double none = agents_time(row, agents, sends ? 0 : requests, 0);
    return (all - none) / (double)(agents * requests);
}

void tell_agents(void) {
    for (size_t i = 0; i < sizeof agent_rows / sizeof agent_rows[0]; i++) {
        const struct agent_row *row = &agent_rows[i];
        for (size_t k = 0; k < sizeof outstanding / sizeof outstanding[0]; k++) {
            char name[96];
            snprintf(name, sizeof name, "%s, %zu outstanding, ns", row->name, outstanding[k]);
            tell(name, outstanding[k] == 10000 ? row->wanted : NO_BOUND, agent_time(row, outstanding[k]));
        }
    }
}
