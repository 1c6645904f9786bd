/* steps.h: exchanges of a client with a server as tables, one step for each call of turn_client.h: what the call is
 * given, and what is wanted of it. samples.py writes the tables (samples.h); exchange.c, refused.c, wiped.c and
 * bench/c_calls.c walk them by what is declared here and stands in steps.c.
 *
 * Built with each of these, as `check` does: cc -I../../bindings/c/include exchange.c steps.c ... */
#ifndef STEPS_H
#define STEPS_H

#include "turn_client.h"

/* the functions of turn_client.h */
enum call {
    CALL_OPEN, CALL_CLOSE, CALL_DELETE, CALL_FEED, CALL_PULL, CALL_READ, CALL_DRAW, CALL_SEND, CALL_POLL, CALL_EVENT,
    CALL_EXPIRED, CALL_PERMIT, CALL_PERMIT_SEVERAL, CALL_BIND, CALL_CONNECT, CALL_SOCKET, CALL_CLOSED,
    CALL_CREDENTIALS, CALL_SOFTWARE, CALL_FINGERPRINT, CALL_CAUSE, CALL_REASON, CALL_DOMAIN, CALL_MAPPED,
    CALL_RESERVATION, CALL_RELAYED, CALL_PERMISSIONS, CALL_IS_PERMITTED, CALL_CHANNELS, CALL_CONNECTIONS,
    CALLS
};

/* their names, without the prefix that all of them have */
extern const char *const call_names[CALLS];

struct bytes {
    const uint8_t *at;
    size_t len;
};

/* What a call told. What it doesn't tell is zero. */
struct told {
    int32_t answer;           /* a status; of getters how many there are, and 1 for true */
    uint32_t transport;
    uint32_t number;          /* of a connection or a channel; the kind of an event or a cause; the data of a report in
                                 ICMP */
    uint32_t code;            /* of the error response that a cause reports */
    turn_address from, to;
    turn_address peer;        /* or the address that an event or a getter tells */
    const uint8_t *bytes;     /* what was written, or a payload that stands in what was handed in */
    size_t size;              /* its size; of a payload that doesn't stand there, too; of a cause its phrase's */
    size_t domain_size;
    size_t start;             /* where it stands there */
    bool is_joined, is_bound, is_signed;
    uint8_t icmp_type, icmp_code;
    uint64_t until;           /* or the token of a reserved port */
};

/* A call, what it is given, and what is wanted of it. */
struct step {
    const char *name;         /* what it shows; in c_calls.c what is timed */
    enum call call;
    uint64_t now;
    uint32_t transport;
    uint32_t number;          /* of a connection; of getters which of what they hold is looked at; of fingerprint
                                 whether it is to be there */
    turn_address from, to;    /* where one alone is given, `to`: the peer, or the relayed address; the own address of a
                                 socket is `from` */
    struct bytes bytes;       /* of credentials the name; of permit_several of each peer its family and its octets */
    struct bytes password;
    size_t less;              /* by so many bytes the buffer is too small */
    unsigned repeats;         /* in c_calls.c: how often it is called, where that changes nothing; 0 is once */
    struct told want;
};

/* Steps that show one thing. */
struct part {
    const char *name;
    const struct step *steps;
    size_t count;
};

/* All that one client does, from its opening to its close. */
struct exchange {
    const char *name;
    turn_settings settings;
    const struct part *parts;
    size_t count;
};

/* Bytes that any buffer has room for that a step wants. */
#define OUT_MAX (TURN_PAYLOAD_MAX + 1 + TURN_SEND_EXTRA)
enum { HELD_MAX = 4, PEERS_MAX = TURN_PERMIT_MAX + 1 };

/* A client that walks an exchange, and what its last call wrote. */
struct walker {
    turn_client client;
    const struct exchange *exchange;
    turn_payload payload;
    turn_transmit transmit;
    turn_wait wait;
    turn_event event;
    turn_cause cause;
    turn_address mapped;
    turn_relayed expired;
    uint64_t until, reservation;
    turn_relayed relayed[HELD_MAX];
    turn_address permissions[HELD_MAX];
    turn_channel channels[HELD_MAX];
    turn_connection connections[HELD_MAX];
    uint8_t out[OUT_MAX];
};

/* The exchanges of samples.h, and those of which bench/c_calls.c times the steps. */
extern const struct exchange exchanges[], timed[];
extern const size_t exchange_count, timed_count;

/* The user and the password of all exchanges. */
extern const struct bytes sample_user, sample_password;

/* Opens a client under the seed of all exchanges. */
int32_t open_with(turn_client *client, const turn_settings *settings, struct bytes user, struct bytes password);

/* The peers of a step of permit_several, PEERS_MAX at most: how many there are. */
size_t step_peers(const struct step *step, turn_address *peers);

/* Makes the call of a step: its answer. */
int32_t step_call(struct walker *walker, const struct step *step);

/* What that call told. */
struct told step_told(const struct walker *walker, const struct step *step, int32_t answer);

/* In what it differs from what is wanted: in nothing where this is NULL. */
const char *step_difference(const struct told *want, const struct told *told);

#endif
