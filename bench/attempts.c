/* attempts.c: how long a client takes for the n-th CONNECTION_ATTEMPT (RFC 6062, section 4.4), where the program has
 * opened no socket for those before it: each is compared with all that wait. It is a part of c_calls.c. A time is the
 * mean of the last ten, the least of several clients.
 *
 * The server's messages are of messages.c: a challenge, signed successes of ALLOCATE and CREATE_PERMISSION, and the
 * attempts, which are signed before the clock runs. */
#include "c_calls.h"

#include <stdbool.h>
#include <stdio.h>
#include <stdlib.h>

#include "messages.h"

enum { LAST = 10, MILLION = 1000000, CONNECTION_ATTEMPT = 0x000c, ATTEMPTS_MOST = 10000 };

/* At most so many nanoseconds each, about five times what the machine of docs/SPEED.md takes. */
static const struct { size_t attempts, clients; double most; } rows[] = {
    {64, 400, 4000}, {1000, 20, 12000}, {ATTEMPTS_MOST, 3, 90000},
};

static const turn_address own = {{192, 0, 2, 1}, 5000, 4}, server = {{192, 0, 2, 2}, 3478, 4};
static const turn_address peer = {{198, 51, 100, 1}, 9000, 4};

static struct message attempts[ATTEMPTS_MOST];
static uint8_t out[TURN_MESSAGE_MAX];

static void must(bool holds, const char *what)
{
    if (holds)
        return;
    printf("attempts: wrong: %s\n", what);
    exit(1);
}

/* ---- the attempts */

static void make_attempts(void)
{
    for (size_t i = 0; i < ATTEMPTS_MOST; i++) {
        uint8_t id[ID_SIZE] = {0x21, 0x12, 0xa4, 0x42};
        message_set(id + 4, (uint32_t)i + 1, 4);
        attempts[i] = message_begin(CONNECTION_ATTEMPT, id);
        message_add_number(&attempts[i], CONNECTION_ID, (uint32_t)i + 1);
        message_add_address(&attempts[i], PEER, &peer, (unsigned)i + 1);
        message_sign(&attempts[i]);
    }
}

/* ---- the client */

static int32_t feed(turn_client *client, const struct message *message, uint64_t now)
{
    turn_payload payload;
    return turn_client_feed(client, &server, &own, message->bytes, message->size, now, &payload);
}

/* Draws a request, and begins the response to it. */
static struct message respond(turn_client *client, unsigned class, uint64_t now)
{
    turn_transmit transmit;
    must(turn_client_draw(client, now, out, sizeof out, &transmit) == TURN_OK, "a request is drawn");
    return message_respond(out, class);
}

static void take_event(turn_client *client, uint32_t kind)
{
    turn_event event;
    must(turn_client_event(client, &event) == TURN_OK && event.kind == kind, "an event");
}

/* Opens a client that has an allocation over TCP, and a permission for the peer. So many connections may wait as are
 * measured; by default 64 may. */
static void open_client(turn_client *client)
{
    const turn_seed seed = {{1}};
    turn_settings settings = TURN_SETTINGS_INIT;
    settings.local = own, settings.server = server;
    settings.transport = settings.peers = TURN_TCP;
    settings.integrity = TURN_SHA1;
    settings.max_connection_attempts = ATTEMPTS_MOST;
    must(turn_client_open(client, &settings, "user", 4, "pass", 4, &seed) == TURN_OK, "open");
    struct message challenge = respond(client, ERROR, 0);
    message_challenge(&challenge);
    must(feed(client, &challenge, 0) == TURN_OK, "a challenge");
    struct message allocated = respond(client, SUCCESS, 50 * MILLION);
    message_add_address(&allocated, RELAYED, &peer, 50000);
    message_add_number(&allocated, LIFETIME, 600);
    message_sign(&allocated);
    must(feed(client, &allocated, 50 * MILLION) == TURN_OK, "an allocation");
    take_event(client, TURN_ALLOCATION_CREATED);
    must(turn_client_permit(client, TURN_TCP, &peer, 50 * MILLION) == TURN_OK, "permit");
    struct message permitted = respond(client, SUCCESS, 100 * MILLION);
    message_sign(&permitted);
    must(feed(client, &permitted, 100 * MILLION) == TURN_OK, "a permission");
    take_event(client, TURN_PERMISSION_CREATED);
}

/* Nanoseconds of one of the last of so many attempts, and how many allocations it makes. */
static double time_last(size_t count, double *taken)
{
    turn_client client = TURN_CLIENT_INIT;
    turn_wait wait;
    open_client(&client);
    for (size_t i = 0; i < count - LAST; i++)
        must(feed(&client, &attempts[i], 100 * MILLION) == TURN_OK, "an attempt");
    const size_t before = allocations;
    const uint64_t began = clock_now();
    for (size_t i = count - LAST; i < count; i++)
        must(feed(&client, &attempts[i], 100 * MILLION) == TURN_OK, "one of the last attempts");
    const double spent = (double)(clock_now() - began);
    *taken = (double)(allocations - before) / LAST;
    must(turn_client_poll(&client, 100 * MILLION, &wait) == TURN_OPEN_SOCKET, "a socket is requested");
    turn_client_close(&client);
    return spent / LAST;
}

void tell_attempts(void)
{
    make_attempts();
    printf("connections that peers open\n");
    for (size_t i = 0; i < sizeof rows / sizeof *rows; i++) {
        char name[64];
        double least = 0, taken = 0;
        for (size_t k = 0; k < rows[i].clients; k++) {
            const double spent = time_last(rows[i].attempts, &taken);
            least = k == 0 || spent < least ? spent : least;
        }
        snprintf(name, sizeof name, "feed: CONNECTION_ATTEMPT %zu", rows[i].attempts);
        print_time(name, least, (size_t)taken);
        must(least <= rows[i].most, "an attempt takes longer than its bound");
    }
}
