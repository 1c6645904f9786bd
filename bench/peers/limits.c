/* limits.c: what no library can be faster than: a copy of a payload, and two system calls for it. */
#include <arpa/inet.h>
#include <string.h>
#include <sys/socket.h>

#include "rows.h"

static uint8_t copied[PAYLOAD];
static int sender = -1, receiver = -1;

static void forget(void)
{
    memset(copied, 0, sizeof copied);
}

static bool copy(size_t i)
{
    (void)i;
    memcpy(copied, row_payload, sizeof copied);
    /* so that no compiler leaves the copy out */
    __asm__ volatile("" : : "r"(copied) : "memory");
    return true;
}

static bool is_copied(size_t i)
{
    (void)i;
    const bool is_same = memcmp(copied, row_payload, sizeof copied) == 0;
    forget();
    return is_same;
}

/* Two connected sockets of UDP over loopback. */
static void open_sockets(size_t held)
{
    (void)held;
    struct sockaddr_in at = {.sin_family = AF_INET, .sin_addr = {htonl(INADDR_LOOPBACK)}};
    socklen_t size = sizeof at;
    if (sender >= 0)
        return;
    forget();
    receiver = socket(AF_INET, SOCK_DGRAM, 0);
    sender = socket(AF_INET, SOCK_DGRAM, 0);
    row_must(bind(receiver, (struct sockaddr *)&at, sizeof at) == 0, "bind");
    row_must(getsockname(receiver, (struct sockaddr *)&at, &size) == 0, "getsockname");
    row_must(connect(sender, (struct sockaddr *)&at, sizeof at) == 0, "connect");
}

static bool exchange(size_t i)
{
    (void)i;
    return send(sender, row_payload, PAYLOAD, 0) == PAYLOAD && recv(receiver, copied, sizeof copied, 0) == PAYLOAD;
}

const struct row_call row_calls[] = {
    {"copy", HELD_MOST, NULL, copy, is_copied},
    {"loopback", HELD_MOST, open_sockets, exchange, is_copied},
};
const size_t row_calls_count = sizeof row_calls / sizeof *row_calls;
