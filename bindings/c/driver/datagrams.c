/* datagrams.c: datagrams to peers and from them, permissions and channels. */
#define _GNU_SOURCE
#include "internal.h"

#include <stdlib.h>
#include <string.h>

#define CHANNEL_REST (300 * SECOND) /* from a failed channel to the next attempt at one */

static bool is_of_datagrams(const turn_driver *driver)
{
    return driver->settings.peers != TURN_TCP;
}

/* Refuses a peer's address, a driver of a connection, and a driver that is over. */
static int32_t check(turn_driver *driver, const turn_address *peer)
{
    if (peer != NULL && !is_address(peer))
        return refuses(driver, TURN_DRIVER_BAD_PEER, "the peer's family is neither 4 nor 6");
    if (!is_of_datagrams(driver))
        return refuses(driver, TURN_DRIVER_BAD_KIND, "the driver is for a connection");
    return TURN_DRIVER_OK;
}

/* ---- reports that wait */

static void report(turn_driver *driver, const turn_driver_failure *failure)
{
    if (driver->notice_count == TURN_DRIVER_NOTICES_MAX)
        return;
    const size_t at = (driver->notice_first + driver->notice_count) % TURN_DRIVER_NOTICES_MAX;
    driver->notices[at] = *failure;
    driver->notice_count++;
}

static int32_t take_notice(turn_driver *driver)
{
    const turn_driver_failure *first = &driver->notices[driver->notice_first];
    driver->notice_first = (driver->notice_first + 1) % TURN_DRIVER_NOTICES_MAX;
    driver->notice_count--;
    return fails(driver, first);
}

void take_report(turn_driver *driver, const turn_payload *payload)
{
    turn_driver_failure failure;
    char peer[TURN_ADDRESS_TEXT_MAX];
    fail_with(&failure, TURN_DRIVER_UNREACHABLE, "ICMP type %u, code %u on the way to %s",
              (unsigned)payload->icmp_type, (unsigned)payload->icmp_code,
              turn_address_text(&payload->peer, peer));
    failure.peer = payload->peer;
    failure.icmp_type = payload->icmp_type;
    failure.icmp_code = payload->icmp_code;
    failure.icmp_data = payload->icmp_data;
    report(driver, &failure);
}

/* ---- channels */

static struct channel_note *note_of(turn_driver *driver, const turn_address *peer)
{
    uint32_t hash = 2166136261u; /* FNV-1a */
    for (size_t i = 0; i < (peer->family == 4 ? 4u : 16u); i++)
        hash = (hash ^ peer->ip[i]) * 16777619u;
    hash = (hash ^ peer->port) * 16777619u;
    return &driver->channels[(hash ^ (hash >> 16)) % CHANNELS_MAX];
}

static void note_channel(turn_driver *driver, const turn_address *peer, uint64_t until)
{
    *note_of(driver, peer) = (struct channel_note){.peer = *peer, .until = until};
}

/* Requests a channel to a peer, unless it has one or one failed a short while ago. */
static void want_channel(turn_driver *driver, const turn_address *peer)
{
    const struct channel_note *note = note_of(driver, peer);
    const uint64_t now = clock_now();
    uint64_t until = now + CHANNEL_REST;
    if (driver->options.indications || (is_same(&note->peer, peer) && now < note->until))
        return;
    const int32_t status = turn_client_bind(&driver->client, TURN_UDP, peer, now, &until);
    if (status == TURN_OK || status == TURN_ALREADY_EXISTS)
        until = UINT64_MAX;
    note_channel(driver, peer, until);
    if (status == TURN_OK)
        driver->due = 0;
}

void follow_channel(turn_driver *driver, const turn_event *event)
{
    if (event->kind == TURN_CHANNEL_FAILED)
        note_channel(driver, &event->address, clock_now() + CHANNEL_REST);
}

/* ---- permissions that are requested or awaited */

static bool is_permitted(turn_driver *driver, const turn_address *host)
{
    return turn_client_is_permitted(&driver->client, driver->settings.peers, host);
}

static bool is_requested(const turn_driver *driver, const turn_address *host)
{
    const struct datagram *it = driver->requested.first;
    while (it != NULL && !is_same_host(&it->peer, host))
        it = it->next;
    return it != NULL;
}

static bool is_awaited(const turn_driver *driver, const turn_address *host)
{
    size_t at = 0;
    while (at < driver->awaited_count && !is_same_host(&driver->awaited[at], host))
        at++;
    return at < driver->awaited_count;
}

static bool are_awaited_permitted(turn_driver *driver)
{
    size_t at = 0;
    while (at < driver->awaited_count && is_permitted(driver, &driver->awaited[at]))
        at++;
    return at == driver->awaited_count;
}

/* ---- to peers */

/* Sends a datagram to a peer that is permitted: a status of the client, or TURN_NOTHING if the line
 * does not take it. */
static int32_t send_now(turn_driver *driver, const turn_address *peer, const void *bytes,
                        size_t len)
{
    turn_transmit transmit;
    if (line_room(&driver->line) == 0)
        return TURN_NOTHING;
    const int32_t status = turn_client_send(&driver->client, TURN_UDP, peer, bytes, len,
                                            clock_now(), driver->out, sizeof driver->out,
                                            &transmit);
    if (status != TURN_OK)
        return status;
    if (!line_send(&driver->line, driver->out, transmit.size))
        return TURN_NOTHING;
    want_channel(driver, peer);
    return TURN_OK;
}

/* Removes what a queue has for a host, and may send it. */
static void release(turn_driver *driver, struct queue *queue, const turn_address *host, bool sends)
{
    for (size_t left = queue->count; left > 0; left--) {
        struct datagram *first = queue_take(queue);
        if (!is_same_host(&first->peer, host)) {
            queue_put(queue, first);
            continue;
        }
        if (sends)
            send_now(driver, &first->peer, first->bytes, first->size);
        free(first);
    }
}

void follow_permission(turn_driver *driver, const turn_event *event)
{
    turn_driver_failure failure;
    char host[TURN_ADDRESS_TEXT_MAX], what[TURN_ADDRESS_TEXT_MAX + 32] = "no permission for ";
    const bool is_granted = event->kind == TURN_PERMISSION_CREATED;
    release(driver, &driver->requested, &event->address, false);
    release(driver, &driver->waiting, &event->address, is_granted && !driver->is_closing);
    if (is_granted || driver->is_closing)
        return;
    strcat(what, turn_address_text(&event->address, host));
    fail_of_event(driver, &failure, TURN_DRIVER_PEER_REFUSED, what);
    failure.peer = event->address;
    if (!is_awaited(driver, &event->address)) {
        report(driver, &failure);
    } else if (!driver->has_refusal) { /* of several that a call waits for the first counts */
        driver->refusal = failure;
        driver->has_refusal = true;
    }
}

/* Requests permissions for hosts by one request: TURN_DRIVER_TIMEOUT, or a failure. */
static int32_t request(turn_driver *driver, const turn_address *hosts, size_t count)
{
    struct queue added = {.first = NULL};
    turn_driver_failure failure;
    int32_t status = TURN_OK;
    for (size_t i = 0; i < count && status == TURN_OK; i++)
        status = queue_add(&added, &hosts[i], NULL, 0) ? TURN_OK : TURN_NO_MEMORY;
    if (status == TURN_OK)
        status = turn_client_permit_several(&driver->client, driver->settings.peers, hosts, count,
                                            clock_now());
    while (status == TURN_OK && added.count > 0)
        queue_put(&driver->requested, queue_take(&added));
    queue_clear(&added);
    if (status == TURN_OK || status == TURN_ALREADY_EXISTS) {
        take_turns(driver);
        return TURN_DRIVER_TIMEOUT;
    }
    if (status == TURN_NO_ALLOCATION)
        fail_with(&failure, TURN_DRIVER_PEER_REFUSED, "there is no relayed address of IPv%u",
                  (unsigned)hosts[0].family);
    else
        fail_of_status(&failure, status);
    failure.peer = hosts[0];
    return fails(driver, &failure);
}

int32_t request_permission(turn_driver *driver, const turn_address *peer)
{
    if (driver->is_over)
        return fails(driver, &driver->fatal);
    return is_permitted(driver, peer) ? TURN_DRIVER_OK : request(driver, peer, 1);
}

/* Requests the permissions that a call awaits, but for those that are requested, and has it await
 * none that is there: as request_permission. */
static int32_t request_awaited(turn_driver *driver)
{
    turn_address hosts[TURN_PERMIT_MAX];
    size_t count = 0, left = 0;
    if (driver->is_over)
        return fails(driver, &driver->fatal);
    for (size_t i = 0; i < driver->awaited_count; i++) {
        const turn_address host = driver->awaited[i];
        if (is_permitted(driver, &host))
            continue;
        driver->awaited[left++] = host;
        if (!is_requested(driver, &host))
            hosts[count++] = host;
    }
    driver->awaited_count = left;
    if (count > 0)
        return request(driver, hosts, count);
    return left > 0 ? TURN_DRIVER_TIMEOUT : TURN_DRIVER_OK;
}

/* Waits for the permissions that a call awaits, whose request came to this status. */
static int32_t wait_for_awaited(turn_driver *driver, int32_t status, uint64_t until)
{
    while (status == TURN_DRIVER_TIMEOUT) {
        go_on(driver, false);
        if (driver->is_over)
            status = fails(driver, &driver->fatal);
        else if (driver->has_refusal)
            status = fails(driver, &driver->refusal);
        else if (are_awaited_permitted(driver))
            status = TURN_DRIVER_OK;
        else if (!wait_for_more(driver, until))
            break;
    }
    driver->awaited_count = 0;
    return status;
}

int32_t turn_driver_permit(turn_driver *driver, const turn_address *peer, int timeout_ms)
{
    const uint64_t until = deadline_of(timeout_ms);
    const int32_t status = check(driver, peer);
    if (status != TURN_DRIVER_OK)
        return status;
    driver->awaited[0] = *peer;
    driver->awaited_count = 1;
    driver->has_refusal = false;
    return wait_for_awaited(driver, request_permission(driver, peer), until);
}

/* Has a call await each of the hosts once: false if there is none, or more than may be, or they are
 * of two families. */
static bool await_each(turn_driver *driver, const turn_address *peers, size_t count)
{
    driver->awaited_count = 0;
    for (size_t i = 0; i < count; i++) {
        if (is_awaited(driver, &peers[i]))
            continue;
        if (peers[i].family != peers[0].family || driver->awaited_count == TURN_PERMIT_MAX)
            return false;
        driver->awaited[driver->awaited_count++] = peers[i];
    }
    return count > 0;
}

int32_t turn_driver_permit_several(turn_driver *driver, const turn_address *peers, size_t count,
                                   int timeout_ms)
{
    const uint64_t until = deadline_of(timeout_ms);
    int32_t status = check(driver, NULL);
    for (size_t i = 0; i < count && status == TURN_DRIVER_OK; i++)
        status = check(driver, &peers[i]);
    if (status != TURN_DRIVER_OK)
        return status;
    if (!await_each(driver, peers, count)) {
        driver->awaited_count = 0;
        return refuses(driver, TURN_DRIVER_BAD_ADDRESSES,
                       "there is no address, or more than 32, or they are of two families");
    }
    driver->has_refusal = false;
    return wait_for_awaited(driver, request_awaited(driver), until);
}

/* Has a datagram wait for the permission, which is requested. */
static int32_t wait_for_permission(turn_driver *driver, const turn_address *peer, const void *bytes,
                                   size_t len)
{
    if (!queue_has_room(&driver->waiting, len))
        return refuses(driver, TURN_DRIVER_FULL, "too much waits for permissions");
    if (!queue_add(&driver->waiting, peer, bytes, len))
        return refuses(driver, TURN_DRIVER_NO_MEMORY, "out of memory");
    const int32_t status = request_permission(driver, peer);
    if (status < 0 && !driver->is_over)
        release(driver, &driver->waiting, peer, false);
    return status < 0 ? status : TURN_DRIVER_OK;
}

int32_t turn_driver_send_to(turn_driver *driver, const turn_address *peer, const void *bytes,
                            size_t len)
{
    turn_driver_failure failure;
    int32_t status = check(driver, peer);
    if (status != TURN_DRIVER_OK)
        return status;
    if (len > TURN_PAYLOAD_MAX)
        return refuses(driver, TURN_DRIVER_TOO_LARGE, "the datagram has more than 65504 bytes");
    if (!driver->is_over && clock_now() >= driver->due)
        take_turns(driver);
    if (driver->is_over)
        return fails(driver, &driver->fatal);
    status = send_now(driver, peer, bytes, len);
    if (status == TURN_NO_PERMISSION)
        return wait_for_permission(driver, peer, bytes, len);
    if (driver->due == 0)
        take_turns(driver);
    if (status == TURN_OK)
        return TURN_DRIVER_OK;
    if (status == TURN_NOTHING)
        return refuses(driver, TURN_DRIVER_FULL, "the socket to the server takes no more");
    fail_of_status(&failure, status);
    return fails(driver, &failure);
}

/* ---- from peers */

void take_datagram(turn_driver *driver, const turn_payload *payload, const uint8_t *bytes)
{
    if (!is_of_datagrams(driver) || driver->is_closing)
        return;
    if (!queue_has_room(&driver->received, payload->size)
        || !queue_add(&driver->received, &payload->peer, bytes, payload->size))
        driver->dropped++;
}

/* Takes the first datagram that came. */
static int32_t take_first(turn_driver *driver, turn_address *peer, void *out, size_t out_len,
                          size_t *len)
{
    *len = driver->received.first->size;
    if (*len > out_len)
        return refuses(driver, TURN_DRIVER_SMALL_BUFFER, "the datagram is larger than the buffer");
    struct datagram *first = queue_take(&driver->received);
    *peer = first->peer;
    if (*len > 0)
        memcpy(out, first->bytes, *len);
    free(first);
    return TURN_DRIVER_OK;
}

int32_t turn_driver_recv_from(turn_driver *driver, turn_address *peer, void *out, size_t out_len,
                              size_t *len, int timeout_ms)
{
    const uint64_t until = deadline_of(timeout_ms);
    const int32_t status = check(driver, NULL);
    if (status != TURN_DRIVER_OK)
        return status;
    for (;;) {
        go_on(driver, true);
        if (driver->received.count > 0)
            return take_first(driver, peer, out, out_len, len);
        if (driver->notice_count > 0)
            return take_notice(driver);
        if (driver->is_over)
            return fails(driver, &driver->fatal);
        if (!wait_for_more(driver, until))
            return TURN_DRIVER_TIMEOUT;
    }
}

uint64_t turn_driver_dropped(const turn_driver *driver)
{
    return driver->dropped;
}
