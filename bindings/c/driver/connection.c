/* connection.c: one connection over TCP to one peer (RFC 6062). */
#define _GNU_SOURCE
#include "internal.h"

#include <errno.h>
#include <string.h>

static bool is_of_connection(const turn_driver *driver)
{
    return driver->settings.peers == TURN_TCP;
}

/* What a call waits for failed. */
static void refuse_connection(turn_driver *driver, const char *text)
{
    fail_with(&driver->refusal, TURN_DRIVER_PEER_REFUSED, "no connection to the peer: %s", text);
    driver->refusal.peer = driver->peer;
    driver->has_refusal = true;
}

/* ---- its socket */

/* Reports the socket to the client, or that there is none: a status of the client. */
static int32_t report_data(turn_driver *driver, uint32_t id, const turn_address *peer,
                           const turn_address *own)
{
    static const turn_address none;
    driver->due = 0;
    return turn_client_socket(&driver->client, id, peer, own == NULL ? &none : own, clock_now());
}

/* The socket is open: the client is told, and told again later if it has no memory for that. */
static void report_open_data(turn_driver *driver)
{
    const int32_t status =
        report_data(driver, driver->data_id, &driver->peer, &driver->data.own);
    if (status == TURN_NO_MEMORY) {
        driver->data_again = clock_now() + PAUSE;
        return;
    }
    driver->is_reported = true;
    if (status != TURN_OK) {
        refuse_connection(driver, "the client does not wait for its socket any more");
        line_close(&driver->data);
    }
}

void open_data(turn_driver *driver, const turn_wait *wait)
{
    turn_address local = wait->from;
    local.port = 0;
    if (!is_of_connection(driver) || driver->is_closing || driver->data.state != LINE_CLOSED
        || !is_same(&wait->peer, &driver->peer)) { /* a peer connects, which is not accepted */
        report_data(driver, wait->id, &wait->peer, NULL);
        return;
    }
    line_start(&driver->data, &wait->to, &local, true, driver->line.tls, driver->host);
    driver->data_id = wait->id;
    driver->data_until = clock_now() + TURN_DRIVER_CONNECT_MS * MILLISECOND;
    driver->is_reported = false;
}

/* The socket is open, or cannot be opened: the client is told. */
static void go_on_opening(turn_driver *driver)
{
    struct line *data = &driver->data;
    line_go_on(data);
    if (data->state == LINE_OPEN) {
        report_open_data(driver);
    } else if (data->state == LINE_FAILED || clock_now() >= driver->data_until) {
        refuse_connection(driver, data->error != 0       ? strerror(data->error)
                                  : data->why[0] != '\0' ? data->why
                                                         : "no socket to the server in time");
        line_close(data);
        if (report_data(driver, driver->data_id, &driver->peer, NULL) == TURN_NO_MEMORY) {
            turn_driver_failure failure;
            fail_of_status(&failure, TURN_NO_MEMORY);
            ends(driver, &failure);
        }
    }
}

/* The peer has closed the connection, or the server has. A server may reset each connection that
 * ends, as coturn does: that is an end as any other. */
static void data_has_ended(turn_driver *driver)
{
    const turn_address own = driver->data.own, server = driver->data.server;
    take_turns(driver); /* it may have been made just before */
    if (driver->is_over)
        return;
    if (!driver->is_connected && !driver->has_refusal)
        refuse_connection(driver, "the server closed it before it was made");
    driver->has_ended = driver->is_connected;
    line_close(&driver->data);
    turn_client_closed(&driver->client, &own, &server, clock_now());
    driver->due = 0;
}

static void read_data(turn_driver *driver)
{
    int reads = 0;
    while (!driver->is_over && driver->data.state == LINE_OPEN && reads < TURN_DRIVER_READS_MAX
           && has_room_for_stream(driver)) {
        const ssize_t size = line_read(&driver->data, driver->in, sizeof driver->in);
        if (size < 0)
            break;
        feed(driver, &driver->data, driver->in, (size_t)size);
        reads++;
    }
    driver->data.has_more = driver->data.state == LINE_OPEN && reads == TURN_DRIVER_READS_MAX;
}

void go_on_with_data(turn_driver *driver)
{
    struct line *data = &driver->data;
    if (data->state == LINE_CLOSED)
        return;
    if (!driver->is_reported) {
        go_on_opening(driver);
        return;
    }
    line_go_on(data);
    read_data(driver);
    if (!driver->is_over && (data->state == LINE_FAILED || data->has_ended))
        data_has_ended(driver);
}

void follow_connection(turn_driver *driver, const turn_event *event)
{
    if (driver->is_closing || !is_same(&event->address, &driver->peer))
        return;
    if (event->kind == TURN_TCP_CONNECTED) {
        driver->is_connected = true;
        return;
    }
    fail_of_event(driver, &driver->refusal, TURN_DRIVER_PEER_REFUSED, "no connection to the peer");
    driver->refusal.peer = driver->peer;
    driver->has_refusal = true;
}

/* ---- connecting */

/* Refuses what is not for this driver. */
static int32_t check(turn_driver *driver, bool has_to_be_connected)
{
    if (!is_of_connection(driver))
        return refuses(driver, TURN_DRIVER_BAD_KIND, "the driver is for datagrams");
    if (has_to_be_connected && !driver->is_connected)
        return driver->is_over ? fails(driver, &driver->fatal)
                               : refuses(driver, TURN_DRIVER_NO_CONNECTION,
                                         "turn_driver_connect has made no connection");
    return TURN_DRIVER_OK;
}

/* Requests the connection, once the peer is permitted. */
static int32_t request_connection(turn_driver *driver)
{
    turn_driver_failure failure;
    int32_t status = request_permission(driver, &driver->peer);
    if (status != TURN_DRIVER_OK || driver->is_requested)
        return status < 0 ? status : TURN_DRIVER_TIMEOUT;
    status = turn_client_connect(&driver->client, &driver->peer, clock_now());
    if (status == TURN_OK || status == TURN_ALREADY_EXISTS) {
        driver->is_requested = true;
        take_turns(driver);
        return TURN_DRIVER_TIMEOUT;
    }
    if (status == TURN_NO_ALLOCATION || status == TURN_NO_PERMISSION)
        fail_with(&failure, TURN_DRIVER_PEER_REFUSED, "no connection to the peer: there is no %s",
                  status == TURN_NO_PERMISSION ? "permission" : "relayed address of its family");
    else
        fail_of_status(&failure, status);
    failure.peer = driver->peer;
    return fails(driver, &failure);
}

/* One step: TURN_DRIVER_TIMEOUT if more are needed. */
static int32_t connect_on(turn_driver *driver)
{
    if (driver->is_over)
        return fails(driver, &driver->fatal);
    if (driver->is_connected)
        return TURN_DRIVER_OK;
    if (driver->has_refusal)
        return fails(driver, &driver->refusal);
    return request_connection(driver);
}

int32_t turn_driver_connect(turn_driver *driver, const turn_address *peer, int timeout_ms)
{
    const uint64_t until = deadline_of(timeout_ms);
    int32_t status = check(driver, false);
    if (!is_address(peer))
        return refuses(driver, TURN_DRIVER_BAD_PEER, "the peer's family is neither 4 nor 6");
    if (status != TURN_DRIVER_OK)
        return status;
    if (driver->peer.family != 0 && !is_same(&driver->peer, peer))
        return refuses(driver, TURN_DRIVER_PEER_REFUSED,
                       "a connection to another peer was requested before");
    driver->peer = driver->awaited[0] = *peer;
    driver->awaited_count = 1;
    for (;;) {
        status = connect_on(driver);
        if (status != TURN_DRIVER_TIMEOUT || !wait_for_more(driver, until))
            break;
        go_on(driver, false);
    }
    driver->awaited_count = 0;
    if (status == TURN_DRIVER_PEER_REFUSED) { /* the next call may try again */
        driver->peer.family = 0;
        driver->is_requested = driver->has_refusal = false;
    }
    return status;
}

/* ---- bytes */

bool has_room_for_stream(const turn_driver *driver)
{
    return buffer_size(&driver->unread) < TURN_DRIVER_UNREAD_MAX;
}

void take_stream(turn_driver *driver, const uint8_t *bytes, size_t size)
{
    driver->is_connected = true; /* data may come with what makes it */
    if (!driver->is_closing)
        buffer_add(&driver->unread, bytes, size);
}

/* Writes as many bytes as there is room for: how many; or a failure, below zero. */
static int64_t write_now(turn_driver *driver, const uint8_t *bytes, size_t len)
{
    turn_driver_failure failure;
    turn_transmit transmit;
    size_t size = line_room(&driver->data);
    size = size < len ? size : len;
    size = size < READ_MAX ? size : READ_MAX;
    if (size == 0)
        return 0;
    const int32_t status = turn_client_send(&driver->client, TURN_TCP, &driver->peer, bytes, size,
                                            clock_now(), driver->out, sizeof driver->out,
                                            &transmit);
    if (status == TURN_OK)
        return line_send(&driver->data, driver->out, transmit.size) ? (int64_t)size : 0;
    if (status == TURN_NO_PERMISSION || status == TURN_NO_SOCKET)
        fail_with(&failure, TURN_DRIVER_PEER_REFUSED, "the connection to the peer is gone");
    else
        fail_of_status(&failure, status);
    return fails(driver, &failure);
}

int32_t turn_driver_write(turn_driver *driver, const void *bytes, size_t len, size_t *written,
                          int timeout_ms)
{
    const uint64_t until = deadline_of(timeout_ms);
    const int32_t status = check(driver, true);
    *written = 0;
    if (status != TURN_DRIVER_OK)
        return status;
    for (;;) {
        while (*written < len && driver->data.state == LINE_OPEN) {
            const int64_t size = write_now(driver, (const uint8_t *)bytes + *written,
                                           len - *written);
            if (size < 0 && *written == 0)
                return (int32_t)size;
            if (size <= 0)
                break;
            *written += (size_t)size;
        }
        if (*written > 0 || len == 0)
            return TURN_DRIVER_OK;
        go_on(driver, false);
        if (driver->is_over)
            return fails(driver, &driver->fatal);
        if (driver->has_ended)
            return TURN_DRIVER_END;
        if (line_room(&driver->data) == 0 && !wait_for_more(driver, until))
            return TURN_DRIVER_TIMEOUT;
    }
}

/* Takes bytes that wait, at most `out_len`. */
static size_t take_bytes(turn_driver *driver, void *out, size_t out_len)
{
    struct buffer *unread = &driver->unread;
    const size_t size = buffer_size(unread) < out_len ? buffer_size(unread) : out_len;
    if (size > 0)
        memcpy(out, unread->bytes + unread->start, size);
    unread->start += size;
    return size;
}

int32_t turn_driver_read(turn_driver *driver, void *out, size_t out_len, size_t *len,
                         int timeout_ms)
{
    const uint64_t until = deadline_of(timeout_ms);
    const int32_t status = check(driver, true);
    *len = 0;
    if (status != TURN_DRIVER_OK)
        return status;
    for (;;) {
        go_on(driver, false);
        *len = take_bytes(driver, out, out_len);
        if (*len > 0 || out_len == 0)
            return TURN_DRIVER_OK;
        if (driver->has_ended)
            return TURN_DRIVER_END;
        if (driver->is_over)
            return fails(driver, &driver->fatal);
        if (!wait_for_more(driver, until))
            return TURN_DRIVER_TIMEOUT;
    }
}

void flush_connection(turn_driver *driver)
{
    const uint64_t until = clock_now() + TURN_DRIVER_FLUSH_MS * MILLISECOND;
    bool is_shut = false;
    if (!driver->is_connected)
        return;
    while (!driver->is_over && driver->data.state == LINE_OPEN) {
        if (!is_shut && buffer_size(&driver->data.unsent) == 0) {
            line_shutdown(&driver->data);
            is_shut = true;
        }
        go_on(driver, false);
        driver->unread.start = driver->unread.end = 0;
        if (driver->is_over || driver->data.state != LINE_OPEN || !wait_for_more(driver, until))
            return;
    }
}
