/* line.c: a socket to the server, over UDP, TCP or TLS, which never blocks. */
#define _GNU_SOURCE
#include "internal.h"

#include <errno.h>
#include <string.h>
#include <unistd.h>

#define UNSENT_MOST (TURN_DRIVER_UNSENT_MAX + TURN_MESSAGE_MAX) /* with the last message */

static void line_fails(struct line *line, int32_t status, int error)
{
    line->state = LINE_FAILED;
    line->status = status;
    line->error = error;
    line->unsent.start = line->unsent.end = 0;
}

static void tls_fails(struct line *line)
{
    line->tls->text(line->session, line->why, sizeof line->why);
    line_fails(line, TURN_DRIVER_NO_TLS, 0);
}

/* Binds and connects: 0, or an errno, which is EINPROGRESS where it goes on. */
static int connect_to(int fd, const turn_address *server, const turn_address *local)
{
    struct sockaddr_storage to, from;
    const socklen_t len = to_system(server, &to);
    if (is_address(local)) {
        const socklen_t local_len = to_system(local, &from);
        if (bind(fd, (struct sockaddr *)&from, local_len) < 0)
            return errno;
    }
    return connect(fd, (struct sockaddr *)&to, len) < 0 ? errno : 0;
}

/* It is connected: its own address is known, and TLS begins. */
static void is_connected(struct line *line)
{
    struct sockaddr_storage own = {.ss_family = AF_INET};
    socklen_t len = sizeof own;
    getsockname(line->fd, (struct sockaddr *)&own, &len);
    line->own = of_system(&own);
    line->state = LINE_OPEN;
    if (line->tls == NULL)
        return;
    line->state = LINE_SHAKES_HANDS;
    line->wants_to_write = POLLOUT;
}

void line_start(struct line *line, const turn_address *server, const turn_address *local,
                bool is_stream, const turn_driver_tls *tls, const char *host)
{
    *line = (struct line){.fd = -1, .is_stream = is_stream, .tls = tls, .server = *server,
                           .wants_to_read = POLLIN, .wants_to_write = POLLOUT};
    const int kind = is_stream ? SOCK_STREAM : SOCK_DGRAM;
    line->fd = socket(server->family == 4 ? AF_INET : AF_INET6,
                      kind | SOCK_NONBLOCK | SOCK_CLOEXEC, 0);
    if (line->fd < 0) {
        line_fails(line, TURN_DRIVER_NO_SERVER, errno);
        return;
    }
    if ((is_stream && !buffer_open(&line->unsent, UNSENT_MOST))
        || (tls != NULL && (line->session = tls->start(tls->context, line->fd, host)) == NULL)) {
        line_fails(line, TURN_DRIVER_NO_MEMORY, ENOMEM);
        return;
    }
    const int error = connect_to(line->fd, server, local);
    if (error == 0)
        is_connected(line);
    else if (error == EINPROGRESS)
        line->state = LINE_CONNECTS;
    else
        line_fails(line, TURN_DRIVER_NO_SERVER, error);
}

/* Looks whether a connection was made. */
static void go_on_connecting(struct line *line)
{
    struct pollfd is_made = {.fd = line->fd, .events = POLLOUT};
    int error = 0;
    socklen_t size = sizeof error;
    if (poll(&is_made, 1, 0) != 1)
        return;
    if (getsockopt(line->fd, SOL_SOCKET, SO_ERROR, &error, &size) < 0)
        error = errno;
    if (error != 0)
        line_fails(line, TURN_DRIVER_NO_SERVER, error);
    else
        is_connected(line);
}

/* The event that a TLS session waits for. */
static short event_of(int32_t status)
{
    return status == TURN_TLS_WANTS_READ ? POLLIN : POLLOUT;
}

static void go_on_shaking_hands(struct line *line)
{
    const int32_t status = line->tls->handshake(line->session);
    if (status == TURN_TLS_OK)
        line->state = LINE_OPEN;
    else if (status == TURN_TLS_WANTS_READ || status == TURN_TLS_WANTS_WRITE)
        line->wants_to_write = event_of(status);
    else
        tls_fails(line);
}

/* Writes some bytes of a stream: how many, or 0 if it takes none now or has failed. */
static size_t write_some(struct line *line, const uint8_t *bytes, size_t size)
{
    size_t len = 0;
    if (line->tls != NULL) {
        const int32_t status = line->tls->write(line->session, bytes, size, &len);
        line->wants_to_write = event_of(status);
        if (status == TURN_TLS_FAILED || status == TURN_TLS_END)
            tls_fails(line);
        return status == TURN_TLS_OK ? len : 0;
    }
    const ssize_t sent = send(line->fd, bytes, size, MSG_NOSIGNAL);
    if (sent < 0 && errno != EAGAIN && errno != EINTR)
        line_fails(line, TURN_DRIVER_NO_SERVER, errno);
    return sent < 0 ? 0 : (size_t)sent;
}

static void flush(struct line *line)
{
    struct buffer *unsent = &line->unsent;
    while (line->state == LINE_OPEN && buffer_size(unsent) > 0) {
        const size_t sent = write_some(line, unsent->bytes + unsent->start, buffer_size(unsent));
        if (sent == 0)
            return;
        unsent->start += sent;
    }
}

void line_go_on(struct line *line)
{
    if (line->state == LINE_CONNECTS)
        go_on_connecting(line);
    if (line->state == LINE_SHAKES_HANDS)
        go_on_shaking_hands(line);
    flush(line);
}

size_t line_room(const struct line *line)
{
    const size_t waits = buffer_size(&line->unsent);
    if (line->state != LINE_OPEN)
        return 0;
    if (!line->is_stream)
        return SIZE_MAX;
    return waits < TURN_DRIVER_UNSENT_MAX ? TURN_DRIVER_UNSENT_MAX - waits : 0;
}

bool line_send(struct line *line, const uint8_t *bytes, size_t size)
{
    if (line->state != LINE_OPEN)
        return false;
    if (line->is_stream) {
        buffer_add(&line->unsent, bytes, size);
        flush(line);
        return line->state == LINE_OPEN;
    }
    ssize_t sent;
    do
        sent = send(line->fd, bytes, size, MSG_NOSIGNAL);
    while (sent < 0 && errno == EINTR);
    if (sent < 0 && errno != EAGAIN)
        line->error = errno;
    return sent >= 0;
}

/* Reads of TLS: as line_read. */
static ssize_t read_tls(struct line *line, uint8_t *bytes, size_t size)
{
    size_t len = 0;
    const int32_t status = line->tls->read(line->session, bytes, size, &len);
    if (status == TURN_TLS_OK)
        return (ssize_t)len;
    if (status == TURN_TLS_END)
        line->has_ended = true;
    else if (status == TURN_TLS_FAILED)
        tls_fails(line);
    else
        line->wants_to_read = event_of(status);
    return -1;
}

ssize_t line_read(struct line *line, uint8_t *bytes, size_t size)
{
    line->has_more = false;
    if (line->state != LINE_OPEN || line->has_ended)
        return -1;
    if (line->tls != NULL)
        return read_tls(line, bytes, size);
    const ssize_t came = recv(line->fd, bytes, size, 0);
    if (came > 0 || (came == 0 && !line->is_stream))
        return came;
    if (came == 0)
        line->has_ended = true;
    else if (errno != EAGAIN && errno != EINTR && line->is_stream)
        line_fails(line, TURN_DRIVER_NO_SERVER, errno);
    else if (errno != EAGAIN && errno != EINTR)
        line->error = errno; /* anybody may send an ICMP report: the client goes on */
    return -1;
}

short line_events(const struct line *line)
{
    if (line->state == LINE_CONNECTS)
        return POLLOUT;
    if (line->state == LINE_SHAKES_HANDS)
        return line->wants_to_write;
    if (line->state != LINE_OPEN || line->has_ended)
        return 0;
    const short writes = line->tls == NULL ? POLLOUT : line->wants_to_write;
    const short reads = line->tls == NULL ? POLLIN : line->wants_to_read;
    return buffer_size(&line->unsent) == 0 ? reads : (short)(reads | writes);
}

void line_shutdown(struct line *line)
{
    if (line->state != LINE_OPEN)
        return;
    if (line->tls != NULL)
        line->tls->shutdown(line->session);
    shutdown(line->fd, SHUT_WR);
}

void line_close(struct line *line)
{
    if (line->session != NULL)
        line->tls->end(line->session);
    if (line->fd >= 0)
        close(line->fd);
    buffer_close(&line->unsent);
    *line = (struct line){.fd = -1};
}
