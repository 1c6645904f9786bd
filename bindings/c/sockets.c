/* sockets.c: what sockets.h declares. It is built with turn_client.c, which says how. */
#define _GNU_SOURCE
#include "sockets.h"

#include <arpa/inet.h>
#include <errno.h>
#include <netinet/in.h>
#include <poll.h>
#include <stdio.h>
#include <string.h>
#include <sys/socket.h>
#include <unistd.h>

enum { CONNECT_MS = 10000 };

/* ---- addresses */

static socklen_t to_system(const turn_address *address, struct sockaddr_storage *to)
{
    struct sockaddr_in v4 = {.sin_family = AF_INET, .sin_port = htons(address->port)};
    struct sockaddr_in6 v6 = {.sin6_family = AF_INET6, .sin6_port = htons(address->port)};
    memset(to, 0, sizeof *to);
    if (address->family == 4) {
        memcpy(&v4.sin_addr, address->ip, 4);
        memcpy(to, &v4, sizeof v4);
        return sizeof v4;
    }
    memcpy(&v6.sin6_addr, address->ip, 16);
    memcpy(to, &v6, sizeof v6);
    return sizeof v6;
}

static turn_address of_system(const struct sockaddr_storage *from)
{
    turn_address to = {.family = 4};
    struct sockaddr_in v4;
    struct sockaddr_in6 v6;
    if (from->ss_family == AF_INET) {
        memcpy(&v4, from, sizeof v4);
        memcpy(to.ip, &v4.sin_addr, 4);
        to.port = ntohs(v4.sin_port);
        return to;
    }
    memcpy(&v6, from, sizeof v6);
    memcpy(to.ip, &v6.sin6_addr, 16);
    to.port = ntohs(v6.sin6_port);
    to.family = 6;
    return to;
}

turn_address own_address(int fd)
{
    struct sockaddr_storage own = {.ss_family = AF_INET};
    socklen_t len = sizeof own;
    getsockname(fd, (struct sockaddr *)&own, &len);
    return of_system(&own);
}

const char *text_of(const turn_address *address)
{
    static char text[INET6_ADDRSTRLEN + 16];
    char ip[INET6_ADDRSTRLEN] = "?";
    inet_ntop(address->family == 4 ? AF_INET : AF_INET6, address->ip, ip, sizeof ip);
    if (address->port == 0)
        snprintf(text, sizeof text, "%s", ip);
    else
        snprintf(text, sizeof text, address->family == 4 ? "%s:%u" : "[%s]:%u", ip, (unsigned)address->port);
    return text;
}

/* ---- sockets */

static int open_socket(int family, int kind)
{
    return socket(family, kind | SOCK_NONBLOCK | SOCK_CLOEXEC, 0);
}

/* Waits until a connection is made: 0, or an error's number. */
static int await_connection(int fd)
{
    struct pollfd waits = {.fd = fd, .events = POLLOUT};
    int error = 0;
    socklen_t size = sizeof error;
    if (poll(&waits, 1, CONNECT_MS) != 1)
        return ETIMEDOUT;
    return getsockopt(fd, SOL_SOCKET, SO_ERROR, &error, &size) < 0 ? errno : error;
}

int line_open(struct line *line, const turn_address *server, bool is_stream)
{
    struct sockaddr_storage to;
    const socklen_t len = to_system(server, &to);
    line->is_stream = is_stream;
    line->fd = open_socket(to.ss_family, is_stream ? SOCK_STREAM : SOCK_DGRAM);
    if (line->fd < 0)
        return errno;
    if (connect(line->fd, (struct sockaddr *)&to, len) == 0)
        return 0;
    return errno == EINPROGRESS ? await_connection(line->fd) : errno;
}

bool line_is_free(const struct line *line)
{
    return line->start == line->end;
}

int line_go_on(struct line *line)
{
    while (!line_is_free(line)) {
        const ssize_t size = send(line->fd, line->out + line->start, line->end - line->start, MSG_NOSIGNAL);
        if (size >= 0) {
            line->start += (size_t)size;
        } else if (errno == EAGAIN) {
            return 0;
        } else if (errno != EINTR) {
            line->start = line->end;
            return errno;
        }
    }
    return 0;
}

int line_write(struct line *line, size_t size)
{
    line->start = 0;
    line->end = size;
    return line_go_on(line);
}

int open_echo(uint8_t family)
{
    const turn_address v4 = {.ip = {127, 0, 0, 1}, .family = 4}, v6 = {.ip = {[15] = 1}, .family = 6};
    struct sockaddr_storage at;
    const socklen_t len = to_system(family == 4 ? &v4 : &v6, &at);
    const int fd = open_socket(at.ss_family, SOCK_DGRAM);
    if (fd >= 0 && bind(fd, (struct sockaddr *)&at, len) < 0) {
        close(fd);
        return -1;
    }
    return fd;
}

void echo(int fd)
{
    static uint8_t bytes[65536];
    struct sockaddr_storage from;
    for (;;) {
        socklen_t len = sizeof from;
        const ssize_t size = recvfrom(fd, bytes, sizeof bytes, 0, (struct sockaddr *)&from, &len);
        if (size < 0)
            return;
        sendto(fd, bytes, (size_t)size, 0, (struct sockaddr *)&from, len);
    }
}
