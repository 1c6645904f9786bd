/* sockets.h: the sockets of turn_client.c, and addresses as the library and people have them. */
#ifndef SOCKETS_H
#define SOCKETS_H

#include "turn_client.h"

/* As a text, without a port where that is 0. It stays until the next call. */
const char *text_of(const turn_address *address);

/* The own address of a socket. */
turn_address own_address(int fd);

/* A socket to the server, which never blocks, and what waits to be written to it: that from `start` to `end`. */
struct line {
    int fd;
    bool is_stream;
    uint8_t out[TURN_MESSAGE_MAX];
    size_t start, end;
};

/* Opens it: 0, or the number of an error. Over UDP it is connected, too: so it has an own address. */
int line_open(struct line *line, const turn_address *server, bool is_stream);

/* Whether nothing waits: the next message may be put at the front of `out`. */
bool line_is_free(const struct line *line);

/* Writes a message that stands at the front of `out`, or goes on with it, as far as the socket takes it: 0, or the
 * number of an error. A datagram that isn't taken is lost then, as others are on their way. */
int line_write(struct line *line, size_t size);
int line_go_on(struct line *line);

/* Opens a socket on loopback, of a family, for a peer that sends back what it gets: -1 where there is none. */
int open_echo(uint8_t family);

/* Sends back what came to it. */
void echo(int fd);

#endif
