/* turn_driver.h: sockets, waits and timers for the TURN client of turn_client.h, over poll(2).
 *
 * A driver has one relayed address of a TURN server. Over it a program exchanges datagrams with
 * peers (RFC 8656), or bytes over one TCP connection to one peer (RFC 6062). To the server it uses
 * UDP, TCP, or TLS over TCP.
 *
 *     turn_driver_failure failure;
 *     turn_driver *driver = turn_driver_open("turn:turn.example.org", "alice", "secret",
 *                                            NULL, &failure);
 *     if (driver == NULL)
 *         ...                                                failure.text says why
 *     turn_driver_send_to(driver, &peer, "hello", 5);
 *     if (turn_driver_recv_from(driver, &from, bytes, sizeof bytes, &len, 2000) == TURN_DRIVER_OK)
 *         ...                                                `len` bytes of `from`
 *     turn_driver_close(driver);
 *
 * THREADS: a driver is used by one call at a time, in any thread. It starts no thread, handles no
 * signal and raises no SIGPIPE. Two drivers share nothing. After fork() one process goes on with a
 * driver, and the other makes no call with it: two that go on send the same transaction IDs.
 *
 * TIME: nothing happens while no call is made. Each call does what is due: it renews allocation,
 * permissions and channels, and sends requests again. So a program makes a call by the time that
 * turn_driver_deadline returns, or waits inside of one. If it comes late, the client renews what
 * the server still has. A server keeps an allocation ten minutes, and a permission five, if it is
 * not renewed.
 *
 * TIMEOUTS are in milliseconds, as those of poll(2): 0 does not wait, and a negative one waits
 * without an end.
 *
 * BOUNDS, per driver:
 *   - TURN_DRIVER_WAITING_MAX datagrams and TURN_DRIVER_WAITING_BYTES_MAX bytes wait for
 *     permissions of peers, of all peers together. One more is refused by TURN_DRIVER_FULL. If the
 *     server rejects the permission, what waits for it is dropped.
 *   - TURN_DRIVER_RECEIVED_MAX datagrams and TURN_DRIVER_RECEIVED_BYTES_MAX bytes that came wait
 *     for turn_driver_recv_from. One more is dropped, as a socket does; turn_driver_dropped counts
 *     them.
 *   - TURN_DRIVER_UNSENT_MAX bytes wait in the driver for a socket to the server over TCP or TLS.
 *     Then a send is refused by TURN_DRIVER_FULL. Over UDP a datagram that the socket does not take
 *     is refused at once.
 *   - TURN_DRIVER_UNREAD_MAX bytes of a connection wait for turn_driver_read. Then its socket is
 *     not read, and the peer has to wait. Nothing is dropped of a connection.
 *   - TURN_DRIVER_NOTICES_MAX reports about peers wait for turn_driver_recv_from. One more is
 *     dropped.
 *   - A call handles at most TURN_DRIVER_READS_MAX reads of a socket before it looks at its
 *     timeout.
 *   - Beside these and the client a driver takes 0.4 MB; over TCP or TLS 1 MB, with a connection
 *     3 MB.
 *
 * NOT THERE: connections that peers open, DTLS, SRV and NAPTR look-ups (RFC 5928), names of peers.
 * A relayed address that was lost is not requested again: open another driver.
 *
 * Link with what `pkg-config --cflags --libs turn_driver` prints. For `turns:` see
 * turn_driver_openssl.h.
 */
#ifndef TURN_DRIVER_H
#define TURN_DRIVER_H

#include <poll.h>
#include <stdbool.h>
#include <stddef.h>
#include <stdint.h>

#include "turn_client.h"

#ifdef __cplusplus
extern "C" {
#endif

#define TURN_DRIVER_WAITING_MAX 256
#define TURN_DRIVER_WAITING_BYTES_MAX (256 * 1024)
#define TURN_DRIVER_RECEIVED_MAX 1024
#define TURN_DRIVER_RECEIVED_BYTES_MAX (1024 * 1024)
#define TURN_DRIVER_UNSENT_MAX (256 * 1024)
#define TURN_DRIVER_UNREAD_MAX (256 * 1024)
#define TURN_DRIVER_NOTICES_MAX 32
#define TURN_DRIVER_READS_MAX 64
#define TURN_DRIVER_FDS_MAX 2          /* what turn_driver_pollfds writes at most */
#define TURN_DRIVER_RELAYED_MAX 2      /* what turn_driver_relayed writes at most */

#define TURN_DRIVER_OPEN_MS 60000      /* that turn_driver_open may take, if the options say nothing
                                        * else */
#define TURN_DRIVER_CONNECT_MS 10000   /* of these for one connection to the server, with its TLS
                                        * handshake */
#define TURN_DRIVER_CLOSE_MS 3000      /* that the server has to confirm the end of an allocation */
#define TURN_DRIVER_FLUSH_MS 30000     /* that the server has to pass on what was written over a
                                        * connection */

/* ---- URIs (RFC 7064, RFC 7065) */

enum turn_uri_scheme {
    TURN_URI_STUN = 1,
    TURN_URI_STUNS = 2,
    TURN_URI_TURN = 3,
    TURN_URI_TURNS = 4
};

enum turn_uri_status {
    TURN_URI_OK = 0,
    TURN_URI_BAD_SCHEME = -1,        /* it does not begin with stun:, stuns:, turn: or turns: */
    TURN_URI_NO_HOST = -2,           /* there is no host after the scheme */
    TURN_URI_BAD_HOST = -3,          /* the host is no name and no IP address; or a byte stands
                                      * there that may not, as the // and the @ of other schemes */
    TURN_URI_LONG_HOST = -4,         /* the name has more than TURN_URI_HOST_MAX bytes */
    TURN_URI_UNSUPPORTED_HOST = -5,  /* the host is valid by RFC 3986, and no name of the DNS and no
                                      * IP address: with percent signs or punctuation, or an address
                                      * of a future version */
    TURN_URI_BAD_PORT = -6,          /* the port is no number of 1 to 65535 */
    TURN_URI_BAD_QUERY = -7,         /* what follows is not ?transport= with a value; or stun: or
                                      * stuns: has a query */
    TURN_URI_UNSUPPORTED_TRANSPORT = -8   /* the transport is neither udp nor tcp */
};

#define TURN_URI_HOST_MAX 253          /* bytes of a name (RFC 1035), without a dot at its end */

/* A URI of a STUN or TURN server. */
typedef struct turn_uri {
    uint32_t scheme;                   /* enum turn_uri_scheme */
    uint32_t transport;                /* TURN_UDP or TURN_TCP; 0 if the URI names none */
    uint16_t port;                     /* of the URI, or 3478; of stuns: and turns: 5349 */
    uint8_t family;                    /* of the host: 4 or 6 for an IP address, 0 for a name */
    bool is_secure;                    /* whether the scheme is stuns: or turns: */
    char host[TURN_URI_HOST_MAX + 1];  /* ended by a zero; of IPv6 without its brackets */
} turn_uri;

/* Reads a URI: scheme ":" host [ ":" port ] [ "?transport=" transport ]. Nothing is looked up.
 *
 * Scheme and transport are compared without case. A colon without a port after it is the default
 * port (RFC 3986, section 3.2.3). A name whose last label is a number is no name, so 127.1 is not
 * taken for 127.0.0.1.
 *
 *   text          ended by a zero
 *   uri           written if the call succeeds
 *
 *   TURN_URI_OK           *uri has it
 *
 *   Refused (*uri stays as it was): the other values of enum turn_uri_status, in the order in which
 *   the text shows what is wrong */
int32_t turn_uri_parse(const char *text, turn_uri *uri);

/* Returns what a status of turn_uri_parse means, in English, without a full stop. */
const char *turn_uri_status_text(int32_t status);

/* ---- addresses as text */

#define TURN_ADDRESS_TEXT_MAX 56       /* bytes of an address as text, with the zero at its end */

/* Reads an IP address with a port: 192.0.2.1:9000 or [2001:db8::1]:9000. Returns whether it is one;
 * if not, *address stays as it was. The port may be left out (then it is 0), the brackets too if
 * there is no port. */
bool turn_address_parse(const char *text, turn_address *address);

/* Writes an address as turn_address_parse reads it, without a port of 0, and returns `text`. Of a
 * family that is neither 4 nor 6 it writes "none". */
const char *turn_address_text(const turn_address *address, char text[TURN_ADDRESS_TEXT_MAX]);

/* ---- why something failed */

/* What calls return. Above zero nothing failed; below zero turn_driver_last_failure says more. */
enum turn_driver_status {
    TURN_DRIVER_OK = 0,
    TURN_DRIVER_TIMEOUT = 1,          /* not by now: call again */
    TURN_DRIVER_END = 2,              /* the peer closed the connection, and all that it sent was
                                       * read */

    /* The call is refused, and nothing has changed. */
    TURN_DRIVER_BAD_SERVER = -1,      /* the server's URI cannot be read (failure.uri says why), or
                                       * is none of turn: and turns: */
    TURN_DRIVER_BAD_OPTION = -2,      /* an option is not valid, or does not fit another one or the
                                       * URI */
    TURN_DRIVER_BAD_CREDENTIALS = -3, /* name or password is not UTF-8, or the name has more than
                                       * TURN_NAME_MAX bytes */
    TURN_DRIVER_BAD_PEER = -4,        /* the family of the peer's address is neither 4 nor 6 */
    TURN_DRIVER_BAD_KIND = -5,        /* the call is for datagrams and the driver for a connection,
                                       * or the reverse */
    TURN_DRIVER_SMALL_BUFFER = -6,    /* the datagram that is next has more bytes than the buffer */
    TURN_DRIVER_TOO_LARGE = -7,       /* a datagram of more than TURN_PAYLOAD_MAX bytes */
    TURN_DRIVER_FULL = -8,            /* as many bytes wait already as may (see BOUNDS), or the
                                       * socket takes none */
    TURN_DRIVER_NO_CONNECTION = -9,   /* turn_driver_connect has made none */
    TURN_DRIVER_BAD_ADDRESSES = -18,  /* there is no address, or more than TURN_PERMIT_MAX, or they
                                       * are of two families */

    /* The server or a peer cannot be reached that way. The driver goes on. */
    TURN_DRIVER_PEER_REFUSED = -10,   /* the server gives no permission for the peer, or no
                                       * connection to it; or the permission was not renewed */
    TURN_DRIVER_UNREACHABLE = -11,    /* the server passes on an ICMP report about what was sent to
                                       * the peer */

    /* There is no driver, or it is over: close it. */
    TURN_DRIVER_NO_HOST = -12,        /* the server's name cannot be looked up */
    TURN_DRIVER_NO_SERVER = -13,      /* no socket or connection to the server: failure.system says
                                       * why */
    TURN_DRIVER_NO_TLS = -14,         /* the TLS handshake failed, as for a certificate that is not
                                       * trusted */
    TURN_DRIVER_NO_ADDRESS = -15,     /* the server gives no relayed address: failure.cause says
                                       * why */
    TURN_DRIVER_LOST = -16,           /* the relayed address is gone: the server did not renew it,
                                       * or closed the connection to it */
    TURN_DRIVER_NO_MEMORY = -17       /* malloc failed, or the system had no random bytes. If
                                       * turn_driver_fd then returns -1, the driver is over;
                                       * otherwise it goes on, and the call may be made again */
};

#define TURN_DRIVER_TEXT_MAX 1024

/* Why a call failed. */
typedef struct turn_driver_failure {
    int32_t status;                   /* enum turn_driver_status */
    int32_t uri;                      /* with TURN_DRIVER_BAD_SERVER: enum turn_uri_status */
    int32_t system;                   /* the errno of the system's call that failed; 0 if there is
                                       * none */
    turn_cause cause;                 /* of the client, also for an alternate server; its kind is
                                       * TURN_CAUSE_NONE if the client reports none */
    turn_address peer;                /* with TURN_DRIVER_PEER_REFUSED (port 0 for a permission) and
                                       * TURN_DRIVER_UNREACHABLE; otherwise family 0 */
    uint8_t icmp_type;                /* with TURN_DRIVER_UNREACHABLE */
    uint8_t icmp_code;
    uint32_t icmp_data;
    char text[TURN_DRIVER_TEXT_MAX];  /* what failed, in English, for people; printable ASCII, ended
                                       * by a zero */
} turn_driver_failure;

/* ---- TLS */

/* What the functions of turn_driver_tls return. */
enum turn_tls_status {
    TURN_TLS_OK = 0,
    TURN_TLS_WANTS_READ = 1,          /* call again when the socket can be read */
    TURN_TLS_WANTS_WRITE = 2,         /* call again when the socket can be written */
    TURN_TLS_END = 3,                 /* the other side closed the connection */
    TURN_TLS_FAILED = -1              /* `text` says why */
};

/* A TLS library, as the driver calls it: turn_driver_openssl_new makes one, and a program may bring
 * its own. The socket never blocks, and stays the driver's to close. */
typedef struct turn_driver_tls {
    void *context;                    /* of the library, which `start` gets */
    /* Returns a session of a client over a socket; NULL if an allocation fails. The server's
     * certificate has to be valid for `host`, a name or an IP address. */
    void *(*start)(void *context, int fd, const char *host);
    /* Goes on with the handshake: TURN_TLS_OK when it is done, and the certificate was verified. */
    int32_t (*handshake)(void *session);
    /* With TURN_TLS_OK: *len bytes were read or written, at least one and at most `size`. */
    int32_t (*read)(void *session, void *bytes, size_t size, size_t *len);
    int32_t (*write)(void *session, const void *bytes, size_t size, size_t *len);
    /* Ends what this side sends, as far as the socket takes it at once. */
    void (*shutdown)(void *session);
    /* Writes why the session failed, ended by a zero. */
    void (*text)(void *session, char *out, size_t size);
    void (*end)(void *session);
} turn_driver_tls;

/* ---- opening and closing */

/* A driver. */
typedef struct turn_driver turn_driver;

/* Options of a driver, which begin as TURN_DRIVER_OPTIONS_INIT. All zero but `size` they are as if
 * there were none. */
typedef struct turn_driver_options {
    size_t size;                      /* sizeof(turn_driver_options), as the program was compiled */
    const turn_driver_tls *tls;       /* needed by turns:; it has to live as long as the driver */
    uint32_t peers;                   /* 0 or TURN_UDP: datagrams. TURN_TCP: one connection to one
                                       * peer, which needs TCP or TLS to the server */
    uint32_t families;                /* bits of the relayed addresses: TURN_IPV4, TURN_IPV6, or
                                       * both; 0 is TURN_IPV4 */
    uint32_t integrity;               /* as in turn_settings */
    uint32_t anonymous;               /* as in turn_settings */
    uint32_t ignore_short_lifetimes;  /* as in turn_settings */
    uint32_t indications;             /* 1: no channel is requested. For peers to whom little is
                                       * sent */
    uint32_t follow;                  /* how often in a row another server is tried that a server
                                       * names by a response 300. Without TLS such a response may be
                                       * anybody's who can send from the server's address. No server
                                       * is tried twice. At most 8 */
    uint32_t open_ms;                 /* how long turn_driver_open may take; 0 is
                                       * TURN_DRIVER_OPEN_MS */
    turn_address local;               /* the socket's own address, where port 0 is any; family 0
                                       * leaves it to the system */
    const char *software;             /* the text of SOFTWARE in requests; NULL for none */
} turn_driver_options;

#define TURN_DRIVER_OPTIONS_INIT \
    {sizeof(turn_driver_options), NULL, 0, 0, 0, 0, 0, 0, 0, 0, {{0}, 0, 0}, NULL}

/* Gets a relayed address of a server, and returns its driver. It waits for that: for the look-up of
 * the name, which open_ms does not bound, the connection, its TLS handshake, and the allocation. If
 * a server does not respond over UDP, that takes 39.5 s. A program that may not wait opens in a
 * thread of its own, and takes the driver over from it.
 *
 *   server        a URI with turn: or turns:. Without a transport turn: is over UDP, and turns:
 *                 over TCP
 *   user, password   UTF-8, ended by a zero; copied
 *   options       NULL if there are none
 *   failure       written if the call fails; may be NULL
 *
 * Returns NULL if it fails, with failure->status.
 *
 *   Before anything is sent:
 *   TURN_DRIVER_BAD_OPTION        `size`, the family of `local`, `follow` or `open_ms` is not valid
 *   TURN_DRIVER_BAD_SERVER        the URI is not valid, or is none of turn: and turns:
 *   TURN_DRIVER_BAD_OPTION        the URI is one of DTLS (turns: with ?transport=udp), or one with
 *                                 turns: and there is no `tls`, or `peers` is TURN_TCP over UDP
 *   TURN_DRIVER_NO_MEMORY         malloc failed, or the system has no random bytes
 *   TURN_DRIVER_BAD_OPTION        another option is not valid
 *   TURN_DRIVER_BAD_CREDENTIALS   name or password is not UTF-8, or the name is too long
 *
 *   Then:
 *   TURN_DRIVER_NO_HOST           the name of the server cannot be looked up
 *   TURN_DRIVER_NO_SERVER         no address of the server can be connected to, of at most 8
 *   TURN_DRIVER_NO_TLS            the TLS handshake failed with the last of them
 *   TURN_DRIVER_NO_ADDRESS        cause.kind is TURN_CAUSE_NONE if open_ms was over;
 *                                 cause.alternate is another server, if this one named it */
turn_driver *turn_driver_open(const char *server, const char *user, const char *password,
                              const turn_driver_options *options, turn_driver_failure *failure);

/* Gives the address back to the server, waits TURN_DRIVER_CLOSE_MS at most until that confirms it,
 * and frees the driver. Before that a connection is ended, for which the server has
 * TURN_DRIVER_FLUSH_MS to pass on what was written. What came and was not read is dropped. NULL is
 * no driver. */
void turn_driver_close(turn_driver *driver);

/* Frees the driver at once. The server keeps the address until its time is over. NULL is no
 * driver. */
void turn_driver_abort(turn_driver *driver);

/* Returns why the last call with this driver failed that did, until another one fails or the driver
 * is closed. Its status is TURN_DRIVER_OK if none has. */
const turn_driver_failure *turn_driver_last_failure(const turn_driver *driver);

/* Writes the relayed addresses, to which peers send, at most `out_len` of them, and returns how
 * many there are: 0 when the driver is over. */
size_t turn_driver_relayed(turn_driver *driver, turn_address *out, size_t out_len);

/* Writes the driver's own address as the server saw it (the public address), and returns whether
 * the server named it. */
bool turn_driver_mapped(turn_driver *driver, turn_address *mapped);

/* Returns the server's address; of the other server, if a response 300 was followed. */
turn_address turn_driver_server(const turn_driver *driver);

/* Sets other credentials, which replace the present ones with the server's next challenge: for
 * passwords that expire. Call it before they do.
 *
 *   TURN_DRIVER_OK, TURN_DRIVER_BAD_CREDENTIALS, TURN_DRIVER_LOST, TURN_DRIVER_NO_MEMORY */
int32_t turn_driver_credentials(turn_driver *driver, const char *user, const char *password);

/* ---- datagrams */

/* Lets the IP address of a peer send to the relayed address, to whom nothing was sent yet; the port
 * does not count. The permission is renewed until the driver is closed.
 *
 *   TURN_DRIVER_OK            it is permitted
 *   TURN_DRIVER_TIMEOUT       it is requested, and the server has not responded yet
 *   TURN_DRIVER_BAD_PEER, TURN_DRIVER_BAD_KIND
 *   TURN_DRIVER_PEER_REFUSED  the server rejected it, or there is no relayed address of that family
 *   TURN_DRIVER_LOST, TURN_DRIVER_NO_MEMORY */
int32_t turn_driver_permit(turn_driver *driver, const turn_address *peer, int timeout_ms);

/* Lets the IP addresses of several peers send to the relayed address, as turn_driver_permit does
 * for one. All that are neither permitted nor requested yet are requested by one request, which the
 * server grants or rejects as a whole. An address that is named twice counts once.
 *
 *   peers, count  at most TURN_PERMIT_MAX different addresses, all of one family; the ports do not
 *                 count
 *
 *   TURN_DRIVER_OK            each is permitted
 *   TURN_DRIVER_TIMEOUT       all are requested, and the server has not responded for all yet
 *   TURN_DRIVER_BAD_KIND, TURN_DRIVER_BAD_PEER, TURN_DRIVER_BAD_ADDRESSES
 *   TURN_DRIVER_PEER_REFUSED  the server rejected one or several: failure.peer is the first of
 *                             them. Or there is no relayed address of that family
 *   TURN_DRIVER_LOST, TURN_DRIVER_NO_MEMORY */
int32_t turn_driver_permit_several(turn_driver *driver, const turn_address *peers, size_t count,
                                   int timeout_ms);

/* Sends a datagram to a peer. It does not wait. A permission for the peer is requested if there is
 * none, and the datagram waits for it; then a channel. Both are renewed until the driver is closed.
 * A channel that the server rejects is requested again after five minutes; until then datagrams go
 * in indications.
 *
 *   TURN_DRIVER_OK            it was sent, or waits for the permission. As any datagram it may be
 *                             lost
 *   TURN_DRIVER_BAD_PEER, TURN_DRIVER_BAD_KIND, TURN_DRIVER_TOO_LARGE
 *   TURN_DRIVER_FULL          nothing was sent: wait for turn_driver_pollfds or
 *                             turn_driver_recv_from
 *   TURN_DRIVER_PEER_REFUSED  there is no relayed address of that family
 *   TURN_DRIVER_LOST, TURN_DRIVER_NO_MEMORY */
int32_t turn_driver_send_to(turn_driver *driver, const turn_address *peer, const void *bytes,
                            size_t len);

/* Takes the next datagram that a peer sent, or the next report about a peer, and does what is due
 * while it waits.
 *
 *   peer          written with TURN_DRIVER_OK
 *   out, out_len  a buffer; TURN_MESSAGE_MAX bytes hold any datagram
 *   len           the datagram's bytes, with TURN_DRIVER_OK and TURN_DRIVER_SMALL_BUFFER. A
 *                 datagram may have none
 *
 *   TURN_DRIVER_OK            a datagram is in the buffer
 *   TURN_DRIVER_TIMEOUT       nothing came
 *   TURN_DRIVER_BAD_KIND
 *   TURN_DRIVER_SMALL_BUFFER  the datagram stays the next one
 *   TURN_DRIVER_PEER_REFUSED, TURN_DRIVER_UNREACHABLE
 *                             a report: each comes once; the driver goes on, so call again
 *   TURN_DRIVER_LOST, TURN_DRIVER_NO_MEMORY */
int32_t turn_driver_recv_from(turn_driver *driver, turn_address *peer, void *out, size_t out_len,
                              size_t *len, int timeout_ms);

/* Returns how many datagrams were dropped that came while TURN_DRIVER_RECEIVED_MAX or
 * TURN_DRIVER_RECEIVED_BYTES_MAX waited. */
uint64_t turn_driver_dropped(const turn_driver *driver);

/* ---- a connection to a peer (RFC 6062)
 *
 * A driver whose option `peers` is TURN_TCP makes one connection to one peer. Nobody else can
 * connect to its relayed address. A server may end a connection by a reset, as coturn does, and
 * drop what it had not passed on: let the peer confirm what it got before you close. */

/* Connects to a peer through the server, for which the permission is requested first.
 *
 *   TURN_DRIVER_OK            it is connected
 *   TURN_DRIVER_TIMEOUT       not yet: call again with the same peer
 *   TURN_DRIVER_BAD_PEER, TURN_DRIVER_BAD_KIND
 *   TURN_DRIVER_PEER_REFUSED  the server rejected it, or cannot connect to the peer; or a
 *                             connection to another peer was made or requested before
 *   TURN_DRIVER_LOST, TURN_DRIVER_NO_MEMORY */
int32_t turn_driver_connect(turn_driver *driver, const turn_address *peer, int timeout_ms);

/* Writes bytes to the connection, at most `len` of them: those for which there is room by the
 * timeout.
 *
 *   written       how many were taken, with TURN_DRIVER_OK at least one unless `len` is 0
 *
 *   TURN_DRIVER_OK
 *   TURN_DRIVER_TIMEOUT       there was no room
 *   TURN_DRIVER_BAD_KIND, TURN_DRIVER_NO_CONNECTION
 *   TURN_DRIVER_END           the connection is closed
 *   TURN_DRIVER_LOST, TURN_DRIVER_NO_MEMORY */
int32_t turn_driver_write(turn_driver *driver, const void *bytes, size_t len, size_t *written,
                          int timeout_ms);

/* Reads bytes of the connection, at most `out_len` of them.
 *
 *   len           how many, with TURN_DRIVER_OK at least one unless `out_len` is 0
 *
 *   TURN_DRIVER_OK
 *   TURN_DRIVER_TIMEOUT       nothing came
 *   TURN_DRIVER_BAD_KIND, TURN_DRIVER_NO_CONNECTION
 *   TURN_DRIVER_END           the connection is closed, and all was read
 *   TURN_DRIVER_LOST, TURN_DRIVER_NO_MEMORY */
int32_t turn_driver_read(turn_driver *driver, void *out, size_t out_len, size_t *len,
                         int timeout_ms);

/* ---- in an event loop of the program
 *
 *     size_t count = turn_driver_pollfds(driver, fds, TURN_DRIVER_FDS_MAX);
 *     ...                                                    wait for these, and until
 *     turn_driver_deadline while ((status = turn_driver_recv_from(driver, &peer, bytes, sizeof
 *     bytes, &len, 0)) != TURN_DRIVER_TIMEOUT)
 *         ...                                                a datagram, a report, or the end
 *
 * Ask for both after each call, as each may change them. */

/* Writes what to wait for with poll(2), at most `out_len` entries, and returns how many there are:
 * one for the server and one for a connection. None when the driver is over. */
size_t turn_driver_pollfds(const turn_driver *driver, struct pollfd *out, size_t out_len);

/* Returns the time by which a call is due if nothing comes, in nanoseconds of CLOCK_MONOTONIC. When
 * the driver is over or something waits to be taken, it is a time that has passed. */
uint64_t turn_driver_deadline(const turn_driver *driver);

/* Does what is due, without waiting, and takes nothing.
 *
 *   TURN_DRIVER_OK, TURN_DRIVER_LOST, TURN_DRIVER_NO_MEMORY */
int32_t turn_driver_run(turn_driver *driver);

/* Returns the socket to the server, to set options as SO_RCVBUF; -1 when the driver is over. The
 * driver reads it, writes it and closes it. Wait for what turn_driver_pollfds says. */
int turn_driver_fd(const turn_driver *driver);

#ifdef __cplusplus
}
#endif
#endif
