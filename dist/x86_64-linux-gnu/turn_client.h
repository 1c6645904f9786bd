/* turn_client.h: a TURN client (RFC 8656, RFC 6062, RFC 6156) over UDP or TCP that does no input or output.
 *
 * WHAT THE PROGRAM HAS TO KEEP TO, and nothing checks:
 *   - A handle is used by one call at a time, and is not copied while it is open. It may go to another thread
 *     between two calls. After fork(), one process goes on with an open handle, and the other at most closes its copy:
 *     two that go on send the same transaction IDs.
 *   - A pointer is aligned for its type, and points to memory of the size that its type or the length beside it says.
 *     It is not null, except beside a length of 0, which is then no bytes. What a call writes does not overlap anything
 *     else that the call is given.
 *   - The `out_len` of the calls that list what the client holds counts elements: together they are at most PTRDIFF_MAX
 *     bytes, as any object is. In bytes a length is checked: see TURN_BAD_LENGTH. So is the number of peers of
 *     turn_client_permit_several.
 *   - A handle is all zero before it is opened for the first time (TURN_CLIENT_INIT). A bool is true or false.
 *   - malloc and free come from one allocator. No call is made from a signal handler.
 *   - Times are nanoseconds since any start, as those of CLOCK_MONOTONIC: none earlier than one before, none after
 *     TURN_MOMENT_MAX. Otherwise renewals may come at the wrong time.
 *   - The 32 bytes of a seed come from the system's source of random bytes (getrandom, getentropy), and from
 *     nowhere else. Whoever knows them knows the client's transaction IDs and can forge responses. Two clients with
 *     the same seed confuse each other's responses. Only a seed that was left all zero is refused.
 *
 * WHAT IS CHECKED: everything else. A call that refuses returns a status below zero. The checks come in this order:
 * the arguments from the left, the sizes of buffers, the handle, and then the rest; only turn_client_open checks the
 * handle first. The comment of each call lists its results, and then its refusals in the order in which they are
 * checked. What holds after a refusal stands at enum turn_status, where a call's comment says nothing else.
 *
 * WHO OWNS WHAT: the program owns the handle, the buffers and all else that it passes, and the client stores no pointer
 * to them. The memory that the client allocates belongs to the open handle, until turn_client_close frees it. No call
 * returns memory that the program has to free.
 *
 * MEMORY: each block comes from malloc with 16 bytes more, and is overwritten with zeros before it goes to free, which
 * takes time by its size. So keys, password, name and messages do not stay in freed memory. What the program passed,
 * and what calls left on the stack, is not overwritten.
 *
 * TURNS: the program owns sockets and clock, and takes turns. In a turn it sends what the client draws (its messages to
 * send), polls it, and takes its events. A turn is due after each call, and when the time has come that poll returned.
 * Over UDP, with `fd` connected to the server:
 *
 *     for (;;) {
 *         bool happened = false;
 *         while (turn_client_draw(&client, now(), out, sizeof out, &transmit) == TURN_OK)
 *             send(fd, out, transmit.size, 0);
 *         int32_t status = turn_client_poll(&client, now(), &wait);
 *         while (turn_client_event(&client, &event) == TURN_OK) {
 *             happened = true;
 *             ...                                                handle the event; request something
 *         }
 *         if (status == TURN_CLOSED || status < 0)
 *             break;                                             turn_client_close
 *         if (happened)
 *             continue;                                          another turn at once
 *         ...                                                    wait for `fd`, until wait.until at most (round it up)
 *         ssize_t size = recv(fd, in, sizeof in, MSG_DONTWAIT);    below zero: TURN_BAD_LENGTH, and nothing is handled
 *         if (size >= 0 && turn_client_feed(&client, &server, &local, in, size, now(), &payload) == TURN_PAYLOAD)
 *             ...                                                in[payload.start], payload.size bytes of payload.peer
 *     }
 *
 * What is for peers is written by turn_client_send, and sent by the program at once. Over TCP, data may come as joined
 * bytes, which the client stores until they are read: see turn_client_feed, turn_client_pull and turn_client_read.
 * bindings/c/turn_client.c does all this.
 *
 * WHAT MAY SURPRISE:
 *   - New requests are sent at least 50 ms apart (`pace`). So a request may be ready to draw only at the time that poll
 *     returns.
 *   - While an event is queued, or a response to the server that draw gives, poll returns TURN_OK, to wait until now,
 *     and does nothing else. It does so for a client that has ended, too. If turns at one time do nothing, wait some
 *     milliseconds.
 *   - A server that cannot be reached is given up after 39.5 s (by the waits of RFC 8489). If the system reports that
 *     the server's port is closed, no call can pass that on to the client: close the handle. To a wrong password the
 *     server responds with challenges, of which the client answers nine within half a second. Both end in
 *     TURN_ALLOCATION_FAILED for each family, and TURN_CLOSED. turn_client_cause says which it was: TURN_UNANSWERED, or
 *     TURN_REJECTED with code 401.
 *   - An error response that is not signed may be anybody's who can send from the server's address: see `is_signed` of
 *     turn_cause. The challenges of a wrong password never are.
 *   - The client does not follow a response 300. The program may open another client at the server that it names, with
 *     a limit on how often it does so in a row.
 *   - A server may reject one family of two. Then the client goes on with the other.
 *   - If a server grants less than 600 s at a renewal, the allocation ends by that, and is renewed in time. If
 *     compatible or ignore_short_lifetimes is 1, it still ends when it would have ended without the renewal.
 *   - With attempt_indications, poll may ask for a socket for a connection that no peer opened: an indication has no
 *     signature. TURN_TCP_CONNECTED comes only once the server's signed response to CONNECTION_BIND has accepted the ID
 *     of the connection; that its peer is the one that was named, isn't known. To refuse one, report family 0 to
 *     turn_client_socket: no error is sent to the server then, which ends the connection by itself.
 *   - No event reports that an allocation has expired, or what turn_client_delete ends: look at turn_client_relayed, or
 *     call turn_client_expired.
 *   - A client that has ended or failed returns TURN_CLOSED from poll once no event is queued, and TURN_NO_ALLOCATION
 *     from the calls that request something. Close the sockets that are still open: poll no longer names them. One that
 *     failed holds nothing, and draw returns TURN_NOTHING. One that ended still lists what it held, and draw may give
 *     what was queued, or a request that is due again: drop it.
 *   - If the server closes the control connection (turn_client_feed with a length of 0), the client does not end: poll
 *     goes on returning times to wait, and draw requests that nothing can answer. Close the handle.
 *   - After turn_client_closed, poll still returns TURN_CLOSE_SOCKET for that socket, once, and draw may still give a
 *     CONNECTION_BIND from its address. Drop both: the program has closed the socket already.
 *   - turn_client_delete removes permissions and channels at once, and data of their peers is ignored from then on.
 *     Until the server has responded, data of connections is still passed on. What was requested before and is granted
 *     only then is still reported as created, and data of its peer is passed on.
 *
 * Link with what `pkg-config --cflags --libs turn_client` prints.
 */
#ifndef TURN_CLIENT_H
#define TURN_CLIENT_H

#include <stdbool.h>
#include <stddef.h>
#include <stdint.h>

#if !defined(__x86_64__) || !defined(__linux__) || defined(__ILP32__)
#error "libturn_client is made for x86-64 Linux, and this program is compiled for another platform"
#endif

/* The version of this header, and of the library that was released with it: turn_client_version returns the library's
 * own, by the same number. It is major * 10000 + minor * 100 + patch. */
#define TURN_CLIENT_VERSION "0.1.0"
#define TURN_CLIENT_VERSION_MAJOR 0
#define TURN_CLIENT_VERSION_MINOR 1
#define TURN_CLIENT_VERSION_PATCH 0
#define TURN_CLIENT_VERSION_NUMBER 100

#ifdef __cplusplus
extern "C" {
#endif

/* What calls return. A status below zero means that the call was refused; the comments say what holds afterwards. */
enum turn_status {
    TURN_OK = 0,             /* the call did what it says */
    TURN_NOTHING = 1,        /* there is no message to send, no event, no buffered payload */
    TURN_IGNORED = 2,        /* the bytes are not for the client */
    TURN_PAYLOAD = 3,        /* the bytes carry data of a peer */
    TURN_ICMP = 4,           /* the bytes carry an ICMP report on the way to a peer */
    TURN_CLOSED = 5,         /* the client has ended, or has no allocation left: take the events, and close it */
    TURN_OPEN_SOCKET = 6,    /* a connection to the server is to be opened, see turn_client_socket */
    TURN_CLOSE_SOCKET = 7,   /* a connection to the server is to be closed */

    /* After these nothing has changed. */
    TURN_NO_CLIENT = -1,     /* the handle is not open */
    TURN_ALREADY_OPEN = -2,  /* the handle is open already */
    TURN_BAD_FAMILY = -3,    /* the family of an address is neither 4 nor 6 */
    TURN_BAD_TEXT = -4,      /* the name or the password is not UTF-8 */
    TURN_LONG_NAME = -5,     /* the name has more than TURN_NAME_MAX bytes */
    TURN_BAD_SETTING = -6,   /* a number is not a valid transport, family, algorithm or choice, or the settings state
                              * another size than theirs */
    TURN_SMALL_BUFFER = -7,  /* the buffer is smaller than the size that the call states */
    TURN_UNREAD = -8,        /* joined bytes are to be read first, by turn_client_read */
    TURN_ZERO_SEED = -17,    /* all bytes of the seed are zero: it was not filled */
    TURN_BAD_LENGTH = -18,   /* a length in bytes is more than PTRDIFF_MAX, as the -1 of a recv that failed */
    TURN_BAD_ADDRESSES = -19, /* there is no address, or more than TURN_PERMIT_MAX, or they are of two families */

    /* The client cannot do this. After these nothing has changed, except for what the call says. */
    TURN_NO_ALLOCATION = -9, /* no allocation can serve this: it was never made, the client has ended, or it has
                              * expired. Then permit, permit_several, bind and connect mark it so that it is not
                              * listed any more */
    TURN_ALREADY_EXISTS = -10, /* it exists already, or was requested */
    TURN_NO_PERMISSION = -11, /* there is no permission for the peer's address */
    TURN_NO_CHANNEL = -12,   /* no channel number is free */
    TURN_EXPIRED_CHANNEL = -13, /* a channel to the peer expired a short while ago */
    TURN_NO_SOCKET = -14,    /* no connection to the peer is bound */
    TURN_TOO_LARGE = -15,    /* more bytes than a message can carry */

    /* malloc failed. After feed, pull, draw and poll the client has failed: it holds nothing, and is to be
     * closed. After other calls it goes on, and the call may be made again. */
    TURN_NO_MEMORY = -16
};

#define TURN_NAME_MAX 513                     /* bytes of a user's name */
#define TURN_SOFTWARE_MAX 763                 /* bytes of the text of SOFTWARE */
#define TURN_MESSAGE_MAX 65555                /* bytes of any message: the size of the buffer of turn_client_draw */
#define TURN_SEND_EXTRA 64                    /* bytes of the buffer of turn_client_send beside the payload */
#define TURN_PAYLOAD_MAX 65504                /* bytes of a payload over UDP between server and peers */
#define TURN_PERMIT_MAX 32                    /* peers of turn_client_permit_several */
#define TURN_MOMENT_MAX (UINT64_C(1) << 62)   /* the latest time, in nanoseconds */
#define TURN_NO_PACE UINT32_MAX               /* no time between two messages */

enum { TURN_TCP = 6, TURN_UDP = 17 };                       /* transports, by their protocol numbers in IP */
enum { TURN_IPV4 = 1, TURN_IPV6 = 2 };                                   /* bits of families */
enum { TURN_SHA1 = 1, TURN_SHA256 = 2, TURN_SHA512 = 4 };                /* bits of integrity */
enum { TURN_ANONYMOUS_AUTO = 0, TURN_ANONYMOUS_REQUIRED = 1, TURN_ANONYMOUS_DISABLED = 2 };
/* Ports of a relayed address: any; an even one (EVEN-PORT); an even one, and the next one reserved (EVEN-PORT with the
 * bit R, which servers refuse beside two families); the one that was reserved (RESERVATION-TOKEN: the families are not
 * sent then, as the server has chosen the address already) */
enum { TURN_PORT_ANY = 0, TURN_PORT_EVEN = 1, TURN_PORT_EVEN_AND_NEXT = 2, TURN_PORT_RESERVED = 3 };

/* An address and a port. An IPv6 address has no flow information and no scope. */
typedef struct turn_address {
    uint8_t ip[16];          /* octets in network order; of IPv4 the first four */
    uint16_t port;           /* in host order */
    uint8_t family;          /* 4 or 6; 0 is no address, where a call says so */
} turn_address;

/* The settings of a client, which begin as TURN_SETTINGS_INIT. With all numbers zero except size and addresses: over
 * UDP, one IPv4 address over UDP, HMAC-SHA1 and HMAC-SHA256, the name is hidden if the server supports it, requests
 * wait as RFC 8489 says, the client is hardened, a REFRESH may shorten an allocation, half an hour and any port are
 * asked for, and two messages are at least 50 ms apart. */
typedef struct turn_settings {
    size_t size;             /* sizeof(turn_settings), as the program was compiled: another size is refused */
    turn_address local;      /* the client's own address. It need not be the system's, but turn_client_feed has to name
                              * the same: what came to another address is ignored, but for sockets of connections */
    turn_address server;     /* the server's address: what comes from another is ignored */
    uint32_t transport;      /* to the server; 0 is TURN_UDP */
    uint32_t peers;          /* between the server and the peers; 0 is TURN_UDP; TURN_TCP only over TCP */
    uint32_t families;       /* bits: of the relayed addresses; 0 is TURN_IPV4 */
    uint32_t integrity;      /* bits: the supported algorithms, of which the strongest that the server has is taken; 0
                              * is TURN_SHA1 and TURN_SHA256 */
    uint32_t anonymous;      /* whether the user's name is hidden (RFC 8489, section 9.2): auto hides it if the server
                              * supports that */
    uint32_t sends;          /* how often a request is sent in all over UDP; 0: this and the waits as RFC 8489 says */
    uint32_t first_wait;     /* the wait after the first transmission, in milliseconds; each next is twice as long */
    uint32_t most_wait;      /* the longest wait between two transmissions, in milliseconds */
    uint32_t last_wait;      /* the wait after the last transmission, in milliseconds */
    uint32_t compatible;     /* 0: the client is hardened. It ignores responses to no request of its own, refuses a
                              * challenge that lacks the list of algorithms which its nonce announces, and ignores what
                              * does not validate while it allocates. 1: it takes these as the RFCs allow */
    size_t max_connection_attempts;
                             /* if as many connections of an allocation wait for their socket, one more that a peer
                              * opens gets error 447 (RFC 6062); while as many messages wait to be drawn, an attempt
                              * that would get an error is ignored. 0: 64, or no limit if compatible is 1 */
    uint32_t ignore_short_lifetimes;
                             /* 0: a lifetime under 600 seconds in the response to a REFRESH is believed (RFC 8656,
                              * section 8.3), unless compatible is 1. 1: such a response changes nothing, so the
                              * allocation may outlast the server's. What the response to the ALLOCATE says is
                              * believed either way */
    uint32_t lifetime;       /* in seconds: what each ALLOCATE and each REFRESH that renews asks for; 0 is 1800. The
                              * server decides */
    uint32_t pace;           /* the least time between two messages that draw gives, in milliseconds; 0 is 50, and
                              * TURN_NO_PACE none. What is sent again, and responses to the server, don't wait for it */
    uint32_t port;           /* the port that is asked for the relayed address (RFC 8656, section 7.1); 0 is
                              * TURN_PORT_ANY */
    uint64_t reservation;    /* for TURN_PORT_RESERVED: what turn_client_reservation reported of another client */
    uint32_t attempt_indications;
                             /* 0: only a signed request of the server announces a connection that a peer opens. 1: so
                              * does a CONNECTION_ATTEMPT indication (RFC 6062, section 4.4), which coturn sends. It has
                              * no signature, so whoever can write into the control connection can make one, with any ID
                              * and any peer. If as many connections wait for their socket as max_connection_attempts
                              * allows, or 64 if there is no limit, one more is ignored */
} turn_settings;

/* Settings of this size, and otherwise zero: turn_settings settings = TURN_SETTINGS_INIT; */
#define TURN_SETTINGS_INIT \
    {sizeof(turn_settings), {{0}, 0, 0}, {{0}, 0, 0}, 0, 0, 0, 0, 0, 0, 0, 0, 0, 0, 0, 0, 0, 0, 0, 0, 0}

/* 32 random bytes, see above. */
typedef struct turn_seed {
    uint8_t bytes[32];
} turn_seed;

/* A message to send: over a transport, between two addresses. Over TCP `from` says which connection to the server it
 * goes over: the client's own, or that of a peer. */
typedef struct turn_transmit {
    size_t size;             /* bytes at the start of the buffer */
    uint32_t transport;
    turn_address from;
    turn_address to;
} turn_transmit;

/* Data of a peer, or a report about one. */
typedef struct turn_payload {
    size_t start;            /* where the data begins in the bytes that were passed to turn_client_feed */
    size_t size;             /* the number of its bytes */
    uint32_t transport;      /* between the server and the peer */
    turn_address peer;
    bool is_joined;          /* over TCP only: the data is not in the bytes that were passed, and `start` is 0.
                              * turn_client_read gives it, unless its size is 0 */
    uint8_t icmp_type;       /* the report, with TURN_ICMP */
    uint8_t icmp_code;
    uint32_t icmp_data;
} turn_payload;

/* What turn_client_poll writes. */
typedef struct turn_wait {
    uint64_t until;          /* with TURN_OK: the time until which nothing is to be done, at most 9999 s from now */
    uint32_t id;             /* with TURN_OPEN_SOCKET: the ID of the connection */
    uint32_t transport;      /* with TURN_OPEN_SOCKET: that of the connection to open, between `from` and `to` */
    turn_address from;       /* with TURN_OPEN_SOCKET (the program chooses its port) and TURN_CLOSE_SOCKET */
    turn_address to;
    turn_address peer;       /* with TURN_OPEN_SOCKET: the peer of the connection */
} turn_wait;

/* What happened. */
enum turn_event_kind {
    TURN_ALLOCATION_CREATED = 1,  /* address: the relayed one */
    TURN_ALLOCATION_FAILED = 2,   /* address: the family only */
    TURN_PERMISSION_CREATED = 3,  /* address: the peer's, with port 0 */
    TURN_PERMISSION_FAILED = 4,   /* rejected by the server, or ended */
    TURN_CHANNEL_CREATED = 5,     /* address: the peer's */
    TURN_CHANNEL_FAILED = 6,      /* rejected by the server, or ended */
    TURN_TCP_CONNECTED = 7,       /* address: the peer's; from now on bytes go both ways */
    TURN_TCP_FAILED = 8
};

typedef struct turn_event {
    uint32_t kind;
    uint32_t transport;      /* between server and peers; 0 for TURN_ALLOCATION_FAILED */
    turn_address address;
} turn_event;

/* Why an event reports a failure. */
enum turn_cause_kind {
    TURN_CAUSE_NONE = 0,          /* the event reports no failure, or no event was taken yet */
    TURN_REJECTED = 1,            /* the server rejected the request, by an error response */
    TURN_UNANSWERED = 2,          /* no response came in time */
    TURN_INTEGRITY = 3,           /* the response was not signed, or not by the password */
    TURN_NO_ALGORITHM = 4,        /* the server's challenge names no algorithm that the client supports, or lacks what
                                   * the settings require, as to hide the name */
    TURN_OTHER_FAMILY = 5,        /* the server allocated addresses of other families only */
    TURN_CAUSE_MEMORY = 6,        /* malloc failed, and the cause was not stored */
    TURN_DELETED = 7,             /* turn_client_delete was called before: whatever fails or ends after it, by a
                                   * response or without one */
    TURN_EXPIRED = 8,             /* its time was over */
    TURN_SOCKET_CLOSED = 9,       /* does not occur: a call of the Rattle crate that this header has not */
    TURN_UNUSABLE = 10            /* the response was malformed, or lacked what the client needs of it */
};

/* What turn_client_cause writes. */
typedef struct turn_cause {
    uint32_t kind;
    uint32_t code;           /* with TURN_REJECTED: the response's error code, 300 to 699; otherwise 0 */
    bool is_signed;          /* with TURN_REJECTED: the response was validated under the password. If not, it may be
                              * anybody's */
    size_t reason_size;      /* with TURN_REJECTED: the bytes that turn_client_reason writes; otherwise 0 */
    turn_address alternate;  /* the server that a response 300 named which ended the client (RFC 8489, section 10);
                              * family 0 if there was none */
    size_t domain_size;      /* the bytes that turn_client_domain writes; 0 if there is no name */
} turn_cause;

/* A relayed address. */
typedef struct turn_relayed {
    uint32_t transport;      /* between server and peers */
    turn_address address;
} turn_relayed;

/* A channel. */
typedef struct turn_channel {
    uint16_t number;
    turn_address peer;
} turn_channel;

/* A connection to a peer that has a socket. */
typedef struct turn_connection {
    turn_address local;      /* the socket's own address */
    turn_address peer;
    uint32_t id;             /* by which the server knows it */
    bool is_bound;
} turn_connection;

/* The handle of a client. Its memory is the program's. If it is all zero, it is not open. Between turn_client_open and
 * turn_client_close it owns memory. */
typedef struct turn_client {
    void *private_client;
    bool private_is_open;
} turn_client;

#define TURN_CLIENT_INIT {0, false}

/* The version of the library: major * 10000 + minor * 100 + patch. If it is not TURN_CLIENT_VERSION_NUMBER, header
 * and library are of two releases. */
uint32_t turn_client_version(void);

/* ---- beginning and end */

/* Opens a client of this user. Nothing is sent yet: turn_client_draw gives the first request.
 *
 * The texts are UTF-8, of the given lengths in bytes, and not ended by a zero. Nothing that the call is given is needed
 * after it. If it succeeds, the handle owns memory, which turn_client_close frees.
 *
 *   TURN_OK               the handle is open
 *
 *   Refused (the handle stays as it was):
 *   TURN_ALREADY_OPEN     the handle is open already
 *   TURN_BAD_SETTING      settings->size is not sizeof(turn_settings)
 *   TURN_BAD_FAMILY       the family of settings->local or settings->server is neither 4 nor 6
 *   TURN_BAD_SETTING      a number of the settings is not valid, or `peers` is TURN_TCP over UDP
 *   TURN_BAD_LENGTH       `username_len` or `password_len` is more than PTRDIFF_MAX
 *   TURN_BAD_TEXT         the name or the password is not UTF-8
 *   TURN_LONG_NAME        the name has more than TURN_NAME_MAX bytes
 *   TURN_ZERO_SEED        all 32 bytes of the seed are zero
 *   TURN_NO_MEMORY        malloc failed */
int32_t turn_client_open(turn_client *client, const turn_settings *settings,
                         const char *username, size_t username_len,
                         const char *password, size_t password_len, const turn_seed *seed);

/* Closes a client: frees all that it holds, and sends nothing to the server (turn_client_delete does that).
 *
 * The handle may be opened again. A handle that is not open stays as it is. */
void turn_client_close(turn_client *client);

/* Sets other credentials of the user, which replace the present ones with the next challenge that the client accepts
 * (RFC 8489, section 9.2.5): for passwords that expire, as those of a REST service do. Call it before they expire, once
 * the server accepts the others: each challenge counts, also that for a stale nonce.
 *
 * Until then the client signs and validates as before, so what it has sent is still answered. The server challenges the
 * first request that it no longer accepts, and the client makes that request again under the new credentials. From then
 * on nothing counts that is signed under the former ones. A later call replaces credentials that are not in use yet.
 *
 *   username       UTF-8, at most TURN_NAME_MAX bytes. The client copies it and the password
 *   password       UTF-8
 *
 *   TURN_OK               they are set
 *
 *   Refused (nothing has changed):
 *   TURN_BAD_LENGTH       `username_len` or `password_len` is more than PTRDIFF_MAX
 *   TURN_BAD_TEXT         the name or the password is not UTF-8
 *   TURN_LONG_NAME        the name has more than TURN_NAME_MAX bytes
 *   TURN_NO_MEMORY        malloc failed
 *   TURN_NO_CLIENT        the handle is not open */
int32_t turn_client_credentials(turn_client *client, const char *username, size_t username_len,
                                const char *password, size_t password_len);

/* Sets the text of SOFTWARE (RFC 8489, section 14.14), which the client's requests carry from now on. A new client's
 * carry none. Call it before the first turn_client_draw to have it in each.
 *
 *   text           UTF-8, at most TURN_SOFTWARE_MAX bytes. The client copies it. With a length of 0 requests carry none
 *
 *   TURN_OK               it is set
 *
 *   Refused (nothing has changed):
 *   TURN_BAD_LENGTH       `text_len` is more than PTRDIFF_MAX
 *   TURN_BAD_TEXT         the text is not UTF-8
 *   TURN_TOO_LARGE        it has more than TURN_SOFTWARE_MAX bytes
 *   TURN_NO_MEMORY        malloc failed
 *   TURN_NO_CLIENT        the handle is not open */
int32_t turn_client_software(turn_client *client, const char *text, size_t text_len);

/* Sets whether the client's requests end with FINGERPRINT (RFC 8489, section 14.7) from now on. A new client's do not.
 * It tells a receiver that shares the socket with other protocols which messages are STUN.
 *
 *   TURN_OK               it is set
 *
 *   Refused:
 *   TURN_NO_CLIENT        the handle is not open */
int32_t turn_client_fingerprint(turn_client *client, bool fingerprint);

/* Requests the end of all allocations (RFC 8656, section 8.1). For the client they are over at once; see above for what
 * may still come. Then take turns until turn_client_poll returns TURN_CLOSED.
 *
 *   TURN_OK               the end is requested
 *
 *   Refused:
 *   TURN_NO_CLIENT        the handle is not open
 *   TURN_NO_ALLOCATION    the server has allocated nothing, or the client has ended
 *   TURN_NO_MEMORY        malloc failed; the call may be made again */
int32_t turn_client_delete(turn_client *client, uint64_t now);

/* ---- receiving and sending bytes */

/* Handles bytes that arrived from one address at another, at the time `now` (nanoseconds).
 *
 *   from, to      the address that sent the bytes, and the one at which they arrived
 *   bytes, len    over UDP a datagram; over TCP what was read of a connection to the server, cut anywhere, where
 *                 a length of 0 means that the server closed the connection: see above for the control connection
 *   payload       written with TURN_PAYLOAD and TURN_ICMP
 *
 * The client stores no pointer to the bytes: of a frame that is not complete it stores a copy.
 *
 *   TURN_OK               the bytes were for the client
 *   TURN_PAYLOAD          *payload says where the data of a peer is; over TCP more data may follow it: see
 *                         turn_client_pull
 *   TURN_ICMP             *payload has the report
 *   TURN_IGNORED          the bytes are not for the client
 *
 *   Refused:
 *   TURN_BAD_FAMILY       the family of `from` or `to` is neither 4 nor 6
 *   TURN_BAD_LENGTH       `len` is more than PTRDIFF_MAX
 *   TURN_NO_CLIENT        the handle is not open
 *   TURN_UNREAD           joined bytes are to be read first, by turn_client_read; these bytes were not handled
 *   TURN_NO_MEMORY        malloc failed: the client has failed, and is to be closed */
int32_t turn_client_feed(turn_client *client, const turn_address *from, const turn_address *to,
                         const uint8_t *bytes, size_t len, uint64_t now, turn_payload *payload);

/* Gives the next buffered data of a peer, over TCP. Call it after turn_client_feed until it returns TURN_NOTHING.
 *
 * The data is always joined: turn_client_read gives its bytes. ICMP reports are not given. `now` is in nanoseconds.
 *
 *   TURN_PAYLOAD          *payload has the size of the data, and the peer
 *   TURN_NOTHING          no data is buffered
 *
 *   Refused:
 *   TURN_NO_CLIENT        the handle is not open
 *   TURN_UNREAD           joined bytes are to be read first, by turn_client_read
 *   TURN_NO_MEMORY        malloc failed: the client has failed, and is to be closed */
int32_t turn_client_pull(turn_client *client, uint64_t now, turn_payload *payload);

/* Copies the joined bytes of the last payload to the start of `out`, a buffer of at least the payload's size, and frees
 * the client's copy.
 *
 *   TURN_OK               the bytes are in the buffer
 *   TURN_NOTHING          there are no joined bytes
 *
 *   Refused (the joined bytes stay to be read):
 *   TURN_BAD_LENGTH       `out_len` is more than PTRDIFF_MAX
 *   TURN_NO_CLIENT        the handle is not open
 *   TURN_SMALL_BUFFER     `out_len` is less than the payload's size */
int32_t turn_client_read(turn_client *client, uint8_t *out, size_t out_len);

/* Writes the next message that is to be sent at `now` (nanoseconds) to the start of `out`, a buffer of at least
 * TURN_MESSAGE_MAX bytes.
 *
 *   TURN_OK               the message is in the buffer; *transmit has its size, transport and addresses
 *   TURN_NOTHING          nothing is to be sent now
 *
 *   Refused:
 *   TURN_BAD_LENGTH       `out_len` is more than PTRDIFF_MAX
 *   TURN_SMALL_BUFFER     `out_len` is less than TURN_MESSAGE_MAX
 *   TURN_NO_CLIENT        the handle is not open
 *   TURN_NO_MEMORY        malloc failed: the client has failed, and is to be closed
 *
 * (TURN_TOO_LARGE would report a message that is larger than any message is. It does not occur.) */
int32_t turn_client_draw(turn_client *client, uint64_t now, uint8_t *out, size_t out_len, turn_transmit *transmit);

/* Writes what carries a payload to a peer to the start of `out`, a buffer of at least len + TURN_SEND_EXTRA bytes. The
 * program sends it at once: the client stores nothing of it, and turn_client_draw does not give it.
 *
 *   transport     the one between server and peers: TURN_UDP, or TURN_TCP over a connection; 0 is refused
 *   bytes, len    the payload
 *   now           in nanoseconds
 *
 *   TURN_OK               a channel frame, a SEND indication, or over a connection the payload unchanged is in the
 *                         buffer; *transmit has its size, transport and addresses
 *
 *   Refused:
 *   TURN_BAD_SETTING      `transport` is neither TURN_UDP nor TURN_TCP
 *   TURN_BAD_FAMILY       the family of `peer` is neither 4 nor 6
 *   TURN_BAD_LENGTH       `len` or `out_len` is more than PTRDIFF_MAX
 *   TURN_SMALL_BUFFER     `out_len` is less than len + TURN_SEND_EXTRA
 *   TURN_NO_CLIENT        the handle is not open
 *   TURN_NO_PERMISSION    there is no permission for the peer's address
 *   TURN_NO_SOCKET        with TURN_TCP: no connection to the peer is bound
 *   TURN_TOO_LARGE        with TURN_UDP: `len` is more than TURN_PAYLOAD_MAX
 *   TURN_NO_MEMORY        every transaction ID is taken
 *
 * (TURN_SMALL_BUFFER would also report that the result takes more than len + TURN_SEND_EXTRA bytes, after a transaction
 * ID was used. It does not occur: at most 51 bytes are added.) */
int32_t turn_client_send(turn_client *client, uint32_t transport, const turn_address *peer,
                         const uint8_t *bytes, size_t len, uint64_t now,
                         uint8_t *out, size_t out_len, turn_transmit *transmit);

/* ---- time and events */

/* Does what is due at `now` (nanoseconds), and reports until when there is nothing to do. A later call may make
 * something due earlier.
 *
 *   TURN_OK               wait until wait->until; if that is not later than `now`, take another turn at once
 *   TURN_OPEN_SOCKET      open a connection between wait->from and wait->to, report it by turn_client_socket with
 *                         wait->id and wait->peer, and poll again; it is requested once
 *   TURN_CLOSE_SOCKET     close the connection between wait->from and wait->to, and poll again; it is reported once
 *   TURN_CLOSED           the client has ended, or has no allocation left: take the events, and close it
 *
 *   Refused:
 *   TURN_NO_CLIENT        the handle is not open
 *   TURN_NO_MEMORY        malloc failed: the client has failed, and is to be closed */
int32_t turn_client_poll(turn_client *client, uint64_t now, turn_wait *wait);

/* Takes the oldest queued event.
 *
 *   TURN_OK               *event has it
 *   TURN_NOTHING          no event is queued
 *
 *   Refused:
 *   TURN_NO_CLIENT        the handle is not open */
int32_t turn_client_event(turn_client *client, turn_event *event);

/* Takes the oldest allocation that turn_client_poll removed because its time was over (RFC 8656, section 6), unless
 * the settings' `ignore_short_lifetimes` is 1 or `compatible` is: then nothing is stored of it. What goes after
 * turn_client_delete was called is not reported; what expired before is. No event reports an allocation's end: call
 * this one after turn_client_poll, until it returns TURN_NOTHING.
 *
 *   TURN_OK               *expired has it
 *   TURN_NOTHING          none has expired that was not reported yet
 *
 *   Refused:
 *   TURN_NO_CLIENT        the handle is not open */
int32_t turn_client_expired(turn_client *client, turn_relayed *expired);

/* Reports why the event happened that turn_client_event wrote last, until it writes another.
 *
 *   TURN_OK               *cause has it; its kind is TURN_CAUSE_NONE if the event reports no failure
 *
 *   Refused:
 *   TURN_NO_CLIENT        the handle is not open */
int32_t turn_client_cause(turn_client *client, turn_cause *cause);

/* Copies the reason phrase of the error response to the start of `out`, a buffer of at least cause->reason_size bytes
 * (RFC 8489, section 14.8). It is UTF-8, of at most 763 bytes, and not ended by a zero. It is the server's, or of
 * whoever sent the response: print it only with its control characters removed. It has no bytes if the response had
 * none. (A phrase that is not UTF-8 makes the response malformed: TURN_UNUSABLE.)
 *
 *   TURN_OK               the bytes are in the buffer
 *   TURN_NOTHING          the kind of the cause is not TURN_REJECTED
 *
 *   Refused:
 *   TURN_BAD_LENGTH       `out_len` is more than PTRDIFF_MAX
 *   TURN_NO_CLIENT        the handle is not open
 *   TURN_SMALL_BUFFER     `out_len` is less than the phrase's size */
int32_t turn_client_reason(turn_client *client, uint8_t *out, size_t out_len);

/* Copies the name of the domain of the server that a response 300 named (RFC 8489, section 14.16) to the start of
 * `out`, a buffer of at least cause->domain_size bytes. It is UTF-8, and not ended by a zero; it is the server's, as a
 * reason phrase is.
 *
 *   TURN_OK               the bytes are in the buffer
 *   TURN_NOTHING          no response 300 ended the client, or it had no name
 *
 *   Refused:
 *   TURN_BAD_LENGTH       `out_len` is more than PTRDIFF_MAX
 *   TURN_NO_CLIENT        the handle is not open
 *   TURN_SMALL_BUFFER     `out_len` is less than the name's size */
int32_t turn_client_domain(turn_client *client, uint8_t *out, size_t out_len);

/* Reports the client's own address as the server saw it: the XOR-MAPPED-ADDRESS of the signed response that allocated
 * (RFC 8656, section 7.3).
 *
 *   TURN_OK               *mapped has it
 *   TURN_NOTHING          the server has allocated nothing yet, or its response had no such address
 *
 *   Refused:
 *   TURN_NO_CLIENT        the handle is not open */
int32_t turn_client_mapped(turn_client *client, turn_address *mapped);

/* Reports the token of the port that the server reserved beside the relayed one: the RESERVATION-TOKEN of the signed
 * response that allocated (RFC 8656, section 18.10). A server gives one for TURN_PORT_EVEN_AND_NEXT, and holds the port
 * for at least 30 seconds; another client asks for it with TURN_PORT_RESERVED and this number as `reservation`.
 *
 *   TURN_OK               *token has it
 *   TURN_NOTHING          the server has allocated nothing yet, or its response had no token
 *
 *   Refused:
 *   TURN_NO_CLIENT        the handle is not open */
int32_t turn_client_reservation(turn_client *client, uint64_t *token);

/* ---- requests to the server
 *
 * `transport` is the one between server and peers: TURN_UDP, unless the settings' `peers` is TURN_TCP; 0 is refused.
 * `now` is in nanoseconds. The results come as events. If an allocation has expired, TURN_NO_ALLOCATION marks it as
 * expired, and it is not listed any more. After TURN_NO_MEMORY the call may be made again. */

/* Requests a permission for a peer's address, whose port does not count (RFC 8656, section 9). It is valid for 300
 * seconds, and the client renews it.
 *
 *   TURN_OK               the permission is requested
 *
 *   Refused:
 *   TURN_BAD_SETTING      `transport` is neither TURN_UDP nor TURN_TCP
 *   TURN_BAD_FAMILY       the family of `peer` is neither 4 nor 6
 *   TURN_NO_CLIENT        the handle is not open
 *   TURN_NO_ALLOCATION    no allocation of this transport and family, or it has expired
 *   TURN_ALREADY_EXISTS   there is a permission for the address, or one was requested
 *   TURN_NO_ALLOCATION    the client has ended
 *   TURN_NO_MEMORY        malloc failed */
int32_t turn_client_permit(turn_client *client, uint32_t transport, const turn_address *peer, uint64_t now);

/* Requests permissions for the addresses of several peers, whose ports do not count, by one request (RFC 8656, section
 * 10.1), which names each address once. The server grants all or none. Each address gets an event of its own, in the
 * order in which they are given. Each permission is valid for 300 seconds, and the client renews it by a request of its
 * own. `peers_len` counts elements.
 *
 *   TURN_OK               the permissions are requested
 *
 *   Refused:
 *   TURN_BAD_SETTING      `transport` is neither TURN_UDP nor TURN_TCP
 *   TURN_BAD_ADDRESSES    `peers_len` is more than TURN_PERMIT_MAX
 *   TURN_BAD_FAMILY       the family of a peer is neither 4 nor 6
 *   TURN_NO_CLIENT        the handle is not open
 *   TURN_BAD_ADDRESSES    there is no peer, or the peers are of two families
 *   TURN_NO_ALLOCATION    no allocation of this transport and family, or it has expired
 *   TURN_ALREADY_EXISTS   there is a permission for one of the addresses, or one was requested: none is requested for
 *                         the others either
 *   TURN_NO_ALLOCATION    the client has ended
 *   TURN_NO_MEMORY        malloc failed */
int32_t turn_client_permit_several(turn_client *client, uint32_t transport, const turn_address *peers,
                                   size_t peers_len, uint64_t now);

/* Requests a channel to a peer (RFC 8656, section 12), and a permission for its address if there is none and none was
 * requested. The channel is valid for 600 seconds, and the client renews it.
 *
 *   TURN_OK               the channel is requested
 *
 *   Refused:
 *   TURN_BAD_SETTING      `transport` is neither TURN_UDP nor TURN_TCP
 *   TURN_BAD_FAMILY       the family of `peer` is neither 4 nor 6
 *   TURN_NO_CLIENT        the handle is not open
 *   TURN_NO_ALLOCATION    no allocation of this transport and family, or it has expired
 *   TURN_ALREADY_EXISTS   there is a channel to the peer
 *   TURN_EXPIRED_CHANNEL  a channel to the peer expired a short while ago: *until is the last time, in nanoseconds,
 *                         at which the peer is refused for that
 *   TURN_NO_ALLOCATION    the client has ended
 *   TURN_NO_CHANNEL       no channel number is free
 *   TURN_NO_MEMORY        malloc failed */
int32_t turn_client_bind(turn_client *client, uint32_t transport, const turn_address *peer, uint64_t now,
                         uint64_t *until);

/* Requests a TCP connection to a peer (RFC 6062, section 4.3), over an allocation over TCP. turn_client_poll then
 * requests its socket.
 *
 *   TURN_OK               the connection is requested
 *
 *   Refused:
 *   TURN_BAD_FAMILY       the family of `peer` is neither 4 nor 6
 *   TURN_NO_CLIENT        the handle is not open
 *   TURN_NO_ALLOCATION    no allocation over TCP of this family, or it has expired, or the client has ended
 *   TURN_NO_PERMISSION    there is no permission for the peer's address
 *   TURN_ALREADY_EXISTS   there is a connection to the peer, or one was requested
 *   TURN_NO_MEMORY        malloc failed */
int32_t turn_client_connect(turn_client *client, const turn_address *peer, uint64_t now);

/* ---- what the program did */

/* Reports the socket that was opened for a connection after TURN_OPEN_SOCKET, or that none was.
 *
 *   id, peer      as turn_client_poll gave them: wait->id and wait->peer
 *   local         the socket's own address; family 0 means that no socket was opened
 *   now           in nanoseconds
 *
 *   TURN_OK               the client goes on with the connection, or forgets it if there is no socket
 *
 *   Refused:
 *   TURN_BAD_FAMILY       the family of `peer` is neither 4 nor 6, or that of `local` is none of 0, 4 and 6
 *   TURN_NO_CLIENT        the handle is not open
 *   TURN_NO_ALLOCATION    no such connection waits for its socket, or the client has ended
 *   TURN_ALREADY_EXISTS   another connection has that own address
 *   TURN_NO_MEMORY        malloc failed; the call may be made again */
int32_t turn_client_socket(turn_client *client, uint32_t id, const turn_address *peer, const turn_address *local,
                           uint64_t now);

/* Reports that the socket of a connection was closed, by its own address and the server's.
 *
 *   TURN_OK               the connection is removed; the socket of no connection changes nothing. For what poll and
 *                         draw may still give, see above
 *
 *   Refused:
 *   TURN_BAD_FAMILY       the family of `local` or `remote` is neither 4 nor 6
 *   TURN_NO_CLIENT        the handle is not open
 *   TURN_NO_MEMORY        malloc failed; the call may be made again */
int32_t turn_client_closed(turn_client *client, const turn_address *local, const turn_address *remote, uint64_t now);

/* ---- what the client holds
 *
 * Each of these writes as many elements as `out` has room for, and returns how many there are: 0 if the handle is not
 * open. `out_len` counts elements. */

size_t turn_client_relayed(turn_client *client, turn_relayed *out, size_t out_len);

/* The peers' addresses that have a permission in the allocation of a relayed address, with port 0. There are none if
 * there is no such allocation. */
size_t turn_client_permissions(turn_client *client, uint32_t transport, const turn_address *relayed,
                               turn_address *out, size_t out_len);

/* Returns whether there is a permission for a peer's address; false if the transport or the family is not valid, or the
 * handle is not open. */
bool turn_client_is_permitted(turn_client *client, uint32_t transport, const turn_address *peer);

size_t turn_client_channels(turn_client *client, turn_channel *out, size_t out_len);

size_t turn_client_connections(turn_client *client, turn_connection *out, size_t out_len);

#ifdef __cplusplus
}
#endif
#endif
