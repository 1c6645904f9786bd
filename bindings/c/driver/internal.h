/* internal.h: what the files of the driver share. Of the archive only names turn_* are visible. */
#ifndef INTERNAL_H
#define INTERNAL_H

#include <netinet/in.h>
#include <sys/socket.h>

#include "turn_driver.h"

#define MILLISECOND UINT64_C(1000000) /* in nanoseconds */
#define SECOND UINT64_C(1000000000)
#define PAUSE (10 * MILLISECOND)      /* until what did nothing, or had no memory, is done again */
#define READ_MAX 65536                /* bytes that one read gives: no datagram is larger */
#define HOSTS_MAX 8                   /* addresses of a server's name that are tried */

/* ---- clock.c and address.c */

uint64_t clock_now(void);

/* The time that lies a timeout after now; UINT64_MAX if it has no end. */
uint64_t deadline_of(int timeout_ms);

/* The whole milliseconds until a time, rounded up, as poll(2) takes them. */
int wait_of(uint64_t until);

uint64_t sooner(uint64_t one, uint64_t other);

socklen_t to_system(const turn_address *address, struct sockaddr_storage *to);
turn_address of_system(const struct sockaddr_storage *from);
bool is_address(const turn_address *address);
bool is_same(const turn_address *one, const turn_address *other);
bool is_same_host(const turn_address *one, const turn_address *other);

/* ---- buffers.c: bytes and datagrams that wait */

/* Bytes of a stream, from `start` to `end`. The caller keeps to the most that it was opened for. */
struct buffer {
    uint8_t *bytes;
    size_t start, end, room;
};

bool buffer_open(struct buffer *buffer, size_t most);
void buffer_close(struct buffer *buffer);
size_t buffer_size(const struct buffer *buffer);
void buffer_add(struct buffer *buffer, const uint8_t *bytes, size_t size);

struct datagram {
    struct datagram *next;
    turn_address peer;
    size_t size;
    uint8_t bytes[];
};

struct queue {
    struct datagram *first, *last;
    size_t count, bytes, count_max, bytes_max;
};

/* Whether one more of this size may wait. */
bool queue_has_room(const struct queue *queue, size_t size);

/* Puts a datagram at the end. */
void queue_put(struct queue *queue, struct datagram *added);

/* A datagram of these bytes at the end; false without memory. */
bool queue_add(struct queue *queue, const turn_address *peer, const void *bytes, size_t size);

/* Removes the first one, which is the caller's to free. */
struct datagram *queue_take(struct queue *queue);
void queue_clear(struct queue *queue);

/* ---- line.c: a socket to the server, which never blocks */

enum line_state { LINE_CLOSED, LINE_CONNECTS, LINE_SHAKES_HANDS, LINE_OPEN, LINE_FAILED };

struct line {
    enum line_state state;
    int fd;
    bool is_stream, has_ended, has_more; /* the server closed it; a read may give more at once */
    const turn_driver_tls *tls;          /* NULL without TLS */
    void *session;
    turn_address own, server;
    short wants_to_read, wants_to_write; /* the events for which reads and writes of TLS wait */
    int32_t error;                       /* an errno, if it failed or the system reported one */
    int32_t status;                      /* of the failure: NO_SERVER or NO_TLS */
    char why[256];                       /* what the TLS library says */
    struct buffer unsent;                /* of a stream: what waits */
};

/* Begins to connect. Whether it failed at once is in `state`. `host` is for the certificate. */
void line_start(struct line *line, const turn_address *server, const turn_address *local,
                bool is_stream, const turn_driver_tls *tls, const char *host);

/* Goes on with what it does: the connection, the handshake, what waits to be sent. */
void line_go_on(struct line *line);

/* How much may be added to what waits. */
size_t line_room(const struct line *line);

/* Sends a message, or has it wait. The caller has looked at line_room. Whether it was taken. */
bool line_send(struct line *line, const uint8_t *bytes, size_t size);

/* Reads at most `size` bytes: how many, 0 also for an empty datagram; -1 if nothing is there, or
 * the line has ended or failed. */
ssize_t line_read(struct line *line, uint8_t *bytes, size_t size);

/* What to wait for. */
short line_events(const struct line *line);
void line_shutdown(struct line *line);
void line_close(struct line *line);

/* ---- a driver */

/* Peers for whom no channel is requested before a time: those that have one, and those for whom
 * one failed. A peer's index comes of its address. One that is overwritten is requested again,
 * which the client refuses if there is a channel. */
#define CHANNELS_MAX 1024

struct channel_note {
    turn_address peer;
    uint64_t until;
};

struct turn_driver {
    turn_client client;
    turn_settings settings;
    turn_driver_options options;
    struct line line, data;              /* to the server; of a connection */
    char host[TURN_URI_HOST_MAX + 1];    /* for the server's certificate */
    uint64_t due;                        /* when the next turn is due */
    bool is_ready, is_closing, is_over;  /* has an address; gives it back; has ended */
    struct queue waiting, received;
    struct queue requested;              /* hosts whose permissions are requested, without bytes */
    uint64_t dropped;
    turn_driver_failure last, fatal;     /* of the last call; why it is over */
    turn_driver_failure lost;            /* why the last allocation failed or ended */
    char domain[TURN_URI_HOST_MAX + 1];  /* of the server that a response 300 named, or empty */
    turn_driver_failure notices[TURN_DRIVER_NOTICES_MAX];
    size_t notice_first, notice_count;
    turn_address awaited[TURN_PERMIT_MAX]; /* whose permissions a call waits for */
    size_t awaited_count;
    struct channel_note *channels;
    turn_address peer;                   /* of the connection; family 0 if none was requested */
    uint32_t data_id;                    /* by which the client knows its socket */
    uint64_t data_until, data_again;     /* when its socket is to be open; is reported again */
    bool is_requested, is_reported;      /* the connection; its socket */
    bool is_connected, has_ended;        /* bytes go both ways; they did */
    bool has_refusal;
    turn_driver_failure refusal;         /* why what a call waits for failed */
    struct buffer unread;                /* of the connection */
    uint8_t out[TURN_MESSAGE_MAX + TURN_SEND_EXTRA], in[READ_MAX];
    uint8_t joined[TURN_MESSAGE_MAX + READ_MAX];
};

/* ---- failure.c */

/* Fills a failure in, whose text is of this format. */
void fail_with(turn_driver_failure *failure, int32_t status, const char *format, ...)
    __attribute__((format(printf, 3, 4)));

/* Makes it the driver's last failure, and returns its status. */
int32_t fails(turn_driver *driver, const turn_driver_failure *failure);

/* The same for one that has nothing but its status and a text. */
int32_t refuses(turn_driver *driver, int32_t status, const char *text);

/* Has the driver end for a cause. The first cause counts. */
void ends(turn_driver *driver, const turn_driver_failure *why);

/* What a status of the client means that no call before it excludes. */
void fail_of_status(turn_driver_failure *failure, int32_t status);

/* The cause of the last event, with a text that begins with this one. */
void fail_of_event(turn_driver *driver, turn_driver_failure *failure, int32_t status,
                   const char *what);

/* ---- turns.c */

/* Takes turns until there is nothing to do. */
void take_turns(turn_driver *driver);

/* Takes turns, reads what came, and takes turns again. It may stop at the first datagram. */
void go_on(turn_driver *driver, bool stops_at_datagram);

/* Has the client handle what came over a line. */
void feed(turn_driver *driver, const struct line *line, const uint8_t *bytes, size_t size);

/* When the next turn is due, beside what waits to be taken by the program. */
uint64_t next_turn(const turn_driver *driver);

/* Waits until something comes or is due, or `until`: false if that time has come. */
bool wait_for_more(turn_driver *driver, uint64_t until);

/* ---- datagrams.c */

void take_datagram(turn_driver *driver, const turn_payload *payload, const uint8_t *bytes);
void take_report(turn_driver *driver, const turn_payload *payload);
void follow_permission(turn_driver *driver, const turn_event *event);
void follow_channel(turn_driver *driver, const turn_event *event);

/* Requests a permission for a host: TURN_DRIVER_OK if there is one, TURN_DRIVER_TIMEOUT if it is
 * requested; or a failure. */
int32_t request_permission(turn_driver *driver, const turn_address *peer);

/* ---- connection.c */

/* The client requests a socket. */
void open_data(turn_driver *driver, const turn_wait *wait);
void go_on_with_data(turn_driver *driver);
void follow_connection(turn_driver *driver, const turn_event *event);
void take_stream(turn_driver *driver, const uint8_t *bytes, size_t size);
bool has_room_for_stream(const turn_driver *driver);

/* Ends what is sent to the peer, and waits until the server has passed it on. */
void flush_connection(turn_driver *driver);

#endif
