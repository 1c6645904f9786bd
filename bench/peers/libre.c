/* libre.c: libre's client turnc_.., whose messages to the server a helper of the socket takes, so that no system call
 * is timed; and its functions stun_.. for messages. The server's responses are made by libre itself. */
#include <string.h>

#include "rows.h"
#include "../samples.h"
/* as libre itself was built */
#define HAVE_STDBOOL_H 1
#define HAVE_INET6 1
#include <re.h>

enum {
    CLIENTS = 3, LOWEST_LAYER = -100, ROOM = 64, KEY_SIZE = 16, UNAUTHORIZED = 401, SERVER_PORT = 3478,
    LOOPBACK = 0x7f000001, SERVER = 0x7f000002, BUFFER = 2048,
};
/* A client is made anew before it would renew anything, which it does after 250 s. */
static const uint64_t oldest = UINT64_C(120000000000);
static const char user[] = "user", password[] = "pass", realm[] = "realm";

/* The list of timers that re_main() polls: libre exports it, and no header has it. */
struct list *tmrl_get(void);

struct holder {
    size_t held;
    uint64_t made;
    struct udp_sock *socket;
    struct udp_helper *helper;
    struct turnc *turnc;
};
static struct holder holders[CLIENTS], fresh, stream, *holder;
static bool is_allocated;
static size_t granted;
static struct sa server, peer, source;
static uint8_t long_term_key[KEY_SIZE];
static struct mbuf *datagram, *payload;
static size_t datagram_size;

/* What the client sent last. */
static const uint8_t *sent;
static size_t sent_size;

/* ---- the server */

static bool take_sent(int *err, struct sa *to, struct mbuf *mb, void *arg)
{
    (void)err, (void)to, (void)arg;
    sent = mbuf_buf(mb);
    sent_size = mbuf_get_left(mb);
    return true;
}

static bool take_received(struct sa *from, struct mbuf *mb, void *arg)
{
    (void)from, (void)mb, (void)arg;
    return false;
}

static void take_other(const struct sa *from, struct mbuf *mb, void *arg)
{
    (void)from, (void)mb, (void)arg;
}

static void feed(struct mbuf *mb)
{
    struct sa from = server;
    mb->pos = 0;
    row_resume();
    row_must(turnc_recv(holder->turnc, &from, mb) == 0, "a response is taken");
    row_set_aside();
    mem_deref(mb);
    row_resume();
}

/* The method and the transaction ID of the request that was sent. The server's work, until `feed`, isn't timed. */
static uint16_t take_request(uint8_t id[STUN_TID_SIZE])
{
    row_set_aside();
    row_must(sent != NULL && sent_size >= STUN_HEADER_SIZE, "a request was sent");
    const uint16_t method = sent[1];
    memcpy(id, sent + TRANSACTION_AT, STUN_TID_SIZE);
    sent = NULL;
    return method;
}

static void challenge(void)
{
    uint8_t id[STUN_TID_SIZE];
    struct stun_errcode error = {UNAUTHORIZED, "Unauthorized"};
    const uint16_t method = take_request(id);
    struct mbuf *mb = mbuf_alloc(BUFFER);
    row_must(stun_msg_encode(mb, method, STUN_CLASS_ERROR_RESP, id, &error, NULL, 0, false, 0, 2,
                             STUN_ATTR_REALM, realm, STUN_ATTR_NONCE, "a nonce") == 0, "a challenge");
    feed(mb);
}

static void grant(void)
{
    uint8_t id[STUN_TID_SIZE];
    struct sa relayed;
    const uint32_t lifetime = TURN_MAX_LIFETIME;
    const uint16_t method = take_request(id);
    struct mbuf *mb = mbuf_alloc(BUFFER);
    sa_set_in(&relayed, RELAYED_IP, RELAYED_PORT);
    const bool allocates = method == STUN_METHOD_ALLOCATE;
    row_must(stun_msg_encode(mb, method, STUN_CLASS_SUCCESS_RESP, id, NULL, long_term_key, KEY_SIZE, false, 0, 3,
                             STUN_ATTR_XOR_RELAY_ADDR, allocates ? &relayed : NULL,
                             STUN_ATTR_XOR_MAPPED_ADDR, allocates ? &relayed : NULL,
                             STUN_ATTR_LIFETIME, allocates ? &lifetime : NULL) == 0, "a success");
    feed(mb);
}

/* ---- a client that holds channels */

static void on_allocated(int err, uint16_t code, const char *reason, const struct sa *relayed, const struct sa *mapped,
                         const struct stun_msg *message, void *arg)
{
    (void)reason, (void)relayed, (void)mapped, (void)message, (void)arg;
    is_allocated = err == 0 && code == 0;
}

static void on_granted(void *arg)
{
    (void)arg;
    granted++;
}

static void close_client(struct holder *it)
{
    it->turnc = mem_deref(it->turnc);
    it->helper = mem_deref(it->helper);
    it->socket = mem_deref(it->socket);
}

/* A socket whose messages to the server `take_sent` takes. */
static void open_socket(struct holder *it)
{
    struct sa own;
    sa_set_in(&own, LOOPBACK, 0);
    sa_set_in(&server, SERVER, SERVER_PORT);
    row_must(udp_listen(&it->socket, &own, take_other, NULL) == 0, "a socket");
    row_must(udp_register_helper(&it->helper, it->socket, LOWEST_LAYER, take_sent, take_received, NULL) == 0,
             "a helper");
}

static void shake_hands_of(struct holder *it, int protocol, void *socket)
{
    is_allocated = false;
    row_must(turnc_alloc(&it->turnc, NULL, protocol, socket, 0, &server, user, password, TURN_MAX_LIFETIME,
                         on_allocated, NULL) == 0, "a client");
    challenge();
    grant();
}

static void open_client(struct holder *it)
{
    open_socket(it);
    shake_hands_of(it, IPPROTO_UDP, it->socket);
    row_must(is_allocated, "an allocation");
    for (size_t i = 0; i < it->held; i++) {
        sa_set_in(&peer, FIRST_PEER + (uint32_t)i, CHANNEL_PORT);
        row_must(turnc_add_perm(it->turnc, &peer, on_granted, NULL) == 0, "a permission is requested");
        grant();
        row_must(turnc_add_chan(it->turnc, &peer, on_granted, NULL) == 0, "a channel is requested");
        grant();
    }
    row_must(granted == 2 * it->held, "permissions and channels are granted");
}

static void begin(void)
{
    static bool has_begun = false;
    if (has_begun)
        return;
    row_must(libre_init() == 0, "libre_init");
    row_must(md5_printf(long_term_key, "%s:%s:%s", user, realm, password) == 0, "a key");
    datagram = mbuf_alloc(BUFFER);
    payload = mbuf_alloc(BUFFER);
    has_begun = true;
}

/* The client that holds so many channels is the one that is called from now on. */
static void hold_client(size_t held)
{
    begin();
    holder = holders;
    while (holder->held != 0 && holder->held != held)
        holder++;
    row_must(holder < holders + CLIENTS, "room for a client");
    if (holder->turnc != NULL && row_now() - holder->made > oldest)
        close_client(holder);
    if (holder->turnc != NULL)
        return;
    *holder = (struct holder){.held = held, .made = row_now()};
    granted = 0;
    open_client(holder);
}

/* ---- requests */

/* A new client is the one that is called from now on; its socket stays. No other is left, as libre has one sorted list
 * of all timers. */
static void renew_client(size_t held)
{
    (void)held;
    begin();
    row_set_aside();
    for (struct holder *it = holders; it < holders + CLIENTS; it++)
        close_client(it);
    stream.turnc = mem_deref(stream.turnc);
    holder = &fresh;
    fresh.turnc = mem_deref(fresh.turnc);
    if (fresh.socket == NULL)
        open_socket(&fresh);
    granted = 0;
    row_resume();
}

static bool shake_hands(size_t i)
{
    (void)i;
    renew_client(0);
    shake_hands_of(&fresh, IPPROTO_UDP, fresh.socket);
    return is_allocated;
}

/* The messages are checked by `take_request` and by libre itself. */
static bool is_done(size_t i)
{
    (void)i;
    return is_allocated;
}

/* The first peer's channel is the first of a new client, whose handshake isn't timed. */
static bool bind_channel(size_t i)
{
    if (i == 0) {
        row_set_aside();
        renew_client(0);
        shake_hands_of(&fresh, IPPROTO_UDP, fresh.socket);
        row_resume();
    }
    sa_set_in(&peer, FIRST_PEER + (uint32_t)i, CHANNEL_PORT);
    row_must(turnc_add_chan(holder->turnc, &peer, on_granted, NULL) == 0, "a channel is requested");
    grant();
    return granted == i + 1;
}

static bool is_bound(size_t i)
{
    return granted == i + 1;
}

/* ---- payloads */

static void hold_frames(size_t held)
{
    hold_client(held);
    row_frame(datagram->buf, 0);
    datagram_size = FRAME_SIZE;
}

static void hold_data(size_t held)
{
    hold_client(held);
    datagram_size = row_indication(datagram->buf, DATA_INDICATION, CHANNEL_PORT, 0);
}

static bool take(void)
{
    datagram->pos = 0;
    datagram->end = datagram_size;
    source = server;
    return turnc_recv(holder->turnc, &source, datagram) == 0;
}

static bool take_frame(size_t i)
{
    row_frame_of(datagram->buf, i);
    return take();
}

static bool take_data(size_t i)
{
    row_indication_of(datagram->buf, i);
    return take();
}

/* What re_main() does beside the system calls, and the datagram. */
static bool take_turn(size_t i)
{
    struct list *timers = tmrl_get();
    (void)tmr_next_timeout(timers);
    const bool is_taken = take_frame(i);
    tmr_poll(timers);
    return is_taken;
}

static bool is_taken(size_t i)
{
    sa_set_in(&peer, FIRST_PEER + (uint32_t)i, CHANNEL_PORT);
    return mbuf_get_left(datagram) == PAYLOAD && memcmp(mbuf_buf(datagram), row_payload, PAYLOAD) == 0 &&
           sa_cmp(&source, &peer, SA_ALL);
}

static void hold_payload(size_t held)
{
    hold_client(held);
    memcpy(payload->buf + ROOM, row_payload, PAYLOAD);
}

/* The client's helper of the socket makes a frame or an indication of what is sent to a peer. It writes that before the
 * payload, and copies none of it. */
static bool send_from(size_t i, uint16_t port)
{
    sa_set_in(&peer, FIRST_PEER + (uint32_t)i, port);
    payload->pos = ROOM;
    payload->end = ROOM + PAYLOAD;
    return udp_send(holder->socket, &peer, payload) == 0;
}

static bool send_frame(size_t i)
{
    return send_from(i, CHANNEL_PORT);
}

static bool is_frame(size_t i)
{
    return row_is_frame(sent, sent_size, i);
}

static bool send_indication(size_t i)
{
    return send_from(i, OTHER_PORT);
}

static bool is_indication(size_t i)
{
    return row_is_indication(sent, sent_size, SEND_INDICATION, OTHER_PORT, i);
}

/* ---- frames of a stream */

static struct tcp_sock *listener;
static struct tcp_conn *connection;
static struct tcp_helper *stream_helper;
static struct mbuf *piece;
static const uint8_t *next;
static size_t next_size, payload_size;

static bool take_written(int *err, struct mbuf *mb, void *arg)
{
    return take_sent(err, NULL, mb, arg);
}

/* A connection to a listener of our own, on which `take_written` takes the messages to the server. */
static void open_connection(void)
{
    struct sa own;
    sa_set_in(&own, LOOPBACK, 0);
    row_must(tcp_listen(&listener, &own, NULL, NULL) == 0 && tcp_sock_local_get(listener, &own) == 0, "a listener");
    row_must(tcp_connect(&connection, &own, NULL, NULL, NULL, NULL) == 0, "a connection");
    row_must(tcp_register_helper(&stream_helper, connection, LOWEST_LAYER, NULL, take_written, NULL, NULL) == 0,
             "a helper");
    piece = mbuf_alloc(PIECE_MOST);
}

static void hold_piece(size_t size)
{
    begin();
    if (connection == NULL)
        open_connection();
    holder = &stream;
    if (stream.turnc == NULL) {
        granted = 0;
        shake_hands_of(&stream, IPPROTO_TCP, connection);
        sa_set_in(&peer, FIRST_PEER, CHANNEL_PORT);
        row_must(turnc_add_chan(stream.turnc, &peer, on_granted, NULL) == 0, "a channel is requested");
        grant();
        row_must(granted == 1, "a channel is granted");
    }
    payload_size = size;
    piece->pos = piece->end = row_piece(piece->buf, size);
}

static void hold_long(size_t held)
{
    (void)held;
    hold_piece(PAYLOAD);
}

static void hold_short(size_t held)
{
    (void)held;
    hold_piece(SHORT_PAYLOAD);
}

/* The next frame of the piece: libre leaves the cutting to its caller. */
static bool take_next(size_t i)
{
    (void)i;
    const size_t end = piece->end;
    if (piece->pos == end)
        piece->pos = 0;
    const size_t begins = piece->pos;
    const uint16_t type = ntohs(mbuf_read_u16(piece));
    const size_t size = ntohs(mbuf_read_u16(piece)) + (type < LEAST_CHANNEL ? STUN_HEADER_SIZE : FRAME_HEADER);
    piece->pos = begins;
    if (mbuf_get_left(piece) < size)
        return false;
    piece->end = begins + size;
    source = server;
    const bool is_right = turnc_recv(stream.turnc, &source, piece) == 0;
    next = mbuf_buf(piece);
    next_size = mbuf_get_left(piece);
    piece->end = end;
    piece->pos = begins + (size + 3) / 4 * 4;
    return is_right;
}

static bool is_next(size_t i)
{
    sa_set_in(&peer, FIRST_PEER + (uint32_t)i, CHANNEL_PORT);
    return next_size == payload_size && memcmp(next, row_payload, payload_size) == 0 && sa_cmp(&source, &peer, SA_ALL);
}

/* The frame that was taken, and each one that is left of the piece. */
static bool are_all(size_t i)
{
    while (is_next(i)) {
        if (piece->pos == piece->end)
            return true;
        if (!take_next(i))
            return false;
    }
    return false;
}

/* ---- messages */

static void hold_response(size_t held)
{
    (void)held;
    begin();
    datagram->pos = 0;
    row_must(mbuf_write_mem(datagram, response_sha1, sizeof response_sha1) == 0, "a response");
    datagram_size = sizeof response_sha1;
}

static void hold_whole(size_t held)
{
    (void)held;
    begin();
    datagram->pos = 0;
    row_must(mbuf_write_mem(datagram, response_whole, sizeof response_whole) == 0, "a response");
    datagram_size = sizeof response_whole;
}

static struct stun_msg *decode(void)
{
    struct stun_msg *message = NULL;
    struct stun_unknown_attr unknown;
    datagram->pos = 0;
    datagram->end = datagram_size;
    return stun_msg_decode(&message, datagram, &unknown) == 0 ? message : NULL;
}

static bool parse(size_t i)
{
    (void)i;
    struct stun_msg *message = decode();
    const bool is_right = message != NULL && stun_msg_chk_fingerprint(message) == 0;
    mem_deref(message);
    return is_right;
}

static bool validate(size_t i)
{
    (void)i;
    struct stun_msg *message = decode();
    const bool is_right = message != NULL &&
                          stun_msg_chk_mi(message, (const uint8_t *)KEY_TEXT, sizeof KEY_TEXT - 1) == 0;
    mem_deref(message);
    return is_right;
}

/* Whether a call refuses the response with another last byte. */
static bool refuses(bool (*call)(size_t i))
{
    datagram->buf[datagram_size - 1] ^= 1;
    const bool is_right = call(0);
    datagram->buf[datagram_size - 1] ^= 1;
    return !is_right;
}

static bool refuses_parsing(size_t i)
{
    (void)i;
    return refuses(parse);
}

static bool refuses_validating(size_t i)
{
    (void)i;
    return refuses(validate);
}

static bool sign(size_t i)
{
    (void)i;
    const uint32_t lifetime = GRANTED_SECONDS;
    struct sa relayed, mapped;
    sa_set_in(&relayed, RELAYED_IP, RELAYED_PORT);
    sa_set_in(&mapped, MAPPED_IP, MAPPED_PORT);
    payload->pos = payload->end = 0;
    return stun_msg_encode(payload, STUN_METHOD_ALLOCATE, STUN_CLASS_SUCCESS_RESP, response_sha1 + TRANSACTION_AT,
                           NULL, (const uint8_t *)KEY_TEXT, sizeof KEY_TEXT - 1, false, 0, 4,
                           STUN_ATTR_XOR_RELAY_ADDR, &relayed, STUN_ATTR_LIFETIME, &lifetime,
                           STUN_ATTR_XOR_MAPPED_ADDR, &mapped, STUN_ATTR_SOFTWARE, SOFTWARE_TEXT) == 0;
}

static bool is_signed(size_t i)
{
    (void)i;
    return payload->end == sizeof response_sha1 && memcmp(payload->buf, response_sha1, payload->end) == 0;
}

const struct row_call row_calls[] = {
    {"handshake", 1, renew_client, shake_hands, is_done},
    {"bind", HELD_MOST, renew_client, bind_channel, is_bound},
    {"stream", 1, hold_long, take_next, are_all},
    {"short", 1, hold_short, take_next, are_all},
    {"take", HELD_MOST, hold_frames, take_frame, is_taken},
    {"turn", HELD_MOST, hold_frames, take_turn, is_taken},
    {"send", HELD_MOST, hold_payload, send_frame, is_frame},
    {"data", HELD_MOST, hold_data, take_data, is_taken},
    {"indication", HELD_MOST, hold_payload, send_indication, is_indication},
    {"parse", 1, hold_whole, parse, refuses_parsing},
    {"sign", 1, hold_response, sign, is_signed},
    {"validate", 1, hold_response, validate, refuses_validating},
};
const size_t row_calls_count = sizeof row_calls / sizeof *row_calls;
