/* ours.c: turn_client.h. The server's messages are those of ../messages.c. */
#include <string.h>

#include "rows.h"
#include "../messages.h"

enum { CLIENTS = 3, OUT_SIZE = TURN_MESSAGE_MAX };
/* The client's time stands still, so that nothing becomes due. */
static const uint64_t now = 1000000;

static const turn_address own = {{192, 0, 2, 1}, 5000, 4}, server = {{192, 0, 2, 2}, 3478, 4};
static const turn_address relayed = {{203, 0, 113, 5}, RELAYED_PORT, 4};

struct holder {
    size_t held;
    turn_client client;
};
static struct holder holders[CLIENTS];
static turn_client fresh, stream, *client;
static uint8_t datagram[INDICATION_MOST], out[OUT_SIZE];
static size_t datagram_size;
static turn_payload taken;
static turn_transmit sent;
static turn_address peer = {.family = 4};

static const turn_address *peer_of(size_t i, uint16_t port)
{
    row_write(peer.ip, FIRST_PEER + (uint32_t)i, sizeof(uint32_t));
    peer.port = port;
    return &peer;
}

static bool is_same(const turn_address *a, const turn_address *b)
{
    return a->family == b->family && a->port == b->port && memcmp(a->ip, b->ip, sizeof(uint32_t)) == 0;
}

/* ---- a client that holds channels */

static void feed(const struct message *message)
{
    row_resume();
    row_must(turn_client_feed(client, &server, &own, message->bytes, message->size, now, &taken) == TURN_OK,
             "a response is taken");
}

/* Draws a request, and begins the response to it. The server's work, until `feed`, isn't timed. */
static struct message respond(unsigned class)
{
    row_must(turn_client_draw(client, now, out, sizeof out, &sent) == TURN_OK, "a request is drawn");
    row_set_aside();
    return message_respond(out, class);
}

static void open_client(uint32_t transport)
{
    const turn_seed seed = {{1}};
    turn_settings settings = TURN_SETTINGS_INIT;
    settings.local = own, settings.server = server;
    settings.transport = transport;
    settings.integrity = TURN_SHA1;
    settings.pace = TURN_NO_PACE;
    row_must(turn_client_open(client, &settings, "user", 4, "pass", 4, &seed) == TURN_OK, "open");
    struct message challenge = respond(ERROR);
    message_challenge(&challenge);
    feed(&challenge);
    struct message allocated = respond(SUCCESS);
    message_add_address(&allocated, RELAYED, &relayed, RELAYED_PORT);
    message_add_number(&allocated, LIFETIME, GRANTED_SECONDS);
    message_sign(&allocated);
    feed(&allocated);
}

/* Grants what is requested, and takes all events. */
static void grant(void)
{
    turn_event event;
    while (turn_client_draw(client, now, out, sizeof out, &sent) == TURN_OK) {
        row_set_aside();
        struct message granted = message_respond(out, SUCCESS);
        message_sign(&granted);
        feed(&granted);
    }
    while (turn_client_event(client, &event) == TURN_OK)
        row_must(event.kind == TURN_ALLOCATION_CREATED || event.kind == TURN_PERMISSION_CREATED ||
                 event.kind == TURN_CHANNEL_CREATED, "all is granted");
}

/* The client that holds so many channels is the one that is called from now on. */
static void hold_client(size_t held)
{
    struct holder *it = holders;
    turn_wait wait;
    uint64_t until;
    while (it->held != 0 && it->held != held)
        it++;
    row_must(it < holders + CLIENTS, "room for a client");
    client = &it->client;
    if (it->held != 0)
        return;
    it->held = held;
    open_client(TURN_UDP);
    grant();
    for (size_t i = 0; i < held; i++) {
        row_must(turn_client_bind(client, TURN_UDP, peer_of(i, CHANNEL_PORT), now, &until) == TURN_OK, "bind");
        grant();
        row_must(turn_client_is_permitted(client, TURN_UDP, &peer), "a permission");
    }
    row_must(turn_client_channels(client, NULL, 0) == held, "so many channels");
    row_must(turn_client_poll(client, now, &wait) == TURN_OK && wait.until > now, "nothing is due");
}

/* ---- requests */

/* A new client is the one that is called from now on. */
static void renew_client(size_t held)
{
    (void)held;
    row_set_aside();
    client = &fresh;
    turn_client_close(client);
    row_resume();
}

/* From the first call to the event of the allocation. */
static bool shake_hands(size_t i)
{
    turn_event event;
    (void)i;
    renew_client(0);
    open_client(TURN_UDP);
    return turn_client_event(client, &event) == TURN_OK && event.kind == TURN_ALLOCATION_CREATED;
}

static bool is_allocated(size_t i)
{
    (void)i;
    return turn_client_relayed(client, NULL, 0) == 1;
}

/* The first peer's channel is the first of a new client, whose handshake isn't timed. */
static bool bind_channel(size_t i)
{
    uint64_t until;
    if (i == 0) {
        row_set_aside();
        renew_client(0);
        open_client(TURN_UDP);
        grant();
        row_resume();
    }
    const int32_t code = turn_client_bind(client, TURN_UDP, peer_of(i, CHANNEL_PORT), now, &until);
    grant();
    return code == TURN_OK;
}

static bool is_bound(size_t i)
{
    return turn_client_channels(client, NULL, 0) == i + 1;
}

/* ---- payloads */

static void hold_frames(size_t held)
{
    hold_client(held);
    row_frame(datagram, 0);
    datagram_size = FRAME_SIZE;
}

static void hold_data(size_t held)
{
    hold_client(held);
    datagram_size = row_indication(datagram, DATA_INDICATION, CHANNEL_PORT, 0);
}

static bool take(void)
{
    return turn_client_feed(client, &server, &own, datagram, datagram_size, now, &taken) == TURN_PAYLOAD;
}

static bool take_frame(size_t i)
{
    row_frame_of(datagram, i);
    return take();
}

static bool take_data(size_t i)
{
    row_indication_of(datagram, i);
    return take();
}

/* The turn of the header's loop: nothing is to be sent, nothing is due, nothing happened, and a datagram came. */
static bool take_turn(size_t i)
{
    turn_wait wait;
    turn_event event;
    return turn_client_draw(client, now, out, sizeof out, &sent) == TURN_NOTHING &&
           turn_client_poll(client, now, &wait) == TURN_OK &&
           turn_client_event(client, &event) == TURN_NOTHING && take_frame(i);
}

static bool is_taken(size_t i)
{
    return taken.size == PAYLOAD && memcmp(datagram + taken.start, row_payload, PAYLOAD) == 0 &&
           is_same(&taken.peer, peer_of(i, CHANNEL_PORT));
}

static bool send_to(size_t i, uint16_t port)
{
    return turn_client_send(client, TURN_UDP, peer_of(i, port), row_payload, PAYLOAD, now, out,
                            PAYLOAD + TURN_SEND_EXTRA, &sent) == TURN_OK;
}

static bool send_frame(size_t i)
{
    return send_to(i, CHANNEL_PORT);
}

static bool is_frame(size_t i)
{
    return row_is_frame(out, sent.size, i) && is_same(&sent.to, &server);
}

static bool send_indication(size_t i)
{
    return send_to(i, OTHER_PORT);
}

static bool is_indication(size_t i)
{
    return row_is_indication(out, sent.size, SEND_INDICATION, OTHER_PORT, i) && is_same(&sent.to, &server);
}

/* ---- frames of a stream */

static uint8_t piece[PIECE_MOST];
static size_t piece_size, payload_size, frames_left;

static bool pull(void)
{
    return turn_client_pull(client, now, &taken) == TURN_PAYLOAD;
}

/* What is joined is read: where the payload is. */
static const uint8_t *read_taken(void)
{
    if (!taken.is_joined)
        return piece + taken.start;
    row_must(turn_client_read(client, out, sizeof out) == TURN_OK, "joined bytes are read");
    return out;
}

static void hold_piece(size_t size)
{
    static bool is_open = false;
    uint64_t until;
    client = &stream;
    if (!is_open) {
        is_open = true;
        open_client(TURN_TCP);
        grant();
        row_must(turn_client_bind(client, TURN_UDP, peer_of(0, CHANNEL_PORT), now, &until) == TURN_OK, "bind");
        grant();
    }
    while (pull())
        (void)read_taken();
    payload_size = size;
    piece_size = row_piece(piece, size);
    frames_left = 0;
}

static void hold_long(size_t held)
{
    (void)held;
    hold_piece(PAYLOAD);
}

static void hold_short(size_t held)
{
    (void)held;
    hold_piece(SHORT_PAYLOAD);
}

static const uint8_t *payload;

/* The next frame of the piece, and behind the last that there is none; then the piece is fed again. */
static bool take_next(size_t i)
{
    (void)i;
    bool is_right;
    if (frames_left == 0) {
        is_right = turn_client_feed(client, &server, &own, piece, piece_size, now, &taken) == TURN_PAYLOAD;
        frames_left = piece_size / (FRAME_HEADER + payload_size);
    } else {
        is_right = pull();
    }
    payload = read_taken();
    turn_payload none;
    return is_right && (--frames_left != 0 || turn_client_pull(client, now, &none) == TURN_NOTHING);
}

static bool is_next(size_t i)
{
    return taken.size == payload_size && memcmp(payload, row_payload, payload_size) == 0 &&
           is_same(&taken.peer, peer_of(i, CHANNEL_PORT));
}

/* The frame that was taken, and each one that is left of the piece. */
static bool are_all(size_t i)
{
    while (is_next(i)) {
        if (frames_left == 0)
            return true;
        if (!take_next(i))
            return false;
    }
    return false;
}

const struct row_call row_calls[] = {
    {"handshake", 1, renew_client, shake_hands, is_allocated},
    {"bind", HELD_MOST, renew_client, bind_channel, is_bound},
    {"stream", 1, hold_long, take_next, are_all},
    {"short", 1, hold_short, take_next, are_all},
    {"take", HELD_MOST, hold_frames, take_frame, is_taken},
    {"turn", HELD_MOST, hold_frames, take_turn, is_taken},
    {"send", HELD_MOST, hold_client, send_frame, is_frame},
    {"data", HELD_MOST, hold_data, take_data, is_taken},
    {"indication", HELD_MOST, hold_client, send_indication, is_indication},
};
const size_t row_calls_count = sizeof row_calls / sizeof *row_calls;
