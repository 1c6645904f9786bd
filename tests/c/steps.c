/* steps.c: makes the call of a step, gathers what it told, and compares that with what is wanted (steps.h).
 *
 * It has no program of its own: `check` and bench/c_calls.c say how it is built. */
#include "steps.h"

#include <string.h>

#include "samples.h"

const char *const call_names[CALLS] = {
    [CALL_OPEN] = "open", [CALL_CLOSE] = "close", [CALL_DELETE] = "delete", [CALL_FEED] = "feed", [CALL_PULL] = "pull",
    [CALL_READ] = "read", [CALL_DRAW] = "draw", [CALL_SEND] = "send", [CALL_POLL] = "poll", [CALL_EVENT] = "event",
    [CALL_EXPIRED] = "expired", [CALL_PERMIT] = "permit", [CALL_PERMIT_SEVERAL] = "permit_several",
    [CALL_BIND] = "bind", [CALL_CONNECT] = "connect",
    [CALL_SOCKET] = "socket", [CALL_CLOSED] = "closed", [CALL_CREDENTIALS] = "credentials",
    [CALL_SOFTWARE] = "software", [CALL_FINGERPRINT] = "fingerprint", [CALL_CAUSE] = "cause", [CALL_REASON] = "reason",
    [CALL_DOMAIN] = "domain", [CALL_MAPPED] = "mapped", [CALL_RESERVATION] = "reservation",
    [CALL_RELAYED] = "relayed", [CALL_PERMISSIONS] = "permissions", [CALL_IS_PERMITTED] = "is_permitted",
    [CALL_CHANNELS] = "channels", [CALL_CONNECTIONS] = "connections",
};

int32_t open_with(turn_client *client, const turn_settings *settings, struct bytes user, struct bytes password)
{
    return turn_client_open(client, settings, (const char *)user.at, user.len, (const char *)password.at, password.len,
                            &sample_seed);
}

/* ---- calls */

/* The room that a getter is given. */
static size_t held_max(const struct step *step)
{
    return HELD_MAX - step->less;
}

/* How the client introduces itself in its requests. */
static int32_t step_introduce(turn_client *c, const struct step *s)
{
    const char *text = (const char *)s->bytes.at;
    switch (s->call) {
    case CALL_CREDENTIALS:
        return turn_client_credentials(c, text, s->bytes.len, (const char *)s->password.at, s->password.len);
    case CALL_SOFTWARE:
        return turn_client_software(c, text, s->bytes.len);
    default:
        return turn_client_fingerprint(c, s->number != 0);
    }
}

size_t step_peers(const struct step *s, turn_address *peers)
{
    const uint8_t *at = s->bytes.at;
    size_t left = s->bytes.len, count = 0;
    while (left > 0 && count < PEERS_MAX) {
        const size_t whole = 1 + (*at == 6 ? 16 : 4), size = whole < left ? whole : left;
        turn_address *peer = &peers[count++];
        *peer = (turn_address){.port = (uint16_t)count, .family = *at};
        memcpy(peer->ip, at + 1, size - 1);
        at += size;
        left -= size;
    }
    return count;
}

static int32_t step_permit_several(turn_client *c, const struct step *s)
{
    turn_address peers[PEERS_MAX];
    const size_t count = step_peers(s, peers);
    return turn_client_permit_several(c, s->transport, peers, count, s->now);
}

/* The getters: how many there are. */
static int32_t step_get(struct walker *w, const struct step *s)
{
    turn_client *c = &w->client;
    switch (s->call) {
    case CALL_RELAYED:
        return (int32_t)turn_client_relayed(c, w->relayed, held_max(s));
    case CALL_PERMISSIONS:
        return (int32_t)turn_client_permissions(c, s->transport, &s->to, w->permissions, held_max(s));
    case CALL_IS_PERMITTED:
        return turn_client_is_permitted(c, s->transport, &s->to);
    case CALL_CHANNELS:
        return (int32_t)turn_client_channels(c, w->channels, held_max(s));
    default:
        return (int32_t)turn_client_connections(c, w->connections, held_max(s));
    }
}

int32_t step_call(struct walker *w, const struct step *s)
{
    turn_client *c = &w->client;
    switch (s->call) {
    case CALL_OPEN:
        return open_with(c, &w->exchange->settings, sample_user, sample_password);
    case CALL_CLOSE:
        turn_client_close(c);
        return TURN_OK;
    case CALL_DELETE:
        return turn_client_delete(c, s->now);
    case CALL_FEED:
        return turn_client_feed(c, &s->from, &s->to, s->bytes.at, s->bytes.len, s->now, &w->payload);
    case CALL_PULL:
        return turn_client_pull(c, s->now, &w->payload);
    case CALL_READ:
        return turn_client_read(c, w->out, s->want.size - s->less);
    case CALL_DRAW:
        return turn_client_draw(c, s->now, w->out, TURN_MESSAGE_MAX - s->less, &w->transmit);
    case CALL_SEND:
        return turn_client_send(c, s->transport, &s->to, s->bytes.at, s->bytes.len, s->now, w->out,
                                s->bytes.len + TURN_SEND_EXTRA - s->less, &w->transmit);
    case CALL_POLL:
        return turn_client_poll(c, s->now, &w->wait);
    case CALL_EVENT:
        return turn_client_event(c, &w->event);
    case CALL_EXPIRED:
        return turn_client_expired(c, &w->expired);
    case CALL_PERMIT:
        return turn_client_permit(c, s->transport, &s->to, s->now);
    case CALL_PERMIT_SEVERAL:
        return step_permit_several(c, s);
    case CALL_BIND:
        return turn_client_bind(c, s->transport, &s->to, s->now, &w->until);
    case CALL_CONNECT:
        return turn_client_connect(c, &s->to, s->now);
    case CALL_SOCKET:
        return turn_client_socket(c, s->number, &s->to, &s->from, s->now);
    case CALL_CLOSED:
        return turn_client_closed(c, &s->from, &s->to, s->now);
    case CALL_CAUSE:
        return turn_client_cause(c, &w->cause);
    case CALL_REASON:
        return turn_client_reason(c, w->out, s->want.size - s->less);
    case CALL_DOMAIN:
        return turn_client_domain(c, w->out, s->want.size - s->less);
    case CALL_MAPPED:
        return turn_client_mapped(c, &w->mapped);
    case CALL_RESERVATION:
        return turn_client_reservation(c, &w->reservation);
    default:
        return s->call >= CALL_RELAYED ? step_get(w, s) : step_introduce(c, s);
    }
}

/* ---- what they told */

/* A payload; its bytes, where they stand in what was handed in. */
static void tell_payload(const struct walker *w, const struct step *s, struct told *told)
{
    const turn_payload *p = &w->payload;
    told->transport = p->transport;
    told->peer = p->peer;
    if (told->answer == TURN_ICMP) {
        told->icmp_type = p->icmp_type;
        told->icmp_code = p->icmp_code;
        told->number = p->icmp_data;
        return;
    }
    told->is_joined = p->is_joined;
    told->size = p->size;
    if (p->is_joined)
        return;
    told->start = p->start;
    if (p->start <= s->bytes.len && p->size <= s->bytes.len - p->start)
        told->bytes = s->bytes.at + p->start;
}

static void tell_message(const struct walker *w, struct told *told)
{
    told->transport = w->transmit.transport;
    told->from = w->transmit.from;
    told->to = w->transmit.to;
    told->bytes = w->out;
    told->size = w->transmit.size;
}

static void tell_wait(const struct walker *w, struct told *told)
{
    if (told->answer == TURN_OK)
        told->until = w->wait.until;
    if (told->answer == TURN_OPEN_SOCKET) {
        told->number = w->wait.id;
        told->transport = w->wait.transport;
        told->peer = w->wait.peer;
    }
    if (told->answer == TURN_OPEN_SOCKET || told->answer == TURN_CLOSE_SOCKET) {
        told->from = w->wait.from;
        told->to = w->wait.to;
    }
}

/* One of those that a getter wrote. */
static void tell_held(const struct walker *w, const struct step *s, struct told *told)
{
    uint32_t which = s->number;
    if (told->answer <= (int32_t)which || which >= held_max(s))
        return;
    if (s->call == CALL_RELAYED) {
        told->transport = w->relayed[which].transport;
        told->peer = w->relayed[which].address;
    } else if (s->call == CALL_PERMISSIONS) {
        told->peer = w->permissions[which];
    } else if (s->call == CALL_CHANNELS) {
        told->number = w->channels[which].number;
        told->peer = w->channels[which].peer;
    } else if (s->call == CALL_CONNECTIONS) {
        told->number = w->connections[which].id;
        told->from = w->connections[which].local;
        told->peer = w->connections[which].peer;
        told->is_bound = w->connections[which].is_bound;
    }
}

static void tell_cause(const turn_cause *cause, struct told *told)
{
    told->number = cause->kind;
    told->code = cause->code;
    told->is_signed = cause->is_signed;
    told->size = cause->reason_size;
    told->peer = cause->alternate;
    told->domain_size = cause->domain_size;
}

/* Of a call that answered TURN_OK. */
static void tell_done(const struct walker *w, const struct step *s, struct told *told)
{
    if (s->call == CALL_DRAW || s->call == CALL_SEND) {
        tell_message(w, told);
    } else if (s->call == CALL_CAUSE) {
        tell_cause(&w->cause, told);
    } else if (s->call == CALL_MAPPED) {
        told->peer = w->mapped;
    } else if (s->call == CALL_RESERVATION) {
        told->until = w->reservation;
    } else if (s->call == CALL_READ || s->call == CALL_REASON || s->call == CALL_DOMAIN) {
        told->bytes = w->out;
        told->size = s->want.size;
    } else if (s->call == CALL_EVENT) {
        told->number = w->event.kind;
        told->transport = w->event.transport;
        told->peer = w->event.address;
    } else if (s->call == CALL_EXPIRED) {
        told->transport = w->expired.transport;
        told->peer = w->expired.address;
    }
}

struct told step_told(const struct walker *w, const struct step *s, int32_t answer)
{
    struct told told = {.answer = answer};
    if (s->call >= CALL_RELAYED)
        tell_held(w, s, &told);
    else if (answer == TURN_PAYLOAD || answer == TURN_ICMP)
        tell_payload(w, s, &told);
    else if (s->call == CALL_POLL)
        tell_wait(w, &told);
    else if (s->call == CALL_BIND && answer == TURN_EXPIRED_CHANNEL)
        told.until = w->until;
    else if (answer == TURN_OK)
        tell_done(w, s, &told);
    return told;
}

/* ---- whether that is what is wanted */

/* Of IPv4 the last twelve octets are nothing. */
static bool is_same(const turn_address *one, const turn_address *other)
{
    return one->family == other->family && one->port == other->port
        && memcmp(one->ip, other->ip, one->family == 6 ? 16 : 4) == 0;
}

const char *step_difference(const struct told *want, const struct told *told)
{
    if (want->answer != told->answer)
        return "answer";
    if (want->transport != told->transport)
        return "transport";
    if (want->number != told->number)
        return "number";
    if (want->code != told->code || want->is_signed != told->is_signed)
        return "code or is_signed";
    if (!is_same(&want->from, &told->from))
        return "from";
    if (!is_same(&want->to, &told->to))
        return "to";
    if (!is_same(&want->peer, &told->peer))
        return "peer";
    if (want->is_joined != told->is_joined || want->is_bound != told->is_bound)
        return "is_joined or is_bound";
    if (want->start != told->start || want->size != told->size || want->domain_size != told->domain_size)
        return "start or size";
    if (want->icmp_type != told->icmp_type || want->icmp_code != told->icmp_code)
        return "report";
    if (want->until != told->until)
        return "until";
    if ((want->bytes == NULL) != (told->bytes == NULL)
        || (want->bytes != NULL && memcmp(want->bytes, told->bytes, want->size) != 0))
        return "bytes";
    return NULL;
}
