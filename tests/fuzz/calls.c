/* calls.c: makes a call of turn_client.h in memory that shows what is touched, and checks what the header says of its
 * answer. */
#include <string.h>

#include "fuzz.h"
#include "memory.h"
#include "rooms.h"

enum { NO_REFUSAL = 0, SHOWN_MAX = 64, REASON_MAX = 763, DOMAIN_MAX = 255 };

/* ---- the statuses that each call may answer */

#define BIT(status) (UINT32_C(1) << ((status) - TURN_BAD_ADDRESSES))
#define ASKED (BIT(TURN_OK) | BIT(TURN_NO_ALLOCATION) | BIT(TURN_ALREADY_EXISTS) | BIT(TURN_BAD_FAMILY) \
               | BIT(TURN_NO_MEMORY) | BIT(TURN_NO_CLIENT))

static const uint32_t statuses[CALLS] = {
    [CALL_OPEN] = BIT(TURN_OK) | BIT(TURN_ALREADY_OPEN) | BIT(TURN_BAD_FAMILY) | BIT(TURN_BAD_SETTING)
        | BIT(TURN_BAD_TEXT) | BIT(TURN_LONG_NAME) | BIT(TURN_ZERO_SEED) | BIT(TURN_NO_MEMORY),
    [CALL_CLOSE] = BIT(TURN_OK),
    [CALL_DELETE] = BIT(TURN_OK) | BIT(TURN_NO_ALLOCATION) | BIT(TURN_NO_MEMORY) | BIT(TURN_NO_CLIENT),
    [CALL_FEED] = BIT(TURN_OK) | BIT(TURN_PAYLOAD) | BIT(TURN_ICMP) | BIT(TURN_IGNORED) | BIT(TURN_UNREAD)
        | BIT(TURN_BAD_FAMILY) | BIT(TURN_NO_CLIENT) | BIT(TURN_NO_MEMORY),
    [CALL_PULL] = BIT(TURN_PAYLOAD) | BIT(TURN_NOTHING) | BIT(TURN_UNREAD) | BIT(TURN_NO_CLIENT) | BIT(TURN_NO_MEMORY),
    [CALL_READ] = BIT(TURN_OK) | BIT(TURN_NOTHING) | BIT(TURN_SMALL_BUFFER) | BIT(TURN_NO_CLIENT),
    [CALL_DRAW] = BIT(TURN_OK) | BIT(TURN_NOTHING) | BIT(TURN_SMALL_BUFFER) | BIT(TURN_NO_CLIENT) | BIT(TURN_NO_MEMORY),
    [CALL_SEND] = BIT(TURN_OK) | BIT(TURN_NO_PERMISSION) | BIT(TURN_NO_SOCKET) | BIT(TURN_TOO_LARGE)
        | BIT(TURN_SMALL_BUFFER) | BIT(TURN_BAD_FAMILY) | BIT(TURN_BAD_SETTING) | BIT(TURN_NO_CLIENT)
        | BIT(TURN_NO_MEMORY),
    [CALL_POLL] = BIT(TURN_OK) | BIT(TURN_OPEN_SOCKET) | BIT(TURN_CLOSE_SOCKET) | BIT(TURN_CLOSED)
        | BIT(TURN_NO_CLIENT) | BIT(TURN_NO_MEMORY),
    [CALL_EVENT] = BIT(TURN_OK) | BIT(TURN_NOTHING) | BIT(TURN_NO_CLIENT),
    [CALL_EXPIRED] = BIT(TURN_OK) | BIT(TURN_NOTHING) | BIT(TURN_NO_CLIENT),
    [CALL_PERMIT] = ASKED | BIT(TURN_BAD_SETTING),
    [CALL_PERMIT_SEVERAL] = ASKED | BIT(TURN_BAD_SETTING) | BIT(TURN_BAD_ADDRESSES),
    [CALL_BIND] = ASKED | BIT(TURN_BAD_SETTING) | BIT(TURN_EXPIRED_CHANNEL) | BIT(TURN_NO_CHANNEL),
    [CALL_CONNECT] = ASKED | BIT(TURN_NO_PERMISSION),
    [CALL_SOCKET] = ASKED,
    [CALL_CLOSED] = BIT(TURN_OK) | BIT(TURN_BAD_FAMILY) | BIT(TURN_NO_MEMORY) | BIT(TURN_NO_CLIENT),
    [CALL_CREDENTIALS] = BIT(TURN_OK) | BIT(TURN_BAD_TEXT) | BIT(TURN_LONG_NAME) | BIT(TURN_NO_MEMORY)
        | BIT(TURN_NO_CLIENT),
    [CALL_SOFTWARE] = BIT(TURN_OK) | BIT(TURN_BAD_TEXT) | BIT(TURN_TOO_LARGE) | BIT(TURN_NO_MEMORY)
        | BIT(TURN_NO_CLIENT),
    [CALL_FINGERPRINT] = BIT(TURN_OK) | BIT(TURN_NO_CLIENT),
    [CALL_CAUSE] = BIT(TURN_OK) | BIT(TURN_NO_CLIENT),
    [CALL_REASON] = BIT(TURN_OK) | BIT(TURN_NOTHING) | BIT(TURN_SMALL_BUFFER) | BIT(TURN_NO_CLIENT),
    [CALL_DOMAIN] = BIT(TURN_OK) | BIT(TURN_NOTHING) | BIT(TURN_SMALL_BUFFER) | BIT(TURN_NO_CLIENT),
    [CALL_MAPPED] = BIT(TURN_OK) | BIT(TURN_NOTHING) | BIT(TURN_NO_CLIENT),
    [CALL_RESERVATION] = BIT(TURN_OK) | BIT(TURN_NOTHING) | BIT(TURN_NO_CLIENT),
};

/* Whether a call that was refused memory leaves a client that has failed. */
static bool is_fatal(enum call call)
{
    return call == CALL_FEED || call == CALL_PULL || call == CALL_DRAW || call == CALL_POLL;
}

bool is_note(enum call call)
{
    return call >= CALL_CAUSE && call <= CALL_RESERVATION;
}

/* Whether a call changes how the client introduces itself in its requests. */
static bool is_introducing(enum call call)
{
    return call >= CALL_CREDENTIALS && call <= CALL_FINGERPRINT;
}

/* ---- what is refused first: arguments from the left, then room, then the handle */

static bool is_family(const turn_address *address)
{
    return address->family == 4 || address->family == 6;
}

static bool names_transport(enum call call)
{
    return call == CALL_SEND || call == CALL_PERMIT || call == CALL_PERMIT_SEVERAL || call == CALL_BIND;
}

static bool names_two(enum call call)
{
    return call == CALL_FEED || call == CALL_CLOSED;
}

static bool names_peer(enum call call)
{
    return (names_transport(call) && call != CALL_PERMIT_SEVERAL) || call == CALL_CONNECT || call == CALL_SOCKET;
}

static bool is_ascii(struct bytes text)
{
    for (size_t i = 0; i < text.len; i++) {
        if (text.at[i] >= 0x80)
            return false;
    }
    return true;
}

/* Of several peers: how many there are is looked at first, then each family, and what they have in common last. */
static int32_t refusal_of_peers(const struct step *s, bool is_open)
{
    turn_address peers[PEERS_MAX];
    const size_t count = step_peers(s, peers);
    bool is_one_family = count > 0;
    if (count > TURN_PERMIT_MAX)
        return TURN_BAD_ADDRESSES;
    for (size_t i = 0; i < count; i++) {
        if (!is_family(&peers[i]))
            return TURN_BAD_FAMILY;
        is_one_family = is_one_family && peers[i].family == peers[0].family;
    }
    return is_open && !is_one_family ? TURN_BAD_ADDRESSES : NO_REFUSAL;
}

/* Whether the length of a text is no reason to refuse it. */
static bool is_short(const struct step *s)
{
    return s->call == CALL_CREDENTIALS ? s->bytes.len <= TURN_NAME_MAX : s->bytes.len <= TURN_SOFTWARE_MAX;
}

/* The refusal that the arguments alone ask for. Of a text that isn't ASCII `check_text` says more. */
static int32_t refusal_of_arguments(const struct step *s)
{
    if (is_introducing(s->call) && is_ascii(s->bytes) && is_ascii(s->password) && !is_short(s))
        return s->call == CALL_CREDENTIALS ? TURN_LONG_NAME : TURN_TOO_LARGE;
    if (names_transport(s->call) && s->transport != TURN_UDP && s->transport != TURN_TCP)
        return TURN_BAD_SETTING;
    if (s->call == CALL_PERMIT_SEVERAL)
        return refusal_of_peers(s, false);
    if (names_two(s->call) && !(is_family(&s->from) && is_family(&s->to)))
        return TURN_BAD_FAMILY;
    if (names_peer(s->call) && !is_family(&s->to))
        return TURN_BAD_FAMILY;
    if (s->call == CALL_SOCKET && s->from.family != 0 && !is_family(&s->from))
        return TURN_BAD_FAMILY;
    return NO_REFUSAL;
}

/* Whether a call copies a text of the server. */
static bool is_text(enum call call)
{
    return call == CALL_REASON || call == CALL_DOMAIN;
}

/* The cause that the client reports now; without a client that of no event. */
static turn_cause cause_of(const struct fuzzed *f)
{
    turn_cause cause = {.kind = TURN_CAUSE_NONE};
    turn_client_cause(f->client, &cause);
    return cause;
}

static int32_t refusal_of(const struct fuzzed *f, const struct step *s, size_t room)
{
    const int32_t refusal = refusal_of_arguments(s);
    if (refusal != NO_REFUSAL)
        return refusal;
    if ((s->call == CALL_DRAW || s->call == CALL_SEND) && room < room_wanted(f, s))
        return TURN_SMALL_BUFFER;
    if (!f->is_open)
        return s->call == CALL_CLOSE ? NO_REFUSAL : TURN_NO_CLIENT;
    if ((s->call == CALL_FEED || s->call == CALL_PULL) && f->waiting > 0)
        return TURN_UNREAD;
    if ((s->call == CALL_READ || is_text(s->call)) && room_wanted(f, s) > room)
        return TURN_SMALL_BUFFER;
    return s->call == CALL_PERMIT_SEVERAL ? refusal_of_peers(s, true) : NO_REFUSAL;
}

size_t room_wanted(const struct fuzzed *f, const struct step *s)
{
    switch (s->call) {
    case CALL_DRAW: return TURN_MESSAGE_MAX;
    case CALL_SEND: return s->bytes.len + TURN_SEND_EXTRA;
    case CALL_READ: return f->waiting;
    case CALL_REASON: return cause_of(f).reason_size;
    case CALL_DOMAIN: return cause_of(f).domain_size;
    default: return HELD_MAX;
    }
}

/* ---- the calls, in rooms */

#define GIVE(type) ((type *)room_give(ROOM_TOLD, sizeof(type)))

static int32_t call_asking(turn_client *c, const struct step *s, const turn_address *from, const turn_address *to,
                           struct walker *w)
{
    int32_t answer;
    uint64_t *until;
    turn_address peers[PEERS_MAX];
    size_t count;
    switch (s->call) {
    case CALL_PERMIT: return turn_client_permit(c, s->transport, to, s->now);
    case CALL_PERMIT_SEVERAL:
        count = step_peers(s, peers);
        room_copy(ROOM_BYTES, peers, count * sizeof *peers);
        return turn_client_permit_several(c, s->transport, room_at(ROOM_BYTES), count, s->now);
    case CALL_CONNECT: return turn_client_connect(c, to, s->now);
    case CALL_SOCKET: return turn_client_socket(c, s->number, to, from, s->now);
    case CALL_CLOSED: return turn_client_closed(c, from, to, s->now);
    case CALL_BIND:
        until = GIVE(uint64_t);
        answer = turn_client_bind(c, s->transport, to, s->now, until);
        w->until = *until;
        return answer;
    case CALL_DELETE: return turn_client_delete(c, s->now);
    default: turn_client_close(c); return TURN_OK;
    }
}

static int32_t call_moving(turn_client *c, const struct step *s, const turn_address *from, const turn_address *to,
                           struct walker *w, size_t room)
{
    int32_t answer;
    const uint8_t *bytes = room_copy(ROOM_BYTES, s->bytes.at, s->bytes.len);
    uint8_t *out = room_give(ROOM_OUT, s->call == CALL_FEED || s->call == CALL_PULL ? 0 : room);
    if (s->call == CALL_FEED || s->call == CALL_PULL) {
        turn_payload *payload = GIVE(turn_payload);
        answer = s->call == CALL_PULL ? turn_client_pull(c, s->now, payload)
                                      : turn_client_feed(c, from, to, bytes, s->bytes.len, s->now, payload);
        w->payload = *payload;
        return answer;
    }
    if (s->call == CALL_READ)
        return turn_client_read(c, out, room);
    turn_transmit *transmit = GIVE(turn_transmit);
    answer = s->call == CALL_DRAW
        ? turn_client_draw(c, s->now, out, room, transmit)
        : turn_client_send(c, s->transport, to, bytes, s->bytes.len, s->now, out, room, transmit);
    w->transmit = *transmit;
    return answer;
}

static int32_t call_telling(turn_client *c, const struct step *s, struct walker *w)
{
    int32_t answer;
    if (s->call == CALL_POLL) {
        turn_wait *wait = GIVE(turn_wait);
        answer = turn_client_poll(c, s->now, wait);
        w->wait = *wait;
    } else if (s->call == CALL_EXPIRED) {
        turn_relayed *expired = GIVE(turn_relayed);
        answer = turn_client_expired(c, expired);
        w->expired = *expired;
    } else {
        turn_event *event = GIVE(turn_event);
        answer = turn_client_event(c, event);
        w->event = *event;
    }
    return answer;
}

static int32_t call_noting(turn_client *c, const struct step *s, struct walker *w, size_t room)
{
    int32_t answer;
    if (s->call == CALL_CAUSE) {
        turn_cause *cause = GIVE(turn_cause);
        answer = turn_client_cause(c, cause);
        w->cause = *cause;
    } else if (s->call == CALL_MAPPED) {
        turn_address *mapped = GIVE(turn_address);
        answer = turn_client_mapped(c, mapped);
        w->mapped = *mapped;
    } else if (s->call == CALL_RESERVATION) {
        uint64_t *token = GIVE(uint64_t);
        answer = turn_client_reservation(c, token);
        w->reservation = *token;
    } else {
        uint8_t *out = room_give(ROOM_OUT, room);
        answer = s->call == CALL_REASON ? turn_client_reason(c, out, room) : turn_client_domain(c, out, room);
    }
    return answer;
}

static int32_t call_introducing(turn_client *c, const struct step *s)
{
    int32_t answer;
    const char *text = room_copy(ROOM_USER, s->bytes.at, s->bytes.len);
    const char *secret = room_copy(ROOM_PASSWORD, s->password.at, s->password.len);
    if (s->call == CALL_CREDENTIALS)
        answer = turn_client_credentials(c, text, s->bytes.len, secret, s->password.len);
    else if (s->call == CALL_SOFTWARE)
        answer = turn_client_software(c, text, s->bytes.len);
    else
        answer = turn_client_fingerprint(c, s->number != 0);
    room_check_copy(ROOM_USER, s->bytes.at);
    room_check_copy(ROOM_PASSWORD, s->password.at);
    room_spoil(ROOM_USER);
    room_spoil(ROOM_PASSWORD);
    return answer;
}

static int32_t call_in_rooms(struct fuzzed *f, const struct step *s, size_t room)
{
    const turn_address *from = room_copy(ROOM_FROM, &s->from, sizeof s->from);
    const turn_address *to = room_copy(ROOM_TO, &s->to, sizeof s->to);
    int32_t answer;
    room_give(ROOM_BYTES, 0);
    room_give(ROOM_OUT, 0);
    room_give(ROOM_TOLD, 0);
    if (s->call >= CALL_POLL && s->call <= CALL_EXPIRED)
        answer = call_telling(f->client, s, &f->walker);
    else if (s->call >= CALL_FEED && s->call <= CALL_SEND)
        answer = call_moving(f->client, s, from, to, &f->walker, room);
    else if (is_note(s->call))
        answer = call_noting(f->client, s, &f->walker, room);
    else if (is_introducing(s->call))
        answer = call_introducing(f->client, s);
    else
        answer = call_asking(f->client, s, from, to, &f->walker);
    room_check_copy(ROOM_FROM, &s->from);
    room_check_copy(ROOM_TO, &s->to);
    if (s->call == CALL_FEED || s->call == CALL_SEND)
        room_check_copy(ROOM_BYTES, s->bytes.at);
    room_check_before(ROOM_TOLD);
    room_check_before(ROOM_HANDLE);
    room_spoil(ROOM_FROM);
    room_spoil(ROOM_TO);
    room_spoil(ROOM_BYTES);
    return answer;
}

/* ---- what is wanted of the answers */

static bool is_transport(uint32_t transport)
{
    return transport == TURN_UDP || transport == TURN_TCP;
}

static void check_payload(struct fuzzed *f, const struct step *s, int32_t answer)
{
    const turn_payload *p = &f->walker.payload;
    check(is_family(&p->peer) && is_transport(p->transport), "a payload has a peer and a transport");
    if (answer == TURN_ICMP) {
        reach(REACH_ICMP);
        return;
    }
    reach(REACH_PAYLOAD);
    if (p->is_joined) {
        check(p->start == 0, "of joined data start is 0");
        check(f->settings.transport == TURN_TCP, "data is joined over TCP alone");
        f->waiting = p->size;
        reach(REACH_JOINED);
        return;
    }
    check(s->call == CALL_FEED, "what is pulled is joined");
    check(p->start <= s->bytes.len && p->size <= s->bytes.len - p->start, "the data stands within the bytes");
}

/* What was written, of which a copy is kept for who compares it. */
static void check_written(struct fuzzed *f, size_t size, size_t room)
{
    check(size <= room, "what is written fits into the buffer");
    room_check_rest(ROOM_OUT, size);
    if (size > 0 && size <= sizeof f->walker.out)
        memcpy(f->walker.out, room_at(ROOM_OUT), size);
}

static void check_transmit(const turn_transmit *t)
{
    check(t->size <= TURN_MESSAGE_MAX, "a message has TURN_MESSAGE_MAX bytes at most");
    check(is_transport(t->transport) && is_family(&t->from) && is_family(&t->to), "a message has addresses");
}

static void check_wait(const struct fuzzed *f, const struct step *s, int32_t answer)
{
    const turn_wait *w = &f->walker.wait;
    const uint64_t most = UINT64_C(9999000000000);
    if (answer == TURN_OK)
        check(w->until <= s->now || w->until - s->now <= most, "poll waits 9999 s at most");
    if (answer == TURN_OPEN_SOCKET)
        check(is_transport(w->transport) && is_family(&w->peer), "a connection has a peer");
    if (answer == TURN_OPEN_SOCKET || answer == TURN_CLOSE_SOCKET)
        check(is_family(&w->from) && is_family(&w->to), "a connection has addresses");
    if (answer == TURN_CLOSED)
        reach(REACH_ENDED);
}

static void check_event(const struct fuzzed *f)
{
    const turn_event *e = &f->walker.event;
    check(e->kind >= TURN_ALLOCATION_CREATED && e->kind <= TURN_TCP_FAILED, "an event has a kind");
    check(is_family(&e->address), "an event has an address");
    check(e->kind == TURN_ALLOCATION_FAILED ? e->transport == 0 : is_transport(e->transport), "an event's transport");
    check(e->kind != TURN_PERMISSION_CREATED || e->address.port == 0, "a permission has no port");
}

/* Only a client that believes short lifetimes tells of an allocation that has expired. */
static void check_expired(const struct fuzzed *f)
{
    const turn_relayed *r = &f->walker.expired;
    check(is_family(&r->address) && is_transport(r->transport), "an allocation that expired has an address");
    check(!f->settings.compatible && !f->settings.ignore_short_lifetimes, "the settings say that expiry is told");
}

static void check_cause(const turn_cause *c)
{
    const bool is_rejected = c->kind == TURN_REJECTED;
    check(c->kind <= TURN_UNUSABLE && c->kind != TURN_SOCKET_CLOSED, "a cause has a kind");
    check(is_rejected ? c->code >= 300 && c->code < 700 : c->code == 0, "a rejection has a code, and nothing else");
    check(is_rejected || (!c->is_signed && c->reason_size == 0), "a rejection has a phrase, and nothing else");
    check(c->reason_size <= REASON_MAX && c->domain_size <= DOMAIN_MAX, "the texts of a cause are short");
    check(c->alternate.family == 0 || is_family(&c->alternate), "another server has a family, or there is none");
    reach(is_rejected ? REACH_REJECTED : REACH_CAUSE);
}

/* Of a call that reads what the client notes: the size of what it copies. */
static size_t check_note(const struct fuzzed *f, const struct step *s, int32_t answer)
{
    const turn_cause cause = cause_of(f);
    if (s->call == CALL_CAUSE)
        check_cause(&f->walker.cause);
    if (s->call == CALL_MAPPED)
        check(answer == TURN_NOTHING || is_family(&f->walker.mapped), "the own address has a family");
    if (s->call == CALL_REASON)
        check((answer == TURN_OK) == (cause.kind == TURN_REJECTED), "a rejection has a phrase, and nothing else");
    if (s->call == CALL_DOMAIN)
        check(answer == TURN_OK || cause.domain_size == 0, "a domain of no bytes isn't there");
    return is_text(s->call) && answer == TURN_OK ? room_wanted(f, s) : 0;
}

/* Of a call that was not refused. */
static void check_done(struct fuzzed *f, const struct step *s, size_t room, int32_t answer)
{
    size_t size = is_note(s->call) ? check_note(f, s, answer) : 0;
    if (answer == TURN_PAYLOAD || answer == TURN_ICMP)
        check_payload(f, s, answer);
    if (s->call == CALL_POLL)
        check_wait(f, s, answer);
    if (s->call == CALL_EVENT && answer == TURN_OK)
        check_event(f);
    if (s->call == CALL_EXPIRED && answer == TURN_OK)
        check_expired(f);
    if ((s->call == CALL_DRAW || s->call == CALL_SEND) && answer == TURN_OK) {
        check_transmit(&f->walker.transmit);
        size = f->walker.transmit.size;
    }
    if (s->call == CALL_READ) {
        check((answer == TURN_OK) == (f->waiting > 0), "read gives joined bytes where some wait");
        size = f->waiting;
        f->waiting = 0;
    }
    check_written(f, size, room);
    if (s->call == CALL_CLOSE) {
        f->is_open = f->has_failed = f->has_lost_notes = false;
        f->waiting = 0;
        check(memory_held() == 0, "memory is left behind the close");
    }
}

/* A client that was refused memory amid its work holds nothing. */
static void check_failure(struct fuzzed *f, const struct step *s)
{
    turn_transmit transmit;
    turn_wait wait;
    turn_event event;
    f->has_failed = true;
    f->waiting = 0;
    reach(REACH_FAILED);
    struct walker *w = &f->walker;
    check(turn_client_relayed(f->client, w->relayed, 0) == 0 && turn_client_channels(f->client, w->channels, 0) == 0
              && turn_client_connections(f->client, w->connections, 0) == 0, "a client that has failed holds nothing");
    check(turn_client_draw(f->client, s->now, f->walker.out, sizeof f->walker.out, &transmit) == TURN_NOTHING,
          "a client that has failed sends nothing");
    last_call = CALL_POLL;
    last_answer = turn_client_poll(f->client, s->now, &wait);
    if (last_answer == TURN_OK) { /* while an event waits, it tells to wait until now */
        check(wait.until == s->now && turn_client_event(f->client, &event) == TURN_OK, "no event waits");
        while (turn_client_event(f->client, &event) == TURN_OK) {
        }
        last_answer = turn_client_poll(f->client, s->now, &wait);
    }
    check(last_answer == TURN_CLOSED, "a client that has failed doesn't tell so");
}

/* Of a call that reads what the client notes. */
static void check_unchanged(struct fuzzed *f, uint64_t before)
{
    memory_hold();
    const bool is_same = shown(f) == before;
    memory_go_on();
    check(is_same, "a call that reads changed what getters show");
}

/* Whether a refusal may take an allocation out of sight: one whose time is found to be over. */
static bool finds_time_over(const struct step *s, int32_t answer)
{
    return answer == TURN_NO_ALLOCATION && s->call >= CALL_PERMIT && s->call <= CALL_CONNECT;
}

/* Of a call that was refused: it changed nothing. */
static void check_refused(struct fuzzed *f, const struct step *s, int32_t answer, uint64_t before)
{
    const size_t allocations = f->allocations;
    check_written(f, 0, SIZE_MAX);
    if (answer == TURN_NO_MEMORY && is_fatal(s->call)) {
        check_failure(f, s);
        return;
    }
    memory_hold();
    const bool is_same = shown(f) == before;
    memory_go_on();
    check(is_same || (finds_time_over(s, answer) && f->allocations < allocations),
          "a refused call changed what getters show");
}

/* Whether memory that is refused may go unreported: without it the client doesn't note why events happen, and goes on
 * with the rest. */
static bool loses_notes(struct fuzzed *f, const struct step *s)
{
    const bool may_lose = s->call == CALL_FEED || s->call == CALL_PULL || s->call == CALL_POLL;
    f->has_lost_notes |= may_lose;
    return may_lose;
}

/* Of a call that is given texts: they are checked first, then memory is wanted for them, and then the handle. */
static void check_text(const struct step *s, int32_t answer, int32_t refusal, bool had_no_memory)
{
    const bool is_good = is_ascii(s->bytes) && is_ascii(s->password);
    const bool is_memory = answer == TURN_NO_MEMORY && had_no_memory && is_short(s);
    if (is_good)
        check(is_memory || answer == (refusal == NO_REFUSAL ? TURN_OK : refusal), "a text was refused otherwise");
    else if (answer != TURN_BAD_TEXT)
        check(is_short(s) ? answer != TURN_LONG_NAME && answer != TURN_TOO_LARGE : answer < 0, "a text's length");
}

static void check_reason(struct fuzzed *f, const struct step *s, int32_t answer, int32_t refusal, bool had_no_memory)
{
    const bool is_of_arguments = answer == TURN_BAD_FAMILY || answer == TURN_BAD_SETTING || answer == TURN_UNREAD
        || answer == TURN_SMALL_BUFFER || answer == TURN_NO_CLIENT || answer == TURN_BAD_ADDRESSES;
    check(answer >= TURN_BAD_ADDRESSES && answer <= TURN_CLOSE_SOCKET && (statuses[s->call] & BIT(answer)) != 0,
          "a status that the call hasn't");
    if (is_introducing(s->call) && s->call != CALL_FINGERPRINT)
        check_text(s, answer, refusal, had_no_memory);
    else
        check(refusal == NO_REFUSAL ? !is_of_arguments : answer == refusal,
              "another refusal than the arguments ask for");
    check(!had_no_memory || answer == TURN_NO_MEMORY || s->call == CALL_CLOSE || loses_notes(f, s),
          "refused memory wasn't told");
    check(answer != TURN_NO_MEMORY || had_no_memory || s->call == CALL_SEND, "memory was there");
    if (had_no_memory)
        reach(REACH_REFUSED_MEMORY);
}

/* A client that has failed, and what it answers from then on. */
static void check_behind_failure(const struct fuzzed *f, const struct step *s, int32_t answer)
{
    const bool asks = (s->call >= CALL_PERMIT && s->call <= CALL_CONNECT) || s->call == CALL_DELETE;
    if (!f->has_failed || answer == TURN_BAD_FAMILY || answer == TURN_BAD_SETTING || answer == TURN_SMALL_BUFFER)
        return;
    check(!asks || answer == TURN_NO_ALLOCATION || answer == TURN_BAD_ADDRESSES, "a client that has failed asks");
    check(s->call != CALL_DRAW || answer == TURN_NOTHING, "a client that has failed sends something");
    check(s->call != CALL_POLL || answer == TURN_CLOSED, "a client that has failed goes on");
}

static int32_t get_checked(struct fuzzed *f, const struct step *s, size_t room);

/* A call with a length that nothing has: it is refused before the handle is looked at, and touches nothing. */
static void check_length(struct fuzzed *f, const struct step *s, size_t length)
{
    static uint8_t byte;
    static turn_payload payload;
    static turn_transmit transmit;
    last_call = s->call;
    switch (s->call) {
    case CALL_FEED:
        last_answer = turn_client_feed(f->client, &s->from, &s->to, &byte, length, s->now, &payload);
        break;
    case CALL_READ: last_answer = turn_client_read(f->client, &byte, length); break;
    case CALL_REASON: last_answer = turn_client_reason(f->client, &byte, length); break;
    case CALL_DOMAIN: last_answer = turn_client_domain(f->client, &byte, length); break;
    case CALL_CREDENTIALS:
        last_answer = turn_client_credentials(f->client, (const char *)&byte, length, (const char *)&byte, 1);
        break;
    case CALL_SOFTWARE: last_answer = turn_client_software(f->client, (const char *)&byte, length); break;
    case CALL_DRAW: last_answer = turn_client_draw(f->client, s->now, &byte, length, &transmit); break;
    case CALL_SEND:
        last_answer = turn_client_send(f->client, s->transport, &s->to, &byte, length, s->now, &byte, 1, &transmit);
        break;
    default: return;
    }
    const int32_t refusal = is_introducing(s->call) ? NO_REFUSAL : refusal_of_arguments(s);
    check(last_answer == (refusal == NO_REFUSAL ? TURN_BAD_LENGTH : refusal), "a length that nothing has was taken");
}

int32_t call_checked(struct fuzzed *f, const struct step *s, size_t room)
{
    check_length(f, s, SIZE_MAX - room);
    if (s->call == CALL_OPEN)
        return open_checked(f, &f->walker.exchange->settings, sample_user, sample_password);
    if (s->call >= CALL_RELAYED)
        return get_checked(f, s, room);
    const int32_t refusal = refusal_of(f, s, room);
    memory_hold();
    const uint64_t before = shown(f);
    memory_go_on();
    memory_was_refused();
    last_call = s->call;
    const int32_t answer = last_answer = call_in_rooms(f, s, room);
    check_reason(f, s, answer, refusal, memory_was_refused());
    check_behind_failure(f, s, answer);
    if (answer < 0)
        check_refused(f, s, answer, before);
    else
        check_done(f, s, room, answer);
    if (is_note(s->call))
        check_unchanged(f, before);
    return answer;
}

/* ---- opening */

/* Whether the settings are such as the header has. */
static bool are_good(const turn_settings *s)
{
    const bool is_to = s->transport == 0 || is_transport(s->transport);
    const bool is_between = s->peers == 0 || s->peers == TURN_UDP || (s->peers == TURN_TCP && s->transport == TURN_TCP);
    return s->size == sizeof *s && is_family(&s->local) && is_family(&s->server) && is_to && is_between
        && s->families <= 3 && s->port <= TURN_PORT_RESERVED && s->ignore_short_lifetimes <= 1
        && s->attempt_indications <= 1
        && s->integrity <= 7 && s->anonymous <= TURN_ANONYMOUS_DISABLED && s->compatible <= 1;
}

static int32_t open_in_rooms(struct fuzzed *f, const turn_settings *settings, struct bytes user, struct bytes password)
{
    turn_seed seed;
    for (size_t i = 0; i < sizeof seed.bytes; i++)
        seed.bytes[i] = f->has_zero_seed ? 0 : (uint8_t)(i + 1); /* that of all exchanges */
    const turn_settings *s = room_copy(ROOM_SETTINGS, settings, sizeof *settings);
    const char *name = room_copy(ROOM_USER, user.at, user.len);
    const char *secret = room_copy(ROOM_PASSWORD, password.at, password.len);
    const turn_seed *words = room_copy(ROOM_SEED, &seed, sizeof seed);
    const int32_t answer = turn_client_open(f->client, s, name, user.len, secret, password.len, words);
    room_check_copy(ROOM_SETTINGS, settings);
    room_check_copy(ROOM_USER, user.at);
    room_check_copy(ROOM_PASSWORD, password.at);
    room_check_copy(ROOM_SEED, &seed);
    for (enum room room = ROOM_SETTINGS; room <= ROOM_SEED; room++)
        room_spoil(room);
    return answer;
}

int32_t open_checked(struct fuzzed *f, const turn_settings *settings, struct bytes user, struct bytes password)
{
    const bool is_good = !f->has_zero_seed && are_good(settings) && user.len <= TURN_NAME_MAX && is_ascii(user)
        && is_ascii(password);
    const turn_client before = *f->client;
    const long held = memory_held();
    memory_was_refused();
    last_call = CALL_OPEN;
    const int32_t answer = last_answer = open_in_rooms(f, settings, user, password);
    const bool had_no_memory = memory_was_refused();
    check(answer >= TURN_BAD_ADDRESSES && answer <= TURN_OK && (statuses[CALL_OPEN] & BIT(answer)) != 0,
          "a status that open hasn't");
    check(!had_no_memory || answer == TURN_NO_MEMORY, "refused memory wasn't told");
    check(!is_good || answer == TURN_OK || f->is_open || had_no_memory, "good settings were refused");
    /* Of an open handle the arguments aren't looked at: the handle comes first here. */
    check(!f->is_open || answer == TURN_ALREADY_OPEN, "an open handle was opened, or refused otherwise");
    check(f->is_open || answer != TURN_ALREADY_OPEN, "a handle that isn't open was refused as open");
    check(are_good(settings) || answer != TURN_OK, "bad settings were taken");
    check(!f->has_zero_seed || answer != TURN_OK, "a seed of zeros was taken");
    check(f->has_zero_seed || answer != TURN_ZERO_SEED, "a seed was refused as one of zeros");
    check(f->is_open || settings->size == sizeof *settings || answer == TURN_BAD_SETTING, "another size was taken");
    if (answer == TURN_OK) {
        f->is_open = true;
        f->settings = *settings;
    } else {
        check(before.private_client == f->client->private_client
                  && before.private_is_open == f->client->private_is_open, "a refused open changed the handle");
        check(held == memory_held(), "a refused open keeps memory");
    }
    return answer;
}

/* ---- getters */

static uint64_t mix(uint64_t digest, const void *bytes, size_t len)
{
    const uint8_t *at = bytes;
    for (size_t i = 0; i < len; i++)
        digest = (digest ^ at[i]) * UINT64_C(1099511628211);
    return digest;
}

static uint64_t mix_number(uint64_t digest, uint64_t number)
{
    return mix(digest, &number, sizeof number);
}

static uint64_t mix_address(uint64_t digest, const turn_address *a)
{
    digest = mix(digest, a->ip, a->family == 4 ? 4 : sizeof a->ip);
    return mix_number(mix_number(digest, a->port), a->family);
}

/* Calls a getter with so much room: it writes no more than it answers, and answers the same with none. */
static size_t get(struct fuzzed *f, const struct step *s, size_t room)
{
    static const size_t sizes[CALLS] = {
        [CALL_RELAYED] = sizeof(turn_relayed), [CALL_PERMISSIONS] = sizeof(turn_address),
        [CALL_CHANNELS] = sizeof(turn_channel), [CALL_CONNECTIONS] = sizeof(turn_connection)};
    const turn_address *to = room_copy(ROOM_TO, &s->to, sizeof s->to);
    void *out = room_give(ROOM_OUT, room * sizes[s->call]);
    size_t count = 0;
    switch (s->call) {
    case CALL_RELAYED: count = turn_client_relayed(f->client, out, room); break;
    case CALL_PERMISSIONS: count = turn_client_permissions(f->client, s->transport, to, out, room); break;
    case CALL_CHANNELS: count = turn_client_channels(f->client, out, room); break;
    case CALL_CONNECTIONS: count = turn_client_connections(f->client, out, room); break;
    default: return turn_client_is_permitted(f->client, s->transport, to);
    }
    room_check_rest(ROOM_OUT, (count < room ? count : room) * sizes[s->call]);
    check(f->is_open || count == 0, "a handle that isn't open shows something");
    check(!f->has_failed || count == 0, "a client that has failed shows something");
    return count;
}

static int32_t get_checked(struct fuzzed *f, const struct step *s, size_t room)
{
    const size_t most = room < SHOWN_MAX ? room : SHOWN_MAX, count = get(f, s, most);
    const size_t kept = most < HELD_MAX ? most : HELD_MAX;
    const void *out = room_at(ROOM_OUT);
    struct walker *w = &f->walker;
    if (s->call == CALL_RELAYED)
        memcpy(w->relayed, out, kept * sizeof *w->relayed);
    if (s->call == CALL_PERMISSIONS)
        memcpy(w->permissions, out, kept * sizeof *w->permissions);
    if (s->call == CALL_CHANNELS)
        memcpy(w->channels, out, kept * sizeof *w->channels);
    if (s->call == CALL_CONNECTIONS)
        memcpy(w->connections, out, kept * sizeof *w->connections);
    check(get(f, s, 0) == count, "a getter's answer depends on the room");
    return (int32_t)count;
}

static size_t seen(size_t count)
{
    return count < SHOWN_MAX ? count : SHOWN_MAX;
}

static uint64_t shown_permissions(struct fuzzed *f, uint64_t digest, const turn_relayed *at)
{
    const struct step s = {.call = CALL_PERMISSIONS, .transport = at->transport, .to = at->address};
    const size_t count = get(f, &s, SHOWN_MAX);
    const turn_address *out = room_at(ROOM_OUT);
    digest = mix_number(digest, count);
    for (size_t i = 0; i < seen(count); i++)
        digest = mix_address(digest, &out[i]);
    if (count > 0)
        reach(REACH_PERMISSION);
    return digest;
}

static uint64_t shown_channels(struct fuzzed *f, uint64_t digest)
{
    const struct step s = {.call = CALL_CHANNELS};
    const size_t count = get(f, &s, SHOWN_MAX);
    const turn_channel *out = room_at(ROOM_OUT);
    digest = mix_number(digest, count);
    for (size_t i = 0; i < seen(count); i++)
        digest = mix_number(mix_address(digest, &out[i].peer), out[i].number);
    if (count > 0)
        reach(REACH_CHANNEL);
    return digest;
}

static uint64_t shown_connections(struct fuzzed *f, uint64_t digest)
{
    const struct step s = {.call = CALL_CONNECTIONS};
    const size_t count = get(f, &s, SHOWN_MAX);
    const turn_connection *out = room_at(ROOM_OUT);
    digest = mix_number(digest, count);
    for (size_t i = 0; i < seen(count); i++) {
        digest = mix_address(mix_address(digest, &out[i].local), &out[i].peer);
        digest = mix_number(mix_number(digest, out[i].id), out[i].is_bound);
        if (out[i].is_bound)
            reach(REACH_BOUND);
    }
    if (count > 0)
        reach(REACH_CONNECTION);
    return digest;
}

uint64_t shown(struct fuzzed *f)
{
    const struct step s = {.call = CALL_RELAYED};
    turn_relayed relayed[SHOWN_MAX];
    const size_t count = get(f, &s, SHOWN_MAX);
    memcpy(relayed, room_at(ROOM_OUT), sizeof relayed);
    uint64_t digest = mix_number(UINT64_C(14695981039346656037), count);
    for (size_t i = 0; i < seen(count); i++) {
        digest = mix_number(mix_address(digest, &relayed[i].address), relayed[i].transport);
        digest = shown_permissions(f, digest, &relayed[i]);
    }
    f->allocations = count;
    if (count > 0)
        reach(REACH_ALLOCATION);
    return shown_connections(f, shown_channels(f, digest));
}
