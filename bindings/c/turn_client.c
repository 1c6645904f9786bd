/* turn_client.c: asks a TURN server for an address, and sends payloads through it to a peer that sends them back.
 *
 * In a clone there is nothing to build first. In the folder bindings/c/:
 *
 *     export PKG_CONFIG_PATH=../../dist/x86_64-linux-gnu
 *     cc -std=c11 turn_client.c options.c sockets.c tally.c $(pkg-config --cflags --libs turn_client) -o turn_client
 *     TURN_PASSWORD=secret ./turn_client --server 127.0.0.1 --user alice --echo
 *
 * `./coturn` at the top does that, with a server of its own. PKG_CONFIG_PATH may also be a folder that `build` made.
 * `--help` tells the options and the exit status. The client itself does no input or output: its sockets and its clock
 * are here, in one loop around poll. */
#define _GNU_SOURCE
#include <errno.h>
#include <inttypes.h>
#include <poll.h>
#include <stdarg.h>
#include <stdio.h>
#include <stdlib.h>
#include <string.h>
#include <sys/random.h>
#include <sys/socket.h>
#include <unistd.h>

#include "options.h"
#include "sockets.h"
#include "tally.h"

#define PATIENCE (2 * SECOND)    /* how long the last payloads are waited for */
#define PAUSE (10 * MILLISECOND) /* how long it waits at least where the client wants a turn and does nothing in it */
#define IN_MAX 65536             /* bytes that are read at once, and no payload is larger */
#define TEXT_MAX 763             /* bytes of a reason phrase, and of a domain's name */

struct run {
    struct options options;
    turn_client client;
    turn_settings settings;
    struct line line;                   /* to the server */
    int echo;                           /* a socket; -1 where there is none */
    uint64_t began, until;              /* the client wants no turn before that */
    uint64_t next, keeps_until;         /* when the next payload goes, and until when the address is kept */
    struct line data;                   /* to the server, of the connection that a peer opened */
    turn_address data_peer, data_own;   /* whose it is, and its own address; family 0 if there is none */
    turn_address relayed;
    bool has_accepted, has_ended;       /* whether it was bound, and whether it is over */
    bool has_address, is_ready, is_deleted, is_over, has_heard;
    turn_address elsewhere;             /* the server that is gone on with; family 0 if none is */
    struct tally tally;
    int outcome;                        /* an exit status; -1 as long as nothing went wrong */
};

static bool has_peer(const struct run *run)
{
    return run->options.peer.family != 0;
}

/* ---- what is told */

static void __attribute__((format(printf, 2, 3))) say(const struct run *run, const char *what, ...)
{
    va_list values;
    if (run->options.is_quiet)
        return;
    printf("%8.3f  ", (double)(clock_now() - run->began) / (double)SECOND);
    va_start(values, what);
    vprintf(what, values);
    va_end(values);
    putchar('\n');
    fflush(stdout);
}

/* Something went wrong: the address is given back. What was first decides the exit status. */
static void __attribute__((format(printf, 3, 4))) fail(struct run *run, int outcome, const char *what, ...)
{
    va_list values;
    fputs("turn_client: ", stderr);
    va_start(values, what);
    vfprintf(stderr, what, values);
    va_end(values);
    fputc('\n', stderr);
    if (run->outcome < 0)
        run->outcome = outcome;
}

/* ---- what goes to the server */

/* What became of a write. */
static void is_written(struct run *run, int error)
{
    if (error != 0 && run->line.is_stream) {
        fail(run, FAILED, "the connection to the server broke: %s", strerror(error));
        run->is_over = true;
    } else if (error != 0) {
        say(run, "a message doesn't go out: %s", strerror(error));
    }
}

static bool is_same(const turn_address *one, const turn_address *other)
{
    return one->family == other->family && one->port == other->port && memcmp(one->ip, other->ip, sizeof one->ip) == 0;
}

/* Sends a message that was drawn over the line that it names: the one of a peer's connection, or the client's own. */
static void write_drawn(struct run *run, const turn_transmit *transmit)
{
    if (run->data_own.family == 0 || !is_same(&transmit->from, &run->data_own)) {
        is_written(run, line_write(&run->line, transmit->size));
        return;
    }
    memcpy(run->data.out, run->line.out, transmit->size);
    if (line_write(&run->data, transmit->size) != 0)
        say(run, "the connection of %s broke", text_of(&run->data_peer));
}

/* Sends what the client has to send now, as far as the line takes it: whether there was something. */
static bool draw_all(struct run *run)
{
    turn_transmit transmit;
    int32_t status = TURN_NOTHING;
    bool has_drawn = false;
    is_written(run, line_go_on(&run->line));
    while (line_is_free(&run->line)) {
        status = turn_client_draw(&run->client, clock_now(), run->line.out, sizeof run->line.out, &transmit);
        if (status != TURN_OK)
            break;
        has_drawn = true;
        write_drawn(run, &transmit);
    }
    if (status < 0)
        fail(run, FAILED, "no message can be drawn: status %d", status);
    return has_drawn;
}

static void send_payload(struct run *run, uint64_t now)
{
    static uint8_t payload[MOST_SIZE];
    turn_transmit transmit;
    tally_next(&run->tally, payload);
    const int32_t status = turn_client_send(&run->client, TURN_UDP, &run->options.peer, payload, run->tally.size, now,
                                            run->line.out, sizeof run->line.out, &transmit);
    if (status != TURN_OK) {
        fail(run, FAILED, "payload %u can't be sent: status %d", run->tally.sent, status);
        return;
    }
    say(run, "payload %u goes, in %zu bytes", run->tally.sent, transmit.size);
    tally_goes(&run->tally, now);
    run->next = now + run->options.interval * MILLISECOND;
    is_written(run, line_write(&run->line, transmit.size));
}

/* ---- what comes from the server */

/* A payload of a peer came. Its bytes stand in what was handed in, or are to be read. */
static void take_payload(struct run *run, const turn_payload *payload, const uint8_t *came)
{
    static uint8_t joined[IN_MAX];
    if (payload->is_joined && payload->size > 0
        && turn_client_read(&run->client, joined, sizeof joined) != TURN_OK) {
        fail(run, FAILED, "%zu joined bytes can't be read", payload->size);
        return;
    }
    const uint8_t *bytes = payload->is_joined ? joined : came + payload->start;
    const int64_t number = tally_comes(&run->tally, bytes, payload->size, clock_now());
    if (number < 0)
        say(run, "%zu bytes of %s, which nobody waits for", payload->size, text_of(&payload->peer));
    else
        say(run, "payload %d is back after %.3f ms", (int)number, tally_last_trip(&run->tally));
}

/* What became of bytes that came. */
static void take(struct run *run, int32_t status, const turn_payload *payload, const uint8_t *came)
{
    run->has_heard |= status == TURN_OK;
    if (status == TURN_PAYLOAD)
        take_payload(run, payload, came);
    else if (status == TURN_ICMP)
        say(run, "of %s: ICMP type %u, code %u", text_of(&payload->peer), payload->icmp_type, payload->icmp_code);
    else if (status < 0)
        fail(run, FAILED, "what came can't be taken: status %d", status);
}

/* Hands in what came, and over TCP takes what waits then. */
static void feed(struct run *run, const uint8_t *bytes, size_t len)
{
    turn_payload payload;
    const turn_settings *s = &run->settings;
    int32_t status = turn_client_feed(&run->client, &s->server, &s->local, bytes, len, clock_now(), &payload);
    take(run, status, &payload, bytes);
    while (s->transport == TURN_TCP && status >= 0) {
        status = turn_client_pull(&run->client, clock_now(), &payload);
        if (status == TURN_NOTHING)
            return;
        take(run, status, &payload, bytes);
    }
}

/* Reads until nothing is left. */
static void receive(struct run *run)
{
    static uint8_t in[IN_MAX];
    while (!run->is_over) {
        const ssize_t size = recv(run->line.fd, in, sizeof in, 0);
        if (size > 0 || (size == 0 && !run->line.is_stream)) {
            feed(run, in, (size_t)size);
        } else if (size < 0 && errno == EAGAIN) {
            return;
        } else if (run->line.is_stream && (size == 0 || errno != EINTR)) {
            feed(run, in, 0);
            run->is_over = true;
            if (!run->is_deleted)
                fail(run, FAILED, "the server closed the connection");
        } else if (errno != EINTR) {
            say(run, "nothing comes from the server: %s", strerror(errno));
        }
    }
}

/* ---- a connection that a peer opens */

static bool waits_for_peer(const struct run *run)
{
    return run->options.accept.family != 0;
}

/* Opens the socket that the client asks for, of the first connection of the peer that is waited for, or says that there
 * is none. A driver for more than one peer would not wait here until it is connected. */
static void open_data(struct run *run, const turn_wait *wait)
{
    static const turn_address no_address;
    turn_address ip = wait->peer;
    ip.port = 0;
    const bool is_wanted = waits_for_peer(run) && run->data.fd < 0 && !run->has_ended
        && is_same(&ip, &run->options.accept) && line_open(&run->data, &run->options.server, true) == 0;
    if (is_wanted) {
        run->data_own = own_address(run->data.fd);
        run->data_peer = wait->peer;
        say(run, "opens a socket for the connection of %s", text_of(&wait->peer));
    }
    turn_client_socket(&run->client, wait->id, &wait->peer, is_wanted ? &run->data_own : &no_address, clock_now());
}

static void close_data(struct run *run)
{
    if (run->data.fd >= 0)
        close(run->data.fd);
    run->has_ended = run->has_ended || (run->data.fd >= 0 && run->has_accepted);
    run->data.fd = -1;
    run->data_own.family = 0;
}

/* Prints bytes of the peer, with a question mark for each that isn't printable ASCII, and sends them back. */
static void return_bytes(struct run *run, const uint8_t *bytes, size_t len)
{
    turn_transmit transmit;
    if (!run->options.is_quiet)
        printf("%zu bytes of %s: ", len, text_of(&run->data_peer));
    for (size_t i = 0; i < len && !run->options.is_quiet; i++)
        putchar(bytes[i] >= 0x20 && bytes[i] < 0x7f ? bytes[i] : '?');
    if (!run->options.is_quiet)
        putchar('\n');
    const int32_t status = turn_client_send(&run->client, TURN_TCP, &run->data_peer, bytes, len, clock_now(),
                                            run->data.out, sizeof run->data.out, &transmit);
    if (status != TURN_OK)
        fail(run, FAILED, "%zu bytes can't be sent back: status %d", len, status);
    else if (line_write(&run->data, transmit.size) != 0)
        say(run, "the connection of %s broke", text_of(&run->data_peer));
}

/* Reads what came over the peer's connection, once what goes back was written. */
static void receive_data(struct run *run)
{
    static uint8_t in[IN_MAX / 2], joined[IN_MAX];
    turn_payload payload;
    const ssize_t size = recv(run->data.fd, in, sizeof in, 0);
    if (size < 0 && (errno == EAGAIN || errno == EINTR))
        return;
    const size_t len = size > 0 ? (size_t)size : 0;
    int32_t status = turn_client_feed(&run->client, &run->settings.server, &run->data_own, in, len, clock_now(),
                                      &payload);
    for (; status == TURN_PAYLOAD || status == TURN_OK; status = turn_client_pull(&run->client, clock_now(), &payload)) {
        if (status == TURN_PAYLOAD && !payload.is_joined)
            return_bytes(run, in + payload.start, payload.size);
        else if (status == TURN_PAYLOAD && turn_client_read(&run->client, joined, sizeof joined) == TURN_OK)
            return_bytes(run, joined, payload.size);
    }
    if (len == 0) {
        say(run, "the connection of %s is closed", text_of(&run->data_peer));
        close_data(run);
    }
}

/* ---- why something failed */

typedef int32_t copy_text(turn_client *client, uint8_t *out, size_t out_len);

/* A text of the server as it may be printed: without control characters, as the zeros by which coturn fills a phrase
 * up, and with a question mark for each byte beyond ASCII. It stays until the next call. */
static const char *printable(struct run *run, copy_text *copy, size_t size)
{
    static uint8_t text[TEXT_MAX + 1];
    size_t printed = 0;
    if (size > TEXT_MAX || copy(&run->client, text, size) != TURN_OK)
        size = 0;
    for (size_t i = 0; i < size; i++) {
        if (text[i] >= 0x20 && text[i] != 0x7f)
            text[printed++] = text[i] < 0x7f ? text[i] : '?';
    }
    text[printed] = '\0';
    return (const char *)text;
}

/* A cause as a text. It stays until the next call. */
static const char *text_of_cause(struct run *run, const turn_cause *cause)
{
    static const char *const names[] = {
        [TURN_CAUSE_NONE] = "none", [TURN_UNANSWERED] = "unanswered", [TURN_INTEGRITY] = "integrity",
        [TURN_NO_ALGORITHM] = "no-algorithm", [TURN_OTHER_FAMILY] = "other-family", [TURN_CAUSE_MEMORY] = "no-memory",
        [TURN_DELETED] = "deleted", [TURN_EXPIRED] = "expired", [TURN_SOCKET_CLOSED] = "socket-closed",
        [TURN_UNUSABLE] = "unusable"};
    static char text[TEXT_MAX + 64];
    if (cause->kind != TURN_REJECTED)
        return names[cause->kind];
    snprintf(text, sizeof text, "rejected %u %s %s", (unsigned)cause->code, cause->is_signed ? "signed" : "unsigned",
             printable(run, turn_client_reason, cause->reason_size));
    return text;
}

/* Says why the event happened that was taken last, if it reports a failure, and which server a response 300 named. */
static turn_cause say_cause(struct run *run)
{
    turn_cause cause = {.kind = TURN_CAUSE_NONE};
    turn_client_cause(&run->client, &cause);
    if (cause.kind != TURN_CAUSE_NONE)
        say(run, "cause: %s", text_of_cause(run, &cause));
    if (cause.alternate.family != 0)
        say(run, "alternate server: %s%s%s", text_of(&cause.alternate), cause.domain_size > 0 ? " " : "",
            printable(run, turn_client_domain, cause.domain_size));
    return cause;
}

/* Whether a failed allocation is not the end: the server named another one, and the program goes on there, once. */
static bool goes_elsewhere(struct run *run, const turn_cause *cause)
{
    if (run->options.follows && cause->alternate.family != 0)
        run->elsewhere = cause->alternate;
    return run->elsewhere.family != 0;
}

/* ---- what the client tells */

static void ask(struct run *run, int32_t status, const char *what)
{
    say(run, "asks for %s %s", what, text_of(&run->options.peer));
    if (status != TURN_OK)
        fail(run, FAILED, "can't ask for %s %s: status %d", what, text_of(&run->options.peer), status);
}

static void say_public_address(struct run *run)
{
    turn_address mapped;
    if (turn_client_mapped(&run->client, &mapped) == TURN_OK)
        say(run, "public address: %s", text_of(&mapped));
}

static void say_token(struct run *run)
{
    uint64_t token;
    if (turn_client_reservation(&run->client, &token) == TURN_OK)
        say(run, "reservation token: %016" PRIx64, token);
}

/* Begins with the address that the server gave: asks for the permissions, and tells what else was given. */
static void begin_with_address(struct run *run, const turn_address *relayed, uint64_t now)
{
    const turn_address *peer = &run->options.peer;
    run->keeps_until = now + run->options.seconds * SECOND;
    run->has_address = true;
    say_public_address(run);
    say_token(run);
    if (waits_for_peer(run) && turn_client_permit(&run->client, TURN_TCP, &run->options.accept, now) != TURN_OK)
        fail(run, FAILED, "can't ask for a permission for %s", text_of(&run->options.accept));
    run->relayed = *relayed;
    if (relayed->family == peer->family)
        ask(run, turn_client_permit(&run->client, TURN_UDP, peer, now), "a permission for");
}

/* What follows an event. */
static void follow(struct run *run, const turn_event *event, const turn_cause *cause)
{
    const turn_address *peer = &run->options.peer;
    const uint64_t now = clock_now();
    uint64_t until;
    switch (event->kind) {
    case TURN_ALLOCATION_CREATED:
        begin_with_address(run, &event->address, now);
        return;
    case TURN_PERMISSION_CREATED:
        if (waits_for_peer(run)) {
            say(run, "waits for a connection to %s", text_of(&run->relayed));
            return;
        }
        run->is_ready = run->options.has_no_channel;
        if (!run->is_ready)
            ask(run, turn_client_bind(&run->client, TURN_UDP, peer, now, &until), "a channel to");
        return;
    case TURN_CHANNEL_CREATED:
        run->is_ready = true;
        return;
    case TURN_TCP_CONNECTED:
        run->has_accepted = true;
        return;
    case TURN_TCP_FAILED: /* it was announced, and the server didn't bind it: another one is waited for */
        return;
    case TURN_ALLOCATION_FAILED:
        if (goes_elsewhere(run, cause))
            return;
        if (!run->has_heard)
            fail(run, NO_ANSWER, "no answer from %s", text_of(&run->settings.server));
        else if (!run->has_address || event->address.family == peer->family)
            fail(run, FAILED, "no address: %s", text_of_cause(run, cause));
        return;
    default:
        fail(run, FAILED, "no permission or no channel: %s", text_of_cause(run, cause));
    }
}

static void tell(struct run *run, const turn_event *event)
{
    static const char *const names[] = {
        [TURN_ALLOCATION_CREATED] = "has the address", [TURN_ALLOCATION_FAILED] = "has no address of",
        [TURN_PERMISSION_CREATED] = "has a permission for", [TURN_PERMISSION_FAILED] = "has no permission for",
        [TURN_CHANNEL_CREATED] = "has a channel to", [TURN_CHANNEL_FAILED] = "has no channel to",
        [TURN_TCP_CONNECTED] = "has a connection to", [TURN_TCP_FAILED] = "has no connection to"};
    const char *family = event->address.family == 4 ? "IPv4" : "IPv6";
    say(run, "%s %s", names[event->kind], event->kind == TURN_ALLOCATION_FAILED ? family : text_of(&event->address));
    const turn_cause cause = say_cause(run);
    if (!run->is_deleted)
        follow(run, event, &cause);
}

/* ---- the loop */

/* Takes turns until there is nothing to do: false where the client has ended. */
static bool take_turns(struct run *run)
{
    turn_wait wait;
    turn_event event;
    for (int idle = 0;;) {
        bool has_done = draw_all(run);
        const int32_t status = turn_client_poll(&run->client, clock_now(), &wait);
        for (; turn_client_event(&run->client, &event) == TURN_OK; has_done = true)
            tell(run, &event);
        if (status == TURN_OPEN_SOCKET) {
            open_data(run, &wait);
        } else if (status == TURN_CLOSE_SOCKET) {
            if (is_same(&wait.from, &run->data_own))
                close_data(run);
        } else if (status == TURN_OK) {
            idle = has_done ? 0 : idle + 1;
            run->until = wait.until;
            if (!has_done && (wait.until > clock_now() || idle > 1))
                return true;
        } else {
            if (status < 0)
                fail(run, FAILED, "the client failed: status %d", status);
            return false;
        }
    }
}

/* Whether all that was to be done is done. */
static bool is_done(const struct run *run, uint64_t now)
{
    const struct tally *t = &run->tally;
    if (waits_for_peer(run))
        return run->has_ended || (run->options.seconds > 0 && run->has_address && now >= run->keeps_until);
    const bool has_sent = !has_peer(run) || (run->is_ready && t->sent == t->count);
    return run->has_address && now >= run->keeps_until && has_sent && (t->back == t->sent || now >= t->last + PATIENCE);
}

/* Asks for the end of the address: where there is none, this is the end. */
static void give_back(struct run *run)
{
    say(run, "gives the address back");
    run->is_deleted = true;
    if (turn_client_delete(&run->client, clock_now()) != TURN_OK)
        run->is_over = true;
}

static bool has_to_send(const struct run *run)
{
    return run->is_ready && !run->is_deleted && run->tally.sent < run->tally.count;
}

static uint64_t sooner(uint64_t one, uint64_t other)
{
    return one < other ? one : other;
}

/* Until when there is nothing to do where nothing comes. */
static uint64_t due(const struct run *run, uint64_t now)
{
    const struct tally *t = &run->tally;
    uint64_t due = run->until > now ? run->until : now + PAUSE;
    if (has_to_send(run) && line_is_free(&run->line))
        due = sooner(due, run->next);
    if (!run->is_deleted && run->has_address && run->keeps_until > now)
        due = sooner(due, run->keeps_until);
    if (!run->is_deleted && t->back < t->sent && t->last + PATIENCE > now)
        due = sooner(due, t->last + PATIENCE);
    return sooner(due, now + 3600 * SECOND);
}

/* Waits until something comes, or is to be done. */
static void wait_for_more(struct run *run, uint64_t now)
{
    struct pollfd waits[3] = {{.fd = run->line.fd, .events = POLLIN}, {.fd = run->echo, .events = POLLIN},
                              {.fd = run->data.fd, .events = line_is_free(&run->data) ? POLLIN : POLLOUT}};
    const uint64_t until = due(run, now);
    if (!line_is_free(&run->line))
        waits[0].events |= POLLOUT;
    if (poll(waits, 3, until > now ? (int)((until - now + MILLISECOND - 1) / MILLISECOND) : 0) <= 0)
        return;
    if (waits[0].revents & ~POLLOUT)
        receive(run);
    if (waits[1].revents)
        echo(run->echo);
    if (waits[2].revents && line_go_on(&run->data) == 0 && line_is_free(&run->data))
        receive_data(run);
}

static void loop(struct run *run)
{
    while (take_turns(run) && !run->is_over) {
        const uint64_t now = clock_now();
        if (!run->is_deleted && (run->outcome >= 0 || is_done(run, now))) {
            give_back(run);
            continue;
        }
        if (has_to_send(run) && now >= run->next && line_is_free(&run->line))
            send_payload(run, now);
        wait_for_more(run, now);
    }
    if (!run->is_deleted && run->outcome < 0 && run->elsewhere.family == 0)
        fail(run, FAILED, "the address is gone: the server didn't renew it");
}

/* ---- the beginning and the end */

static bool open_line(struct run *run)
{
    const struct options *o = &run->options;
    const int error = line_open(&run->line, &o->server, o->is_over_tcp);
    if (error != 0)
        fail(run, NO_ANSWER, "no connection to %s: %s", text_of(&o->server), strerror(error));
    return error == 0;
}

static bool open_sockets(struct run *run)
{
    struct options *o = &run->options;
    if (!open_line(run))
        return false;
    if (o->has_echo && (run->echo = open_echo(o->families & TURN_IPV4 ? 4 : 6)) < 0)
        fail(run, FAILED, "no socket for the echo: %s", strerror(errno));
    if (run->echo >= 0)
        o->peer = own_address(run->echo);
    return run->outcome < 0;
}

static bool open_client(struct run *run)
{
    const struct options *o = &run->options;
    turn_seed seed;
    if (getrandom(&seed, sizeof seed, 0) != sizeof seed) {
        fail(run, FAILED, "no random bytes: %s", strerror(errno));
        return false;
    }
    run->settings = (turn_settings){.size = sizeof run->settings, .local = own_address(run->line.fd),
                                    .server = o->server, .transport = o->is_over_tcp ? TURN_TCP : TURN_UDP,
                                    .peers = waits_for_peer(run) ? TURN_TCP : TURN_UDP,
                                    .families = o->families, .integrity = o->integrity,
                                    .attempt_indications = o->accepts_indications,
                                    .ignore_short_lifetimes = o->ignores_short_lifetimes,
                                    .port = o->port, .reservation = o->token};
    const int32_t status = turn_client_open(&run->client, &run->settings, o->user, strlen(o->user), o->password,
                                            strlen(o->password), &seed);
    if (status == TURN_BAD_TEXT || status == TURN_LONG_NAME)
        fail(run, BAD_USAGE, "name and password are to be UTF-8, the name of %d bytes at most", TURN_NAME_MAX);
    else if (status != TURN_OK)
        fail(run, FAILED, "no client can be opened: status %d", status);
    return status == TURN_OK;
}

/* Opens a client at the server that the first one was directed to. That is done once. */
static bool open_elsewhere(struct run *run)
{
    run->options.server = run->elsewhere;
    run->options.follows = false;
    run->elsewhere = (turn_address){.family = 0};
    run->has_heard = run->is_over = false;
    run->line.start = run->line.end = 0;
    say(run, "goes on with %s", text_of(&run->options.server));
    turn_client_close(&run->client);
    close(run->line.fd);
    run->line.fd = -1;
    return open_line(run) && open_client(run);
}

int main(int argc, char **argv)
{
    static struct run run = {.client = TURN_CLIENT_INIT, .line = {.fd = -1}, .data = {.fd = -1}, .echo = -1, .outcome = -1};
    const int status = read_options(argc, argv, &run.options);
    if (status >= 0)
        return status;
    run.began = clock_now();
    if (!tally_open(&run.tally, run.options.count, run.options.size))
        fail(&run, FAILED, "there is no memory");
    else if (open_sockets(&run) && open_client(&run))
        loop(&run);
    if (run.outcome < 0 && run.elsewhere.family != 0 && open_elsewhere(&run))
        loop(&run);
    turn_client_close(&run.client);
    if (has_peer(&run))
        tally_print(&run.tally);
    tally_close(&run.tally);
    if (run.echo >= 0)
        close(run.echo);
    if (run.line.fd >= 0)
        close(run.line.fd);
    close_data(&run);
    if (run.outcome >= 0)
        return run.outcome;
    if (waits_for_peer(&run) && !run.has_accepted)
        return SOME_LOST;
    return has_peer(&run) && run.tally.back < run.tally.count ? SOME_LOST : ALL_BACK;
}
