/* fuzz.c: reads an input as a script of calls of turn_client.h, for clang's libFuzzer. `run` builds and runs it.
 *
 * The first byte chooses an exchange of tests/c/samples.h, whose bytes answer the client's own requests under its seed.
 * Then each byte is an operation with bytes behind it (`operate`): to walk on in the exchange, as it stands or with
 * other bytes or in pieces; any call with any arguments; another moment; an allocation that is to be refused. As long
 * as nothing but the exchange's own calls changed the client, each of them has to tell what is wanted: so a call that
 * was refused and did change something is seen later, too. What else is checked stands in calls.c. */
#include "fuzz.h"

#include <stdio.h>
#include <string.h>

#include "memory.h"
#include "rooms.h"

int LLVMFuzzerTestOneInput(const uint8_t *data, size_t size);

/* ---- what is told of the inputs */

static const char *const reach_names[REACHES] = {
    [REACH_ALLOCATION] = "allocation", [REACH_PERMISSION] = "permission", [REACH_CHANNEL] = "channel",
    [REACH_PAYLOAD] = "payload", [REACH_JOINED] = "joined payload", [REACH_ICMP] = "report in ICMP",
    [REACH_CONNECTION] = "connection", [REACH_BOUND] = "bound connection", [REACH_REFUSED_MEMORY] = "refused memory",
    [REACH_FAILED] = "failed client", [REACH_ENDED] = "ended client", [REACH_WHOLE] = "whole exchange",
    [REACH_REJECTED] = "rejection as a cause", [REACH_CAUSE] = "another cause, or none",
};
static unsigned long inputs, reached[REACHES], calls[CALLS], walked;
static bool is_reached[REACHES];
enum call last_call;
int32_t last_answer;

void reach(enum reach what)
{
    is_reached[what] = true;
}

void print_counts(void)
{
    fprintf(stderr, "count: inputs %lu\ncount: exact steps %lu\n", inputs, walked);
    for (int i = 0; i < REACHES; i++)
        fprintf(stderr, "count: reached %s %lu\n", reach_names[i], reached[i]);
    for (int i = 0; i < CALLS; i++)
        fprintf(stderr, "count: call %s %lu\n", call_names[i], calls[i]);
}

void print_last(void)
{
    fprintf(stderr, " (%s answered %d)", call_names[last_call], last_answer);
}

/* ---- the script */

static struct {
    const uint8_t *at;
    size_t left;
} script;

/* The next byte; 0 where there is none. */
static uint8_t next(void)
{
    if (script.left == 0)
        return 0;
    script.left--;
    return *script.at++;
}

static uint32_t next_number(size_t bytes)
{
    uint32_t number = 0;
    while (bytes-- > 0)
        number = number << 8 | next();
    return number;
}

static struct fuzzed fuzzed;
static const struct exchange *exchange;
static size_t part, step_of_part;   /* where the exchange goes on */
static uint64_t now;
static bool is_other_time;          /* the exchange's moments don't count any more */

/* ---- arguments */

/* An address: of the exchange, or any. */
static turn_address next_address(void)
{
    static const turn_address known[] = {
        {{192, 0, 2, 1}, 5000, 4}, {{192, 0, 2, 2}, 3478, 4}, {{198, 51, 100, 1}, 9000, 4},
        {{198, 51, 100, 2}, 9001, 4}, {{203, 0, 113, 5}, 50000, 4}, {{0x20, 1, 0x0d, 0xb8, [15] = 1}, 9000, 6},
        {{192, 0, 2, 1}, 5001, 4}};
    enum { KNOWN = sizeof known / sizeof *known };
    const uint8_t which = next();
    if (which < 0xf0)
        return known[which % KNOWN];
    turn_address any = {.port = (uint16_t)next_number(2), .family = next()};
    any.ip[0] = next();
    return any;
}

/* The address of a step that lies near, so that it is one which the client knows. */
static turn_address next_near(bool is_peer)
{
    const struct part *p = &exchange->parts[part % exchange->count];
    const struct step *s = &p->steps[next() % p->count];
    const turn_address *a = is_peer ? &s->to : &s->from;
    return a->family == 0 ? next_address() : *a;
}

static uint32_t next_transport(void)
{
    static const uint32_t known[] = {TURN_UDP, TURN_TCP, TURN_UDP, TURN_TCP, 0, 5, 256 + TURN_UDP, UINT32_MAX};
    return known[next() % (sizeof known / sizeof *known)];
}

/* Bytes of the input, or as many of one kind. */
static struct bytes next_bytes(void)
{
    static uint8_t filled[TURN_PAYLOAD_MAX + 200];
    const uint8_t kind = next();
    size_t len = kind % 4 == 0 ? TURN_PAYLOAD_MAX - 4 + next() % 8 : kind % 4 == 1 ? next_number(2) : next();
    if (kind % 4 == 3 && len > script.left)
        len = script.left;
    if (len > sizeof filled)
        len = sizeof filled;
    if (kind % 4 != 3) {
        memset(filled, kind, len);
        return (struct bytes){filled, len};
    }
    const struct bytes bytes = {script.at, len};
    script.at += len;
    script.left -= len;
    return bytes;
}

/* A size beside the one that a call wants. */
static size_t next_room(const struct step *s)
{
    const size_t wanted = room_wanted(&fuzzed, s);
    switch (next() % 8) {
    case 0: return 0;
    case 1: return wanted > 0 ? wanted - 1 : 0;
    case 2: return wanted + 1;
    case 3: return wanted / 2;
    case 4: return next();
    default: return wanted;
    }
}

/* ---- calls */

/* Whether an answer means that the client is as before. */
static bool is_harmless(const struct step *s, int32_t answer)
{
    const bool is_foreign = memcmp(&s->from, &fuzzed.settings.server, sizeof s->from) != 0;
    if (s->call >= CALL_RELAYED || is_note(s->call) || (answer < 0 && answer != TURN_NO_MEMORY))
        return true;
    const bool is_taking = s->call == CALL_READ || s->call == CALL_EVENT || s->call == CALL_EXPIRED;
    return (is_taking && answer == TURN_NOTHING)
        || (s->call == CALL_FEED && answer == TURN_IGNORED && is_foreign);
}

/* What is new: an answer of a call in a state of the client, and how far an exchange came (`walk`). */
static void note_answer(const struct step *s, int32_t answer)
{
    uint32_t state = 0;
    for (int i = 0; i < REACHES; i++)
        state = state << 1 | is_reached[i];
    if (s->call == CALL_EVENT && answer == TURN_OK)
        answer = 32 + (int32_t)fuzzed.walker.event.kind;
    note(s->call, (uint32_t)answer + 64, state);
}

static int32_t make_call(const struct step *s, size_t room)
{
    calls[s->call]++;
    const int32_t answer = call_checked(&fuzzed, s, room);
    note_answer(s, answer);
    return answer;
}

/* Whether a call that was refused memory may be made again. */
static bool is_to_repeat(const struct step *s, int32_t answer)
{
    return answer == TURN_NO_MEMORY && s->call != CALL_SEND && !fuzzed.has_failed;
}

/* A call that the exchange doesn't make here. Where it is made again, there is memory. */
static int32_t disturb(const struct step *s, size_t room)
{
    int32_t answer = make_call(s, room);
    if (is_to_repeat(s, answer)) {
        fuzzed.is_undisturbed = false;
        answer = make_call(s, room);
    }
    fuzzed.is_undisturbed = fuzzed.is_undisturbed && is_harmless(s, answer);
    return answer;
}

static const struct step *step_next(void)
{
    while (part < exchange->count && step_of_part == exchange->parts[part].count) {
        part++;
        step_of_part = 0;
    }
    return part < exchange->count ? &exchange->parts[part].steps[step_of_part] : NULL;
}

static void step_was_done(void)
{
    step_of_part++;
    if (step_next() == NULL && fuzzed.is_undisturbed)
        reach(REACH_WHOLE);
}

/* Makes the next call of the exchange, and holds it against what is wanted where nothing else was done. */
static void walk(void)
{
    const struct step *next_step = step_next();
    if (next_step == NULL)
        return;
    struct step s = *next_step;
    if (is_other_time)
        s.now = now;
    else
        now = s.now;
    size_t room = s.call >= CALL_RELAYED ? HELD_MAX - s.less : room_wanted(&fuzzed, &s) - s.less;
    if (s.call == CALL_READ && s.want.size > fuzzed.waiting)
        room = s.want.size;
    const int32_t answer = make_call(&s, room);
    if (answer == TURN_NO_MEMORY || is_other_time)
        fuzzed.is_undisturbed = false;
    if (fuzzed.is_undisturbed && !(fuzzed.has_lost_notes && is_note(s.call))) {
        const struct told told = step_told(&fuzzed.walker, &s, answer);
        check(step_difference(&s.want, &told) == NULL, "an undisturbed exchange goes another way");
        walked++;
        note((uint32_t)(exchange - exchanges), (uint32_t)part, (uint32_t)step_of_part + 1000);
    }
    step_was_done();
}

/* ---- bytes that come */

enum { CHANGED_MAX = 4096 };
static uint8_t changed[CHANGED_MAX];

/* The bytes of a step with some of them changed, cut or repeated. */
static struct bytes change(struct bytes bytes)
{
    size_t len = bytes.len < CHANGED_MAX ? bytes.len : CHANGED_MAX;
    memcpy(changed, bytes.at, len);
    for (uint8_t changes = next() % 4; changes > 0 && len > 0; changes--)
        changed[next_number(2) % len] ^= next();
    const uint8_t kind = next();
    if (kind % 4 == 1)
        len -= next() % (len + 1);
    else if (kind % 4 == 2 && 2 * len <= CHANGED_MAX) {
        memcpy(changed + len, changed, len);
        len *= 2;
    }
    return (struct bytes){changed, len};
}

static void pull_all(void)
{
    struct step pull = {.call = CALL_PULL, .now = now}, read = {.call = CALL_READ, .now = now};
    for (int i = 0; i < 64; i++) {
        if (fuzzed.waiting > 0)
            disturb(&read, fuzzed.waiting);
        if (disturb(&pull, 0) != TURN_PAYLOAD)
            return;
    }
}

/* Some step of the exchange that hands in bytes, behind one that is chosen. */
static const struct step *next_feed(void)
{
    const struct part *p = &exchange->parts[(part + next() % 2) % exchange->count];
    const size_t first = next();
    for (size_t i = 0; i < p->count; i++) {
        const struct step *s = &p->steps[(first + i) % p->count];
        if (s->call == CALL_FEED)
            return s;
    }
    return NULL;
}

static void feed_changed(const struct step *from)
{
    if (from == NULL)
        return;
    struct step s = *from;
    s.now = now;
    s.bytes = change(s.bytes);
    disturb(&s, 0);
    if (next() % 2)
        pull_all();
}

/* The next step's bytes in two pieces, over TCP; else as they are. */
static void walk_in_pieces(void)
{
    const struct step *whole = step_next();
    if (whole == NULL || whole->call != CALL_FEED || whole->bytes.len < 2 || exchange->settings.transport != TURN_TCP) {
        walk();
        return;
    }
    struct step s = *whole;
    const size_t cut = 1 + next_number(2) % (s.bytes.len - 1);
    s.now = now;
    s.bytes.len = cut;
    disturb(&s, 0);
    pull_all();
    s.bytes = (struct bytes){whole->bytes.at + cut, whole->bytes.len - cut};
    disturb(&s, 0);
    pull_all();
    step_was_done();
}

static void feed_any(void)
{
    struct step s = {.call = CALL_FEED, .now = now};
    const uint8_t kind = next();
    s.from = kind % 4 == 0 ? next_address() : fuzzed.settings.server;
    s.to = kind % 8 == 1 ? next_address() : kind % 8 == 2 ? next_near(false) : fuzzed.settings.local;
    s.bytes = next_bytes();
    disturb(&s, 0);
}

/* ---- operations */

static void call_any(enum call call)
{
    struct step s = {.call = call, .now = now, .transport = next_transport()};
    s.to = next() % 2 ? next_near(true) : next_address();
    if (call == CALL_SOCKET || call == CALL_CLOSED) {
        s.from = next() % 2 ? next_near(false) : next_address();
        s.number = next() % 16;
    }
    if (call == CALL_SEND || call == CALL_CREDENTIALS || call == CALL_SOFTWARE || call == CALL_PERMIT_SEVERAL)
        s.bytes = next_bytes();
    if (call == CALL_CREDENTIALS)
        s.password = next() % 2 ? sample_password : s.bytes;
    if (call == CALL_FINGERPRINT)
        s.number = next() % 2;
    disturb(&s, next_room(&s));
}

/* Tells of the socket that poll asked for last. */
static void open_socket(void)
{
    const turn_wait wait = fuzzed.walker.wait;
    struct step s = {.call = CALL_SOCKET, .now = now, .number = wait.id, .to = wait.peer, .from = next_address()};
    disturb(&s, 0);
}

/* A turn: all that is drawn, polled, told. */
static void take_turn(void)
{
    struct step draw = {.call = CALL_DRAW, .now = now}, poll = {.call = CALL_POLL, .now = now},
                event = {.call = CALL_EVENT, .now = now}, expired = {.call = CALL_EXPIRED, .now = now};
    for (int i = 0; i < 32 && disturb(&draw, TURN_MESSAGE_MAX) == TURN_OK; i++) {
    }
    for (int i = 0; i < 8; i++) {
        const int32_t answer = disturb(&poll, 0);
        if (answer != TURN_OPEN_SOCKET && answer != TURN_CLOSE_SOCKET)
            break;
    }
    for (int i = 0; i < 32 && disturb(&event, 0) == TURN_OK; i++) {
    }
    for (int i = 0; i < 3 && disturb(&expired, 0) == TURN_OK; i++) {
    }
}

/* Another moment: a little or much later, that to wait for, before, or any. */
static void change_time(void)
{
    const uint8_t kind = next();
    const uint64_t some = next_number(2);
    is_other_time = true;
    switch (kind % 8) {
    case 0: now -= some * 1000000; break;
    case 1: now = some << 48; break;
    case 2: now = fuzzed.walker.wait.until; break;
    case 3: now += some * UINT64_C(1000000000); break;
    case 4: now = TURN_MOMENT_MAX - some; break;
    case 5: now = UINT64_MAX - some; break;
    default: now += some * 1000000; break;
    }
}

static void open_any(void)
{
    static uint8_t letters[TURN_NAME_MAX + 1];
    turn_settings s = exchange->settings;
    const uint8_t kind = next();
    memset(letters, kind & 0x40 ? 0xc3 : 'a', sizeof letters);
    if (kind & 1)
        s = (turn_settings){.size = kind & 0x80 ? next() : sizeof s, .local = next_address(),
                            .server = next_address(), .transport = next_transport(), .peers = next_transport(),
                            .families = next(), .integrity = next() % 9,
                            .anonymous = next() % 4, .sends = next_number(4), .first_wait = next_number(4),
                            .most_wait = next_number(4), .last_wait = next_number(4),
                            .compatible = kind & 0x20 ? next() % 3 : 0,
                            .max_connection_attempts = kind & 0x10 ? next() : 0,
                            .ignore_short_lifetimes = kind & 0x20 ? next() % 3 : 0,
                            .lifetime = kind & 0x10 ? next_number(4) : 0, .pace = kind & 0x20 ? next_number(4) : 0,
                            .port = next() % 5, .reservation = next_number(4),
                            .attempt_indications = kind & 0x10 ? next() % 3 : 0};
    if (kind & 2)
        s.families = 3;
    const struct bytes any = {letters, kind & 8 ? TURN_NAME_MAX + (kind >> 4) % 2 : next()};
    const bool was_open = fuzzed.is_open;
    calls[CALL_OPEN]++;
    fuzzed.has_zero_seed = (kind & 0xe0) == 0xe0;
    open_checked(&fuzzed, &s, kind & 4 ? any : sample_user, kind & 16 ? any : sample_password);
    fuzzed.has_zero_seed = false;
    fuzzed.is_undisturbed = fuzzed.is_undisturbed && was_open == fuzzed.is_open;
}

static void get_any(void)
{
    call_any((enum call)(CALL_RELAYED + next() % (CALLS - CALL_RELAYED)));
}

static void refuse(void)
{
    memory_refuse(next() % 16);
}

static void walk_some(void)
{
    for (uint8_t steps = next() % 32 + 1; steps > 0; steps--)
        walk();
}

static void feed_sample(void)
{
    feed_changed(next_feed());
}

static void feed_next(void)
{
    const struct step *s = step_next();
    feed_changed(s != NULL && s->call == CALL_FEED ? s : NULL);
}

/* Ends the client, so that it is opened again behind. */
static void begin_again(void)
{
    const struct step close = {.call = CALL_CLOSE};
    disturb(&close, 0);
    if (next() % 2)
        return;
    part = step_of_part = 0;
    is_other_time = false;
    fuzzed.is_undisturbed = true;
}

static void operate(void)
{
    static void (*const operations[])(void) = {
        walk_some, walk, feed_sample, feed_next, walk_in_pieces, feed_any, take_turn, change_time, open_any, get_any,
        refuse, open_socket, begin_again, pull_all,
    };
    enum { OPERATIONS = sizeof operations / sizeof *operations, FIRST_CALL = 32 };
    const uint8_t operation = next();
    if (operation < FIRST_CALL)
        operations[operation % OPERATIONS]();
    else
        call_any((enum call)(CALL_DELETE + operation % (CALL_RELAYED - CALL_DELETE)));
}

/* ---- one input */

enum { OPERATIONS_MAX = 400 };

static void begin(void)
{
    const uint8_t which = next();
    exchange = which % 2 && which > 128 ? &timed[which / 2 % timed_count] : &exchanges[which % exchange_count];
    memset(&fuzzed, 0, sizeof fuzzed);
    memset(is_reached, 0, sizeof is_reached);
    fuzzed.walker.exchange = exchange;
    fuzzed.is_undisturbed = true;
    fuzzed.client = room_give(ROOM_HANDLE, sizeof *fuzzed.client);
    memset(fuzzed.client, 0, sizeof *fuzzed.client);
    part = step_of_part = 0;
    now = 0;
    is_other_time = false;
    memory_refuse(-1);
}

int LLVMFuzzerTestOneInput(const uint8_t *data, size_t size)
{
    const struct step close = {.call = CALL_CLOSE};
    script.at = data;
    script.left = size;
    begin();
    for (int i = 0; i < OPERATIONS_MAX && script.left > 0; i++)
        operate();
    memory_refuse(-1);
    make_call(&close, 0);
    check(memory_held() == 0, "memory is left");
    inputs++;
    for (int i = 0; i < REACHES; i++)
        reached[i] += is_reached[i];
    return 0;
}
