/* exchange.c: walks exchanges with a server whose bytes are stored (samples.h): each status, each byte that is to be
 * sent, each event, getter and payload is held against what is wanted. Before a call each way in which it is to be
 * refused is tried: that it is done then shows that the refusal changed nothing.
 *
 *     cc -std=c11 -Wall -Wextra exchange.c steps.c $(pkg-config --cflags --libs turn_client) -o exchange && ./exchange
 *
 * `check` does so. A line for each part tells how many checks it passed, and each that failed has a line of its own.
 * The last line is `exchange: N passed, M failed`; the exit status is 0 where M is 0, else 1. */
#include "steps.h"

#include <stddef.h>
#include <stdio.h>
#include <string.h>

/* ---- the count */

static unsigned long passed, failed;

/* What is walked, for the lines of failures. */
static const char *part_name = "";

static void count(const char *what, const char *name, const char *difference, int32_t want, int32_t got)
{
    if (difference == NULL) {
        passed++;
        return;
    }
    failed++;
    printf("FAILED in %s: %s%s%s: another %s (wanted %d, got %d)\n", part_name, what, name ? ", " : "",
           name ? name : "", difference, want, got);
}

/* A thing that holds, or not. */
static void check(bool holds, const char *what)
{
    count(what, NULL, holds ? NULL : "outcome", 1, holds);
}

/* A status. */
static void check_answer(int32_t got, int32_t want, const char *what, const char *name)
{
    count(what, name, got == want ? NULL : "answer", want, got);
}

/* ---- what is refused before a step is done */

/* Bytes that are no UTF-8. */
static const uint8_t no_text[] = {'M', 0xfc, 'l'};

/* Makes the call of a step that was changed, and wants this answer. */
static void is_refused(struct walker *w, const struct step *changed, int32_t want, const char *why)
{
    check_answer(step_call(w, changed), want, call_names[changed->call], why);
}

/* What is refused of a family that is neither 4 nor 6. A getter shows nothing then. */
static void refuse_family(struct walker *w, const struct step *step, size_t offset, uint8_t family)
{
    struct step changed = *step;
    turn_address *address = (turn_address *)((char *)&changed + offset);
    address->family = family;
    is_refused(w, &changed, step->call >= CALL_RELAYED ? 0 : TURN_BAD_FAMILY, "a family that there isn't");
}

static void refuse_families(struct walker *w, const struct step *step)
{
    const size_t from = offsetof(struct step, from), to = offsetof(struct step, to);
    switch (step->call) {
    case CALL_FEED:
    case CALL_CLOSED:
        refuse_family(w, step, from, 7);
        refuse_family(w, step, from, 0);
        break;
    case CALL_SOCKET: /* no own address is one that can be told */
        refuse_family(w, step, from, 7);
        break;
    case CALL_SEND:
    case CALL_PERMIT:
    case CALL_BIND:
    case CALL_CONNECT:
    case CALL_PERMISSIONS:
    case CALL_IS_PERMITTED:
        break;
    default:
        return;
    }
    refuse_family(w, step, to, 7);
    refuse_family(w, step, to, 0);
}

static void refuse_transport(struct walker *w, const struct step *step)
{
    static const uint32_t unknown[] = {0, 5, 18, 256 + 17};
    struct step changed = *step;
    bool is_getter = step->call == CALL_PERMISSIONS || step->call == CALL_IS_PERMITTED;
    if (!is_getter && step->call != CALL_SEND && step->call != CALL_PERMIT && step->call != CALL_PERMIT_SEVERAL
        && step->call != CALL_BIND)
        return;
    for (size_t i = 0; i < sizeof unknown / sizeof *unknown; i++) {
        changed.transport = unknown[i];
        is_refused(w, &changed, is_getter ? 0 : TURN_BAD_SETTING, "a transport that there isn't");
    }
}

/* Peers of which one has no family that there is, and as many as are too many, or none. */
static void refuse_peers(struct walker *w, const struct step *step)
{
    static uint8_t peers[5 * PEERS_MAX];
    struct step changed = *step;
    if (step->call != CALL_PERMIT_SEVERAL)
        return;
    for (size_t i = 0; i < PEERS_MAX; i++) {
        peers[5 * i] = 4;
        peers[5 * i + 4] = (uint8_t)i;
    }
    changed.bytes = (struct bytes){peers, sizeof peers};
    is_refused(w, &changed, TURN_BAD_ADDRESSES, "too many peers");
    peers[5 * (PEERS_MAX - 2)] = 7;
    is_refused(w, &changed, TURN_BAD_ADDRESSES, "too many peers, and a family that there isn't");
    changed.bytes.len = sizeof peers - 5;
    is_refused(w, &changed, TURN_BAD_FAMILY, "a family that there isn't, of the last of as many as may be");
    changed.bytes.len = 0;
    is_refused(w, &changed, TURN_BAD_ADDRESSES, "no peer");
}

/* The least room that a call wants which writes bytes and is to be done; 0 of others. */
static size_t least_room(const struct step *step)
{
    if (step->call == CALL_DRAW)
        return TURN_MESSAGE_MAX;
    if (step->call == CALL_SEND && step->want.answer == TURN_OK)
        return step->bytes.len + TURN_SEND_EXTRA;
    if ((step->call == CALL_READ || step->call == CALL_REASON || step->call == CALL_DOMAIN)
        && step->want.answer == TURN_OK)
        return step->want.size;
    return 0;
}

/* A buffer that is one byte too small, or has none; and of a getter no room, which changes no count. */
static void refuse_room(struct walker *w, const struct step *step)
{
    struct step changed = *step;
    if (step->call >= CALL_RELAYED && step->call != CALL_IS_PERMITTED) {
        changed.less = HELD_MAX;
        is_refused(w, &changed, step->want.answer, "no room");
    } else if (least_room(step) > 0) {
        changed.less = 1;
        is_refused(w, &changed, TURN_SMALL_BUFFER, "a buffer that is too small");
        changed.less = least_room(step);
        is_refused(w, &changed, TURN_SMALL_BUFFER, "a buffer of no bytes");
    }
}

/* While joined bytes wait, nothing comes. */
static void refuse_unread(struct walker *w, const struct step *step)
{
    static const uint8_t some[1];
    const turn_settings *settings = &w->exchange->settings;
    struct step feed = {.call = CALL_FEED, .now = step->now, .from = settings->server, .to = settings->local,
                        .bytes = {some, sizeof some}};
    struct step pull = {.call = CALL_PULL, .now = step->now};
    if (step->call != CALL_READ || step->want.answer != TURN_OK)
        return;
    is_refused(w, &feed, TURN_UNREAD, "joined bytes wait");
    is_refused(w, &pull, TURN_UNREAD, "joined bytes wait");
}

/* A text that isn't UTF-8, or is too long. It isn't taken: what comes behind shows what was set before. */
static void refuse_text(struct walker *w, const struct step *step)
{
    static uint8_t letters[TURN_SOFTWARE_MAX + 1];
    const bool is_name = step->call == CALL_CREDENTIALS;
    struct step changed = *step;
    if (!is_name && step->call != CALL_SOFTWARE)
        return;
    memset(letters, 'a', sizeof letters);
    changed.bytes = (struct bytes){letters, (is_name ? TURN_NAME_MAX : TURN_SOFTWARE_MAX) + 1};
    is_refused(w, &changed, is_name ? TURN_LONG_NAME : TURN_TOO_LARGE, "a text that is too long");
    changed.bytes = (struct bytes){no_text, sizeof no_text};
    is_refused(w, &changed, TURN_BAD_TEXT, "no UTF-8");
}

/* The handle is open. */
static void refuse_opening(struct walker *w, const struct step *step)
{
    struct step open = {.call = CALL_OPEN};
    if (step->call != CALL_OPEN)
        is_refused(w, &open, TURN_ALREADY_OPEN, "the handle is open");
}

/* ---- while the handle isn't open */

static void refuse_all(struct walker *w, const char *when)
{
    static const uint8_t some[1] = {4}; /* and a family, for permit_several */
    struct step step = {.transport = TURN_UDP, .bytes = {some, sizeof some}};
    const turn_client before = w->client;
    step.from = w->exchange->settings.server;
    step.to = w->exchange->settings.local;
    for (step.call = CALL_CLOSE; step.call < CALLS; step.call++) {
        int32_t want = step.call >= CALL_RELAYED || step.call == CALL_CLOSE ? 0 : TURN_NO_CLIENT;
        is_refused(w, &step, want, when);
    }
    check(before.private_client == w->client.private_client && before.private_is_open == w->client.private_is_open,
          "a handle that isn't open stays as it is");
}

/* ---- exchanges */

/* Overwrites what earlier calls told, so that none of it counts as told now. */
static void forget(struct walker *w)
{
    const size_t start = offsetof(struct walker, payload);
    memset((char *)w + start, 0xee, sizeof *w - start);
}

static void walk_step(struct walker *w, const struct step *step)
{
    refuse_opening(w, step);
    refuse_unread(w, step);
    refuse_text(w, step);
    refuse_families(w, step);
    refuse_transport(w, step);
    refuse_peers(w, step);
    refuse_room(w, step);
    forget(w);
    int32_t answer = step_call(w, step);
    struct told told = step_told(w, step, answer);
    count(call_names[step->call], step->name, step_difference(&step->want, &told), step->want.answer, answer);
}

static void walk_part(struct walker *w, const struct part *part)
{
    const unsigned long passed_before = passed, failed_before = failed;
    part_name = part->name;
    for (size_t i = 0; i < part->count; i++) {
        const unsigned long failures = failed;
        walk_step(w, &part->steps[i]);
        if (failed > failures)
            printf("  at step %zu of %zu\n", i + 1, part->count);
    }
    printf("%s: %lu passed, %lu failed\n", part->name, passed - passed_before, failed - failed_before);
}

static struct walker walker;

static void walk(const struct exchange *exchange)
{
    walker.client = (turn_client)TURN_CLIENT_INIT;
    walker.exchange = exchange;
    refuse_all(&walker, "before the handle is open");
    for (size_t i = 0; i < exchange->count; i++)
        walk_part(&walker, &exchange->parts[i]);
    refuse_all(&walker, "behind the close");
    turn_client_close(&walker.client);
}

/* ---- opening */

/* Lengths that no object has. To some of them a sum adds up to a small number. */
static const size_t bad_lengths[] = {(size_t)PTRDIFF_MAX + 1, SIZE_MAX - 64, SIZE_MAX - 63, SIZE_MAX - 1, SIZE_MAX};

static void refuse_settings(const turn_settings *settings, int32_t want, const char *why)
{
    turn_client client = TURN_CLIENT_INIT;
    check_answer(open_with(&client, settings, sample_user, sample_password), want, "open", why);
    check(client.private_client == NULL && !client.private_is_open, "a handle that wasn't opened stays as it was");
    turn_client_close(&client);
}

/* Each number of the settings that names nothing. */
static void refuse_numbers(const turn_settings *good)
{
    static const struct {
        size_t offset;
        uint32_t value;
    } wrong[] = {
        {offsetof(turn_settings, transport), 5}, {offsetof(turn_settings, transport), 256 + 17},
        {offsetof(turn_settings, peers), 5}, {offsetof(turn_settings, peers), TURN_TCP},
        {offsetof(turn_settings, families), 4}, {offsetof(turn_settings, families), 1 | 8},
        {offsetof(turn_settings, integrity), 8}, {offsetof(turn_settings, integrity), UINT32_MAX},
        {offsetof(turn_settings, anonymous), 3}, {offsetof(turn_settings, anonymous), 256},
        {offsetof(turn_settings, compatible), 2}, {offsetof(turn_settings, compatible), UINT32_MAX},
        {offsetof(turn_settings, ignore_short_lifetimes), 2},
        {offsetof(turn_settings, ignore_short_lifetimes), UINT32_MAX},
        {offsetof(turn_settings, port), 4},
        {offsetof(turn_settings, port), UINT32_MAX},
        {offsetof(turn_settings, attempt_indications), 2},
        {offsetof(turn_settings, attempt_indications), UINT32_MAX},
    };
    for (size_t i = 0; i < sizeof wrong / sizeof *wrong; i++) {
        turn_settings settings = *good;
        memcpy((char *)&settings + wrong[i].offset, &wrong[i].value, sizeof wrong[i].value);
        refuse_settings(&settings, TURN_BAD_SETTING, "a number that names nothing");
    }
}

static void refuse_addresses(const turn_settings *good)
{
    static const uint8_t families[] = {0, 1, 5, 7, 255};
    for (size_t i = 0; i < sizeof families; i++) {
        turn_settings settings = *good;
        settings.local.family = families[i];
        refuse_settings(&settings, TURN_BAD_FAMILY, "an own address of no family");
        settings = *good;
        settings.server.family = families[i];
        refuse_settings(&settings, TURN_BAD_FAMILY, "a server's address of no family");
    }
}

static void open_names(const turn_settings *good)
{
    static const uint8_t latin[] = {'M', 'u', 0xfc, 'l'}, cut[] = {'a', 0xe2, 0x82}, surrogate[] = {0xed, 0xa0, 0x80},
                         overlong[] = {0xc0, 0xaf}, beyond[] = {0xf4, 0x90, 0x80, 0x80}, euro[] = {0xe2, 0x82, 0xac};
    static uint8_t letters[TURN_NAME_MAX + 1];
    const struct bytes wrong[] = {{latin, sizeof latin}, {cut, sizeof cut}, {surrogate, sizeof surrogate},
                                  {overlong, sizeof overlong}, {beyond, sizeof beyond}};
    turn_client client = TURN_CLIENT_INIT;
    memset(letters, 'a', sizeof letters);
    for (size_t i = 0; i < sizeof wrong / sizeof *wrong; i++) {
        check_answer(open_with(&client, good, wrong[i], sample_password), TURN_BAD_TEXT, "open", "a name, no UTF-8");
        check_answer(open_with(&client, good, sample_user, wrong[i]), TURN_BAD_TEXT, "open", "a password, no UTF-8");
    }
    check_answer(open_with(&client, good, (struct bytes){letters, TURN_NAME_MAX + 1}, sample_password), TURN_LONG_NAME,
                 "open", "a name of 514 bytes");
    const struct bytes right[] = {{letters, TURN_NAME_MAX}, {letters, 0}, {euro, sizeof euro}};
    for (size_t i = 0; i < sizeof right / sizeof *right; i++) {
        check_answer(open_with(&client, good, right[i], sample_password), TURN_OK, "open", "a name");
        turn_client_close(&client);
        check_answer(open_with(&client, good, sample_user, right[i]), TURN_OK, "open", "a password");
        turn_client_close(&client);
    }
}

/* Sizes that the settings do not have. They are checked before the rest of the settings. */
static void refuse_sizes(const turn_settings *good)
{
    static const size_t sizes[] = {
        0, 1, sizeof(turn_settings) - 8, sizeof(turn_settings) - 1, sizeof(turn_settings) + 8, SIZE_MAX,
    };
    for (size_t i = 0; i < sizeof sizes / sizeof *sizes; i++) {
        turn_settings settings = *good;
        settings.size = sizes[i];
        refuse_settings(&settings, TURN_BAD_SETTING, "another size");
        settings.local.family = 0;
        refuse_settings(&settings, TURN_BAD_SETTING, "another size, and a bad family");
    }
    turn_settings settings = *good;
    settings.local.family = 0;
    settings.peers = 5;
    refuse_settings(&settings, TURN_BAD_FAMILY, "a bad family, and a bad number");
    settings = (turn_settings)TURN_SETTINGS_INIT;
    check(settings.size == sizeof settings && settings.last_wait == 0, "the settings to begin with state their size");
    settings.local = good->local;
    settings.server = good->server;
    turn_client client = TURN_CLIENT_INIT;
    check_answer(open_with(&client, &settings, sample_user, sample_password), TURN_OK, "open", "the least settings");
    turn_client_close(&client);
}

/* Opens under a seed with one byte that is not zero, or none. */
static int32_t open_seeded(turn_client *client, const turn_settings *settings, size_t name_len, size_t which)
{
    static const char name[TURN_NAME_MAX + 1];
    turn_seed seed = {{0}};
    if (which < sizeof seed.bytes)
        seed.bytes[which] = 1;
    return turn_client_open(client, settings, name, name_len, "secret", 6, &seed);
}

static void open_seeds(const turn_settings *good)
{
    turn_client client = TURN_CLIENT_INIT;
    check_answer(open_seeded(&client, good, 5, 32), TURN_ZERO_SEED, "open", "a seed of zeros");
    check(client.private_client == NULL && !client.private_is_open, "a handle that wasn't opened stays as it was");
    check_answer(open_seeded(&client, good, TURN_NAME_MAX + 1, 32), TURN_LONG_NAME, "open", "the name comes first");
    for (size_t which = 0; which < 32; which++) {
        check_answer(open_seeded(&client, good, 5, which), TURN_OK, "open", "a seed with one byte");
        check_answer(open_seeded(&client, good, 5, 32), TURN_ALREADY_OPEN, "open", "the handle comes first");
        turn_client_close(&client);
    }
}

/* Lengths that no object has, and the order in which they are checked. */
static void open_lengths(const turn_settings *good)
{
    static const char name[] = "alice", latin[] = "M\xfcl";
    turn_client client = TURN_CLIENT_INIT;
    turn_settings bad = *good;
    const turn_seed zero = {{0}};
    bad.peers = 5;
    for (size_t i = 0; i < sizeof bad_lengths / sizeof *bad_lengths; i++) {
        const size_t len = bad_lengths[i];
        check_answer(turn_client_open(&client, good, name, len, name, 5, &zero), TURN_BAD_LENGTH, "open", "a name");
        check_answer(turn_client_open(&client, good, latin, 3, name, len, &zero), TURN_BAD_LENGTH, "open",
                     "a password");
        check_answer(turn_client_open(&client, &bad, name, len, name, 5, &zero), TURN_BAD_SETTING, "open",
                     "the settings come first");
    }
}

static void openings(void)
{
    const unsigned long passed_before = passed, failed_before = failed;
    const turn_settings *good = &exchanges[0].settings;
    part_name = "openings";
    refuse_numbers(good);
    refuse_addresses(good);
    open_names(good);
    refuse_sizes(good);
    open_seeds(good);
    open_lengths(good);
    check(turn_client_version() == TURN_CLIENT_VERSION_NUMBER, "header and library are of one version");
    printf("openings: %lu passed, %lu failed\n", passed - passed_before, failed - failed_before);
}

/* ---- lengths and null */

static void feed_lengths(turn_client *client, const turn_settings *s, bool is_open)
{
    static const turn_address none = {{0}, 0, 0};
    const uint8_t byte = 0;
    turn_payload payload;
    for (size_t i = 0; i < sizeof bad_lengths / sizeof *bad_lengths; i++) {
        const size_t len = bad_lengths[i];
        check_answer(turn_client_feed(client, &s->server, &s->local, &byte, len, 0, &payload), TURN_BAD_LENGTH, "feed",
                     "a length that nothing has");
        check_answer(turn_client_feed(client, &s->server, &none, &byte, len, 0, &payload), TURN_BAD_FAMILY, "feed",
                     "the family comes first");
    }
    check_answer(turn_client_feed(client, &s->server, &s->local, NULL, 0, 0, &payload),
                 is_open ? TURN_IGNORED : TURN_NO_CLIENT, "feed", "no bytes, by a null pointer");
}

static void send_lengths(turn_client *client, const turn_settings *s, bool is_open)
{
    static uint8_t out[TURN_SEND_EXTRA];
    const turn_address *to = &s->server;
    const uint8_t byte = 0;
    turn_transmit transmit;
    for (size_t i = 0; i < sizeof bad_lengths / sizeof *bad_lengths; i++) {
        const size_t len = bad_lengths[i];
        check_answer(turn_client_send(client, TURN_UDP, to, &byte, len, 0, out, sizeof out, &transmit), TURN_BAD_LENGTH,
                     "send", "a payload of a length that nothing has");
        check_answer(turn_client_send(client, TURN_UDP, to, &byte, 1, 0, out, len, &transmit), TURN_BAD_LENGTH, "send",
                     "a buffer of a length that nothing has");
        check_answer(turn_client_send(client, 0, to, &byte, len, 0, out, 0, &transmit), TURN_BAD_SETTING, "send",
                     "the transport comes first");
        check_answer(turn_client_draw(client, 0, out, len, &transmit), TURN_BAD_LENGTH, "draw", "a buffer");
        check_answer(turn_client_read(client, out, len), TURN_BAD_LENGTH, "read", "a buffer");
        check_answer(turn_client_reason(client, out, len), TURN_BAD_LENGTH, "reason", "a buffer");
        check_answer(turn_client_domain(client, out, len), TURN_BAD_LENGTH, "domain", "a buffer");
    }
    const size_t small[] = {1, 2, PTRDIFF_MAX - 63, PTRDIFF_MAX};
    for (size_t i = 0; i < sizeof small / sizeof *small; i++)
        check_answer(turn_client_send(client, TURN_UDP, to, &byte, small[i], 0, out, sizeof out, &transmit),
                     TURN_SMALL_BUFFER, "send", "a buffer with too little room");
    for (size_t room = 0; room <= sizeof out; room++)
        check_answer(turn_client_send(client, TURN_UDP, to, NULL, 0, 0, out, room, &transmit),
                     room < sizeof out ? TURN_SMALL_BUFFER : is_open ? TURN_NO_PERMISSION : TURN_NO_CLIENT, "send",
                     "no bytes, by a null pointer");
    check_answer(turn_client_send(client, TURN_UDP, to, NULL, 0, 0, NULL, 0, &transmit), TURN_SMALL_BUFFER, "send",
                 "no buffer");
    check_answer(turn_client_draw(client, 0, NULL, 0, &transmit), TURN_SMALL_BUFFER, "draw", "no buffer");
    check_answer(turn_client_read(client, NULL, 0), is_open ? TURN_NOTHING : TURN_NO_CLIENT, "read", "no buffer");
    check_answer(turn_client_reason(client, NULL, 0), is_open ? TURN_NOTHING : TURN_NO_CLIENT, "reason", "no buffer");
    check_answer(turn_client_domain(client, NULL, 0), is_open ? TURN_NOTHING : TURN_NO_CLIENT, "domain", "no buffer");
}

static void list_by_null(turn_client *client, const turn_settings *s)
{
    check(turn_client_relayed(client, NULL, 0) == 0 && turn_client_channels(client, NULL, 0) == 0
              && turn_client_connections(client, NULL, 0) == 0
              && turn_client_permissions(client, TURN_UDP, &s->local, NULL, 0) == 0, "lists without room, by null");
}

/* How many peers there are is looked at before them, and so is a transport. */
static void permit_counts(turn_client *client, const turn_settings *s, bool is_open)
{
    const turn_address *peer = &s->server;
    const int32_t none = is_open ? TURN_BAD_ADDRESSES : TURN_NO_CLIENT;
    for (size_t i = 0; i < sizeof bad_lengths / sizeof *bad_lengths; i++) {
        const size_t len = bad_lengths[i];
        check_answer(turn_client_permit_several(client, TURN_UDP, peer, len, 0), TURN_BAD_ADDRESSES, "permit_several",
                     "as many peers as nothing has");
        check_answer(turn_client_permit_several(client, 0, peer, len, 0), TURN_BAD_SETTING, "permit_several",
                     "the transport comes first");
    }
    check_answer(turn_client_permit_several(client, TURN_UDP, peer, TURN_PERMIT_MAX + 1, 0), TURN_BAD_ADDRESSES,
                 "permit_several", "33 peers");
    check_answer(turn_client_permit_several(client, TURN_UDP, NULL, 0, 0), none, "permit_several",
                 "no peers, by a null pointer");
    check_answer(turn_client_permit_several(client, TURN_UDP, peer, 1, 0),
                 is_open ? TURN_NO_ALLOCATION : TURN_NO_CLIENT, "permit_several", "one peer");
}

/* ---- how the client introduces itself */

/* Other credentials: each refusal, in the order in which they are checked, and what is short enough. */
static void set_credentials(turn_client *client, bool is_open)
{
    static char letters[TURN_NAME_MAX + 1];
    const char *latin = (const char *)no_text;
    const int32_t done = is_open ? TURN_OK : TURN_NO_CLIENT;
    memset(letters, 'a', sizeof letters);
    for (size_t i = 0; i < sizeof bad_lengths / sizeof *bad_lengths; i++) {
        const size_t len = bad_lengths[i];
        check_answer(turn_client_credentials(client, latin, len, latin, 3), TURN_BAD_LENGTH, "credentials", "a name");
        check_answer(turn_client_credentials(client, latin, 3, latin, len), TURN_BAD_LENGTH, "credentials",
                     "a password");
    }
    check_answer(turn_client_credentials(client, latin, 3, "secret", 6), TURN_BAD_TEXT, "credentials",
                 "a name, no UTF-8");
    check_answer(turn_client_credentials(client, letters, TURN_NAME_MAX + 1, latin, 3), TURN_BAD_TEXT, "credentials",
                 "a password, no UTF-8, and a long name");
    check_answer(turn_client_credentials(client, letters, TURN_NAME_MAX + 1, "secret", 6), TURN_LONG_NAME,
                 "credentials", "a name of 514 bytes");
    check_answer(turn_client_credentials(client, letters, TURN_NAME_MAX, letters, sizeof letters), done,
                 "credentials", "a name of 513 bytes, and a longer password");
    check_answer(turn_client_credentials(client, NULL, 0, NULL, 0), done, "credentials", "null texts");
}

/* The text of SOFTWARE, and FINGERPRINT. */
static void set_software(turn_client *client, bool is_open)
{
    static char letters[TURN_SOFTWARE_MAX + 1];
    const int32_t done = is_open ? TURN_OK : TURN_NO_CLIENT;
    memset(letters, 'a', sizeof letters);
    for (size_t i = 0; i < sizeof bad_lengths / sizeof *bad_lengths; i++)
        check_answer(turn_client_software(client, letters, bad_lengths[i]), TURN_BAD_LENGTH, "software", "a text");
    check_answer(turn_client_software(client, (const char *)no_text, sizeof no_text), TURN_BAD_TEXT, "software",
                 "no UTF-8");
    check_answer(turn_client_software(client, letters, TURN_SOFTWARE_MAX + 1), TURN_TOO_LARGE, "software",
                 "764 bytes");
    letters[TURN_SOFTWARE_MAX] = '\xfc';
    check_answer(turn_client_software(client, letters, TURN_SOFTWARE_MAX + 1), TURN_BAD_TEXT, "software",
                 "764 bytes, no UTF-8");
    check_answer(turn_client_software(client, letters, TURN_SOFTWARE_MAX), done, "software", "763 bytes");
    check_answer(turn_client_software(client, NULL, 0), done, "software", "a null text");
    check_answer(turn_client_fingerprint(client, true), done, "fingerprint", "it is to be there");
    check_answer(turn_client_fingerprint(client, false), done, "fingerprint", "it isn't");
}

static void lengths(void)
{
    const unsigned long passed_before = passed, failed_before = failed;
    const turn_settings *good = &exchanges[0].settings;
    turn_client client = TURN_CLIENT_INIT;
    const turn_seed seed = {{1}};
    part_name = "lengths";
    for (int is_open = 0; is_open < 2; is_open++) {
        feed_lengths(&client, good, is_open);
        send_lengths(&client, good, is_open);
        list_by_null(&client, good);
        permit_counts(&client, good, is_open);
        set_credentials(&client, is_open);
        set_software(&client, is_open);
        if (!is_open)
            check_answer(turn_client_open(&client, good, NULL, 0, NULL, 0, &seed), TURN_OK, "open", "null texts");
    }
    turn_client_close(&client);
    printf("lengths: %lu passed, %lu failed\n", passed - passed_before, failed - failed_before);
}

/* ---- the longest payload */

/* Walks the first parts of an exchange: the last step that sent something, at the moment of the last step. */
static struct step walk_quietly(const struct exchange *exchange, size_t parts)
{
    struct step sent = {.call = CALL_SEND};
    walker.client = (turn_client)TURN_CLIENT_INIT;
    walker.exchange = exchange;
    for (size_t i = 0; i < parts; i++) {
        for (size_t k = 0; k < exchange->parts[i].count; k++) {
            const struct step *step = &exchange->parts[i].steps[k];
            step_call(&walker, step);
            if (step->call == CALL_SEND && step->want.answer == TURN_OK)
                sent = *step;
            sent.now = step->now;
        }
    }
    return sent;
}

/* Sends it as a step did, with so many bytes before the payload. */
static void send_longest(struct step *step, size_t head, const char *how)
{
    static uint8_t payload[TURN_PAYLOAD_MAX];
    for (size_t i = 0; i < sizeof payload; i++)
        payload[i] = (uint8_t)(i * 7);
    step->bytes = (struct bytes){payload, sizeof payload};
    check_answer(step_call(&walker, step), TURN_OK, "send", how);
    check(walker.transmit.size == head + sizeof payload && memcmp(walker.out + head, payload, sizeof payload) == 0,
          "the longest payload stands in what is sent");
    check(walker.out[head - 2] == 0xff && walker.out[head - 1] == 0xe0, "its length stands before it");
}

/* What was sent by a channel comes. */
static void feed_longest(uint64_t now)
{
    const turn_settings *settings = &walker.exchange->settings;
    int32_t answer = turn_client_feed(&walker.client, &settings->server, &settings->local, walker.out,
                                      walker.transmit.size, now, &walker.payload);
    check_answer(answer, TURN_PAYLOAD, "feed", "the longest payload");
    check(!walker.payload.is_joined && walker.payload.start == 4 && walker.payload.size == TURN_PAYLOAD_MAX,
          "the longest payload comes");
}

static void longest(void)
{
    const unsigned long passed_before = passed, failed_before = failed;
    part_name = "the longest payload";
    struct step sent = walk_quietly(&exchanges[0], 3);
    send_longest(&sent, 36, "by an indication");
    turn_client_close(&walker.client);
    sent = walk_quietly(&exchanges[0], 4);
    send_longest(&sent, 4, "by a channel");
    feed_longest(sent.now);
    turn_client_close(&walker.client);
    printf("%s: %lu passed, %lu failed\n", part_name, passed - passed_before, failed - failed_before);
}

int main(void)
{
    openings();
    lengths();
    for (size_t i = 0; i < exchange_count; i++)
        walk(&exchanges[i]);
    longest();
    printf("exchange: %lu passed, %lu failed\n", passed, failed);
    return failed == 0 ? 0 : 1;
}
