/* cases.c: courses of a driver against a server that test_driver.py starts.
 *
 *     cases NAME URI [FILE]      FILE has the certificates of authorities, for TLS
 *
 * What is not as it should be is printed, a line each. The exit status is 0 where nothing is. */
#define _GNU_SOURCE
#include <errno.h>
#include <poll.h>
#include <stdio.h>
#include <stdlib.h>
#include <string.h>
#include <time.h>
#include <turn_driver.h>
#ifdef WITH_OPENSSL
#include <turn_driver_openssl.h>
#endif

#define PATIENCE_MS 20000 /* that anything may take on a slow machine */

static const char *uri, *file;
static int wrong;
static turn_driver *driver;
static turn_driver_options options = TURN_DRIVER_OPTIONS_INIT;
static turn_driver_failure failure;
static uint8_t bytes[TURN_MESSAGE_MAX];
static turn_address from;
static size_t len;

/* 198.51.100.1:9000 is a peer, 203.0.113.5:50000 the address that the server gives. */
static const turn_address peer = {{198, 51, 100, 1}, 9000, 4}, nobody = {{0}, 9000, 5};
static const turn_address other = {{198, 51, 100, 2}, 9000, 4}, third = {{198, 51, 100, 3}, 0, 4};
static const turn_address six = {{0x20, 1, 0xd, 0xb8}, 1, 6};

#define SHOULD(it) should(it, #it, __LINE__)

static void should(bool it, const char *what, int line)
{
    if (!it)
        printf("failed: line %d: %s; the last failure: %s\n", line, what,
               driver == NULL ? failure.text : turn_driver_last_failure(driver)->text);
    wrong += !it;
}

static double now(void)
{
    struct timespec at;
    clock_gettime(CLOCK_MONOTONIC, &at);
    return (double)at.tv_sec + (double)at.tv_nsec / 1e9;
}

static bool opens(void)
{
    driver = turn_driver_open(uri, "alice", "secret", &options, &failure);
    SHOULD(driver != NULL);
    return driver != NULL;
}

static int32_t opening(const char *server, const char *user)
{
    driver = turn_driver_open(server, user, "secret", &options, &failure);
    SHOULD(driver == NULL);
    return failure.status;
}

static int32_t receive(int timeout_ms)
{
    return turn_driver_recv_from(driver, &from, bytes, sizeof bytes, &len, timeout_ms);
}

static bool is_peer(const turn_address *it)
{
    return it->family == 4 && memcmp(it->ip, peer.ip, 4) == 0 && it->port == peer.port;
}

static bool came(const char *text)
{
    return receive(PATIENCE_MS) == TURN_DRIVER_OK && len == strlen(text)
           && memcmp(bytes, text, len) == 0 && is_peer(&from);
}

/* ---- memory: malloc and calloc of the driver and the client come here (-Wl,--wrap) */

static long refuse_at = -1, allocations; /* which one fails; how many there were */

void *__real_malloc(size_t size);
void *__real_calloc(size_t count, size_t size);
void *__wrap_malloc(size_t size);
void *__wrap_calloc(size_t count, size_t size);

void *__wrap_malloc(size_t size)
{
    return allocations++ == refuse_at ? NULL : __real_malloc(size);
}

void *__wrap_calloc(size_t count, size_t size)
{
    return allocations++ == refuse_at ? NULL : __real_calloc(count, size);
}

/* Whether an allocation failed since the driver was opened. */
static bool is_any_refused(void)
{
    return refuse_at >= 0 && allocations > refuse_at;
}

/* Whether a call did what it does, or an allocation failed for it. */
static bool is_ample_or_refused(int32_t status)
{
    return status == TURN_DRIVER_OK || (status == TURN_DRIVER_NO_MEMORY && is_any_refused());
}

/* Opens a driver, takes a course with it and closes it, with each allocation refused in turn. */
static void refuse_each(void (*course)(void))
{
    for (refuse_at = 0;; refuse_at++) {
        allocations = 0;
        driver = turn_driver_open(uri, "alice", "secret", &options, &failure);
        if (driver == NULL)
            SHOULD(failure.status == TURN_DRIVER_NO_MEMORY);
        else
            course();
        turn_driver_close(driver);
        driver = NULL;
        if (allocations <= refuse_at)
            break;
    }
    SHOULD(refuse_at > 20);
    refuse_at = -1;
}

/* A datagram goes to the peer and comes back. A send that was refused may be made again. */
static void take_course_of_datagrams(void)
{
    const turn_driver_failure *last = turn_driver_last_failure(driver);
    int32_t status = turn_driver_send_to(driver, &peer, "one", 3);
    SHOULD(is_ample_or_refused(status));
    if (status == TURN_DRIVER_NO_MEMORY && turn_driver_run(driver) == TURN_DRIVER_OK)
        SHOULD(turn_driver_send_to(driver, &peer, "one", 3) == TURN_DRIVER_OK);
    status = receive(1000); /* it may be dropped */
    SHOULD(is_ample_or_refused(status) || (status == TURN_DRIVER_TIMEOUT && is_any_refused()));
    SHOULD(last->status == TURN_DRIVER_OK || last->status == TURN_DRIVER_NO_MEMORY);
}

static void refused_memory(void)
{
    refuse_each(take_course_of_datagrams);
}

/* Two peers are permitted. A request that had no memory may be made again. */
static void take_course_of_permissions(void)
{
    const turn_address both[] = {peer, other};
    const int32_t status = turn_driver_permit_several(driver, both, 2, PATIENCE_MS);
    SHOULD(is_ample_or_refused(status));
    if (status == TURN_DRIVER_NO_MEMORY && turn_driver_run(driver) == TURN_DRIVER_OK)
        SHOULD(turn_driver_permit_several(driver, both, 2, PATIENCE_MS) == TURN_DRIVER_OK);
}

static void refused_memory_of_permissions(void)
{
    refuse_each(take_course_of_permissions);
}

/* Bytes go over a connection and come back. */
static void take_course_of_connection(void)
{
    size_t done;
    int32_t status = turn_driver_connect(driver, &peer, PATIENCE_MS);
    /* a connection whose socket had no memory is refused */
    SHOULD(is_ample_or_refused(status)
           || (status == TURN_DRIVER_PEER_REFUSED && is_any_refused()));
    if (status != TURN_DRIVER_OK)
        return;
    status = turn_driver_write(driver, "one", 3, &done, PATIENCE_MS);
    SHOULD(is_ample_or_refused(status));
    if (status == TURN_DRIVER_OK)
        SHOULD(is_ample_or_refused(turn_driver_read(driver, bytes, 3, &done, PATIENCE_MS)));
}

static void refused_memory_of_connection(void)
{
    options.peers = TURN_TCP;
    refuse_each(take_course_of_connection);
}

/* ---- opening */

static void refused(void)
{
    const char *const bad[] = {"", "example.org", "turn:", "turn:127.0.0.1:0", "stun:127.0.0.1"};
    for (size_t i = 0; i < sizeof bad / sizeof *bad; i++)
        SHOULD(opening(bad[i], "alice") == TURN_DRIVER_BAD_SERVER);
    SHOULD(failure.uri == TURN_URI_OK && opening("turn:", "alice") == TURN_DRIVER_BAD_SERVER
           && failure.uri == TURN_URI_NO_HOST);
    SHOULD(opening("turns:127.0.0.1", "alice") == TURN_DRIVER_BAD_OPTION);
    SHOULD(opening("turns:127.0.0.1?transport=udp", "alice") == TURN_DRIVER_BAD_OPTION);
    SHOULD(opening("turn:127.0.0.1", "\xff") == TURN_DRIVER_BAD_CREDENTIALS);
    memset(bytes, 'a', TURN_NAME_MAX + 1);
    SHOULD(opening("turn:127.0.0.1", (char *)bytes) == TURN_DRIVER_BAD_CREDENTIALS);
    SHOULD(opening("turn:host.invalid", "alice") == TURN_DRIVER_NO_HOST);
    SHOULD(opening("turn:127.0.0.1:9?transport=tcp", "alice") == TURN_DRIVER_NO_SERVER);
    SHOULD(failure.system == ECONNREFUSED);
    SHOULD(turn_driver_open("turn:", "alice", "secret", NULL, NULL) == NULL);
    turn_driver_close(NULL);
    turn_driver_abort(NULL);
}

static void refused_options(void)
{
    const turn_driver_options init = TURN_DRIVER_OPTIONS_INIT;
    turn_driver_options bad[8] = {init, init, init, init, init, init, init, init};
    bad[0].size--;
    bad[1].families = 4;
    bad[2].integrity = 8;
    bad[3].anonymous = 3;
    bad[4].peers = TURN_TCP; /* over UDP */
    bad[5].follow = 9;
    bad[6].local.family = 5;
    bad[7].software = "\xff";
    for (size_t i = 0; i < sizeof bad / sizeof *bad; i++) {
        options = bad[i];
        SHOULD(opening("turn:127.0.0.1:9", "alice") == TURN_DRIVER_BAD_OPTION);
    }
    options = init;
    options.peers = 1;
    SHOULD(opening("turn:127.0.0.1:9", "alice") == TURN_DRIVER_BAD_OPTION);
}

/* The server rejects the allocation by 486, with a reason that has a control character. */
static void rejected(void)
{
    SHOULD(opening(uri, "alice") == TURN_DRIVER_NO_ADDRESS);
    SHOULD(failure.cause.kind == TURN_REJECTED && failure.cause.code == 486);
    SHOULD(failure.cause.is_signed);
    SHOULD(strcmp(failure.text, "no relayed address: rejected 486 signed Noway") == 0);
}

static void wrong_password(void)
{
    SHOULD(opening(uri, "alice") == TURN_DRIVER_NO_ADDRESS);
    SHOULD(failure.cause.kind == TURN_REJECTED && failure.cause.code == 401);
    SHOULD(!failure.cause.is_signed);
}

/* The server doesn't respond. */
static void late(void)
{
    const double began = now();
    options.open_ms = 300;
    SHOULD(opening(uri, "alice") == TURN_DRIVER_NO_ADDRESS);
    SHOULD(failure.cause.kind == TURN_CAUSE_NONE);
    SHOULD(now() - began >= 0.3 && now() - began < 5);
}

/* The server names another one, at which there is an address. */
static void redirected(void)
{
    SHOULD(opening(uri, "alice") == TURN_DRIVER_NO_ADDRESS);
    SHOULD(failure.cause.kind == TURN_REJECTED && failure.cause.code == 300);
    const turn_address alternate = failure.cause.alternate;
    SHOULD(alternate.family == 4);
    options.follow = 1;
    if (!opens())
        return;
    const turn_address server = turn_driver_server(driver);
    SHOULD(server.port == alternate.port);
    SHOULD(turn_driver_send_to(driver, &peer, "one", 3) == TURN_DRIVER_OK && came("one"));
}

/* The server names itself. */
static void redirected_in_a_circle(void)
{
    options.follow = 8;
    SHOULD(opening(uri, "alice") == TURN_DRIVER_NO_ADDRESS);
    SHOULD(failure.cause.code == 300);
}

/* ---- datagrams */

/* The peer sends back what comes, first from an indication, then by a channel. */
static void datagrams(void)
{
    turn_address relayed, mapped;
    if (!opens())
        return;
    SHOULD(turn_driver_relayed(driver, &relayed, 1) == 1 && relayed.port == 50000);
    SHOULD(turn_driver_mapped(driver, &mapped) && mapped.port == 9000 && mapped.ip[3] == 9);
    SHOULD(receive(0) == TURN_DRIVER_TIMEOUT);
    SHOULD(turn_driver_send_to(driver, &peer, "one", 3) == TURN_DRIVER_OK && came("one"));
    SHOULD(receive(200) == TURN_DRIVER_TIMEOUT); /* meanwhile there is a channel */
    SHOULD(turn_driver_send_to(driver, &peer, "other", 5) == TURN_DRIVER_OK && came("other"));
    SHOULD(turn_driver_send_to(driver, &peer, NULL, 0) == TURN_DRIVER_OK && came(""));
    SHOULD(turn_driver_dropped(driver) == 0);
    SHOULD(turn_driver_last_failure(driver)->status == TURN_DRIVER_OK);
}

static void indications(void)
{
    options.indications = 1;
    datagrams();
}

static void arguments(void)
{
    size_t done;
    if (!opens())
        return;
    SHOULD(turn_driver_send_to(driver, &nobody, "a", 1) == TURN_DRIVER_BAD_PEER);
    SHOULD(turn_driver_permit(driver, &nobody, 0) == TURN_DRIVER_BAD_PEER);
    SHOULD(turn_driver_send_to(driver, &peer, bytes, TURN_PAYLOAD_MAX + 1)
           == TURN_DRIVER_TOO_LARGE);
    SHOULD(turn_driver_connect(driver, &peer, 0) == TURN_DRIVER_BAD_KIND);
    SHOULD(turn_driver_read(driver, bytes, 1, &done, 0) == TURN_DRIVER_BAD_KIND);
    SHOULD(turn_driver_write(driver, bytes, 1, &done, 0) == TURN_DRIVER_BAD_KIND);
    SHOULD(turn_driver_credentials(driver, "\xff", "p") == TURN_DRIVER_BAD_CREDENTIALS);
    SHOULD(turn_driver_credentials(driver, "bob", "p") == TURN_DRIVER_OK);
    SHOULD(turn_driver_send_to(driver, &six, "a", 1) == TURN_DRIVER_PEER_REFUSED);
    SHOULD(turn_driver_last_failure(driver)->peer.family == 6);
    SHOULD(turn_driver_permit(driver, &six, 0) == TURN_DRIVER_PEER_REFUSED);
}

/* So many addresses, all different. */
static const turn_address *many(size_t count)
{
    static turn_address all[2 * TURN_PERMIT_MAX];
    for (size_t i = 0; i < count; i++)
        all[i] = (turn_address){{198, 51, 101, (uint8_t)i}, 9000, 4};
    return all;
}

static void arguments_of_several(void)
{
    const turn_address bad[] = {peer, nobody}, families[] = {peer, six}, sixes[] = {six, six};
    if (!opens())
        return;
    const turn_driver_failure *last = turn_driver_last_failure(driver);
    SHOULD(turn_driver_permit_several(driver, NULL, 0, 0) == TURN_DRIVER_BAD_ADDRESSES);
    SHOULD(turn_driver_permit_several(driver, families, 2, 0) == TURN_DRIVER_BAD_ADDRESSES);
    SHOULD(turn_driver_permit_several(driver, many(TURN_PERMIT_MAX + 1), TURN_PERMIT_MAX + 1, 0)
           == TURN_DRIVER_BAD_ADDRESSES);
    SHOULD(turn_driver_permit_several(driver, bad, 2, 0) == TURN_DRIVER_BAD_PEER);
    SHOULD(turn_driver_permit_several(driver, sixes, 2, 0) == TURN_DRIVER_PEER_REFUSED);
    SHOULD(last->peer.family == 6 && strstr(last->text, "no relayed address of IPv6") != NULL);
    SHOULD(turn_driver_run(driver) == TURN_DRIVER_OK);
}

static void permits(void)
{
    if (!opens())
        return;
    SHOULD(turn_driver_permit(driver, &peer, PATIENCE_MS) == TURN_DRIVER_OK);
    SHOULD(turn_driver_permit(driver, &peer, 0) == TURN_DRIVER_OK);
    SHOULD(turn_driver_send_to(driver, &peer, "one", 3) == TURN_DRIVER_OK && came("one"));
}

/* Those that are permitted already are not requested again. */
static void permits_several(void)
{
    turn_address peers[] = {peer, other, {{198, 51, 100, 1}, 9001, 4}, third, other};
    if (!opens())
        return;
    SHOULD(turn_driver_permit(driver, &other, PATIENCE_MS) == TURN_DRIVER_OK);
    SHOULD(turn_driver_permit_several(driver, peers, 5, PATIENCE_MS) == TURN_DRIVER_OK);
    SHOULD(turn_driver_permit_several(driver, peers, 5, 0) == TURN_DRIVER_OK);
    SHOULD(turn_driver_permit(driver, &third, 0) == TURN_DRIVER_OK);
    SHOULD(turn_driver_send_to(driver, &peer, "one", 3) == TURN_DRIVER_OK && came("one"));
}

/* As many as may be, each named twice. */
static void permits_many(void)
{
    turn_address peers[2 * TURN_PERMIT_MAX];
    const size_t size = sizeof peers / 2;
    memcpy(peers, many(TURN_PERMIT_MAX), size);
    memcpy(peers + TURN_PERMIT_MAX, peers, size);
    if (!opens())
        return;
    SHOULD(turn_driver_permit_several(driver, peers, 2 * TURN_PERMIT_MAX, PATIENCE_MS)
           == TURN_DRIVER_OK);
}

/* A datagram waits for the permission of one of the peers, which is not requested again. */
static void permits_beside_a_send(void)
{
    const turn_address peers[] = {peer, other, third};
    if (!opens())
        return;
    SHOULD(turn_driver_send_to(driver, &peer, "one", 3) == TURN_DRIVER_OK);
    SHOULD(turn_driver_permit_several(driver, peers, 3, PATIENCE_MS) == TURN_DRIVER_OK);
    SHOULD(turn_driver_permit_several(driver, peers, 3, 0) == TURN_DRIVER_OK);
    SHOULD(came("one"));
}

/* The server denies the third peer: so it rejects what is requested for several. */
static void rejected_peers(void)
{
    const turn_address peers[] = {peer, other, third};
    if (!opens())
        return;
    const turn_driver_failure *last = turn_driver_last_failure(driver);
    SHOULD(turn_driver_permit(driver, &peer, PATIENCE_MS) == TURN_DRIVER_OK);
    SHOULD(turn_driver_permit_several(driver, peers, 3, PATIENCE_MS) == TURN_DRIVER_PEER_REFUSED);
    SHOULD(last->cause.kind == TURN_REJECTED && last->cause.code == 403);
    SHOULD(strcmp(last->text, "no permission for 198.51.100.2: rejected 403 signed Noway") == 0);
    SHOULD(last->peer.ip[3] == 2 && last->peer.port == 0);
    SHOULD(receive(100) == TURN_DRIVER_TIMEOUT); /* nothing is reported beside */
    SHOULD(turn_driver_permit_several(driver, peers, 2, PATIENCE_MS) == TURN_DRIVER_OK);
}

/* The server rejects permissions by 403. */
static void rejected_peer(void)
{
    if (!opens())
        return;
    SHOULD(turn_driver_permit(driver, &peer, PATIENCE_MS) == TURN_DRIVER_PEER_REFUSED);
    const turn_driver_failure *last = turn_driver_last_failure(driver);
    SHOULD(last->cause.kind == TURN_REJECTED && last->cause.code == 403 && last->peer.port == 0);
    SHOULD(strcmp(last->text, "no permission for 198.51.100.1: rejected 403 signed Noway") == 0);
    SHOULD(receive(0) == TURN_DRIVER_TIMEOUT);
    SHOULD(turn_driver_send_to(driver, &peer, "one", 3) == TURN_DRIVER_OK);
    SHOULD(receive(PATIENCE_MS) == TURN_DRIVER_PEER_REFUSED && last->cause.code == 403);
    SHOULD(receive(100) == TURN_DRIVER_TIMEOUT); /* it is reported once */
}

/* The server doesn't respond to requests for permissions. */
static void waiting(void)
{
    if (!opens())
        return;
    const turn_address both[] = {peer, other};
    SHOULD(turn_driver_permit(driver, &peer, 0) == TURN_DRIVER_TIMEOUT);
    SHOULD(turn_driver_permit_several(driver, both, 2, 0) == TURN_DRIVER_TIMEOUT);
    SHOULD(turn_driver_permit_several(driver, both, 2, 0) == TURN_DRIVER_TIMEOUT);
    for (int i = 0; i < TURN_DRIVER_WAITING_MAX; i++)
        SHOULD(turn_driver_send_to(driver, &peer, "a", 1) == TURN_DRIVER_OK);
    SHOULD(turn_driver_send_to(driver, &peer, "a", 1) == TURN_DRIVER_FULL);
}

static void waiting_bytes(void)
{
    if (!opens())
        return;
    for (int i = 0; i < TURN_DRIVER_WAITING_BYTES_MAX / TURN_PAYLOAD_MAX; i++)
        SHOULD(turn_driver_send_to(driver, &peer, bytes, TURN_PAYLOAD_MAX) == TURN_DRIVER_OK);
    const size_t left = TURN_DRIVER_WAITING_BYTES_MAX % TURN_PAYLOAD_MAX;
    SHOULD(turn_driver_send_to(driver, &peer, bytes, left + 1) == TURN_DRIVER_FULL);
    SHOULD(turn_driver_send_to(driver, &peer, bytes, left) == TURN_DRIVER_OK);
    SHOULD(turn_driver_send_to(driver, &peer, bytes, 1) == TURN_DRIVER_FULL);
}

static void small_buffer(void)
{
    if (!opens())
        return;
    SHOULD(turn_driver_send_to(driver, &peer, "datagram", 8) == TURN_DRIVER_OK);
    SHOULD(turn_driver_recv_from(driver, &from, bytes, 7, &len, PATIENCE_MS)
           == TURN_DRIVER_SMALL_BUFFER);
    SHOULD(len == 8 && turn_driver_deadline(driver) == 0);
    SHOULD(came("datagram"));
}

/* More comes than may wait, and nobody takes it. */
static void received(void)
{
    const int all = TURN_DRIVER_RECEIVED_MAX + 50;
    int count = 0;
    if (!opens())
        return;
    SHOULD(turn_driver_permit(driver, &peer, PATIENCE_MS) == TURN_DRIVER_OK);
    const double until = now() + PATIENCE_MS / 1000.0;
    for (int i = 0; i < all || (turn_driver_dropped(driver) < 50 && now() < until); i++) {
        if (i < all)
            SHOULD(turn_driver_send_to(driver, &peer, "a", 1) == TURN_DRIVER_OK);
        SHOULD(turn_driver_run(driver) == TURN_DRIVER_OK);
    }
    SHOULD(turn_driver_dropped(driver) == 50);
    while (receive(0) == TURN_DRIVER_OK)
        count++;
    SHOULD(count == TURN_DRIVER_RECEIVED_MAX);
}

/* As soon as there is a permission the server passes on an ICMP report: type 3, code 3, data 5. */
static void unreachable(void)
{
    if (!opens())
        return;
    SHOULD(turn_driver_permit(driver, &peer, PATIENCE_MS) == TURN_DRIVER_OK);
    SHOULD(turn_driver_send_to(driver, &peer, "one", 3) == TURN_DRIVER_OK);
    SHOULD(receive(PATIENCE_MS) == TURN_DRIVER_UNREACHABLE);
    const turn_driver_failure *last = turn_driver_last_failure(driver);
    SHOULD(is_peer(&last->peer) && last->icmp_type == 3 && last->icmp_code == 3
           && last->icmp_data == 5);
    SHOULD(receive(100) == TURN_DRIVER_TIMEOUT);
}

/* By poll(2) in a loop of the program's own. */
static void own_loop(void)
{
    struct pollfd fds[TURN_DRIVER_FDS_MAX];
    int32_t status = TURN_DRIVER_TIMEOUT;
    if (!opens())
        return;
    SHOULD(turn_driver_pollfds(driver, NULL, 0) == 1);
    SHOULD(turn_driver_send_to(driver, &peer, "one", 3) == TURN_DRIVER_OK);
    const double until = now() + PATIENCE_MS / 1000.0;
    while (status == TURN_DRIVER_TIMEOUT && now() < until) {
        const size_t count = turn_driver_pollfds(driver, fds, TURN_DRIVER_FDS_MAX);
        const double wait = (double)turn_driver_deadline(driver) / 1e9 - now();
        poll(fds, (nfds_t)count, wait > 0 ? (int)(wait * 1000) + 1 : 0);
        status = receive(0);
    }
    SHOULD(status == TURN_DRIVER_OK && len == 3 && is_peer(&from));
    SHOULD(fds[0].fd == turn_driver_fd(driver));
}

/* Nothing is done for a second, but for what is due: that is no loop that spins. */
static void idle(void)
{
    if (!opens())
        return;
    SHOULD(turn_driver_permit(driver, &peer, PATIENCE_MS) == TURN_DRIVER_OK);
    const clock_t before = clock();
    SHOULD(receive(1000) == TURN_DRIVER_TIMEOUT);
    SHOULD((double)(clock() - before) / CLOCKS_PER_SEC < 0.5);
}

/* The server closes the connection when there is a permission. */
static void lost(void)
{
    struct pollfd fds[TURN_DRIVER_FDS_MAX];
    if (!opens())
        return;
    SHOULD(turn_driver_permit(driver, &peer, PATIENCE_MS) == TURN_DRIVER_OK);
    SHOULD(turn_driver_send_to(driver, &peer, "close", 5) == TURN_DRIVER_OK);
    SHOULD(receive(PATIENCE_MS) == TURN_DRIVER_LOST);
    SHOULD(strstr(turn_driver_last_failure(driver)->text, "closed") != NULL);
    SHOULD(receive(PATIENCE_MS) == TURN_DRIVER_LOST);
    SHOULD(turn_driver_send_to(driver, &peer, "a", 1) == TURN_DRIVER_LOST);
    SHOULD(turn_driver_permit(driver, &peer, -1) == TURN_DRIVER_LOST);
    SHOULD(turn_driver_permit_several(driver, &peer, 1, -1) == TURN_DRIVER_LOST);
    SHOULD(turn_driver_run(driver) == TURN_DRIVER_LOST);
    SHOULD(turn_driver_credentials(driver, "a", "b") == TURN_DRIVER_LOST);
    SHOULD(turn_driver_pollfds(driver, fds, TURN_DRIVER_FDS_MAX) == 0);
    SHOULD(turn_driver_deadline(driver) == 0 && turn_driver_fd(driver) == -1);
    SHOULD(turn_driver_relayed(driver, NULL, 0) == 0 && !turn_driver_mapped(driver, &from));
}

/* The server doesn't respond to the end. */
static void silent_end(void)
{
    if (!opens())
        return;
    const double began = now();
    turn_driver_close(driver);
    driver = NULL;
    SHOULD(now() - began >= TURN_DRIVER_CLOSE_MS / 1000.0 && now() - began < 15);
}

static void aborted(void)
{
    if (!opens())
        return;
    turn_driver_abort(driver);
    driver = NULL;
}

/* ---- a connection (RFC 6062) */

static bool connects(void)
{
    options.peers = TURN_TCP;
    if (!opens())
        return false;
    const int32_t status = turn_driver_connect(driver, &peer, PATIENCE_MS);
    SHOULD(status == TURN_DRIVER_OK);
    return status == TURN_DRIVER_OK;
}

/* A million bytes go to the peer, which sends them back. */
static void connection(void)
{
    enum { ALL = 1000000 };
    static uint8_t sent[ALL], back[ALL];
    size_t at = 0, got = 0, done = 0;
    if (!connects())
        return;
    for (size_t i = 0; i < ALL; i++)
        sent[i] = (uint8_t)(i * 2654435761u >> 24);
    const double until = now() + PATIENCE_MS / 1000.0;
    while (got < ALL && now() < until) {
        if (at < ALL && turn_driver_write(driver, sent + at, ALL - at, &done, 0) >= 0)
            at += done;
        const int32_t status = turn_driver_read(driver, back + got, ALL - got, &done,
                                                at < ALL ? 0 : 1000);
        SHOULD(status == TURN_DRIVER_OK || status == TURN_DRIVER_TIMEOUT);
        got += done;
    }
    SHOULD(at == ALL && got == ALL && memcmp(sent, back, ALL) == 0);
    SHOULD(turn_driver_connect(driver, &peer, 0) == TURN_DRIVER_OK);
    const turn_address elsewhere = {{198, 51, 100, 1}, 9001, 4};
    SHOULD(turn_driver_connect(driver, &elsewhere, 0) == TURN_DRIVER_PEER_REFUSED);
    SHOULD(turn_driver_send_to(driver, &peer, "a", 1) == TURN_DRIVER_BAD_KIND);
    SHOULD(receive(0) == TURN_DRIVER_BAD_KIND);
    SHOULD(turn_driver_permit(driver, &peer, 0) == TURN_DRIVER_BAD_KIND);
    SHOULD(turn_driver_permit_several(driver, &peer, 1, 0) == TURN_DRIVER_BAD_KIND);
}

/* Nobody reads: the peer has to wait, and nothing is lost. The server greets with 2,000,000
 * bytes. */
static void unread(void)
{
    enum { ALL = 2000000 };
    size_t got = 0, done = 0;
    if (!connects())
        return;
    for (double until = now() + 0.5; now() < until;)
        SHOULD(turn_driver_run(driver) == TURN_DRIVER_OK);
    bool is_right = true;
    while (got < ALL
           && turn_driver_read(driver, bytes, 10000, &done, PATIENCE_MS) == TURN_DRIVER_OK) {
        for (size_t i = 0; i < done; i++)
            is_right &= bytes[i] == (uint8_t)((got + i) % 251);
        got += done;
    }
    SHOULD(is_right && got == ALL);
}

/* The peer greets and closes. */
static void ended(void)
{
    size_t done = 0, got = 0;
    int32_t status;
    if (!connects())
        return;
    while ((status = turn_driver_read(driver, bytes + got, 100, &done, PATIENCE_MS))
           == TURN_DRIVER_OK)
        got += done;
    SHOULD(status == TURN_DRIVER_END && got == 7 && memcmp(bytes, "welcome", 7) == 0);
    SHOULD(turn_driver_read(driver, bytes, 100, &done, -1) == TURN_DRIVER_END && done == 0);
    SHOULD(turn_driver_write(driver, "a", 1, &done, -1) == TURN_DRIVER_END && done == 0);
}

/* The server rejects the connection by 447. */
static void rejected_connection(void)
{
    size_t done;
    options.peers = TURN_TCP;
    if (!opens())
        return;
    SHOULD(turn_driver_read(driver, bytes, 1, &done, 0) == TURN_DRIVER_NO_CONNECTION);
    SHOULD(turn_driver_write(driver, bytes, 1, &done, 0) == TURN_DRIVER_NO_CONNECTION);
    SHOULD(turn_driver_connect(driver, &nobody, 0) == TURN_DRIVER_BAD_PEER);
    SHOULD(turn_driver_connect(driver, &peer, PATIENCE_MS) == TURN_DRIVER_PEER_REFUSED);
    const turn_driver_failure *last = turn_driver_last_failure(driver);
    SHOULD(last->cause.kind == TURN_REJECTED && last->cause.code == 447 && is_peer(&last->peer));
    SHOULD(turn_driver_connect(driver, &peer, PATIENCE_MS) == TURN_DRIVER_PEER_REFUSED);
}

/* ---- TLS */

#ifdef WITH_OPENSSL
static turn_driver_tls *tls;

static void trusts(const char *authorities)
{
    char why[256];
    tls = turn_driver_openssl_new(authorities, why, sizeof why);
    SHOULD(tls != NULL);
    options.tls = tls;
}

static void over_tls(void)
{
    trusts(file);
    datagrams();
}

static void connection_over_tls(void)
{
    trusts(file);
    connection();
}

/* The certificate is right, and for another host. */
static void another_host(void)
{
    trusts(file);
    SHOULD(opening(uri, "alice") == TURN_DRIVER_NO_TLS);
    SHOULD(strstr(failure.text, "certificate verify failed") != NULL);
    SHOULD(strstr(failure.text, "mismatch") != NULL);
}

/* The system's authorities don't vouch for the certificate. */
static void untrusted(void)
{
    trusts(NULL);
    SHOULD(opening(uri, "alice") == TURN_DRIVER_NO_TLS);
    SHOULD(strstr(failure.text, "certificate verify failed") != NULL);
}

static void no_authorities(void)
{
    char why[256] = "";
    SHOULD(turn_driver_openssl_new("/nowhere/authorities.pem", why, sizeof why) == NULL);
    SHOULD(strstr(why, "cannot be read") != NULL);
    SHOULD(turn_driver_openssl_new("/nowhere/authorities.pem", NULL, 0) == NULL);
    turn_driver_openssl_free(NULL);
}

/* The server speaks no TLS. */
static void no_tls(void)
{
    trusts(file);
    options.open_ms = 2000;
    SHOULD(opening(uri, "alice") == TURN_DRIVER_NO_TLS);
}
#endif

static const struct {
    const char *name;
    void (*run)(void);
} cases[] = {
    {"refused", refused}, {"refused_options", refused_options}, {"rejected", rejected},
    {"wrong_password", wrong_password}, {"late", late}, {"redirected", redirected},
    {"redirected_in_a_circle", redirected_in_a_circle}, {"datagrams", datagrams},
    {"indications", indications}, {"arguments", arguments}, {"permits", permits},
    {"arguments_of_several", arguments_of_several}, {"permits_several", permits_several},
    {"permits_many", permits_many}, {"permits_beside_a_send", permits_beside_a_send},
    {"rejected_peers", rejected_peers},
    {"refused_memory_of_permissions", refused_memory_of_permissions},
    {"rejected_peer", rejected_peer}, {"waiting", waiting}, {"waiting_bytes", waiting_bytes},
    {"small_buffer", small_buffer}, {"received", received}, {"unreachable", unreachable},
    {"own_loop", own_loop}, {"idle", idle}, {"lost", lost}, {"silent_end", silent_end},
    {"aborted", aborted}, {"connection", connection}, {"unread", unread}, {"ended", ended},
    {"rejected_connection", rejected_connection}, {"refused_memory", refused_memory},
    {"refused_memory_of_connection", refused_memory_of_connection},
#ifdef WITH_OPENSSL
    {"over_tls", over_tls}, {"connection_over_tls", connection_over_tls},
    {"another_host", another_host}, {"untrusted", untrusted}, {"no_authorities", no_authorities},
    {"no_tls", no_tls},
#endif
};

int main(int argc, char **argv)
{
    uri = argc > 2 ? argv[2] : "";
    file = argc > 3 ? argv[3] : NULL;
    for (size_t i = 0; argc > 1 && i < sizeof cases / sizeof *cases; i++) {
        if (strcmp(argv[1], cases[i].name) == 0) {
            cases[i].run();
            turn_driver_close(driver);
#ifdef WITH_OPENSSL
            turn_driver_openssl_free(tls);
#endif
            return wrong > 0;
        }
    }
    printf("failed: there is no such case\n");
    return 2;
}
