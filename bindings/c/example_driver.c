/* example_driver.c: sends payloads through a TURN server to a peer that sends them back, over
 * turn_driver.h: by UDP, TCP or TLS to the server, as datagrams or over a connection (RFC 6062).
 *
 *     TURN_PASSWORD=secret ./example_driver --server 127.0.0.1:3478 --user alice \
 *         --peer 127.0.0.1:9000
 *
 * README says how it is built. `--help` lists the options and the exit status. */
#define _GNU_SOURCE
#include <getopt.h>
#include <stdio.h>
#include <stdlib.h>
#include <string.h>
#include <time.h>
#include <turn_driver_openssl.h>

#define PATIENCE_MS 2000 /* how long the last payloads are waited for */
#define SIZE_MAX_OF_ONE 65504

enum outcome { ALL_BACK, SOME_LOST, BAD_USAGE, FAILED, NO_ANSWER };

struct options {
    char server[128];
    const char *user, *password, *authorities;
    turn_address peer;
    bool is_stream;
    long count, size, interval, seconds;
    turn_driver_options driver;
};

/* The payloads, by their numbers: what is in each depends on that. */
struct run {
    const struct options *options;
    turn_driver *driver;
    bool *is_back;
    long back;
    double began;
};

static double seconds_now(void)
{
    struct timespec now;
    clock_gettime(CLOCK_MONOTONIC, &now);
    return (double)now.tv_sec + (double)now.tv_nsec / 1e9;
}

static void fill(uint8_t *payload, long number, long size)
{
    for (long i = 0; i < size; i++)
        payload[i] = (uint8_t)(i < 4 ? number >> (8 * (3 - i)) : number + i);
}

/* ---- what is said */

static void say_address(const char *what, const turn_address *address)
{
    char text[TURN_ADDRESS_TEXT_MAX];
    printf("%s: %s\n", what, turn_address_text(address, text));
    fflush(stdout);
}

/* Says why something failed: the exit status that comes of it. */
static enum outcome say_failure(const turn_driver_failure *failure)
{
    const turn_cause *cause = &failure->cause;
    printf("%s\n", failure->text);
    if (cause->kind == TURN_REJECTED)
        printf("cause: rejected %u %s\n", (unsigned)cause->code,
               cause->is_signed ? "signed" : "unsigned");
    if (cause->kind == TURN_UNANSWERED)
        printf("cause: unanswered\n");
    if (cause->alternate.family != 0)
        say_address("alternate server", &cause->alternate);
    switch (failure->status) {
    case TURN_DRIVER_BAD_SERVER:
    case TURN_DRIVER_BAD_OPTION:
    case TURN_DRIVER_BAD_CREDENTIALS:
        return BAD_USAGE;
    case TURN_DRIVER_NO_HOST:
    case TURN_DRIVER_NO_SERVER:
    case TURN_DRIVER_NO_TLS:
        return NO_ANSWER;
    default:
        return cause->kind == TURN_UNANSWERED ? NO_ANSWER : FAILED;
    }
}

static enum outcome say_last(const struct run *run)
{
    return say_failure(turn_driver_last_failure(run->driver));
}

/* ---- datagrams */

/* Notes a payload that came back. */
static void take(struct run *run, const uint8_t *bytes, size_t len)
{
    static uint8_t wanted[SIZE_MAX_OF_ONE];
    const struct options *o = run->options;
    if (len != (size_t)o->size)
        return;
    const long number = (long)bytes[0] << 24 | bytes[1] << 16 | bytes[2] << 8 | bytes[3];
    if (number >= o->count || run->is_back[number])
        return;
    fill(wanted, number, o->size);
    if (memcmp(wanted, bytes, len) != 0)
        return;
    run->is_back[number] = true;
    run->back++;
}

/* Receives until a time, or all payloads are back: below zero if the driver is over. */
static int32_t receive_until(struct run *run, double until, bool stops_when_all_back)
{
    static uint8_t bytes[TURN_MESSAGE_MAX];
    turn_address peer;
    size_t len;
    for (;;) {
        const double left = until - seconds_now();
        const int wait = left > 0 ? (int)(left * 1000) + 1 : 0;
        const int32_t status = turn_driver_recv_from(run->driver, &peer, bytes, sizeof bytes, &len,
                                                     wait);
        if (status == TURN_DRIVER_OK)
            take(run, bytes, len);
        else if (status == TURN_DRIVER_PEER_REFUSED || status == TURN_DRIVER_UNREACHABLE)
            printf("an error: %s\n", turn_driver_last_failure(run->driver)->text);
        else
            return status;
        if (stops_when_all_back && run->back == run->options->count)
            return TURN_DRIVER_OK;
    }
}

static enum outcome exchange_datagrams(struct run *run)
{
    static uint8_t payload[SIZE_MAX_OF_ONE];
    const struct options *o = run->options;
    const double keeps_until = seconds_now() + (double)o->seconds;
    int32_t status = o->count > 0 ? turn_driver_permit(run->driver, &o->peer, -1) : TURN_DRIVER_OK;
    for (long i = 0; status >= 0 && i < o->count; i++) {
        fill(payload, i, o->size);
        status = turn_driver_send_to(run->driver, &o->peer, payload, (size_t)o->size);
        if (status == TURN_DRIVER_FULL) /* it is lost, as any datagram may be */
            status = TURN_DRIVER_OK;
        if (status == TURN_DRIVER_OK)
            status = receive_until(run, seconds_now() + (double)o->interval / 1000, false);
    }
    if (status >= 0 && run->back < o->count)
        status = receive_until(run, seconds_now() + PATIENCE_MS / 1000.0, true);
    if (status >= 0)
        status = receive_until(run, keeps_until, false);
    const enum outcome outcome = status < 0                 ? say_last(run)
                                 : run->back == o->count ? ALL_BACK
                                                         : SOME_LOST;
    printf("%8.3f  gives the address back\n", seconds_now() - run->began);
    return outcome;
}

/* ---- a connection */

/* Reads what is there, and compares it. Whether it goes on. */
static bool read_some(struct run *run, size_t *came, int timeout_ms, int32_t *status)
{
    static uint8_t bytes[65536], wanted[SIZE_MAX_OF_ONE];
    const size_t size = (size_t)run->options->size;
    size_t len;
    *status = turn_driver_read(run->driver, bytes, sizeof bytes, &len, timeout_ms);
    for (size_t i = 0; *status == TURN_DRIVER_OK && i < len; i++, (*came)++) {
        if (*came % size == 0 || i == 0)
            fill(wanted, (long)(*came / size), (long)size);
        if (bytes[i] != wanted[*came % size])
            return false;
    }
    return *status == TURN_DRIVER_OK || *status == TURN_DRIVER_TIMEOUT;
}

static enum outcome exchange_stream(struct run *run)
{
    static uint8_t payload[SIZE_MAX_OF_ONE];
    const struct options *o = run->options;
    const size_t all = (size_t)(o->count * o->size);
    size_t came = 0, at = 0, written;
    int32_t status = turn_driver_connect(run->driver, &o->peer, -1);
    while (status == TURN_DRIVER_OK && came < all) {
        if (at < all) {
            fill(payload, (long)(at / (size_t)o->size), o->size);
            const size_t offset = at % (size_t)o->size;
            status = turn_driver_write(run->driver, payload + offset, (size_t)o->size - offset,
                                       &written, 0);
            at += written;
        }
        const bool has_room = at < all && status == TURN_DRIVER_OK;
        if (status < 0 || !read_some(run, &came, has_room ? 0 : PATIENCE_MS, &status))
            break;
        if (status == TURN_DRIVER_TIMEOUT && !has_room)
            break; /* nothing comes back any more */
        status = TURN_DRIVER_OK;
    }
    run->back = came == all ? o->count : 0;
    if (status < 0)
        return say_last(run);
    return came == all ? ALL_BACK : SOME_LOST;
}

/* ---- options */

static void print_help(FILE *out)
{
    fputs("usage: example_driver --server IP:PORT --user NAME [OPTION..]\n"
          "The password is the variable TURN_PASSWORD.\n"
          "  --server IP:PORT    the TURN server; of IPv6 [IP]:PORT\n"
          "  --user NAME\n"
          "  --tcp               over TCP to the server\n"
          "  --tls FILE          over TLS; the certificates in FILE vouch for the server's\n"
          "  --peer IP:PORT      the peer, which is to send back what it gets\n"
          "  --connect IP:PORT   the same, over a connection over TCP (RFC 6062)\n"
          "  --count N           how many payloads; without it 10\n"
          "  --size BYTES        of each, 4 to 65504; without it 100\n"
          "  --interval MS       between two payloads; without it 1\n"
          "  --seconds N         how long the address is kept at least; without it 0\n"
          "  --indications       no channel: each payload goes in an indication\n"
          "  --redirects N       how many other servers are tried, which servers name; 0 to 8\n"
          "exit status: 0 all came back, or nothing was to be sent; 1 something was lost; 2 "
          "options that\ncannot be read; 3 the server refused something, or the address is lost; "
          "4 no answer, or no\nconnection to the server\n",
          out);
}

static bool read_number(const char *text, long least, long most, long *number)
{
    char *end = NULL;
    *number = strtol(text, &end, 10);
    return text[0] >= '0' && text[0] <= '9' && *end == '\0' && *number >= least && *number <= most;
}

/* Takes one option: whether it can be read. */
static bool take_option(struct options *o, int option, const char *value, const char **server)
{
    long number = 0;
    switch (option) {
    case 's': *server = value; return true;
    case 'u': o->user = value; return true;
    case 't': o->authorities = value; return true;
    case 'T': o->is_stream = true; return true;
    case 'c': o->driver.peers = TURN_TCP; return turn_address_parse(value, &o->peer);
    case 'p': return turn_address_parse(value, &o->peer);
    case 'n': return read_number(value, 0, 1000000, &o->count);
    case 'z': return read_number(value, 4, SIZE_MAX_OF_ONE, &o->size);
    case 'i': return read_number(value, 0, 3600000, &o->interval);
    case 'k': return read_number(value, 0, 1000000, &o->seconds);
    case 'I': o->driver.indications = 1; return true;
    case 'r':
        if (!read_number(value, 0, 8, &number))
            return false;
        o->driver.follow = (uint32_t)number;
        return true;
    default: return false;
    }
}

/* Reads the options: an exit status, or -1 to go on. */
static int read_options(int argc, char **argv, struct options *o)
{
    static const struct option known[] = {
        {"server", 1, NULL, 's'}, {"user", 1, NULL, 'u'}, {"tls", 1, NULL, 't'},
        {"tcp", 0, NULL, 'T'}, {"peer", 1, NULL, 'p'}, {"connect", 1, NULL, 'c'},
        {"count", 1, NULL, 'n'}, {"size", 1, NULL, 'z'}, {"interval", 1, NULL, 'i'},
        {"seconds", 1, NULL, 'k'}, {"indications", 0, NULL, 'I'}, {"redirects", 1, NULL, 'r'},
        {"help", 0, NULL, 'h'}, {NULL, 0, NULL, 0}};
    const char *server = NULL;
    int option;
    *o = (struct options){.count = 10, .size = 100, .interval = 1,
                          .driver = TURN_DRIVER_OPTIONS_INIT};
    while ((option = getopt_long(argc, argv, "", known, NULL)) != -1) {
        if (option == 'h') {
            print_help(stdout);
            return ALL_BACK;
        }
        if (!take_option(o, option, optarg, &server)) {
            fputs("example_driver: an option cannot be read\n", stderr);
            return BAD_USAGE;
        }
    }
    o->password = getenv("TURN_PASSWORD");
    if (server == NULL || o->user == NULL || o->password == NULL || optind < argc) {
        print_help(stderr);
        return BAD_USAGE;
    }
    o->count = o->peer.family == 0 ? 0 : o->count;
    o->driver.families = (o->peer.family != 0 ? o->peer.family == 6 : server[0] == '[')
                             ? TURN_IPV6 : TURN_IPV4;
    snprintf(o->server, sizeof o->server, "%s:%s%s", o->authorities != NULL ? "turns" : "turn",
             server, o->is_stream && o->authorities == NULL ? "?transport=tcp" : "");
    return -1;
}

/* ---- the whole */

static void say_addresses(turn_driver *driver)
{
    const turn_address server = turn_driver_server(driver);
    turn_address address = {.family = 0};
    say_address("server address", &server);
    if (turn_driver_relayed(driver, &address, 1) > 0)
        say_address("relayed address", &address);
    if (turn_driver_mapped(driver, &address))
        say_address("public address", &address);
}

static enum outcome run_all(struct run *run)
{
    const struct options *o = run->options;
    turn_driver_failure failure;
    enum outcome outcome;
    run->began = seconds_now();
    run->driver = turn_driver_open(o->server, o->user, o->password, &o->driver, &failure);
    if (run->driver == NULL)
        return say_failure(&failure);
    say_addresses(run->driver);
    outcome = o->driver.peers == TURN_TCP ? exchange_stream(run) : exchange_datagrams(run);
    turn_driver_close(run->driver);
    printf("%ld of %ld payloads came back\n", run->back, o->count);
    return outcome;
}

int main(int argc, char **argv)
{
    struct options options;
    struct run run = {.options = &options};
    turn_driver_tls *tls = NULL;
    char why[256];
    const int status = read_options(argc, argv, &options);
    if (status >= 0)
        return status;
    if (options.authorities != NULL) {
        tls = turn_driver_openssl_new(options.authorities, why, sizeof why);
        options.driver.tls = tls;
        if (tls == NULL) {
            fprintf(stderr, "example_driver: %s\n", why);
            return BAD_USAGE;
        }
    }
    run.is_back = calloc((size_t)options.count + 1, sizeof *run.is_back);
    const enum outcome outcome = run.is_back == NULL ? FAILED : run_all(&run);
    free(run.is_back);
    turn_driver_openssl_free(tls);
    return (int)outcome;
}
