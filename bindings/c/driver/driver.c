/* driver.c: opening and closing, and what a driver knows. */
#define _GNU_SOURCE
#include "internal.h"

#include <errno.h>
#include <netdb.h>
#include <stdio.h>
#include <stdlib.h>
#include <string.h>
#include <sys/random.h>

#define FOLLOW_MAX 8 /* how often another server is tried */

/* A driver that is being opened: its server's URI and addresses, and those that were tried. */
struct opening {
    turn_uri uri;
    const char *user, *password;
    uint64_t until;
    turn_address hosts[HOSTS_MAX], tried[FOLLOW_MAX + 1];
    size_t host_count, tried_count;
    bool has_others; /* whether another address is left of the server's name */
};

/* ---- what it is opened with */

/* Reads the URI, and looks whether the options fit it. */
static bool read_server(const char *server, const turn_driver_options *options, turn_uri *uri,
                        turn_driver_failure *failure)
{
    const int32_t status = turn_uri_parse(server, uri);
    const char *wrong = NULL;
    if (status != TURN_URI_OK || (uri->scheme != TURN_URI_TURN && uri->scheme != TURN_URI_TURNS)) {
        fail_with(failure, TURN_DRIVER_BAD_SERVER, "the URI of the server cannot be read: %s",
                  status == TURN_URI_OK ? "it is one of STUN" : turn_uri_status_text(status));
        failure->uri = status;
        return false;
    }
    const bool is_stream = uri->is_secure || uri->transport == TURN_TCP;
    if (uri->is_secure && uri->transport == TURN_UDP)
        wrong = "turns: over UDP is DTLS, which is not there";
    else if (uri->is_secure && options->tls == NULL)
        wrong = "turns: needs the option tls, as of turn_driver_openssl.h";
    else if (options->peers == TURN_TCP && !is_stream)
        wrong = "a connection to a peer needs TCP or TLS to the server";
    if (wrong != NULL)
        fail_with(failure, TURN_DRIVER_BAD_OPTION, "%s", wrong);
    return wrong == NULL;
}

static bool check_options(const turn_driver_options *options, turn_driver_failure *failure)
{
    const uint8_t family = options->local.family;
    const char *wrong = NULL;
    if (options->size != sizeof *options)
        wrong = "the options state another size than theirs";
    else if (family != 0 && !is_address(&options->local))
        wrong = "the family of the local address is none of 0, 4 and 6";
    else if (options->follow > FOLLOW_MAX)
        wrong = "follow is more than 8";
    else if (options->open_ms > INT32_MAX)
        wrong = "open_ms is too large";
    if (wrong != NULL)
        fail_with(failure, TURN_DRIVER_BAD_OPTION, "%s", wrong);
    return wrong == NULL;
}

static turn_settings settings_of(const turn_driver *driver)
{
    const turn_driver_options *o = &driver->options;
    return (turn_settings){.size = sizeof(turn_settings),
                           .local = driver->line.own,
                           .server = driver->line.server,
                           .transport = driver->line.is_stream ? TURN_TCP : TURN_UDP,
                           .peers = o->peers == 0 ? TURN_UDP : o->peers,
                           .families = o->families,
                           .integrity = o->integrity,
                           .anonymous = o->anonymous,
                           .ignore_short_lifetimes = o->ignore_short_lifetimes};
}

static void fail_of_opening(turn_driver_failure *failure, int32_t status)
{
    if (status == TURN_BAD_SETTING)
        fail_with(failure, TURN_DRIVER_BAD_OPTION, "an option is not valid");
    else if (status == TURN_BAD_TEXT || status == TURN_LONG_NAME)
        fail_with(failure, TURN_DRIVER_BAD_CREDENTIALS, "%s",
                  status == TURN_BAD_TEXT ? "name or password is not UTF-8"
                                          : "the name has more than 513 bytes");
    else
        fail_of_status(failure, status);
}

/* Opens the client over the line as it is: whether that could be. */
static bool open_client(turn_driver *driver, const struct opening *opening,
                        turn_driver_failure *failure)
{
    turn_seed seed;
    if (getrandom(&seed, sizeof seed, 0) != sizeof seed) {
        fail_with(failure, TURN_DRIVER_NO_MEMORY, "the system has no random bytes");
        return false;
    }
    driver->settings = settings_of(driver);
    int32_t status = turn_client_open(&driver->client, &driver->settings, opening->user,
                                      strlen(opening->user), opening->password,
                                      strlen(opening->password), &seed);
    explicit_bzero(&seed, sizeof seed);
    if (status == TURN_OK && driver->options.software != NULL) {
        const char *text = driver->options.software;
        status = turn_client_software(&driver->client, text, strlen(text));
        if (status == TURN_BAD_TEXT || status == TURN_TOO_LARGE)
            status = TURN_BAD_SETTING;
    }
    if (status != TURN_OK)
        fail_of_opening(failure, status);
    return status == TURN_OK;
}

/* Whether the client takes options and credentials, by one that is opened and closed at once. */
static bool check_client(turn_driver *driver, const struct opening *opening,
                         turn_driver_failure *failure)
{
    const turn_address any = {.family = 4};
    driver->line.own = driver->line.server = any;
    driver->line.is_stream = opening->uri.is_secure || opening->uri.transport == TURN_TCP;
    const bool is_taken = open_client(driver, opening, failure);
    turn_client_close(&driver->client);
    return is_taken;
}

/* ---- the way to the server */

/* Looks up the addresses of the server's host, of the family of the local address. */
static bool look_up(turn_driver *driver, struct opening *opening, turn_driver_failure *failure)
{
    const uint8_t family = driver->options.local.family;
    struct addrinfo hints = {.ai_family = family == 0 ? AF_UNSPEC : family == 4 ? AF_INET
                                                                                : AF_INET6,
                             .ai_socktype = SOCK_STREAM};
    struct addrinfo *found = NULL;
    const int status = getaddrinfo(opening->uri.host, NULL, &hints, &found);
    for (struct addrinfo *it = found; status == 0 && it != NULL && opening->host_count < HOSTS_MAX;
         it = it->ai_next) {
        struct sockaddr_storage address = {.ss_family = (sa_family_t)it->ai_family};
        if ((it->ai_family != AF_INET && it->ai_family != AF_INET6)
            || it->ai_addrlen > sizeof address)
            continue;
        memcpy(&address, it->ai_addr, it->ai_addrlen);
        turn_address *host = &opening->hosts[opening->host_count++];
        *host = of_system(&address);
        host->port = opening->uri.port;
    }
    if (status == 0)
        freeaddrinfo(found);
    if (opening->host_count == 0)
        fail_with(failure, TURN_DRIVER_NO_HOST, "%s cannot be looked up: %s", opening->uri.host,
                  status == 0 ? "it has no address" : gai_strerror(status));
    return opening->host_count > 0;
}

static void fail_of_line(const struct line *line, turn_driver_failure *failure)
{
    char server[TURN_ADDRESS_TEXT_MAX];
    const bool is_late = line->state != LINE_FAILED;
    const int32_t status = !is_late                           ? line->status
                           : line->state == LINE_SHAKES_HANDS ? TURN_DRIVER_NO_TLS
                                                              : TURN_DRIVER_NO_SERVER;
    const int32_t error = is_late ? ETIMEDOUT : line->error;
    fail_with(failure, status, "no %s to %s: %s",
              status == TURN_DRIVER_NO_TLS ? "TLS" : "connection",
              turn_address_text(&line->server, server),
              error != 0 ? strerror(error) : line->why);
    failure->system = error;
}

/* Connects to one address of the server. */
static bool connect_line(turn_driver *driver, const struct opening *opening,
                         const turn_address *server, turn_driver_failure *failure)
{
    const bool is_stream = opening->uri.is_secure || opening->uri.transport == TURN_TCP;
    struct line *line = &driver->line;
    const uint64_t until = sooner(opening->until, deadline_of(TURN_DRIVER_CONNECT_MS));
    line_start(line, server, &driver->options.local, is_stream,
               opening->uri.is_secure ? driver->options.tls : NULL, driver->host);
    for (;;) {
        line_go_on(line);
        if (line->state == LINE_OPEN)
            return true;
        if (line->state == LINE_FAILED || clock_now() >= until)
            break;
        struct pollfd fd = {.fd = line->fd, .events = line_events(line)};
        poll(&fd, 1, wait_of(until));
    }
    fail_of_line(line, failure);
    line_close(line);
    return false;
}

/* Whether the system reports that nobody listens at a port of UDP, and another address of the
 * server's name is left. For the last one the client goes on: anybody may send an ICMP report. */
static bool is_refused(const turn_driver *driver, const struct opening *opening)
{
    return !driver->line.is_stream && driver->line.error == ECONNREFUSED && opening->has_others;
}

/* Waits for the address. */
static bool await_address(turn_driver *driver, const struct opening *opening)
{
    turn_driver_failure late;
    driver->due = 0;
    for (;;) {
        go_on(driver, false);
        if (driver->is_over || (driver->is_ready && turn_driver_relayed(driver, NULL, 0) > 0))
            return !driver->is_over;
        if (is_refused(driver, opening)) {
            driver->line.state = LINE_FAILED;
            driver->line.status = TURN_DRIVER_NO_SERVER;
            fail_of_line(&driver->line, &late);
            ends(driver, &late);
            return false;
        }
        if (!wait_for_more(driver, opening->until))
            break;
    }
    fail_with(&late, TURN_DRIVER_NO_ADDRESS, "no relayed address: the server gave none in time");
    ends(driver, &late);
    return false;
}

/* Tries one server: whether there is a relayed address. */
static bool try_server(turn_driver *driver, struct opening *opening, const turn_address *server,
                       turn_driver_failure *failure)
{
    opening->tried[opening->tried_count++] = *server;
    driver->is_over = driver->is_ready = false;
    memset(&driver->fatal, 0, sizeof driver->fatal);
    memset(&driver->lost, 0, sizeof driver->lost);
    if (!connect_line(driver, opening, server, failure))
        return false;
    if (!open_client(driver, opening, failure)) {
        line_close(&driver->line);
        return false;
    }
    const bool is_open = await_address(driver, opening);
    *failure = driver->fatal;
    return is_open;
}

/* Whether a server may be tried that another one named. */
static bool is_new(const struct opening *opening, const turn_address *server)
{
    for (size_t i = 0; i < opening->tried_count; i++) {
        if (is_same(&opening->tried[i], server))
            return false;
    }
    return is_address(server);
}

/* Tries the addresses of the server until one is reached, and then those that servers name. */
static bool reach(turn_driver *driver, struct opening *opening, turn_driver_failure *failure)
{
    bool is_open = false;
    for (size_t i = 0; i < opening->host_count && !is_open; i++) {
        opening->tried_count = 0;
        opening->has_others = i + 1 < opening->host_count;
        is_open = try_server(driver, opening, &opening->hosts[i], failure);
        if (failure->status == TURN_DRIVER_NO_ADDRESS || clock_now() >= opening->until)
            break;
    }
    opening->has_others = false;
    for (uint32_t left = driver->options.follow; !is_open && left > 0; left--) {
        const turn_address elsewhere = failure->cause.alternate;
        if (failure->status != TURN_DRIVER_NO_ADDRESS || !is_new(opening, &elsewhere))
            break;
        if (driver->domain[0] != '\0')
            memcpy(driver->host, driver->domain, sizeof driver->host);
        is_open = try_server(driver, opening, &elsewhere, failure);
    }
    return is_open;
}

/* ---- opening and closing */

static void free_driver(turn_driver *driver)
{
    turn_client_close(&driver->client);
    line_close(&driver->line);
    line_close(&driver->data);
    queue_clear(&driver->waiting);
    queue_clear(&driver->received);
    queue_clear(&driver->requested);
    buffer_close(&driver->unread);
    free(driver->channels);
    explicit_bzero(driver, sizeof *driver);
    free(driver);
}

/* A driver that is not connected; NULL without memory. */
static turn_driver *make_driver(const turn_driver_options *options, const turn_uri *uri)
{
    turn_driver *driver = calloc(1, sizeof *driver);
    if (driver == NULL)
        return NULL;
    driver->options = *options;
    driver->line.fd = driver->data.fd = -1;
    memcpy(driver->host, uri->host, sizeof driver->host);
    driver->waiting.count_max = TURN_DRIVER_WAITING_MAX;
    driver->waiting.bytes_max = TURN_DRIVER_WAITING_BYTES_MAX;
    driver->received.count_max = TURN_DRIVER_RECEIVED_MAX;
    driver->received.bytes_max = TURN_DRIVER_RECEIVED_BYTES_MAX;
    driver->channels = calloc(CHANNELS_MAX, sizeof *driver->channels);
    const size_t unread = TURN_DRIVER_UNREAD_MAX + READ_MAX + sizeof driver->joined;
    const bool is_made = driver->channels != NULL
                         && (options->peers != TURN_TCP || buffer_open(&driver->unread, unread));
    if (is_made)
        return driver;
    free_driver(driver);
    return NULL;
}

turn_driver *turn_driver_open(const char *server, const char *user, const char *password,
                              const turn_driver_options *options, turn_driver_failure *failure)
{
    static const turn_driver_options none = TURN_DRIVER_OPTIONS_INIT;
    turn_driver_failure unwanted;
    struct opening opening = {.user = user, .password = password};
    failure = failure == NULL ? &unwanted : failure;
    options = options == NULL ? &none : options;
    memset(failure, 0, sizeof *failure);
    if (!check_options(options, failure) || !read_server(server, options, &opening.uri, failure))
        return NULL;
    turn_driver *driver = make_driver(options, &opening.uri);
    if (driver == NULL) {
        fail_with(failure, TURN_DRIVER_NO_MEMORY, "out of memory");
        return NULL;
    }
    const bool is_taken = check_client(driver, &opening, failure);
    const bool is_found = is_taken && look_up(driver, &opening, failure);
    const uint32_t open_ms = options->open_ms == 0 ? TURN_DRIVER_OPEN_MS : options->open_ms;
    opening.until = deadline_of((int)open_ms);
    if (is_found && reach(driver, &opening, failure)) {
        memset(failure, 0, sizeof *failure);
        driver->options.software = NULL; /* the caller's text is not needed any more */
        return driver;
    }
    free_driver(driver);
    return NULL;
}

void turn_driver_abort(turn_driver *driver)
{
    if (driver != NULL)
        free_driver(driver);
}

void turn_driver_close(turn_driver *driver)
{
    if (driver == NULL)
        return;
    if (!driver->is_over)
        flush_connection(driver);
    driver->is_closing = true;
    if (!driver->is_over && turn_client_delete(&driver->client, clock_now()) == TURN_OK) {
        const uint64_t until = deadline_of(TURN_DRIVER_CLOSE_MS);
        driver->due = 0;
        do
            go_on(driver, false);
        while (!driver->is_over && wait_for_more(driver, until));
    }
    free_driver(driver);
}

/* ---- what it knows */

const turn_driver_failure *turn_driver_last_failure(const turn_driver *driver)
{
    return &driver->last;
}

size_t turn_driver_relayed(turn_driver *driver, turn_address *out, size_t out_len)
{
    turn_relayed relayed[TURN_DRIVER_RELAYED_MAX];
    size_t count = turn_client_relayed(&driver->client, relayed, TURN_DRIVER_RELAYED_MAX);
    count = count < TURN_DRIVER_RELAYED_MAX ? count : TURN_DRIVER_RELAYED_MAX;
    for (size_t i = 0; i < count && i < out_len; i++)
        out[i] = relayed[i].address;
    return count;
}

bool turn_driver_mapped(turn_driver *driver, turn_address *mapped)
{
    return turn_client_mapped(&driver->client, mapped) == TURN_OK;
}

turn_address turn_driver_server(const turn_driver *driver)
{
    return driver->settings.server;
}

int32_t turn_driver_credentials(turn_driver *driver, const char *user, const char *password)
{
    turn_driver_failure failure;
    if (driver->is_over)
        return fails(driver, &driver->fatal);
    const int32_t status = turn_client_credentials(&driver->client, user, strlen(user), password,
                                                   strlen(password));
    if (status == TURN_OK)
        return TURN_DRIVER_OK;
    fail_of_opening(&failure, status);
    return fails(driver, &failure);
}
