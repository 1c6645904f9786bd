/* turns.c: the turns of the client, as turn_client.h describes them. */
#define _GNU_SOURCE
#include "internal.h"

#include <errno.h>
#include <string.h>

/* The line whose own address this is; NULL if it was closed. */
static struct line *line_of(turn_driver *driver, const turn_address *own)
{
    if (is_same(own, &driver->line.own))
        return &driver->line;
    return is_same(own, &driver->data.own) ? &driver->data : NULL;
}

static void ends_by_status(turn_driver *driver, int32_t status)
{
    turn_driver_failure why;
    fail_of_status(&why, status);
    ends(driver, &why);
}

/* Sends what the client has to send now, as far as the line takes it: whether there was any. */
static bool draw_all(turn_driver *driver)
{
    turn_transmit transmit;
    bool has_drawn = false;
    line_go_on(&driver->line);
    while (line_room(&driver->line) > 0) {
        const int32_t status = turn_client_draw(&driver->client, clock_now(), driver->out,
                                                sizeof driver->out, &transmit);
        if (status < 0)
            ends_by_status(driver, status);
        if (status != TURN_OK)
            break;
        struct line *line = line_of(driver, &transmit.from);
        if (line != NULL)
            line_send(line, driver->out, transmit.size);
        has_drawn = true;
    }
    return has_drawn;
}

/* Notes why an allocation failed, and which other server was named. */
static void note_failure(turn_driver *driver)
{
    turn_driver_failure *lost = &driver->lost;
    fail_of_event(driver, lost, TURN_DRIVER_NO_ADDRESS, "no relayed address");
    if (lost->cause.kind == TURN_UNANSWERED && driver->line.error != 0) {
        lost->system = driver->line.error;
        strncat(lost->text, "; the system reports: ", sizeof lost->text - strlen(lost->text) - 1);
        strncat(lost->text, strerror(lost->system), sizeof lost->text - strlen(lost->text) - 1);
    }
    driver->domain[0] = '\0';
    const size_t size = lost->cause.domain_size;
    if (size > 0 && size < sizeof driver->domain
        && turn_client_domain(&driver->client, (uint8_t *)driver->domain, size) == TURN_OK)
        driver->domain[size] = '\0';
}

static void follow(turn_driver *driver, const turn_event *event)
{
    switch (event->kind) {
    case TURN_ALLOCATION_CREATED:
        driver->is_ready = true;
        return;
    case TURN_ALLOCATION_FAILED:
        note_failure(driver);
        return;
    case TURN_PERMISSION_CREATED:
    case TURN_PERMISSION_FAILED:
        follow_permission(driver, event);
        return;
    case TURN_CHANNEL_CREATED:
    case TURN_CHANNEL_FAILED:
        follow_channel(driver, event);
        return;
    default:
        follow_connection(driver, event);
    }
}

/* The client has ended. */
static void client_ends(turn_driver *driver)
{
    turn_driver_failure why = driver->lost;
    if (driver->is_closing) {
        ends(driver, NULL);
        return;
    }
    if (why.status == TURN_DRIVER_OK)
        fail_with(&why, TURN_DRIVER_NO_ADDRESS, "no relayed address: its time was over");
    if (driver->is_ready) {
        const char *colon = strchr(driver->lost.text, ':');
        fail_with(&why, TURN_DRIVER_LOST, "the relayed address is gone%s",
                  colon == NULL ? ": its time was over" : colon);
        why.cause = driver->lost.cause;
    }
    ends(driver, &why);
}

/* Does what poll wants. Whether there is nothing more to do now. */
static bool answer_poll(turn_driver *driver, int32_t status, const turn_wait *wait, bool has_done)
{
    if (status == TURN_OK && !has_done) {
        const uint64_t now = clock_now();
        if (driver->is_ready && !driver->is_closing)
            driver->lost.status = TURN_DRIVER_OK; /* it was one family of two */
        driver->due = wait->until > now ? wait->until : now + PAUSE;
        return true;
    }
    if (status == TURN_OPEN_SOCKET)
        open_data(driver, wait);
    else if (status == TURN_CLOSE_SOCKET && is_same(&wait->from, &driver->data.own))
        line_close(&driver->data);
    else if (status == TURN_CLOSED)
        client_ends(driver);
    else if (status < 0)
        ends_by_status(driver, status);
    return false;
}

void take_turns(turn_driver *driver)
{
    turn_wait wait;
    turn_event event;
    while (!driver->is_over) {
        bool has_done = draw_all(driver);
        if (driver->is_over)
            return;
        const int32_t status = turn_client_poll(&driver->client, clock_now(), &wait);
        while (!driver->is_over && turn_client_event(&driver->client, &event) == TURN_OK) {
            follow(driver, &event);
            has_done = true;
        }
        if (driver->is_over || answer_poll(driver, status, &wait, has_done))
            return;
    }
}

/* ---- what comes */

/* Takes a payload, whose bytes are in what came, or are to be read. */
static void take_payload(turn_driver *driver, const turn_payload *payload, const uint8_t *came)
{
    const uint8_t *bytes = came + payload->start;
    if (payload->is_joined && payload->size > 0) {
        const int32_t status =
            turn_client_read(&driver->client, driver->joined, sizeof driver->joined);
        if (status != TURN_OK) {
            ends_by_status(driver, status);
            return;
        }
        bytes = driver->joined;
    }
    if (payload->transport == TURN_TCP)
        take_stream(driver, bytes, payload->size);
    else
        take_datagram(driver, payload, bytes);
}

static void take(turn_driver *driver, int32_t status, const turn_payload *payload,
                 const uint8_t *came)
{
    if (status == TURN_PAYLOAD)
        take_payload(driver, payload, came);
    else if (status == TURN_ICMP)
        take_report(driver, payload);
    else if (status < 0)
        ends_by_status(driver, status);
}

void feed(turn_driver *driver, const struct line *line, const uint8_t *bytes, size_t size)
{
    turn_payload payload;
    const bool is_stream = line->is_stream;
    int32_t status = turn_client_feed(&driver->client, &line->server, &line->own, bytes, size,
                                      clock_now(), &payload);
    take(driver, status, &payload, bytes);
    while (is_stream && !driver->is_over) {
        status = turn_client_pull(&driver->client, clock_now(), &payload);
        if (status == TURN_NOTHING)
            return;
        take(driver, status, &payload, bytes);
    }
}

/* The connection to the server is gone. */
static void line_is_lost(turn_driver *driver)
{
    struct line *line = &driver->line;
    turn_driver_failure why;
    const int32_t status = driver->is_ready ? TURN_DRIVER_LOST : TURN_DRIVER_NO_SERVER;
    if (driver->is_closing) {
        ends(driver, NULL);
        return;
    }
    fail_with(&why, status, "the connection to the server is closed%s%s",
              line->has_ended ? "" : ": ",
              line->has_ended ? "" : line->error != 0 ? strerror(line->error) : line->why);
    why.system = line->error;
    ends(driver, &why);
}

static void read_line(turn_driver *driver, bool stops_at_datagram)
{
    int reads = 0;
    while (!driver->is_over && reads < TURN_DRIVER_READS_MAX) {
        if (stops_at_datagram && driver->received.count > 0)
            break;
        const ssize_t size = line_read(&driver->line, driver->in, sizeof driver->in);
        if (size < 0)
            break;
        feed(driver, &driver->line, driver->in, (size_t)size);
        reads++;
    }
    if (driver->is_over)
        return;
    driver->line.has_more = reads == TURN_DRIVER_READS_MAX
                            || (stops_at_datagram && driver->received.count > 0);
    if (driver->line.state == LINE_FAILED || driver->line.has_ended)
        line_is_lost(driver);
}

void go_on(turn_driver *driver, bool stops_at_datagram)
{
    if (!driver->is_over && clock_now() >= driver->due)
        take_turns(driver);
    read_line(driver, stops_at_datagram);
    if (!driver->is_over)
        go_on_with_data(driver);
    take_turns(driver);
}

/* ---- waits */

uint64_t next_turn(const turn_driver *driver)
{
    if (driver->is_over || driver->line.has_more || driver->data.has_more)
        return 0;
    const bool is_opening = driver->data.state != LINE_CLOSED && !driver->is_reported;
    if (is_opening && driver->data.state == LINE_FAILED)
        return 0;
    if (is_opening && driver->data.state == LINE_OPEN) /* which had no memory to be reported */
        return sooner(driver->due, driver->data_again);
    return is_opening ? sooner(driver->due, driver->data_until) : driver->due;
}

bool wait_for_more(turn_driver *driver, uint64_t until)
{
    struct pollfd fds[TURN_DRIVER_FDS_MAX];
    if (driver->is_over)
        return true;
    const size_t count = turn_driver_pollfds(driver, fds, TURN_DRIVER_FDS_MAX);
    if (clock_now() >= until)
        return false;
    poll(fds, (nfds_t)count, wait_of(sooner(until, next_turn(driver))));
    return true;
}

size_t turn_driver_pollfds(const turn_driver *driver, struct pollfd *out, size_t out_len)
{
    struct pollfd fds[TURN_DRIVER_FDS_MAX];
    size_t count = 0;
    short data = line_events(&driver->data);
    if (driver->is_over)
        return 0;
    if (driver->is_reported && !has_room_for_stream(driver))
        data = (short)(data & ~POLLIN);
    fds[count++] = (struct pollfd){.fd = driver->line.fd, .events = line_events(&driver->line)};
    if (data != 0)
        fds[count++] = (struct pollfd){.fd = driver->data.fd, .events = data};
    for (size_t i = 0; i < count && i < out_len; i++)
        out[i] = fds[i];
    return count;
}

uint64_t turn_driver_deadline(const turn_driver *driver)
{
    const bool has_some = driver->received.count > 0 || driver->notice_count > 0
                          || buffer_size(&driver->unread) > 0;
    return has_some ? 0 : next_turn(driver);
}

int32_t turn_driver_run(turn_driver *driver)
{
    go_on(driver, false);
    return driver->is_over ? fails(driver, &driver->fatal) : TURN_DRIVER_OK;
}

int turn_driver_fd(const turn_driver *driver)
{
    return driver->is_over ? -1 : driver->line.fd;
}
