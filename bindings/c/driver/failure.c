/* failure.c: why calls fail, as a status with its cause, and as a text for people. */
#define _GNU_SOURCE
#include "internal.h"

#include <stdarg.h>
#include <stdio.h>
#include <string.h>

#define REASON_MAX 763 /* bytes of a reason phrase (RFC 8489, section 14.8) */

void fail_with(turn_driver_failure *failure, int32_t status, const char *format, ...)
{
    va_list values;
    memset(failure, 0, sizeof *failure);
    failure->status = status;
    va_start(values, format);
    vsnprintf(failure->text, sizeof failure->text, format, values);
    va_end(values);
}

int32_t fails(turn_driver *driver, const turn_driver_failure *failure)
{
    driver->last = *failure;
    return failure->status;
}

int32_t refuses(turn_driver *driver, int32_t status, const char *text)
{
    fail_with(&driver->last, status, "%s", text);
    return status;
}

void ends(turn_driver *driver, const turn_driver_failure *why)
{
    if (driver->is_over)
        return;
    driver->is_over = true;
    if (why != NULL)
        driver->fatal = *why;
    else
        fail_with(&driver->fatal, TURN_DRIVER_LOST, "the driver is closed");
    turn_client_close(&driver->client);
    line_close(&driver->line);
    line_close(&driver->data);
}

void fail_of_status(turn_driver_failure *failure, int32_t status)
{
    if (status == TURN_NO_MEMORY)
        fail_with(failure, TURN_DRIVER_NO_MEMORY, "out of memory");
    else
        fail_with(failure, TURN_DRIVER_LOST, "the client refused a call: status %d", (int)status);
}

/* Writes the reason phrase of the last event without what is not printable ASCII, after a space. */
static void write_reason(turn_driver *driver, const turn_cause *cause, char *out, size_t size)
{
    uint8_t reason[REASON_MAX];
    size_t len = 0;
    const bool is_there = cause->reason_size > 0 && cause->reason_size <= sizeof reason
                          && turn_client_reason(&driver->client, reason, sizeof reason) == TURN_OK;
    if (is_there && size > 1)
        out[len++] = ' ';
    for (size_t i = 0; is_there && i < cause->reason_size && len + 1 < size; i++) {
        if (reason[i] >= 0x20 && reason[i] != 0x7f)
            out[len++] = (char)(reason[i] < 0x7f ? reason[i] : '?');
    }
    out[len] = '\0';
}

static const char *text_of(uint32_t kind)
{
    static const char *const texts[] = {
        [TURN_CAUSE_NONE] = "no cause is known",
        [TURN_REJECTED] = "rejected",
        [TURN_UNANSWERED] = "no response came in time",
        [TURN_INTEGRITY] = "the response was not signed, or not by the password",
        [TURN_NO_ALGORITHM] = "the server has no algorithm in common, or cannot hide the name",
        [TURN_OTHER_FAMILY] = "the server gave addresses of other families only",
        [TURN_CAUSE_MEMORY] = "the memory for the cause ran out",
        [TURN_DELETED] = "the driver is closing",
        [TURN_EXPIRED] = "its time was over",
        [TURN_SOCKET_CLOSED] = "the socket was closed",
        [TURN_UNUSABLE] = "the response was malformed"};
    return kind < sizeof texts / sizeof *texts ? texts[kind] : texts[TURN_CAUSE_NONE];
}

void fail_of_event(turn_driver *driver, turn_driver_failure *failure, int32_t status,
                   const char *what)
{
    turn_cause cause = {.kind = TURN_CAUSE_NONE};
    char reason[REASON_MAX + 2];
    turn_client_cause(&driver->client, &cause);
    write_reason(driver, &cause, reason, sizeof reason);
    if (cause.kind == TURN_REJECTED)
        fail_with(failure, status, "%s: rejected %u %s%s", what, (unsigned)cause.code,
                  cause.is_signed ? "signed" : "unsigned", reason);
    else
        fail_with(failure, status, "%s: %s", what, text_of(cause.kind));
    failure->cause = cause;
}
