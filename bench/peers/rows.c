/* rows.c: the main program of each library's calls, and the bytes that they are given.
 *
 * It reads lines `NAME HELD FIRST CALLS` and answers each with a line: the nanoseconds of a call, the mean of so many,
 * made for the peers from FIRST to HELD - 1 in turn. A line with 0 calls checks the call for each of these peers, and
 * is answered with `checked`, or with `-` where the library has no such call. */
#include "rows.h"

#include <stdio.h>
#include <stdlib.h>
#include <string.h>
#include <time.h>

enum {
    HEADER = 20, ATTRIBUTE_HEADER = 4, COOKIE_HIGH = 0x2112, COOKIE_SIZE = 4, IPV4 = 1, PEER_SIZE = 8, ALIGNED = 4,
    XOR_PEER_ADDRESS = 0x0012, DATA = 0x0013, PEER_AT = HEADER + ATTRIBUTE_HEADER, WARM = 10,
};
static const uint32_t cookie = 0x2112a442, nanoseconds = 1000000000;

uint8_t row_payload[PAYLOAD];

void row_must(bool holds, const char *what)
{
    if (holds)
        return;
    printf("wrong: %s\n", what);
    exit(1);
}

uint64_t row_now(void)
{
    struct timespec now;
    clock_gettime(CLOCK_MONOTONIC, &now);
    return (uint64_t)now.tv_sec * nanoseconds + (uint64_t)now.tv_nsec;
}

/* How many times it was set aside and not yet resumed, since when, and how much was. */
static size_t aside_depth;
static uint64_t aside_since, aside;

void row_set_aside(void)
{
    if (aside_depth++ == 0)
        aside_since = row_now();
}

void row_resume(void)
{
    if (--aside_depth == 0)
        aside += row_now() - aside_since;
}

/* ---- bytes */

void row_write(uint8_t *at, uint32_t value, size_t size)
{
    while (size-- > 0) {
        at[size] = (uint8_t)value;
        value >>= 8;
    }
}

static uint32_t read_number(const uint8_t *at, size_t size)
{
    uint32_t value = 0;
    while (size-- > 0)
        value = value << 8 | *at++;
    return value;
}

void row_frame_of(uint8_t *at, size_t i)
{
    row_write(at, LEAST_CHANNEL + (uint32_t)i, 2);
}

void row_frame(uint8_t *at, size_t i)
{
    row_frame_of(at, i);
    row_write(at + 2, PAYLOAD, 2);
    memcpy(at + FRAME_HEADER, row_payload, PAYLOAD);
}

size_t row_piece(uint8_t at[PIECE_MOST], size_t payload_size)
{
    const size_t frame_size = FRAME_HEADER + payload_size, size = PIECE_MOST / frame_size * frame_size;
    for (uint8_t *frame = at; frame < at + size; frame += frame_size) {
        row_frame_of(frame, 0);
        row_write(frame + 2, (uint32_t)payload_size, 2);
        memcpy(frame + FRAME_HEADER, row_payload, payload_size);
    }
    return size;
}

bool row_is_frame(const uint8_t *bytes, size_t size, size_t i)
{
    uint8_t frame[FRAME_SIZE];
    row_frame(frame, i);
    return size == sizeof frame && memcmp(bytes, frame, size) == 0;
}

/* The value of XOR-PEER-ADDRESS. */
static void write_peer(uint8_t *at, uint16_t port, size_t i)
{
    row_write(at, IPV4, 2);
    row_write(at + 2, port ^ COOKIE_HIGH, 2);
    row_write(at + 4, (FIRST_PEER + (uint32_t)i) ^ cookie, 4);
}

void row_indication_of(uint8_t *at, size_t i)
{
    row_write(at + PEER_AT + 4, (FIRST_PEER + (uint32_t)i) ^ cookie, 4);
}

size_t row_indication(uint8_t *at, uint16_t type, uint16_t port, size_t i)
{
    const size_t data = PEER_AT + PEER_SIZE, size = data + ATTRIBUTE_HEADER + PAYLOAD;
    memset(at, 0, HEADER);
    row_write(at, type, 2);
    row_write(at + 2, (uint32_t)(size - HEADER), 2);
    row_write(at + 4, cookie, COOKIE_SIZE);
    row_write(at + HEADER, XOR_PEER_ADDRESS, 2);
    row_write(at + HEADER + 2, PEER_SIZE, 2);
    write_peer(at + PEER_AT, port, i);
    row_write(at + data, DATA, 2);
    row_write(at + data + 2, PAYLOAD, 2);
    memcpy(at + data + ATTRIBUTE_HEADER, row_payload, PAYLOAD);
    return size;
}

/* Whether a message, whose length is right, has just once an attribute of this type, with this value. */
static bool has_once(const uint8_t *bytes, size_t size, uint16_t type, const uint8_t *value, size_t value_size)
{
    size_t found = 0;
    for (size_t at = HEADER; at + ATTRIBUTE_HEADER <= size;) {
        const size_t length = read_number(bytes + at + 2, 2), begins = at + ATTRIBUTE_HEADER;
        const size_t ends = begins + (length + ALIGNED - 1) / ALIGNED * ALIGNED;
        if (ends > size)
            return false;
        if (read_number(bytes + at, 2) == type) {
            if (length != value_size || memcmp(bytes + begins, value, length) != 0)
                return false;
            found++;
        }
        at = ends;
    }
    return found == 1;
}

bool row_is_indication(const uint8_t *bytes, size_t size, uint16_t type, uint16_t port, size_t i)
{
    uint8_t peer[PEER_SIZE];
    write_peer(peer, port, i);
    return size >= HEADER && read_number(bytes, 2) == type && read_number(bytes + 2, 2) == size - HEADER &&
           read_number(bytes + 4, COOKIE_SIZE) == cookie &&
           has_once(bytes, size, XOR_PEER_ADDRESS, peer, sizeof peer) &&
           has_once(bytes, size, DATA, row_payload, PAYLOAD);
}

/* ---- lines */

static const struct row_call *find(const char *name, size_t held)
{
    for (size_t k = 0; k < row_calls_count; k++)
        if (strcmp(row_calls[k].name, name) == 0 && held <= row_calls[k].most)
            return &row_calls[k];
    return NULL;
}

static void check(const struct row_call *row, size_t held, size_t first)
{
    for (size_t i = first; i < held; i++) {
        row_must(row->call(i), row->name);
        row_must(row->did(i), row->name);
    }
    puts("checked");
}

static void make(const struct row_call *row, size_t held, size_t first, size_t calls)
{
    bool holds = true;
    for (size_t n = 0, i = first; n < calls; n++, i = i + 1 < held ? i + 1 : first)
        holds &= row->call(i);
    row_must(holds, row->name);
}

static void answer(const char *name, size_t held, size_t first, size_t calls)
{
    const struct row_call *row = find(name, held);
    row_must(first < held && held <= HELD_MOST, "a line");
    if (row == NULL) {
        puts("-");
        return;
    }
    if (row->hold != NULL)
        row->hold(held);
    if (calls == 0) {
        check(row, held, first);
        return;
    }
    make(row, held, first, calls / WARM + 1);
    aside = 0;
    const uint64_t began = row_now();
    make(row, held, first, calls);
    printf("%.3f\n", (double)(row_now() - began - aside) / (double)calls);
}

int main(void)
{
    char line[128], name[32];
    size_t held, first, calls;
    for (size_t i = 0; i < PAYLOAD; i++)
        row_payload[i] = (uint8_t)(i * i + i / 256);
    while (fgets(line, sizeof line, stdin) != NULL) {
        row_must(sscanf(line, "%31s %zu %zu %zu", name, &held, &first, &calls) == 4, "a line");
        answer(name, held, first, calls);
        fflush(stdout);
    }
    return 0;
}
