/* rooms.c: what rooms.h declares. */
#define _GNU_SOURCE
#include "rooms.h"

#include <stdlib.h>
#include <string.h>
#include <sys/mman.h>

#include "fuzz.h"

enum { PAGE = 4096, BEFORE = 64, FRESH_BYTE = 0x5e, BEFORE_BYTE = 0xb4, SPOILT_BYTE = 0xdd };

static struct {
    uint8_t *end; /* where the page begins that nobody may touch */
    size_t len;   /* of the last piece */
} rooms[ROOMS];

static void make_room(enum room room)
{
    uint8_t *at = mmap(NULL, ROOM_MAX + PAGE, PROT_READ | PROT_WRITE, MAP_PRIVATE | MAP_ANONYMOUS, -1, 0);
    if (at == MAP_FAILED || mprotect(at + ROOM_MAX, PAGE, PROT_NONE) != 0)
        abort();
    rooms[room].end = at + ROOM_MAX;
}

static uint8_t *piece(enum room room)
{
    return rooms[room].end - rooms[room].len;
}

void *room_give(enum room room, size_t len)
{
    if (rooms[room].end == NULL)
        make_room(room);
    rooms[room].len = len;
    memset(piece(room) - BEFORE, BEFORE_BYTE, BEFORE);
    memset(piece(room), FRESH_BYTE, len);
    return piece(room);
}

void *room_copy(enum room room, const void *bytes, size_t len)
{
    void *at = room_give(room, len);
    if (len > 0)
        memcpy(at, bytes, len);
    return at;
}

void *room_at(enum room room)
{
    return piece(room);
}

void room_check_before(enum room room)
{
    const uint8_t *at = piece(room) - BEFORE;
    for (size_t i = 0; i < BEFORE; i++)
        check(at[i] == BEFORE_BYTE, "the library wrote before the memory that it was given");
}

void room_check_rest(enum room room, size_t start)
{
    static uint8_t fresh[ROOM_MAX];
    if (fresh[0] != FRESH_BYTE)
        memset(fresh, FRESH_BYTE, sizeof fresh);
    room_check_before(room);
    if (start < rooms[room].len)
        check(memcmp(piece(room) + start, fresh, rooms[room].len - start) == 0,
              "the library wrote past the size that it told");
}

void room_check_copy(enum room room, const void *bytes)
{
    room_check_before(room);
    check(rooms[room].len == 0 || memcmp(piece(room), bytes, rooms[room].len) == 0,
          "the library changed what it was given to read");
}

void room_spoil(enum room room)
{
    memset(piece(room), SPOILT_BYTE, rooms[room].len);
}
