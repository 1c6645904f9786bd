/* rooms.h: memory that a call is given: each piece ends where a page begins that nobody may touch, and has bytes before
 * it that nobody may change. So what the library reads or writes past an end is seen, though it isn't instrumented. */
#ifndef ROOMS_H
#define ROOMS_H

#include <stddef.h>
#include <stdint.h>

/* One for each argument that a call may have at once. */
enum room {
    ROOM_HANDLE, ROOM_SETTINGS, ROOM_USER, ROOM_PASSWORD, ROOM_SEED, ROOM_FROM, ROOM_TO, ROOM_BYTES, ROOM_OUT,
    ROOM_TOLD, ROOMS
};

enum { ROOM_MAX = 1 << 18 };

/* Gives a piece of a room, filled with one byte that nobody expects: what was there is gone. */
void *room_give(enum room room, size_t len);

/* Gives a piece with these bytes in it. */
void *room_copy(enum room room, const void *bytes, size_t len);

/* The last piece. */
void *room_at(enum room room);

/* Whether the bytes before the last piece are as they were; of that also those from `start` on; of a copy all. */
void room_check_before(enum room room);
void room_check_rest(enum room room, size_t start);
void room_check_copy(enum room room, const void *bytes);

/* Overwrites the last piece, so that nobody who still points there finds what stood there. */
void room_spoil(enum room room);

#endif
