/* rows.h: what the programs of bench/beside share. Each has the calls of one library, and one process. */
#ifndef ROWS_H
#define ROWS_H

#include <stdbool.h>
#include <stddef.h>
#include <stdint.h>

/* The i-th peer is 10.1.0.0 + i. It has a permission, and its port CHANNEL_PORT has the channel LEAST_CHANNEL + i; its
 * port OTHER_PORT has none. */
enum {
    HELD_MOST = 1000,
    PAYLOAD = 1200,
    FRAME_HEADER = 4,
    FRAME_SIZE = FRAME_HEADER + PAYLOAD,
    SHORT_PAYLOAD = 160,        /* 20 ms of G.711 */
    PIECE_MOST = 65536,         /* what is read of a stream at once */
    TRANSACTION_AT = 8,         /* where the 12 bytes of a transaction ID begin, behind the cookie */
    INDICATION_MOST = 1280,     /* bytes of a SEND or a DATA indication of such a payload */
    LEAST_CHANNEL = 0x4000,
    FIRST_PEER = 0x0a010000,
    CHANNEL_PORT = 9000,
    OTHER_PORT = 9001,
    SEND_INDICATION = 0x0016,
    DATA_INDICATION = 0x0017,
};

/* What the signed response says (samples.py). */
enum { RELAYED_PORT = 50000, MAPPED_PORT = 1000, GRANTED_SECONDS = 600 };
#define RELAYED_IP UINT32_C(0xcb007105)
#define MAPPED_IP UINT32_C(0xc0a80001)
#define SOFTWARE_TEXT "pakhvizhe ok"
#define KEY_TEXT "0123456789abcdef"

/* A call that is timed. */
struct row_call {
    const char *name;
    size_t most;                /* it is timed beside so many channels and permissions at most */
    void (*hold)(size_t held);  /* prepares so many; NULL where there is nothing to prepare */
    bool (*call)(size_t i);     /* makes the call for the i-th peer: whether its result is right */
    bool (*did)(size_t i);      /* whether the last call did what it says: compares each byte */
};

extern const struct row_call row_calls[];
extern const size_t row_calls_count;

/* The bytes that go both ways. */
extern uint8_t row_payload[PAYLOAD];

/* Ends the program where something isn't as it has to be. */
void row_must(bool holds, const char *what);

/* Nanoseconds of the clock that only goes forward. */
uint64_t row_now(void);

/* What is done between row_set_aside() and its row_resume(), as a server's work, isn't in the time of a call. They may
 * be nested. */
void row_set_aside(void);
void row_resume(void);

/* Writes the most significant byte first. */
void row_write(uint8_t *at, uint32_t value, size_t size);

/* The frame of the i-th channel: all of it, which takes FRAME_SIZE bytes, or the channel's number alone. */
void row_frame(uint8_t *at, size_t i);
void row_frame_of(uint8_t *at, size_t i);

/* Frames of the first channel, as many as PIECE_MOST takes, each with so many bytes of the payload: a multiple of 4.
 * Returns how many bytes they are. */
size_t row_piece(uint8_t at[PIECE_MOST], size_t payload_size);

/* An indication with the payload, to or from the i-th peer: all of it, or the peer alone. Returns its size. */
size_t row_indication(uint8_t *at, uint16_t type, uint16_t port, size_t i);
void row_indication_of(uint8_t *at, size_t i);

/* Whether bytes are the frame of the i-th channel, or an indication of this type with the payload and that peer: its
 * transaction ID may be any, and so may the order of its attributes, and what else it has. */
bool row_is_frame(const uint8_t *bytes, size_t size, size_t i);
bool row_is_indication(const uint8_t *bytes, size_t size, uint16_t type, uint16_t port, size_t i);

#endif
