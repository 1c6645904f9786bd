// What the parts of the measure share. A slice is a pointer and a length.
#ifndef BENCH_H
#define BENCH_H

#include <stdbool.h>
#include <stddef.h>
#include <stdint.h>

#define SLICE(name) const uint8_t *name, size_t name##_len
#define OUT uint8_t *out, size_t out_len

struct allocation {
    uint32_t relayed_ip, mapped_ip, lifetime;
    uint16_t relayed_port, mapped_port;
};

// sizes in bytes
enum {
    HEADER_SIZE = 20,           // of a message
    ATTRIBUTE_HEADER_SIZE = 4,  // and of a channel frame's
    PAYLOAD = 1200,             // of a frame that is written
    ROOM_MORE = 64,             // what carries a payload has at most so many bytes more
};

// of the static library
void stun_bench_sha1(SLICE(text), uint8_t *digest);
void stun_bench_sha256(SLICE(text), uint8_t *digest);
void stun_bench_sha512(SLICE(text), uint8_t *digest);
size_t stun_bench_sign_sha1(SLICE(password), const struct allocation *told, uint64_t number,
                            SLICE(software), OUT);
size_t stun_bench_sign_sha256(SLICE(password), const struct allocation *told, uint64_t number,
                              SLICE(software), OUT);
size_t stun_bench_sign_sha512(SLICE(password), const struct allocation *told, uint64_t number,
                              SLICE(software), OUT);
size_t stun_bench_build_lent(const struct allocation *told, uint64_t number, SLICE(software), OUT);

// where nothing is asked of a number
#define NO_BOUND (-1.0)

// nanoseconds
double now(void);
// ends the run where an answer is wrong
void must(bool holds, const char *what);
// a number, and the greatest that is wanted beside it
void tell(const char *name, double wanted, double measured);
// two bytes of a message
void write_short(uint8_t *bytes, unsigned value);
// how many calls of malloc and realloc there were, and how many bytes they were for
extern size_t allocations, allocated_bytes;
// while `counts_held`: how many bytes are allocated that aren't freed yet, and how many were at most
extern bool counts_held;
extern size_t held_bytes, most_held_bytes;

// what a key saves that is kept (kept.c)
void time_kept(unsigned rounds);
void tell_kept(void);

// what a client's calls cost (clients.c), an agent's (agents.c), and a server core's (users.c)
void tell_clients(void);
void tell_agents(void);
void tell_users(void);

#endif
