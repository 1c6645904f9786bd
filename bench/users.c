// What a request costs a server core with many users, by a user's name and by its hash, and what it
// allocates and holds for a new address.
#include <float.h>
#include <string.h>

#include "bench.h"

size_t stun_bench_users(uint32_t users, uint32_t rounds, SLICE(bytes));
size_t stun_bench_addresses(uint32_t addresses, SLICE(bytes));
size_t stun_bench_limited(uint32_t addresses, SLICE(bytes));

enum {
    FEW_USERS = 1000,
    MANY_USERS = 100000,
    USER_ROUNDS = 400000,       // in one run
    USER_RUNS = 2,              // with many users some seconds each
    ADDRESSES = 20000,
    MOST_CLIENTS = 1000,        // the limit of `stun_bench_limited`
    REFRESH = 0x0004,
    COOKIE_HIGH = 0x2112,
    COOKIE_LOW = 0xa442,
    USERNAME = 0x0006,
    REALM = 0x0014,
    NONCE = 0x0015,
    MESSAGE_INTEGRITY_SHA256 = 0x001c,
    USERHASH = 0x001e,
    HASH_SIZE = 32,             // of USERHASH, and of an HMAC by SHA-256
    VALUE_PADS_TO = 4,
    REQUEST_MOST = 160,
};

// a request with USERHASH and 100,000 users, to one with 1000 users, and to one with USERNAME; bytes
static const double MOST_OF_FEW = 2, MOST_OF_NAME = 3, MOST_OF_ADDRESS = 400;
static const double MOST_OF_LIMITED = 400.0 * MOST_CLIENTS / ADDRESSES;

static const uint8_t user[] = "u500";
static const uint8_t user_in_realm[] = "u500:realm";
static const uint8_t realm[] = "realm";
// no server core's nonce
static const uint8_t nonce[] = "obMatJos2AAAA0123456789abcdef";
static const uint8_t wrong_hmac[HASH_SIZE];

struct request {
    uint8_t bytes[REQUEST_MOST];
    size_t size;
};

#define TEXT(text) text, sizeof text - 1

static void add(struct request *to, unsigned type, SLICE(value)) {
    size_t padded = (value_len + VALUE_PADS_TO - 1) / VALUE_PADS_TO * VALUE_PADS_TO;
    must(to->size + ATTRIBUTE_HEADER_SIZE + padded <= sizeof to->bytes, "room for an attribute");
    uint8_t *at = to->bytes + to->size;
    write_short(at, type);
    write_short(at + 2, (unsigned)value_len);
    memcpy(at + ATTRIBUTE_HEADER_SIZE, value, value_len);
    to->size += ATTRIBUTE_HEADER_SIZE + padded;
    write_short(to->bytes + 2, (unsigned)(to->size - HEADER_SIZE));
}

// a REFRESH that names a user: the user is searched for, and then the request is rejected for its nonce
// (438), before any HMAC is computed
static struct request make_request(unsigned type, SLICE(name)) {
    struct request made = {.size = HEADER_SIZE};
    write_short(made.bytes, REFRESH);
    write_short(made.bytes + 4, COOKIE_HIGH);
    write_short(made.bytes + 6, COOKIE_LOW);
    add(&made, type, name, name_len);
    add(&made, REALM, TEXT(realm));
    add(&made, NONCE, TEXT(nonce));
    add(&made, MESSAGE_INTEGRITY_SHA256, wrong_hmac, sizeof wrong_hmac);
    return made;
}

// the lesser of this time and of what these requests take, with the users that are made first
static double least_with(double least, uint32_t users, uint32_t rounds, const struct request *request) {
    double start = now();
    must(stun_bench_users(users, rounds, request->bytes, request->size) == rounds, "replies to a user");
    double ended = now() - start;
    return ended < least ? ended : least;
}

struct costs {
    double by_hash, by_name;
};

// nanoseconds of one request: the difference that so many make
static struct costs time_requests(uint32_t users, const struct request *hashed, const struct request *named) {
    double none = DBL_MAX, by_hash = DBL_MAX, by_name = DBL_MAX;
    for (unsigned run = 0; run < USER_RUNS; run++) {
        none = least_with(none, users, 0, hashed);
        by_hash = least_with(by_hash, users, USER_ROUNDS, hashed);
        by_name = least_with(by_name, users, USER_ROUNDS, named);
    }
    return (struct costs){(by_hash - none) / USER_ROUNDS, (by_name - none) / USER_ROUNDS};
}

// has a new server core handle a request so many times
typedef size_t serving(uint32_t times, SLICE(bytes));

static size_t serve_one_address(uint32_t times, SLICE(bytes)) {
    return stun_bench_users(0, times, bytes, bytes_len);
}

struct bytes {
    double allocated, most_held;
};

static struct bytes bytes_of(serving *serve, const struct request *request) {
    size_t before = allocated_bytes;
    held_bytes = most_held_bytes = 0;
    counts_held = true;
    must(serve(ADDRESSES, request->bytes, request->size) == ADDRESSES, "replies to addresses");
    counts_held = false;
    return (struct bytes){(double)(allocated_bytes - before), (double)most_held_bytes};
}

// what a request from a new address takes, more than one from an address that sent one before
static struct bytes of_new_address(serving *serve, const struct request *request) {
    struct bytes by_new = bytes_of(serve, request), by_same = bytes_of(serve_one_address, request);
    return (struct bytes){(by_new.allocated - by_same.allocated) / ADDRESSES,
                          (by_new.most_held - by_same.most_held) / ADDRESSES};
}

void tell_users(void) {
    uint8_t hash[HASH_SIZE];
    stun_bench_sha256(TEXT(user_in_realm), hash);
    struct request hashed = make_request(USERHASH, hash, sizeof hash);
    struct request named = make_request(USERNAME, TEXT(user));
    struct costs few = time_requests(FEW_USERS, &hashed, &named);
    struct costs many = time_requests(MANY_USERS, &hashed, &named);
    tell("a server core handles a request with USERNAME, 1000 users, ns", NO_BOUND, few.by_name);
    tell("a server core handles a request with USERHASH, 1000 users, ns", NO_BOUND, few.by_hash);
    tell("a server core handles a request with USERNAME, 100,000 users, ns", NO_BOUND, many.by_name);
    tell("a server core handles a request with USERHASH, 100,000 users, ns", NO_BOUND, many.by_hash);
    tell("  to one with 1000 users", MOST_OF_FEW, many.by_hash / few.by_hash);
    tell("  to one with USERNAME", MOST_OF_NAME, many.by_hash / many.by_name);
    struct bytes by_address = of_new_address(stun_bench_addresses, &named);
    tell("bytes that a server core allocates for a new address", MOST_OF_ADDRESS, by_address.allocated);
    tell("bytes that a server core holds for each of 20,000 addresses", MOST_OF_ADDRESS, by_address.most_held);
    struct bytes limited = of_new_address(stun_bench_limited, &named);
    tell("  with a limit of 1000 addresses", MOST_OF_LIMITED, limited.most_held);
}
