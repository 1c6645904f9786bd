// Times the library through the static library bench_codec, and counts what it allocates. `run` builds
// and runs it, and reads what it prints; docs/SPEED.md says what the lines mean.
#include <float.h>
#include <malloc.h>
#include <stdio.h>
#include <stdlib.h>
#include <string.h>
#include <time.h>

#include "bench.h"
#include "samples.h"

// ---- sizes in bytes, and other numbers of the format

enum {
    SHA1_SIZE = 20,
    SHA256_SIZE = 32,
    SHA512_SIZE = 64,
    LIFETIME_SIZE = 8,          // with its header
    FINGERPRINT_SIZE = 8,       // with its header
    ERROR_CODE_SIZE = 28,       // of 420 with its reason, header and padding
    ADDS_FEW = 18,              // LIFETIMEs in one message
    ADDS_MANY = 899,
    ADDS_MOST = 1100,
    BODY_MOST = 65532,          // the greatest length of a message's body
    TYPES = BODY_MOST / ATTRIBUTE_HEADER_SIZE,
    TYPES_SIZE = 2 * TYPES,     // of the value that lists them
    BINDING_REQUEST = 0x0001,
    ALLOCATE_SUCCESS = 0x0103,
    MESSAGE_INTEGRITY = 0x0008,
    UNKNOWN_ATTRIBUTES = 0x000a,
    LIFETIME = 0x000d,
    MESSAGE_INTEGRITY_SHA256 = 0x001c,
    MESSAGE_INTEGRITY_SHA512 = 0x3f12,
    CHANNEL = 0x4001,
    FRAME_DATA = 60,            // of each frame of a stream
    FRAME_SIZE = 64,            // with its header
    FRAMES_FEW = 10,            // in one chunk
    FRAMES_MORE = 100,
    FRAMES_MANY = 1000,
    FRAMES_MOST = 1024,         // 64 kB
};

// ---- what the static library exports; a slice is a pointer and a length

struct answer {
    bool known, holds;
};

uint32_t stun_bench_crc32(SLICE(text));
uint32_t stun_bench_fingerprint(SLICE(text));
bool stun_bench_parse(SLICE(bytes));
bool stun_bench_shows(SLICE(bytes), const uint16_t *types, size_t count);
bool stun_bench_read(SLICE(bytes), struct allocation *told, bool *fingerprint);
struct answer stun_bench_validate_sha1(SLICE(password), SLICE(bytes));
struct answer stun_bench_validate_sha256(SLICE(password), SLICE(bytes));
struct answer stun_bench_validate_sha512(SLICE(password), SLICE(bytes));
size_t stun_bench_build(const struct allocation *told, uint64_t number, SLICE(software), OUT);
size_t stun_bench_mark_sha1(SLICE(password), const struct allocation *told, uint64_t number,
                            SLICE(software), OUT);
size_t stun_bench_build_request(uint32_t lifetime, uint64_t number, SLICE(user), SLICE(realm),
                                SLICE(nonce), OUT);
size_t stun_bench_sign_request_sha1(SLICE(password), uint32_t lifetime, uint64_t number,
                                    SLICE(user), SLICE(realm), SLICE(nonce), OUT);
size_t stun_bench_build_request_lent(uint32_t lifetime, uint64_t number, SLICE(user), SLICE(realm),
                                     SLICE(nonce), OUT);
size_t stun_bench_sign_request_lent_sha1(SLICE(password), uint32_t lifetime, uint64_t number,
                                         SLICE(user), SLICE(realm), SLICE(nonce), OUT);
size_t stun_bench_mark_lent_sha1(SLICE(password), const struct allocation *told, uint64_t number,
                                 SLICE(software), OUT);
size_t stun_bench_add_lifetimes(const uint32_t *each, size_t count, uint64_t number, OUT);
bool stun_bench_parse_channel(SLICE(bytes));
size_t stun_bench_write_channel(uint16_t id, SLICE(data), OUT);
size_t stun_bench_feed(SLICE(bytes), size_t size);
size_t stun_bench_check_types(SLICE(bytes), OUT);

// ---- what is counted: the linker sends each call of malloc, realloc and free here (--wrap)

size_t allocations, allocated_bytes, held_bytes, most_held_bytes;
bool counts_held;

void *__real_malloc(size_t size);
void *__real_realloc(void *at, size_t size);
void __real_free(void *at);

static void hold(void *at) {
    held_bytes += malloc_usable_size(at);
    most_held_bytes = held_bytes > most_held_bytes ? held_bytes : most_held_bytes;
}

static void release(void *at) {
    held_bytes -= malloc_usable_size(at);
}

void *__wrap_malloc(size_t size) {
    allocations++;
    allocated_bytes += size;
    void *at = __real_malloc(size);
    if (counts_held) {
        hold(at);
    }
    return at;
}

void *__wrap_realloc(void *at, size_t size) {
    allocations++;
    allocated_bytes += size;
    if (counts_held) {
        release(at);
    }
    void *moved = __real_realloc(at, size);
    if (counts_held) {
        hold(moved);
    }
    return moved;
}

void __wrap_free(void *at) {
    if (counts_held) {
        release(at);
    }
    __real_free(at);
}

// ---- what is given

static const uint8_t key[] = "0123456789abcdef";
static const uint8_t software[] = "pakhvizhe ok";
static const uint8_t user[] = "user";
static const uint8_t realm[] = "realm";
static const uint8_t nonce[] = "obMatJos2AAAA0123456789abcdef";
static const struct allocation granted = {0xcb007105, 0xc0a80001, 600, 50000, 1000};
static const uint64_t number = 0xd0e0f0a1a2a3a4a5;
static const uint16_t request_types[] = {0x0019, 0x000d, 0x0006, 0x0014, 0x0015, 0x0008};
static const uint16_t response_types[] = {0x8022, 0x001c, 0x0016};
static const uint16_t whole_types[] = {0x0016, 0x000d, 0x0020, 0x8022, 0x0008, 0x8028};
static uint8_t large[4096];
// the seconds of each LIFETIME that is added
static uint32_t lifetimes[ADDS_MOST];
// a request that shows as many attributes as a message can, each of another type and none of them known
static uint8_t unknowns[HEADER_SIZE + BODY_MOST];

// channel frames one behind another, and as much data as a frame has that is written
static uint8_t stream[FRAMES_MOST * FRAME_SIZE];
static const uint8_t payload[PAYLOAD];

// a text without the zero at its end
#define TEXT(text) text, sizeof text - 1
#define ELEMENTS(array) array, sizeof array / sizeof array[0]
#define WHOLE(bytes) bytes, sizeof bytes
#define KEY TEXT(key)
#define RESPONSE &granted, number, TEXT(software), WHOLE(out)
#define ASKED_SECONDS 1800
#define REQUEST ASKED_SECONDS, number, TEXT(user), TEXT(realm), TEXT(nonce), WHOLE(out)
// the text that the FINGERPRINT of a message covers
#define COVERED(message) message, sizeof message - FINGERPRINT_SIZE
// five blocks of a digest: so long a text takes four, and its padding the fifth; those of SHA-512 are twice as long
#define FIVE_BLOCKS large, 256
#define FIVE_LONG_BLOCKS large, 512
#define LIFETIMES(count) lifetimes, count, number, WHOLE(wide)

// ---- what is timed: each takes how often it is to run

static volatile unsigned sink;
static uint8_t out[256];
static uint8_t wide[HEADER_SIZE + BODY_MOST];
static uint8_t digest[SHA512_SIZE];
// the response signed by SHA-256, with the first or the last byte of its HMAC changed
static uint8_t first_wrong[sizeof response_sha256];
static uint8_t last_wrong[sizeof response_sha256];
static struct allocation told;
static bool fingerprint;

#define TIMED(name, call)                          \
    static void name(unsigned count) {             \
        for (unsigned i = 0; i < count; i++) {     \
            call;                                  \
        }                                          \
    }

TIMED(sha1_five, stun_bench_sha1(FIVE_BLOCKS, digest))
TIMED(sha256_five, stun_bench_sha256(FIVE_BLOCKS, digest))
TIMED(sha512_five, stun_bench_sha512(FIVE_LONG_BLOCKS, digest))
TIMED(crc_long, sink += stun_bench_crc32(WHOLE(large)))
TIMED(crc_short, sink += stun_bench_crc32(WHOLE(response_sha1)))
TIMED(parse_response, sink += stun_bench_parse(WHOLE(response_sha1)))
TIMED(read_response, sink += stun_bench_read(WHOLE(response_sha1), &told, &fingerprint))
TIMED(parse_request, sink += stun_bench_parse(WHOLE(request_sha1)))
TIMED(look_up_request, sink += stun_bench_shows(WHOLE(request_sha1), ELEMENTS(request_types)))
TIMED(parse_whole, sink += stun_bench_parse(WHOLE(response_whole)))
TIMED(look_up_whole, sink += stun_bench_shows(WHOLE(response_whole), ELEMENTS(whole_types)))
TIMED(read_whole, sink += stun_bench_read(WHOLE(response_whole), &told, &fingerprint))
TIMED(key_sha1, sink += stun_bench_validate_sha1(KEY, response_sha1, 0).known)
TIMED(key_sha256, sink += stun_bench_validate_sha256(KEY, response_sha256, 0).known)
TIMED(key_sha512, sink += stun_bench_validate_sha512(KEY, response_sha512, 0).known)
TIMED(validate_response_sha1, sink += stun_bench_validate_sha1(KEY, WHOLE(response_sha1)).holds)
TIMED(validate_whole_sha1, sink += stun_bench_validate_sha1(KEY, WHOLE(response_whole)).holds)
TIMED(validate_request_sha1, sink += stun_bench_validate_sha1(KEY, WHOLE(request_sha1)).holds)
TIMED(validate_response_sha256,
      sink += stun_bench_validate_sha256(KEY, WHOLE(response_sha256)).holds)
TIMED(refuse_first, sink += stun_bench_validate_sha256(KEY, WHOLE(first_wrong)).holds)
TIMED(refuse_last, sink += stun_bench_validate_sha256(KEY, WHOLE(last_wrong)).holds)
TIMED(validate_request_sha256,
      sink += stun_bench_validate_sha256(KEY, WHOLE(request_sha256)).holds)
TIMED(validate_response_sha512,
      sink += stun_bench_validate_sha512(KEY, WHOLE(response_sha512)).holds)
TIMED(validate_request_sha512,
      sink += stun_bench_validate_sha512(KEY, WHOLE(request_sha512)).holds)
TIMED(build, sink += stun_bench_build(RESPONSE))
TIMED(build_lent, sink += stun_bench_build_lent(RESPONSE))
TIMED(sign_sha1, sink += stun_bench_sign_sha1(KEY, RESPONSE))
TIMED(mark_sha1, sink += stun_bench_mark_sha1(KEY, RESPONSE))
TIMED(mark_lent_sha1, sink += stun_bench_mark_lent_sha1(KEY, RESPONSE))
TIMED(sign_sha256, sink += stun_bench_sign_sha256(KEY, RESPONSE))
TIMED(sign_sha512, sink += stun_bench_sign_sha512(KEY, RESPONSE))
TIMED(build_request, sink += stun_bench_build_request(REQUEST))
TIMED(sign_request_sha1, sink += stun_bench_sign_request_sha1(KEY, REQUEST))
TIMED(build_request_lent, sink += stun_bench_build_request_lent(REQUEST))
TIMED(sign_request_lent_sha1, sink += stun_bench_sign_request_lent_sha1(KEY, REQUEST))
TIMED(fingerprint_response, sink += stun_bench_fingerprint(COVERED(response_whole)))
TIMED(fingerprint_request, sink += stun_bench_fingerprint(COVERED(request_whole)))
TIMED(parse_channel, sink += stun_bench_parse_channel(stream, FRAME_SIZE))
TIMED(write_channel, sink += stun_bench_write_channel(CHANNEL, WHOLE(payload), WHOLE(wide)))
TIMED(feed_few, sink += stun_bench_feed(stream, FRAMES_FEW * FRAME_SIZE, sizeof stream))
TIMED(feed_more, sink += stun_bench_feed(stream, FRAMES_MORE * FRAME_SIZE, sizeof stream))
TIMED(feed_many, sink += stun_bench_feed(stream, FRAMES_MANY * FRAME_SIZE, sizeof stream))
TIMED(feed_most, sink += stun_bench_feed(WHOLE(stream), sizeof stream))
TIMED(feed_bytes, sink += stun_bench_feed(WHOLE(stream), 1))
TIMED(add_1, sink += stun_bench_add_lifetimes(LIFETIMES(1)))
TIMED(add_18, sink += stun_bench_add_lifetimes(LIFETIMES(ADDS_FEW)))
TIMED(add_899, sink += stun_bench_add_lifetimes(LIFETIMES(ADDS_MANY)))
TIMED(add_1100, sink += stun_bench_add_lifetimes(LIFETIMES(ADDS_MOST)))
TIMED(parse_unknowns, sink += stun_bench_parse(WHOLE(unknowns)))
TIMED(check_unknowns, sink += stun_bench_check_types(WHOLE(unknowns), WHOLE(wide)))

struct row {
    const char *name;
    void (*run)(unsigned count);
    unsigned count;
};

// Those behind SMALL_ROWS fill the caches, and are timed in rounds of their own.
enum {
    SHA1_FIVE, SHA256_FIVE, SHA512_FIVE, CRC_LONG, CRC_SHORT, PARSE_RESPONSE, READ_RESPONSE, PARSE_REQUEST,
    LOOK_UP_REQUEST, PARSE_WHOLE, LOOK_UP_WHOLE, READ_WHOLE, KEY_SHA1, KEY_SHA256, KEY_SHA512,
    VALIDATE_RESPONSE_SHA1, VALIDATE_WHOLE_SHA1, VALIDATE_REQUEST_SHA1, VALIDATE_RESPONSE_SHA256,
    REFUSE_FIRST, REFUSE_LAST, VALIDATE_REQUEST_SHA256, VALIDATE_RESPONSE_SHA512, VALIDATE_REQUEST_SHA512,
    BUILD, BUILD_LENT, SIGN_SHA1, MARK_SHA1, MARK_LENT_SHA1, SIGN_SHA256, SIGN_SHA512, BUILD_REQUEST, SIGN_REQUEST_SHA1,
    BUILD_REQUEST_LENT, SIGN_REQUEST_LENT_SHA1, FINGERPRINT_RESPONSE, FINGERPRINT_REQUEST,
    PARSE_CHANNEL, WRITE_CHANNEL, FEED_FEW, FEED_MORE, SMALL_ROWS,
    ADD_1 = SMALL_ROWS, ADD_18, ADD_899, ADD_1100, PARSE_UNKNOWNS, CHECK_UNKNOWNS, FEED_MANY,
    FEED_MOST, FEED_BYTES, ROWS
};

static const struct row rows[ROWS] = {
    [SHA1_FIVE] = {"SHA-1, five blocks", sha1_five, 16},
    [SHA256_FIVE] = {"SHA-256, five blocks", sha256_five, 16},
    [SHA512_FIVE] = {"SHA-512, five blocks", sha512_five, 16},
    [CRC_LONG] = {"CRC-32, 4096 bytes", crc_long, 4},
    [CRC_SHORT] = {"CRC-32, 92 bytes", crc_short, 128},
    [PARSE_RESPONSE] = {"parse response, without FINGERPRINT", parse_response, 256},
    [READ_RESPONSE] = {"parse response and read it, without FINGERPRINT", read_response, 128},
    [PARSE_REQUEST] = {"parse request", parse_request, 256},
    [LOOK_UP_REQUEST] = {"parse request and look up six", look_up_request, 128},
    [PARSE_WHOLE] = {"parse response, with FINGERPRINT", parse_whole, 64},
    [LOOK_UP_WHOLE] = {"parse response and look up six, with FINGERPRINT", look_up_whole, 64},
    [READ_WHOLE] = {"parse response and read it, with FINGERPRINT", read_whole, 64},
    [KEY_SHA1] = {"key, SHA-1", key_sha1, 64},
    [KEY_SHA256] = {"key, SHA-256", key_sha256, 64},
    [KEY_SHA512] = {"key, SHA-512", key_sha512, 64},
    [VALIDATE_RESPONSE_SHA1] = {"key, validate response, SHA-1", validate_response_sha1, 16},
    [VALIDATE_WHOLE_SHA1] = {"key, validate response with FINGERPRINT, SHA-1", validate_whole_sha1,
                             16},
    [VALIDATE_REQUEST_SHA1] = {"key, validate request, SHA-1", validate_request_sha1, 16},
    [VALIDATE_RESPONSE_SHA256] = {"key, validate response, SHA-256", validate_response_sha256, 16},
    [REFUSE_FIRST] = {"key, refuse response, SHA-256, whose HMAC's first byte is wrong", refuse_first, 16},
    [REFUSE_LAST] = {"key, refuse response, SHA-256, whose HMAC's last byte is wrong", refuse_last, 16},
    [VALIDATE_REQUEST_SHA256] = {"key, validate request, SHA-256", validate_request_sha256, 16},
    [VALIDATE_RESPONSE_SHA512] = {"key, validate response, SHA-512", validate_response_sha512, 16},
    [VALIDATE_REQUEST_SHA512] = {"key, validate request, SHA-512", validate_request_sha512, 16},
    [BUILD] = {"build response into a vector", build, 64},
    [BUILD_LENT] = {"build response into a slice", build_lent, 64},
    [SIGN_SHA1] = {"key, build and sign response, SHA-1", sign_sha1, 16},
    [MARK_SHA1] = {"key, build and sign response, SHA-1, and its FINGERPRINT", mark_sha1, 16},
    [MARK_LENT_SHA1] = {"key, build and sign response into a slice, SHA-1, and its FINGERPRINT",
                        mark_lent_sha1, 16},
    [SIGN_SHA256] = {"key, build and sign response, SHA-256", sign_sha256, 16},
    [SIGN_SHA512] = {"key, build and sign response, SHA-512", sign_sha512, 16},
    [BUILD_REQUEST] = {"build request", build_request, 64},
    [SIGN_REQUEST_SHA1] = {"key, build and sign request, SHA-1", sign_request_sha1, 16},
    [BUILD_REQUEST_LENT] = {"build request into a slice", build_request_lent, 64},
    [SIGN_REQUEST_LENT_SHA1] = {"key, build and sign request into a slice, SHA-1",
                                sign_request_lent_sha1, 16},
    [FINGERPRINT_RESPONSE] = {"FINGERPRINT of the response, over 92 bytes", fingerprint_response,
                              128},
    [FINGERPRINT_REQUEST] = {"FINGERPRINT of the request, over 116 bytes", fingerprint_request,
                             128},
    [PARSE_CHANNEL] = {"parse channel frame", parse_channel, 256},
    [WRITE_CHANNEL] = {"write channel frame of 1200 bytes into a slice", write_channel, 64},
    [FEED_FEW] = {"stream of 10 frames in one chunk", feed_few, 16},
    [FEED_MORE] = {"stream of 100 frames in one chunk", feed_more, 2},
    [FEED_MANY] = {"stream of 1000 frames in one chunk", feed_many, 1},
    [FEED_MOST] = {"stream of 1024 frames, 64 kB, in one chunk", feed_most, 1},
    [FEED_BYTES] = {"stream of 1024 frames, 64 kB, byte by byte", feed_bytes, 1},
    [ADD_1] = {"begin a message in a slice, 1 add", add_1, 128},
    [ADD_18] = {"begin a message in a slice, 18 adds", add_18, 128},
    [ADD_899] = {"begin a message in a slice, 899 adds", add_899, 8},
    [ADD_1100] = {"begin a message in a slice, 1100 adds", add_1100, 8},
    [PARSE_UNKNOWNS] = {"parse 16,383 unknown types", parse_unknowns, 1},
    [CHECK_UNKNOWNS] = {"parse and check 16,383 unknown types", check_unknowns, 1},
};

// the least time of one call, in nanoseconds, and the allocations of one call
static double least[ROWS];
static size_t taken[ROWS];

// ---- whether the answers are right

void must(bool holds, const char *what) {
    if (!holds) {
        fprintf(stderr, "wrong answer: %s\n", what);
        exit(1);
    }
}

// what is written is this text
static void must_be(size_t size, const uint8_t *text, size_t text_size, const char *what) {
    must(size == text_size && memcmp(out, text, size) == 0, what);
}

// the number in two bytes, the higher first
static uint16_t short_at(const uint8_t *bytes) { return (uint16_t)(bytes[0] << 8 | bytes[1]); }

void write_short(uint8_t *bytes, unsigned value) {
    bytes[0] = (uint8_t)(value >> 8);
    bytes[1] = (uint8_t)value;
}

// the number in four bytes, the highest first
static uint32_t number_at(const uint8_t *bytes) {
    return (uint32_t)short_at(bytes) << 16 | short_at(bytes + 2);
}

static bool validates(struct answer answer) { return answer.known && answer.holds; }

// the next type below 0x8000 that no integrity attribute has
static unsigned next_type(unsigned type) {
    type++;
    bool is_integrity = type == MESSAGE_INTEGRITY || type == MESSAGE_INTEGRITY_SHA256 ||
                        type == MESSAGE_INTEGRITY_SHA512;
    return is_integrity ? type + 1 : type;
}

// the header as that of the response, but for type and length; then attributes of no value
static void make_unknowns(void) {
    memcpy(unknowns, response_unsigned, HEADER_SIZE);
    write_short(unknowns, BINDING_REQUEST);
    write_short(unknowns + 2, BODY_MOST);
    unsigned type = 0;
    for (size_t at = HEADER_SIZE; at < sizeof unknowns; at += ATTRIBUTE_HEADER_SIZE) {
        type = next_type(type);
        write_short(unknowns + at, type);
    }
}

// the HMAC is the value of the response's last attribute
static void make_wrong(void) {
    memcpy(first_wrong, response_sha256, sizeof first_wrong);
    memcpy(last_wrong, response_sha256, sizeof last_wrong);
    first_wrong[sizeof first_wrong - SHA256_SIZE] ^= 1;
    last_wrong[sizeof last_wrong - 1] ^= 1;
}

// each another one
static void make_lifetimes(void) {
    for (uint32_t i = 0; i < ADDS_MOST; i++) {
        lifetimes[i] = ASKED_SECONDS + i;
    }
}

static void check_digests(void) {
    static const uint8_t abc_sha1[SHA1_SIZE] = {
        0xa9, 0x99, 0x3e, 0x36, 0x47, 0x06, 0x81, 0x6a, 0xba, 0x3e,
        0x25, 0x71, 0x78, 0x50, 0xc2, 0x6c, 0x9c, 0xd0, 0xd8, 0x9d};
    static const uint8_t abc_sha256[SHA256_SIZE] = {
        0xba, 0x78, 0x16, 0xbf, 0x8f, 0x01, 0xcf, 0xea, 0x41, 0x41, 0x40, 0xde, 0x5d, 0xae, 0x22, 0x23,
        0xb0, 0x03, 0x61, 0xa3, 0x96, 0x17, 0x7a, 0x9c, 0xb4, 0x10, 0xff, 0x61, 0xf2, 0x00, 0x15, 0xad};
    static const uint8_t abc_sha512[SHA512_SIZE] = {
        0xdd, 0xaf, 0x35, 0xa1, 0x93, 0x61, 0x7a, 0xba, 0xcc, 0x41, 0x73, 0x49, 0xae, 0x20, 0x41, 0x31,
        0x12, 0xe6, 0xfa, 0x4e, 0x89, 0xa9, 0x7e, 0xa2, 0x0a, 0x9e, 0xee, 0xe6, 0x4b, 0x55, 0xd3, 0x9a,
        0x21, 0x92, 0x99, 0x2a, 0x27, 0x4f, 0xc1, 0xa8, 0x36, 0xba, 0x3c, 0x23, 0xa3, 0xfe, 0xeb, 0xbd,
        0x45, 0x4d, 0x44, 0x23, 0x64, 0x3c, 0xe8, 0x0e, 0x2a, 0x9a, 0xc9, 0x4f, 0xa5, 0x4c, 0xa4, 0x9f};
    static const uint8_t abc[] = "abc", digits[] = "123456789";
    stun_bench_sha1(TEXT(abc), digest);
    must(memcmp(digest, abc_sha1, SHA1_SIZE) == 0, "SHA-1 of abc");
    stun_bench_sha256(TEXT(abc), digest);
    must(memcmp(digest, abc_sha256, SHA256_SIZE) == 0, "SHA-256 of abc");
    stun_bench_sha512(TEXT(abc), digest);
    must(memcmp(digest, abc_sha512, SHA512_SIZE) == 0, "SHA-512 of abc");
    must(stun_bench_crc32(TEXT(digits)) == 0xcbf43926, "CRC-32 of 123456789");
}

static void check_reading(void) {
    must(stun_bench_parse(WHOLE(response_sha1)), "parse");
    must(!stun_bench_parse(response_sha1, sizeof response_sha1 - 1), "parse of a part");
    // both are written: they hold something else before
    told = (struct allocation){0};
    fingerprint = true;
    must(stun_bench_read(WHOLE(response_sha1), &told, &fingerprint), "read");
    must(memcmp(&told, &granted, sizeof told) == 0 && !fingerprint, "what is read");
    must(stun_bench_shows(WHOLE(request_sha1), ELEMENTS(request_types)), "look-ups");
    must(stun_bench_shows(WHOLE(response_sha256), ELEMENTS(response_types)), "look-ups");
    must(!stun_bench_shows(WHOLE(response_sha1), ELEMENTS(response_types)), "no SHA-256");
    must(stun_bench_shows(WHOLE(response_whole), ELEMENTS(whole_types)), "look-ups");
    must(!stun_bench_shows(WHOLE(response_sha1), ELEMENTS(whole_types)), "no FINGERPRINT");
    must(stun_bench_read(WHOLE(response_whole), &told, &fingerprint), "read");
    must(fingerprint, "FINGERPRINT is shown");
}

static void check_validation(void) {
    must(validates(stun_bench_validate_sha1(KEY, WHOLE(response_sha1))), "SHA-1");
    must(validates(stun_bench_validate_sha1(KEY, WHOLE(response_whole))), "SHA-1");
    must(validates(stun_bench_validate_sha1(KEY, WHOLE(request_sha1))), "SHA-1");
    must(validates(stun_bench_validate_sha256(KEY, WHOLE(response_sha256))), "SHA-256");
    must(validates(stun_bench_validate_sha256(KEY, WHOLE(request_sha256))), "SHA-256");
    must(validates(stun_bench_validate_sha512(KEY, WHOLE(response_sha512))), "SHA-512");
    must(validates(stun_bench_validate_sha512(KEY, WHOLE(request_sha512))), "SHA-512");
    must(!validates(stun_bench_validate_sha512(KEY, WHOLE(response_sha256))), "another algorithm");
    make_wrong();
    struct answer first = stun_bench_validate_sha256(KEY, WHOLE(first_wrong));
    struct answer last = stun_bench_validate_sha256(KEY, WHOLE(last_wrong));
    must(first.known && !first.holds && last.known && !last.holds, "a wrong HMAC");
    must(!validates(stun_bench_validate_sha1(software, sizeof software - 1, WHOLE(response_sha1))),
         "another key");
}

static void check_writing(void) {
    must_be(stun_bench_build(RESPONSE), WHOLE(response_unsigned), "build");
    must_be(stun_bench_sign_sha1(KEY, RESPONSE), WHOLE(response_sha1), "sign, SHA-1");
    must_be(stun_bench_sign_sha256(KEY, RESPONSE), WHOLE(response_sha256), "sign, SHA-256");
    must_be(stun_bench_sign_sha512(KEY, RESPONSE), WHOLE(response_sha512), "sign, SHA-512");
    must_be(stun_bench_mark_sha1(KEY, RESPONSE), WHOLE(response_whole), "FINGERPRINT");
    must(stun_bench_fingerprint(COVERED(response_whole)) ==
             number_at(response_whole + sizeof response_whole - sizeof(uint32_t)),
         "FINGERPRINT of the response");
    must_be(stun_bench_build_request(REQUEST), WHOLE(request_unsigned), "build");
    must_be(stun_bench_sign_request_sha1(KEY, REQUEST), WHOLE(request_sha1), "sign, SHA-1");
    must(stun_bench_fingerprint(COVERED(request_whole)) ==
             number_at(request_whole + sizeof request_whole - sizeof(uint32_t)),
         "FINGERPRINT of the request");
}

static void check_writing_into_slices(void) {
    memset(out, 0, sizeof out);
    must_be(stun_bench_build_lent(RESPONSE), WHOLE(response_unsigned), "build into a slice");
    memset(out, 0, sizeof out);
    must_be(stun_bench_mark_lent_sha1(KEY, RESPONSE), WHOLE(response_whole), "sign into a slice");
    memset(out, 0, sizeof out);
    must_be(stun_bench_build_request_lent(REQUEST), WHOLE(request_unsigned), "build into a slice");
    memset(out, 0, sizeof out);
    must_be(stun_bench_sign_request_lent_sha1(KEY, REQUEST), WHOLE(request_sha1), "sign into a slice");
    must(stun_bench_build_lent(&granted, number, TEXT(software), out,
                               sizeof response_unsigned) == sizeof response_unsigned,
         "build into a slice of its size");
    must(stun_bench_build_lent(&granted, number, TEXT(software), out,
                               sizeof response_unsigned - 1) == 0,
         "a slice too short for it");
    must(stun_bench_build_lent(&granted, number, TEXT(software), out, HEADER_SIZE - 1) == 0,
         "a slice too short for a header");
}

static void check_adds(size_t count) {
    size_t size = HEADER_SIZE + count * LIFETIME_SIZE;
    memset(wide, 0, sizeof wide);
    must(stun_bench_add_lifetimes(LIFETIMES(count)) == size, "adds");
    must(short_at(wide) == ALLOCATE_SUCCESS && short_at(wide + 2) == size - HEADER_SIZE, "header");
    for (size_t at = HEADER_SIZE; at < size; at += LIFETIME_SIZE) {
        const uint8_t *value = wide + at + ATTRIBUTE_HEADER_SIZE;
        size_t place = (at - HEADER_SIZE) / LIFETIME_SIZE;
        must(short_at(wide + at) == LIFETIME && number_at(value) == lifetimes[place], "LIFETIME");
    }
}

static void make_stream(void) {
    for (unsigned at = 0; at < sizeof stream; at += FRAME_SIZE) {
        write_short(stream + at, CHANNEL);
        write_short(stream + at + 2, FRAME_DATA);
    }
}

static void check_streams(void) {
    must(stun_bench_parse_channel(stream, FRAME_SIZE), "parse of a channel frame");
    must(!stun_bench_parse_channel(stream, FRAME_SIZE - 1), "parse of a part of it");
    size_t size = ATTRIBUTE_HEADER_SIZE + PAYLOAD;
    must(stun_bench_write_channel(CHANNEL, WHOLE(payload), WHOLE(wide)) == size, "channel frame");
    must(short_at(wide) == CHANNEL && short_at(wide + 2) == PAYLOAD, "header of a channel frame");
    must(memcmp(wide + ATTRIBUTE_HEADER_SIZE, payload, PAYLOAD) == 0, "its data");
    must(stun_bench_write_channel(CHANNEL, WHOLE(payload), wide, size - 1) == 0, "no room for it");
    must(stun_bench_write_channel(0, WHOLE(payload), WHOLE(wide)) == 0, "no channel's number");
    must(stun_bench_feed(WHOLE(stream), sizeof stream) == FRAMES_MOST, "a stream in one chunk");
    must(stun_bench_feed(WHOLE(stream), 1) == FRAMES_MOST, "a stream byte by byte");
    must(stun_bench_feed(WHOLE(stream), FRAME_SIZE - 1) == FRAMES_MOST, "a stream in chunks");
}

static void check_types(void) {
    size_t list = HEADER_SIZE + ERROR_CODE_SIZE;
    size_t size = list + ATTRIBUTE_HEADER_SIZE + TYPES_SIZE + 2;
    must(stun_bench_parse(WHOLE(unknowns)), "parse of unknown types");
    must(stun_bench_check_types(WHOLE(unknowns), WHOLE(wide)) == size, "check of unknown types");
    must(short_at(wide + list) == UNKNOWN_ATTRIBUTES, "UNKNOWN-ATTRIBUTES");
    must(short_at(wide + list + 2) == TYPES_SIZE, "its length");
    unsigned type = 0;
    for (size_t at = list + ATTRIBUTE_HEADER_SIZE; at < size - 2; at += 2) {
        type = next_type(type);
        must(short_at(wide + at) == type, "an unknown type");
    }
    must(stun_bench_check_types(WHOLE(unknowns), wide, size - 1) == 0, "no room for the response");
    must(stun_bench_check_types(WHOLE(response_sha1), WHOLE(wide)) == 0, "check of a response");
}

static void check_answers(void) {
    make_unknowns();
    make_lifetimes();
    make_stream();
    check_digests();
    check_reading();
    check_validation();
    check_writing();
    check_writing_into_slices();
    check_adds(1);
    check_adds(ADDS_MOST);
    check_types();
    check_streams();
}

// ---- timing

double now(void) {
    static const double SECOND = 1e9;
    struct timespec at;
    clock_gettime(CLOCK_MONOTONIC, &at);
    return (double)at.tv_sec * SECOND + (double)at.tv_nsec;
}

// the rows of this part, each once in each round
static void time_rows(unsigned first, unsigned end, unsigned rounds) {
    for (unsigned i = first; i < end; i++) {
        size_t before = allocations;
        rows[i].run(1);
        taken[i] = allocations - before;
        least[i] = DBL_MAX;
    }
    for (unsigned round = 0; round < rounds; round++) {
        for (unsigned i = first; i < end; i++) {
            double start = now();
            rows[i].run(rows[i].count);
            double each = (now() - start) / rows[i].count;
            if (each < least[i]) {
                least[i] = each;
            }
        }
    }
}

// ---- what is told

// what is wanted at most
static const double MOST_OF_FIVE_BLOCKS = 1.3;
static const double MOST_OF_VALIDATION = 0.1;
static const double MOST_OF_PARSE = 5;
static const double MOST_A_BYTE = 1.5;
static const double MOST_INTO_SLICE = 0.08;
static const double MOST_INTO_VECTOR = 0.15;
static const double MOST_REQUEST_INTO_SLICE = 0.06;
static const double MOST_SIGNED_REQUEST = 0.75;
static const double MOST_OF_10TH_ADD = 1.2;
// a comparison that stopped at the first byte would save some nanoseconds of a microsecond: this is noise
static const double MOST_BETWEEN_BYTES = 1.03;
static const double MOST_OF_FEW_FRAMES = 1.5;
// nanoseconds that a block of SHA-1 takes on the processor to which the bound of CRC-32 is scaled
static const double SCALED_BLOCK = 150;
static const double BLOCKS = 5;

static bool missed;

void tell(const char *name, double wanted, double measured) {
    printf("%-96s ", name);
    if (wanted == NO_BOUND) {
        printf("%14s", "");
    } else {
        printf("%14.2f", wanted);
    }
    bool misses = wanted != NO_BOUND && measured > wanted;
    printf(" %9.3f%s\n", measured, misses ? "  MISSED" : "");
    missed = missed || misses;
}

// the time of a row that makes a key for each message, without the key's own
static double under_key(unsigned row) { return least[row] - least[KEY_SHA1]; }
static double under_key_sha256(unsigned row) { return least[row] - least[KEY_SHA256]; }
static double under_key_sha512(unsigned row) { return least[row] - least[KEY_SHA512]; }

static void tell_integrity(void) {
    double sha1 = least[SHA1_FIVE];
    tell("validate the response, SHA-1, to five SHA-1 blocks", MOST_OF_FIVE_BLOCKS,
         under_key(VALIDATE_RESPONSE_SHA1) / sha1);
    tell("validate the response with FINGERPRINT, SHA-1", MOST_OF_FIVE_BLOCKS,
         under_key(VALIDATE_WHOLE_SHA1) / sha1);
    tell("validate the request, SHA-1", MOST_OF_FIVE_BLOCKS,
         under_key(VALIDATE_REQUEST_SHA1) / sha1);
    tell("sign the response, SHA-1", MOST_OF_FIVE_BLOCKS, (under_key(SIGN_SHA1) - least[BUILD]) / sha1);
    tell("sign the request, SHA-1", MOST_OF_FIVE_BLOCKS,
         (under_key(SIGN_REQUEST_SHA1) - least[BUILD_REQUEST]) / sha1);
    tell("build and sign the response, SHA-1", NO_BOUND, under_key(SIGN_SHA1) / sha1);
    tell("build and sign the response into a slice, SHA-1, and its FINGERPRINT", NO_BOUND,
         under_key(MARK_LENT_SHA1) / sha1);
    double sha256 = least[SHA256_FIVE];
    tell("validate the response, SHA-256, to five SHA-256 blocks", NO_BOUND,
         under_key_sha256(VALIDATE_RESPONSE_SHA256) / sha256);
    tell("validate the request, SHA-256", NO_BOUND, under_key_sha256(VALIDATE_REQUEST_SHA256) / sha256);
    tell("sign the response, SHA-256", NO_BOUND,
         (under_key_sha256(SIGN_SHA256) - least[BUILD]) / sha256);
    double first = least[REFUSE_FIRST];
    double last = least[REFUSE_LAST];
    tell("refuse a wrong HMAC-SHA256: its last byte to its first, or the other way round", MOST_BETWEEN_BYTES,
         last > first ? last / first : first / last);
    double sha512 = least[SHA512_FIVE];
    tell("validate the response, SHA-512, to five SHA-512 blocks", NO_BOUND,
         under_key_sha512(VALIDATE_RESPONSE_SHA512) / sha512);
    tell("validate the request, SHA-512", NO_BOUND, under_key_sha512(VALIDATE_REQUEST_SHA512) / sha512);
    tell("sign the response, SHA-512", NO_BOUND,
         (under_key_sha512(SIGN_SHA512) - least[BUILD]) / sha512);
}

static void tell_reading(void) {
    double crc = least[CRC_SHORT];
    double look_up = least[LOOK_UP_WHOLE] - crc;
    tell("parse the request with six look-ups, to a key and its validation with SHA-1", MOST_OF_VALIDATION,
         least[LOOK_UP_REQUEST] / least[VALIDATE_REQUEST_SHA1]);
    tell("parse the response of six attributes with six look-ups, to a key and its validation, both but for CRC-32",
         MOST_OF_VALIDATION, look_up / (least[VALIDATE_WHOLE_SHA1] - crc));
    tell("parse it with six look-ups, but for CRC-32, to a key and the validation of one without FINGERPRINT",
         MOST_OF_VALIDATION,
         look_up / least[VALIDATE_RESPONSE_SHA1]);
    tell("check 16,383 unknown types, to their parse", MOST_OF_PARSE,
         (least[CHECK_UNKNOWNS] - least[PARSE_UNKNOWNS]) / least[PARSE_UNKNOWNS]);
    double each = least[CRC_LONG] / sizeof large;
    tell("CRC-32, ns a byte, scaled to 150 ns a SHA-1 block", MOST_A_BYTE,
         each * SCALED_BLOCK / (least[SHA1_FIVE] / BLOCKS));
}

static void tell_building(void) {
    tell("build the response into a slice, to five SHA-1 blocks", MOST_INTO_SLICE,
         least[BUILD_LENT] / least[SHA1_FIVE]);
    tell("build the response into a vector", MOST_INTO_VECTOR, least[BUILD] / least[SHA1_FIVE]);
    tell("build the request of 92 bytes into a slice", MOST_REQUEST_INTO_SLICE,
         least[BUILD_REQUEST_LENT] / least[SHA1_FIVE]);
    tell("build and sign the request of 116 bytes into a slice, SHA-1, under its key",
         MOST_SIGNED_REQUEST, under_key(SIGN_REQUEST_LENT_SHA1) / least[SHA1_FIVE]);
    // the 2nd to the 18th add, and the 900th to the 1100th: their means are the 10th and the 1000th
    double around_10th = (least[ADD_18] - least[ADD_1]) / (ADDS_FEW - 1);
    double around_1000th = (least[ADD_1100] - least[ADD_899]) / (ADDS_MOST - ADDS_MANY);
    tell("the 1000th add into a slice, to the 10th", MOST_OF_10TH_ADD, around_1000th / around_10th);
}

static void tell_streams(void) {
    double few = least[FEED_FEW] / FRAMES_FEW;
    tell("a frame of 100 in one chunk, to one of 10", MOST_OF_FEW_FRAMES,
         least[FEED_MORE] / FRAMES_MORE / few);
    tell("a frame of 1000 in one chunk, to one of 10", MOST_OF_FEW_FRAMES,
         least[FEED_MANY] / FRAMES_MANY / few);
    tell("64 kB of frames in one chunk, ns a byte", NO_BOUND, least[FEED_MOST] / sizeof stream);
    tell("64 kB of frames byte by byte, ns a byte", NO_BOUND, least[FEED_BYTES] / sizeof stream);
}

// the most allocations of these rows
static double most_taken(const unsigned *of, size_t count) {
    size_t most = 0;
    for (size_t i = 0; i < count; i++) {
        most = taken[of[i]] > most ? taken[of[i]] : most;
    }
    return (double)most;
}

static void tell_allocations(void) {
    static const unsigned reading[] = {PARSE_RESPONSE, READ_RESPONSE, PARSE_REQUEST,
                                       LOOK_UP_REQUEST, PARSE_WHOLE, LOOK_UP_WHOLE, READ_WHOLE,
                                       PARSE_UNKNOWNS};
    static const unsigned validation[] = {VALIDATE_RESPONSE_SHA1, VALIDATE_WHOLE_SHA1,
                                          VALIDATE_REQUEST_SHA1, VALIDATE_RESPONSE_SHA256,
                                          VALIDATE_REQUEST_SHA256, VALIDATE_RESPONSE_SHA512,
                                          VALIDATE_REQUEST_SHA512};
    static const unsigned marks[] = {FINGERPRINT_RESPONSE, FINGERPRINT_REQUEST};
    static const unsigned into_slices[] = {BUILD_LENT, BUILD_REQUEST_LENT, ADD_1, ADD_18, ADD_899,
                                           ADD_1100, PARSE_CHANNEL, WRITE_CHANNEL};
    static const unsigned signed_slices[] = {MARK_LENT_SHA1, SIGN_REQUEST_LENT_SHA1};
    static const unsigned into_vectors[] = {BUILD, BUILD_REQUEST};
    static const unsigned signed_vectors[] = {SIGN_SHA1, MARK_SHA1, SIGN_SHA256, SIGN_SHA512,
                                              SIGN_REQUEST_SHA1};
    tell("allocations of parse and look-ups", 0, most_taken(ELEMENTS(reading)));
    tell("allocations of a key and a validation under it", 0, most_taken(ELEMENTS(validation)));
    tell("allocations of FINGERPRINT", 0, most_taken(ELEMENTS(marks)));
    tell("allocations of building into a slice", 0, most_taken(ELEMENTS(into_slices)));
    tell("allocations of a key, building and signing into a slice", 0, most_taken(ELEMENTS(signed_slices)));
    tell("allocations of building into a vector", 1, most_taken(ELEMENTS(into_vectors)));
    tell("allocations of a key, building and signing into a vector", 1, most_taken(ELEMENTS(signed_vectors)));
}

int main(int argc, char **argv) {
    enum { ROUNDS = 20000 };
    unsigned rounds = argc > 1 ? (unsigned)strtoul(argv[1], 0, 10) : ROUNDS;
    check_answers();
    time_rows(0, SMALL_ROWS, rounds);
    time_rows(SMALL_ROWS, ROWS, rounds);
    time_kept(rounds);
    printf("%-72s %10s %12s\n", "", "ns", "allocations");
    for (unsigned i = 0; i < ROWS; i++) {
        printf("%-72s %10.1f %12zu\n", rows[i].name, least[i], taken[i]);
    }
    printf("\n%-96s %14s %9s\n", "", "wanted at most", "measured");
    tell_integrity();
    tell_kept();
    tell_reading();
    tell_building();
    tell_streams();
    tell_allocations();
    tell_clients();
    tell_agents();
    tell_users();
    if (missed) {
        printf("\nA bound is missed.\n");
    }
    return missed;
}
