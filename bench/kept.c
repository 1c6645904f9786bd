// What a key costs that is made, and what each message under it that comes behind the first: the difference
// that so many more make. All of it as shares of five blocks of the digest, in the same rounds.
#include <float.h>
#include <stdio.h>
#include <string.h>

#include "bench.h"

size_t stun_bench_validate_all_sha1(SLICE(password), SLICE(messages), size_t size);
size_t stun_bench_validate_all_sha256(SLICE(password), SLICE(messages), size_t size);
size_t stun_bench_validate_all_sha512(SLICE(password), SLICE(messages), size_t size);
size_t stun_bench_sign_all_sha1(SLICE(password), const struct allocation *told, SLICE(numbers),
                                SLICE(software), OUT);
size_t stun_bench_sign_all_sha256(SLICE(password), const struct allocation *told, SLICE(numbers),
                                  SLICE(software), OUT);
size_t stun_bench_sign_all_sha512(SLICE(password), const struct allocation *told, SLICE(numbers),
                                  SLICE(software), OUT);
size_t stun_bench_take_successes(size_t asked, size_t taken);

enum {
    MESSAGE = 108,      // bytes, signed: five blocks of its digest, three under a key that is kept
    MESSAGE_SHA512 = 184, // as many of SHA-512, which are twice as long
    MORE = 32,          // messages behind the first
    MANY = 20000,       // different ones: some 2 MB
    SOFTWARE_SHA1 = 28, // bytes of SOFTWARE in a message of this size
    SOFTWARE_SHA256 = 16,
    SOFTWARE_SHA512 = 60,
    SHARED = 8,         // calls between two looks at the clock
    MANY_RUNS = 20,
    ASKED = 8,          // permissions that a client asks for, before any is asked for again
    ASKED_RUNS = 400,
};

static const uint8_t key[] = "0123456789abcdef";
static const uint8_t other_key[] = "0123456789abcdeg";
static const uint8_t software[] = "pakhvizhe ok pakhvizhe ok ok pakhvizhe ok pakhvizhe ok ok ok";
static const struct allocation granted = {0xcb007105, 0xc0a80001, 600, 50000, 1000};
static uint8_t large[512], digest[64], out[256], numbers[1 + MORE];
static uint8_t sha1_messages[MANY * MESSAGE], sha256_messages[MANY * MESSAGE];
static uint8_t sha512_messages[MANY * MESSAGE_SHA512];
static volatile size_t sink;

#define KEY key, sizeof key - 1
#define ROOM out, sizeof out

#define TIMED(name, call) \
    static void name(void) { sink += call; }

// four blocks of text, and one of padding
static void five_sha1(void) { stun_bench_sha1(large, sizeof large / 2, digest); }
static void five_sha256(void) { stun_bench_sha256(large, sizeof large / 2, digest); }
static void five_sha512(void) { stun_bench_sha512(large, sizeof large, digest); }
TIMED(key_sha1, stun_bench_validate_all_sha1(KEY, sha1_messages, 0, MESSAGE))
TIMED(key_sha256, stun_bench_validate_all_sha256(KEY, sha256_messages, 0, MESSAGE))
TIMED(key_sha512, stun_bench_validate_all_sha512(KEY, sha512_messages, 0, MESSAGE_SHA512))
TIMED(valid_one_sha1, stun_bench_validate_all_sha1(KEY, sha1_messages, MESSAGE, MESSAGE))
TIMED(valid_more_sha1, stun_bench_validate_all_sha1(KEY, sha1_messages, (1 + MORE) * MESSAGE, MESSAGE))
TIMED(valid_one_sha256, stun_bench_validate_all_sha256(KEY, sha256_messages, MESSAGE, MESSAGE))
TIMED(valid_more_sha256,
      stun_bench_validate_all_sha256(KEY, sha256_messages, (1 + MORE) * MESSAGE, MESSAGE))
TIMED(valid_one_sha512,
      stun_bench_validate_all_sha512(KEY, sha512_messages, MESSAGE_SHA512, MESSAGE_SHA512))
TIMED(valid_more_sha512,
      stun_bench_validate_all_sha512(KEY, sha512_messages, (1 + MORE) * MESSAGE_SHA512, MESSAGE_SHA512))
TIMED(build_sha1, stun_bench_build_lent(&granted, 1, software, SOFTWARE_SHA1, ROOM))
TIMED(build_sha256, stun_bench_build_lent(&granted, 1, software, SOFTWARE_SHA256, ROOM))
TIMED(build_sha512, stun_bench_build_lent(&granted, 1, software, SOFTWARE_SHA512, ROOM))
TIMED(sign_one_sha1, stun_bench_sign_all_sha1(KEY, &granted, numbers, 1, software, SOFTWARE_SHA1, ROOM))
TIMED(sign_more_sha1,
      stun_bench_sign_all_sha1(KEY, &granted, numbers, 1 + MORE, software, SOFTWARE_SHA1, ROOM))
TIMED(sign_one_sha256,
      stun_bench_sign_all_sha256(KEY, &granted, numbers, 1, software, SOFTWARE_SHA256, ROOM))
TIMED(sign_more_sha256,
      stun_bench_sign_all_sha256(KEY, &granted, numbers, 1 + MORE, software, SOFTWARE_SHA256, ROOM))
TIMED(sign_one_sha512,
      stun_bench_sign_all_sha512(KEY, &granted, numbers, 1, software, SOFTWARE_SHA512, ROOM))
TIMED(sign_more_sha512,
      stun_bench_sign_all_sha512(KEY, &granted, numbers, 1 + MORE, software, SOFTWARE_SHA512, ROOM))

enum {
    FIVE_SHA1, FIVE_SHA256, FIVE_SHA512, KEY_SHA1, KEY_SHA256, KEY_SHA512, VALID_ONE_SHA1, VALID_MORE_SHA1,
    VALID_ONE_SHA256, VALID_MORE_SHA256, VALID_ONE_SHA512, VALID_MORE_SHA512, BUILD_SHA1, BUILD_SHA256,
    BUILD_SHA512, SIGN_ONE_SHA1, SIGN_MORE_SHA1, SIGN_ONE_SHA256, SIGN_MORE_SHA256, SIGN_ONE_SHA512,
    SIGN_MORE_SHA512, ROWS
};

static void (*const rows[ROWS])(void) = {
    [FIVE_SHA1] = five_sha1, [FIVE_SHA256] = five_sha256, [KEY_SHA1] = key_sha1,
    [KEY_SHA256] = key_sha256, [VALID_ONE_SHA1] = valid_one_sha1, [VALID_MORE_SHA1] = valid_more_sha1,
    [VALID_ONE_SHA256] = valid_one_sha256, [VALID_MORE_SHA256] = valid_more_sha256,
    [BUILD_SHA1] = build_sha1, [BUILD_SHA256] = build_sha256, [SIGN_ONE_SHA1] = sign_one_sha1,
    [SIGN_MORE_SHA1] = sign_more_sha1, [SIGN_ONE_SHA256] = sign_one_sha256,
    [SIGN_MORE_SHA256] = sign_more_sha256,
    [FIVE_SHA512] = five_sha512, [KEY_SHA512] = key_sha512, [VALID_ONE_SHA512] = valid_one_sha512,
    [VALID_MORE_SHA512] = valid_more_sha512, [BUILD_SHA512] = build_sha512,
    [SIGN_ONE_SHA512] = sign_one_sha512, [SIGN_MORE_SHA512] = sign_more_sha512,
};
static double least[ROWS];
static size_t taken[ROWS];

// messages of different numbers, each signed; each is right under the key, and none under another
static void make_messages(void) {
    for (unsigned i = 0; i < MANY; i++) {
        must(stun_bench_sign_sha1(KEY, &granted, i, software, SOFTWARE_SHA1, sha1_messages + i * MESSAGE,
                                  MESSAGE) == MESSAGE, "many, SHA-1");
        must(stun_bench_sign_sha256(KEY, &granted, i, software, SOFTWARE_SHA256,
                                    sha256_messages + i * MESSAGE, MESSAGE) == MESSAGE, "many, SHA-256");
        must(stun_bench_sign_sha512(KEY, &granted, i, software, SOFTWARE_SHA512,
                                    sha512_messages + i * MESSAGE_SHA512, MESSAGE_SHA512) ==
                 MESSAGE_SHA512, "many, SHA-512");
    }
    must(stun_bench_validate_all_sha1(KEY, sha1_messages, sizeof sha1_messages, MESSAGE) == MANY,
         "many are right, SHA-1");
    must(stun_bench_validate_all_sha256(KEY, sha256_messages, sizeof sha256_messages, MESSAGE) == MANY,
         "many are right, SHA-256");
    must(stun_bench_validate_all_sha512(KEY, sha512_messages, sizeof sha512_messages,
                                        MESSAGE_SHA512) == MANY, "many are right, SHA-512");
    must(stun_bench_validate_all_sha1(other_key, sizeof other_key - 1, sha1_messages,
                                      sizeof sha1_messages, MESSAGE) == 0, "none under another key");
    must(stun_bench_validate_all_sha256(KEY, sha1_messages, sizeof sha1_messages, MESSAGE) == 0,
         "none by another algorithm");
}

static void check_signed(void) {
    for (unsigned i = 0; i < sizeof numbers; i++) {
        numbers[i] = (uint8_t)i;
    }
    must(stun_bench_sign_all_sha1(KEY, &granted, numbers, sizeof numbers, software, SOFTWARE_SHA1, ROOM) ==
             sizeof numbers * MESSAGE, "sign many, SHA-1");
    must(memcmp(out, sha1_messages + MORE * MESSAGE, MESSAGE) == 0, "the last of them");
    must(stun_bench_sign_all_sha256(KEY, &granted, numbers, sizeof numbers, software, SOFTWARE_SHA256,
                                    ROOM) == sizeof numbers * MESSAGE, "sign many, SHA-256");
    must(memcmp(out, sha256_messages + MORE * MESSAGE, MESSAGE) == 0, "the last of them");
    must(stun_bench_sign_all_sha512(KEY, &granted, numbers, sizeof numbers, software, SOFTWARE_SHA512,
                                    ROOM) == sizeof numbers * MESSAGE_SHA512, "sign many, SHA-512");
    must(memcmp(out, sha512_messages + MORE * MESSAGE_SHA512, MESSAGE_SHA512) == 0, "the last of them");
    must(stun_bench_take_successes(ASKED, 0) == 0, "no success");
    must(stun_bench_take_successes(ASKED, ASKED) == ASKED, "successes");
}

void time_kept(unsigned rounds) {
    make_messages();
    check_signed();
    for (unsigned i = 0; i < ROWS; i++) {
        size_t before = allocations;
        rows[i]();
        taken[i] = allocations - before;
        least[i] = DBL_MAX;
    }
    for (unsigned round = 0; round < rounds; round++) {
        for (unsigned i = 0; i < ROWS; i++) {
            double start = now();
            for (unsigned call = 0; call < SHARED; call++) {
                rows[i]();
            }
            double each = (now() - start) / SHARED;
            least[i] = each < least[i] ? each : least[i];
        }
    }
}

// one message of many different ones, in nanoseconds
static double of_many(size_t (*validate)(SLICE(password), SLICE(messages), size_t size),
                      const uint8_t *messages, size_t size) {
    double best = DBL_MAX;
    for (unsigned run = 0; run < MANY_RUNS; run++) {
        double start = now();
        sink += validate(KEY, messages, MANY * size, size);
        double each = (now() - start) / MANY;
        best = each < best ? each : best;
    }
    return best;
}

// what a client takes for a signed success that it is handed, in nanoseconds
static double of_success(void) {
    double none = DBL_MAX, all = DBL_MAX;
    for (unsigned run = 0; run < ASKED_RUNS; run++) {
        double start = now();
        sink += stun_bench_take_successes(ASKED, 0);
        double between = now();
        sink += stun_bench_take_successes(ASKED, ASKED);
        double ended = now() - between;
        none = between - start < none ? between - start : none;
        all = ended < all ? ended : all;
    }
    return (all - none) / ASKED;
}

// one more behind the first
static double more(unsigned many, unsigned one) { return (least[many] - least[one]) / MORE; }

// what is wanted at most, of five blocks of the digest
static const double MOST_MORE_SHA1 = 0.75, MOST_MORE_SHA256 = 0.68;
static const double MOST_OF_MANY_SHA1 = 0.77, MOST_OF_MANY_SHA256 = 0.72;

void tell_kept(void) {
    double sha1 = least[FIVE_SHA1], sha256 = least[FIVE_SHA256], sha512 = least[FIVE_SHA512];
    tell("a key alone, SHA-1, to five SHA-1 blocks", NO_BOUND, least[KEY_SHA1] / sha1);
    tell("a key alone, SHA-256, to five SHA-256 blocks", NO_BOUND, least[KEY_SHA256] / sha256);
    tell("a key alone, SHA-512, to five SHA-512 blocks", NO_BOUND, least[KEY_SHA512] / sha512);
    tell("a key and one validation of 108 bytes, SHA-1", NO_BOUND, least[VALID_ONE_SHA1] / sha1);
    tell("a key and one validation of 108 bytes, SHA-256", NO_BOUND, least[VALID_ONE_SHA256] / sha256);
    tell("a key and one validation of 184 bytes, SHA-512", NO_BOUND, least[VALID_ONE_SHA512] / sha512);
    tell("a key and one signature of 108 bytes, SHA-1", NO_BOUND,
         (least[SIGN_ONE_SHA1] - least[BUILD_SHA1]) / sha1);
    tell("a key and one signature of 108 bytes, SHA-256", NO_BOUND,
         (least[SIGN_ONE_SHA256] - least[BUILD_SHA256]) / sha256);
    tell("a key and one signature of 184 bytes, SHA-512", NO_BOUND,
         (least[SIGN_ONE_SHA512] - least[BUILD_SHA512]) / sha512);
    tell("one validation more under the key, SHA-1", MOST_MORE_SHA1,
         more(VALID_MORE_SHA1, VALID_ONE_SHA1) / sha1);
    tell("one validation more under the key, SHA-256", MOST_MORE_SHA256,
         more(VALID_MORE_SHA256, VALID_ONE_SHA256) / sha256);
    tell("one validation more under the key, SHA-512", NO_BOUND,
         more(VALID_MORE_SHA512, VALID_ONE_SHA512) / sha512);
    tell("one signature more under the key, SHA-1", MOST_MORE_SHA1,
         (more(SIGN_MORE_SHA1, SIGN_ONE_SHA1) - least[BUILD_SHA1]) / sha1);
    tell("one signature more under the key, SHA-256", MOST_MORE_SHA256,
         (more(SIGN_MORE_SHA256, SIGN_ONE_SHA256) - least[BUILD_SHA256]) / sha256);
    tell("one signature more under the key, SHA-512", NO_BOUND,
         (more(SIGN_MORE_SHA512, SIGN_ONE_SHA512) - least[BUILD_SHA512]) / sha512);
    tell("each of 20,000 validations under one key, SHA-1", MOST_OF_MANY_SHA1,
         of_many(stun_bench_validate_all_sha1, sha1_messages, MESSAGE) / sha1);
    tell("each of 20,000 validations under one key, SHA-256", MOST_OF_MANY_SHA256,
         of_many(stun_bench_validate_all_sha256, sha256_messages, MESSAGE) / sha256);
    tell("each of 20,000 validations under one key, SHA-512", NO_BOUND,
         of_many(stun_bench_validate_all_sha512, sha512_messages, MESSAGE_SHA512) / sha512);
    tell("a client takes a signed success, SHA-1", NO_BOUND, of_success() / sha1);
    size_t most = 0;
    for (unsigned i = 0; i < ROWS; i++) {
        most = taken[i] > most ? taken[i] : most;
    }
    tell("allocations of a key, and of what is validated or signed under it into a slice", 0,
         (double)most);
}
