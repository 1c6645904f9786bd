/* ours_messages.c: messages and digests, over the static library bench_codec: turn_client.h has no call for either
 * alone. */
#include <string.h>

#include "digests.h"
#include "rows.h"
#include "../samples.h"

enum { OUT_SIZE = 256 };

struct validated {
    bool known, holds;
};
struct allocation {
    uint32_t relayed_ip, mapped_ip, lifetime;
    uint16_t relayed_port, mapped_port;
};

bool stun_bench_parse(const uint8_t *bytes, size_t size);
struct validated stun_bench_validate_sha1(const uint8_t *key, size_t key_size, const uint8_t *bytes, size_t size);
uint32_t stun_bench_crc32(const uint8_t *text, size_t size);
void stun_bench_sha1(const uint8_t *text, size_t size, uint8_t *digest);
void stun_bench_sha256(const uint8_t *text, size_t size, uint8_t *digest);
size_t stun_bench_sign_sha1(const uint8_t *key, size_t key_size, const struct allocation *allocated, uint64_t number,
                            const uint8_t *software, size_t software_size, uint8_t *out, size_t out_size);

static const uint8_t key[] = KEY_TEXT, software[] = SOFTWARE_TEXT;
static const struct allocation granted = {RELAYED_IP, MAPPED_IP, GRANTED_SECONDS, RELAYED_PORT, MAPPED_PORT};
static const uint64_t number = 0xd0e0f0a1a2a3a4a5;
static uint8_t out[OUT_SIZE];
static size_t size;
static uint32_t sum;

static bool parse(size_t i)
{
    (void)i;
    return stun_bench_parse(response_whole, sizeof response_whole);
}

/* A parsed message is one whose FINGERPRINT is right. */
static bool refuses_another(size_t i)
{
    (void)i;
    uint8_t other[sizeof response_whole];
    memcpy(other, response_whole, sizeof other);
    other[sizeof other - 1] ^= 1;
    return !stun_bench_parse(other, sizeof other);
}

static bool sign(size_t i)
{
    (void)i;
    size = stun_bench_sign_sha1(key, sizeof key - 1, &granted, number, software, sizeof software - 1, out, sizeof out);
    return size == sizeof response_sha1;
}

static bool is_signed(size_t i)
{
    (void)i;
    return memcmp(out, response_sha1, size) == 0;
}

static bool validate(size_t i)
{
    (void)i;
    return stun_bench_validate_sha1(key, sizeof key - 1, response_sha1, sizeof response_sha1).holds;
}

static bool rejects_another(size_t i)
{
    (void)i;
    uint8_t other[sizeof response_sha1];
    memcpy(other, response_sha1, sizeof other);
    other[sizeof other - 1] ^= 1;
    return !stun_bench_validate_sha1(key, sizeof key - 1, other, sizeof other).holds;
}

static bool sha1(size_t i)
{
    (void)i;
    stun_bench_sha1(row_payload, PAYLOAD, out);
    return true;
}

static bool is_sha1(size_t i)
{
    (void)i;
    return memcmp(out, payload_sha1, SHA1_SIZE) == 0;
}

static bool sha256(size_t i)
{
    (void)i;
    stun_bench_sha256(row_payload, PAYLOAD, out);
    return true;
}

static bool is_sha256(size_t i)
{
    (void)i;
    return memcmp(out, payload_sha256, SHA256_SIZE) == 0;
}

static bool crc32(size_t i)
{
    (void)i;
    sum = stun_bench_crc32(row_payload, PAYLOAD);
    return true;
}

static bool is_crc32(size_t i)
{
    (void)i;
    return sum == payload_crc32;
}

const struct row_call row_calls[] = {
    {"parse", 1, NULL, parse, refuses_another},
    {"sign", 1, NULL, sign, is_signed},
    {"validate", 1, NULL, validate, rejects_another},
    {"sha1", 1, NULL, sha1, is_sha1},
    {"sha256", 1, NULL, sha256, is_sha256},
    {"crc32", 1, NULL, crc32, is_crc32},
};
const size_t row_calls_count = sizeof row_calls / sizeof *row_calls;
