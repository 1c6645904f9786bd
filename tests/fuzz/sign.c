/* sign.c: what sign.h declares. */
#include "sign.h"

#include <assert.h>
#include <string.h>

enum { BLOCK = 64, LONGEST = 4000, ROUNDS = 80 };

static uint32_t rotate(uint32_t word, int by)
{
    return word << by | word >> (32 - by);
}

static void compress(uint32_t state[5], const uint8_t *block)
{
    uint32_t w[ROUNDS], a = state[0], b = state[1], c = state[2], d = state[3], e = state[4];
    for (int i = 0; i < 16; i++)
        w[i] = (uint32_t)block[4 * i] << 24 | (uint32_t)block[4 * i + 1] << 16 | (uint32_t)block[4 * i + 2] << 8
            | block[4 * i + 3];
    for (int i = 16; i < ROUNDS; i++)
        w[i] = rotate(w[i - 3] ^ w[i - 8] ^ w[i - 14] ^ w[i - 16], 1);
    for (int i = 0; i < ROUNDS; i++) {
        const uint32_t f = i < 20 ? (b & c) | (~b & d) : i < 40 ? b ^ c ^ d : i < 60 ? (b & c) | (b & d) | (c & d)
                                                                                     : b ^ c ^ d;
        const uint32_t k = i < 20 ? 0x5a827999 : i < 40 ? 0x6ed9eba1 : i < 60 ? 0x8f1bbcdc : 0xca62c1d6;
        const uint32_t next = rotate(a, 5) + f + e + k + w[i];
        e = d, d = c, c = rotate(b, 30), b = a, a = next;
    }
    state[0] += a, state[1] += b, state[2] += c, state[3] += d, state[4] += e;
}

/* The digest of a block and a text. */
static void sha1(const uint8_t block[BLOCK], const uint8_t *text, size_t size, uint8_t digest[HMAC_SIZE])
{
    uint32_t state[5] = {0x67452301, 0xefcdab89, 0x98badcfe, 0x10325476, 0xc3d2e1f0};
    uint8_t padded[LONGEST + 2 * BLOCK] = {0};
    const size_t end = (size + 9 + BLOCK - 1) / BLOCK * BLOCK;
    const uint64_t bits = (uint64_t)(BLOCK + size) * 8;
    assert(size <= LONGEST);
    memcpy(padded, text, size);
    padded[size] = 0x80;
    for (int i = 0; i < 8; i++)
        padded[end - 1 - (size_t)i] = (uint8_t)(bits >> 8 * i);
    compress(state, block);
    for (size_t at = 0; at < end; at += BLOCK)
        compress(state, padded + at);
    for (int i = 0; i < HMAC_SIZE; i++)
        digest[i] = (uint8_t)(state[i / 4] >> (24 - 8 * (i % 4)));
}

void hmac_sha1(const uint8_t *key, size_t key_size, const uint8_t *text, size_t size, uint8_t hmac[HMAC_SIZE])
{
    uint8_t inner[BLOCK] = {0}, outer[BLOCK], digest[HMAC_SIZE];
    assert(key_size <= BLOCK);
    memcpy(inner, key, key_size);
    for (int i = 0; i < BLOCK; i++)
        outer[i] = inner[i] ^ 0x5c, inner[i] ^= 0x36;
    sha1(inner, text, size, digest);
    sha1(outer, digest, sizeof digest, hmac);
}
