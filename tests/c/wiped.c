/* wiped.c: walks the exchanges of samples.h over memory of its own, and searches what the library frees for the
 * password, the user's name, and the keys that are made of them. Each block that comes back, by free or by realloc,
 * has to be all zero. No memory is used twice, so that behind turn_client_close all that the library ever had is
 * searched, too.
 *
 *     cc -std=c11 -Wall -Wextra wiped.c steps.c $(pkg-config --cflags --libs turn_client) \
 *         -Wl,--wrap=malloc,--wrap=realloc,--wrap=free -o wiped && ./wiped
 *
 * `check` does so. First a block that has the password comes back on purpose, and has to be found. Of each secret it is
 * wanted that an open client stores it, so that a search for it would find something. The last line is `wiped: N
 * passed, M failed`, of the blocks that came back, of the exchanges and of the secrets; the exit status is 0 where M is
 * 0, else 1. */
#include "steps.h"

#include <stdalign.h>
#include <stddef.h>
#include <stdint.h>
#include <stdio.h>
#include <string.h>

enum { ROOM = 1 << 26, BLOCKS = 1 << 15, SHOWN = 3 };

/* By the texts of samples.h, and digests of `alice:example.org:secret` (RFC 8489, sections 9.2.2 and 18.5.1): MD5 for
 * HMAC-SHA1, SHA-256 and SHA-512 for the others. The last three are of the credentials that replace these. */
static const struct {
    const char *name;
    size_t size;
    uint8_t bytes[64];
} secrets[] = {
    {"the password", 6, "secret"},
    {"the user's name", 5, "alice"},
    {"the key for HMAC-SHA1", 16, "\x54\x3e\x1a\xec\x5d\x36\x14\xf0\x31\x41\x65\x2d\x6a\xda\x51\xb2"},
    {"the key for HMAC-SHA256", 32, "\xd1\x65\x9f\xff\x7a\x50\x1b\xe1\x59\x62\xad\xc3\x55\x14\xca\x6a"
                                    "\x58\x68\x90\x56\x95\xf2\xdd\x10\x93\x74\x1f\x93\x1e\x00\x0a\x1f"},
    {"the key for HMAC-SHA512", 64, "\x41\x67\x85\x2a\xe8\xba\x97\x8a\xeb\xc5\x46\x47\x2e\x58\x9a\xb2"
                                    "\x5a\x22\xa2\x6a\x4e\x64\x35\xd6\x6f\x7f\xca\x2e\xf0\xad\x1d\xbb"
                                    "\x48\x96\x21\xb1\xc8\x6b\x17\x2e\x68\x0e\x03\xe7\x88\x12\x73\x82"
                                    "\xc7\x19\x45\xe8\x83\xaa\x95\x98\xde\xc7\xca\x62\x22\x6b\xd4\x4e"},
    {"the next password", 13, "next password"},
    {"the next name", 14, "1893456000:bob"},
    {"the next key for HMAC-SHA1", 16, "\x28\x73\x86\xbb\x9d\x04\x22\x00\xa1\xc5\xb9\xd4\x3f\xa0\xa9\xfa"},
};
enum { SECRETS = sizeof secrets / sizeof *secrets };
static bool is_stored[SECRETS];
static unsigned long passed, failed;

static void count(bool is_good, const char *what, const char *where)
{
    passed += is_good;
    failed += !is_good;
    if (!is_good && failed <= SHOWN)
        printf("FAILED: %s, %s\n", what, where);
}

/* ---- the memory */

static alignas(max_align_t) uint8_t room[ROOM];
static size_t used;
static struct { uint8_t *at; size_t size; } blocks[BLOCKS];
static size_t block_count;

void *__wrap_malloc(size_t size);
void *__wrap_realloc(void *block, size_t size);
void __wrap_free(void *block);

void *__wrap_malloc(size_t size)
{
    const size_t align = alignof(max_align_t);
    if (block_count == BLOCKS || size > ROOM - used - align)
        return NULL;
    uint8_t *at = room + used;
    used += (size + align - 1) / align * align;
    blocks[block_count].at = at;
    blocks[block_count++].size = size;
    return at;
}

static size_t size_of(const void *block)
{
    for (size_t i = block_count; i-- > 0;)
        if (blocks[i].at == block)
            return blocks[i].size;
    count(false, "a block comes back that was never given", "free");
    return 0;
}

/* The first secret that stands in these bytes from this one on; SECRETS where there is none. */
static size_t find_secret(size_t first, const uint8_t *bytes, size_t size)
{
    for (size_t k = first; k < SECRETS; k++)
        for (size_t at = 0; at + secrets[k].size <= size; at++)
            if (bytes[at] == secrets[k].bytes[0] && memcmp(bytes + at, secrets[k].bytes, secrets[k].size) == 0)
                return k;
    return SECRETS;
}

/* What is left in these bytes: NULL where they are all zero. */
static const char *left_in(const uint8_t *bytes, size_t size)
{
    const size_t found = find_secret(0, bytes, size);
    if (found < SECRETS)
        return secrets[found].name;
    for (size_t i = 0; i < size; i++)
        if (bytes[i] != 0)
            return "bytes that are not zero";
    return NULL;
}

static void take_back(const void *block, const char *by)
{
    const char *left = left_in(block, size_of(block));
    count(left == NULL, left, by);
}

void *__wrap_realloc(void *block, size_t size)
{
    void *moved = __wrap_malloc(size);
    if (moved == NULL || block == NULL)
        return moved;
    const size_t before = size_of(block);
    memcpy(moved, block, before < size ? before : size);
    take_back(block, "in a block that came to realloc");
    return moved;
}

void __wrap_free(void *block)
{
    if (block != NULL)
        take_back(block, "in a block that came to free");
}

/* ---- the walks */

static struct walker walker;

/* Notes which secrets an open client stores. */
static void note_secrets(void)
{
    for (size_t k = find_secret(0, room, used); k < SECRETS; k = find_secret(k + 1, room, used))
        is_stored[k] = true;
}

static void walk(const struct exchange *exchange)
{
    bool is_wanted = true;
    memset(room, 0, used);
    used = block_count = 0;
    walker.client = (turn_client)TURN_CLIENT_INIT;
    walker.exchange = exchange;
    for (size_t i = 0; i < exchange->count; i++)
        for (size_t k = 0; k < exchange->parts[i].count; k++) {
            const struct step *step = &exchange->parts[i].steps[k];
            is_wanted &= step_call(&walker, step) == step->want.answer;
            note_secrets();
        }
    turn_client_close(&walker.client);
    const char *left = left_in(room, used);
    count(is_wanted, "another answer than is wanted", exchange->name);
    count(left == NULL, left, exchange->name);
}

/* Whether a block is found that has the password, and one that has another byte. */
static void plant(void)
{
    const unsigned long before = failed;
    uint8_t *block = __wrap_malloc(sample_password.len);
    memcpy(block, sample_password.at, sample_password.len);
    const bool is_found = left_in(block, sample_password.len) == secrets[0].name;
    memset(block, 0, sample_password.len);
    block[sample_password.len - 1] = 1;
    count(is_found && left_in(block, sample_password.len) != NULL && failed == before, "not found", "what was planted");
}

int main(void)
{
    plant();
    for (size_t i = 0; i < exchange_count; i++)
        walk(&exchanges[i]);
    for (size_t k = 0; k < SECRETS; k++)
        count(is_stored[k], "no open client stores it", secrets[k].name);
    printf("wiped: %lu passed, %lu failed\n", passed, failed);
    return failed == 0 ? 0 : 1;
}
