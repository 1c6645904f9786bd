/* desk.c: reads an input as datagrams for a server core, for clang's libFuzzer. `run --desk` builds and runs it over
 * `stun_fuzz_desk` of crates/bench_client.
 *
 * The first byte says which allocation fails, none from 64 on. Then each datagram has four bytes, and bytes after them:
 * its source, its choice of a decision and of time, its form and method, and the number of bytes. The form is raw
 * bytes; or a request with attributes made from the bytes, that is unsigned, signed by the user's key, or signed
 * wrongly. The signatures and what is wanted of a reply are written here anew, from RFC 8489 and RFC 8656. */
#include <stdio.h>
#include <string.h>

#include "memory.h"
#include "report.h"
#include "sign.h"

int LLVMFuzzerTestOneInput(const uint8_t *data, size_t size);
size_t stun_fuzz_desk(const uint8_t *input, size_t input_len, uint8_t *out, size_t out_len);

enum {
    HEAD = 4, HEADER = 20, MOST = 16, ROOM = 1 << 14, LONGEST_MESSAGE = 600, SOURCES = 4, DECISIONS = 8,
    ALLOCATE = 3, USERNAME = 0x0006, INTEGRITY = 0x0008, NONCE = 0x0015, REALM = 0x0014, ERROR_CODE = 0x0009,
    SUCCESS_BITS = 0x0100, ERROR_BITS = 0x0110, FAILING = 64,
};
enum form { RAW, UNSIGNED, SIGNED, FORGED, FORMS };
enum result { NONE, REPLY, NO_MEMORY };
enum reach { CHALLENGED, GRANTED, REJECTED, FAILED, IGNORED, REACHES };

static const uint8_t methods[] = {0x03, 0x04, 0x08, 0x09, 0x0a, 0x0b};
static const char *const reach_names[REACHES] = {"challenge", "grant", "signed error", "failed allocation", "no reply"};
/* MD5 of `user:realm:pass` */
static const uint8_t key[16] = {0x84, 0x93, 0xfb, 0xc5, 0x3b, 0xa5, 0x82, 0xfb,
                                0x4c, 0x04, 0x4c, 0x45, 0x6b, 0xdc, 0x40, 0xeb};
static unsigned long inputs, reached[REACHES];

/* ---- what is told */

void print_counts(void)
{
    fprintf(stderr, "count: inputs %lu\n", inputs);
    for (int i = 0; i < REACHES; i++)
        fprintf(stderr, "count: reached %s %lu\n", reach_names[i], reached[i]);
}

static size_t last_datagram;

void print_last(void)
{
    fprintf(stderr, " (datagram %zu)", last_datagram + 1);
}

/* ---- the datagrams: what the server core reads, and the form of each */

static struct {
    uint8_t bytes[ROOM];
    size_t size, count;
    size_t at[MOST];
    enum form form[MOST];
} script;
static uint8_t replies[ROOM * 4];

static unsigned short_at(const uint8_t *bytes)
{
    return (unsigned)bytes[0] << 8 | bytes[1];
}

static void set_short(uint8_t *bytes, size_t value)
{
    bytes[0] = (uint8_t)(value >> 8);
    bytes[1] = (uint8_t)value;
}

static void add(uint8_t source, uint8_t choice, enum form form, const uint8_t *bytes, size_t size)
{
    uint8_t *at = script.bytes + script.size;
    at[0] = source % SOURCES;
    at[1] = choice;
    set_short(at + 2, size);
    memcpy(at + HEAD, bytes, size);
    script.at[script.count] = script.size;
    script.form[script.count++] = form;
    script.size += HEAD + size;
}

/* ---- messages */

static uint8_t message[LONGEST_MESSAGE];
static size_t message_size;

static void begin(uint8_t method, uint8_t number)
{
    static const uint8_t cookie[] = {0x21, 0x12, 0xa4, 0x42};
    memset(message, number, HEADER);
    set_short(message, method);
    set_short(message + 2, 0);
    memcpy(message + 4, cookie, sizeof cookie);
    message_size = HEADER;
}

static void attribute(unsigned type, const void *value, size_t size)
{
    uint8_t *at = message + message_size;
    set_short(at, type);
    set_short(at + 2, size);
    memset(at + 4, 0, (size + 3) / 4 * 4);
    memcpy(at + 4, value, size);
    message_size += 4 + (size + 3) / 4 * 4;
    set_short(message + 2, message_size - HEADER);
}

/* Attributes that requests have, of these sizes. The last is of any type. */
static const struct { uint16_t type; uint8_t size; } known[] = {
    {0x0019, 4}, {0x000d, 4}, {0x0012, 8}, {0x0012, 20}, {0x000c, 4}, {0x002a, 4}, {0x0017, 4}, {0, 0},
};
enum { KNOWN = sizeof known / sizeof *known, WELL_FORMED = 0x80, MOST_ATTRIBUTES = 8 };

/* One byte chooses an attribute; the bytes after it are its value, of which one is made right if the byte says so. */
static void attributes(const uint8_t *bytes, size_t size)
{
    for (int count = 0; size > 0 && count < MOST_ATTRIBUTES; count++) {
        const uint8_t choice = *bytes++;
        unsigned type = known[choice % KNOWN].type, wanted = known[choice % KNOWN].size;
        uint8_t value[20] = {0};
        size--;
        if (type == 0) {
            if (size < 3)
                return;
            type = short_at(bytes), wanted = bytes[2] % sizeof value;
            bytes += 3, size -= 3;
        }
        const size_t given = size < wanted ? size : wanted;
        memcpy(value, bytes, given);
        bytes += given, size -= given;
        if (choice & WELL_FORMED && type == 0x0019)
            value[0] = value[0] % 2 ? 17 : 6;
        if (choice & WELL_FORMED && type == 0x0012)
            value[1] = wanted == 8 ? 1 : 2;
        attribute(type, value, wanted);
    }
}

/* The value of the first attribute of a type, in a message that is whole. */
static const uint8_t *find(const uint8_t *bytes, size_t size, unsigned type, size_t *length)
{
    for (size_t at = HEADER; at + 4 <= size; at += 4 + (short_at(bytes + at + 2) + 3u) / 4 * 4)
        if (short_at(bytes + at) == type) {
            *length = short_at(bytes + at + 2);
            return bytes + at + 4;
        }
    return NULL;
}

/* Challenges a source: the nonce that is then valid for it, in the script's last reply. */
static void challenge(uint8_t source, uint8_t choice, uint8_t *nonce, size_t *length)
{
    begin(ALLOCATE, 0xff);
    add(source, choice, UNSIGNED, message, message_size);
    const size_t end = stun_fuzz_desk(script.bytes, script.size, replies, sizeof replies);
    size_t at = 0;
    for (size_t i = 1; i < script.count && at + HEAD <= end; i++)
        at += HEAD + short_at(replies + at + 2);
    const uint8_t *found = NULL;
    if (at + HEAD <= end)
        found = find(replies + at + HEAD, short_at(replies + at + 2), NONCE, length);
    check(found != NULL, "an unsigned request is challenged with a nonce");
    memcpy(nonce, found, *length);
}

static void sign(bool is_forged, const uint8_t *nonce, size_t length)
{
    uint8_t hmac[HMAC_SIZE];
    attribute(USERNAME, "user", 4);
    attribute(REALM, "realm", 5);
    attribute(NONCE, nonce, length);
    set_short(message + 2, message_size - HEADER + 4 + HMAC_SIZE);
    hmac_sha1(key, sizeof key, message, message_size, hmac);
    hmac[is_forged ? message[HEADER - 1] % HMAC_SIZE : 0] ^= is_forged;
    attribute(INTEGRITY, hmac, HMAC_SIZE);
}

/* ---- what is wanted of a reply */

static bool is_request(const uint8_t *bytes, size_t size)
{
    return size >= HEADER && size == HEADER + short_at(bytes + 2) && memcmp(bytes + 4, "\x21\x12\xa4\x42", 4) == 0
        && bytes[0] == 0 && memchr(methods, bytes[1], sizeof methods) != NULL;
}

static void check_signature(const uint8_t *reply, const uint8_t *value, size_t length)
{
    uint8_t covered[LONGEST_MESSAGE * 2], hmac[HMAC_SIZE];
    const size_t size = (size_t)(value - 4 - reply);
    check(length == HMAC_SIZE && size <= sizeof covered, "a reply's MESSAGE-INTEGRITY has 20 bytes");
    memcpy(covered, reply, size);
    set_short(covered + 2, size - HEADER + 4 + HMAC_SIZE);
    hmac_sha1(key, sizeof key, covered, size, hmac);
    check(memcmp(hmac, value, HMAC_SIZE) == 0, "a reply is signed by the user's key");
}

static void check_reply(const uint8_t *request, size_t size, enum form form, const uint8_t *reply, size_t length,
                        bool is_granted)
{
    size_t code_size = 0, hmac_size = 0;
    check(is_request(request, size), "only a request with one of six methods has a reply");
    check(length >= HEADER && length == HEADER + short_at(reply + 2) && length % 4 == 0, "a reply is whole");
    const unsigned class = short_at(reply) & ERROR_BITS;
    check(short_at(reply) == (request[1] | class) && (class == SUCCESS_BITS || class == ERROR_BITS),
          "a reply is a response with the request's method");
    check(memcmp(request + 4, reply + 4, 16) == 0, "a reply has the request's transaction ID");
    size_t at = HEADER;
    while (at + 4 <= length)
        at += 4 + (short_at(reply + at + 2) + 3u) / 4 * 4;
    check(at == length, "a reply's attributes fill it");
    const uint8_t *hmac = find(reply, length, INTEGRITY, &hmac_size);
    const uint8_t *code = find(reply, length, ERROR_CODE, &code_size);
    check((class == ERROR_BITS) == (code != NULL), "an error response has an ERROR-CODE");
    check((class == SUCCESS_BITS) == is_granted, "a success is a grant");
    check(form == SIGNED || (hmac == NULL && !is_granted), "what the user didn't sign is not granted");
    check(hmac != NULL || !is_granted, "a success is signed");
    if (hmac != NULL)
        check_signature(reply, hmac, hmac_size);
    reached[is_granted ? GRANTED : hmac != NULL ? REJECTED : CHALLENGED]++;
    note(form, request[1], code ? (uint32_t)code[2] * 100 + code[3] : 1);
}

static void check_replies(size_t end, bool may_fail)
{
    size_t at = 0;
    uint8_t grants = 0;
    for (size_t i = 0; i < script.count; i++) {
        last_datagram = i;
        const uint8_t *request = script.bytes + script.at[i] + HEAD, *entry = replies + at;
        check(at + HEAD <= end, "each datagram has a result");
        const size_t length = short_at(entry + 2);
        const bool is_granted = entry[1] != grants;
        check(entry[1] == grants || entry[1] == (uint8_t)(grants + 1), "a datagram adds one grant at most");
        check(entry[0] != NO_MEMORY || may_fail, "only a failed allocation is reported");
        check(entry[0] == REPLY || (length == 0 && !is_granted), "without a reply nothing is granted");
        if (entry[0] == REPLY)
            check_reply(request, short_at(request - 2), script.form[i], entry + HEAD, length, is_granted);
        else
            reached[entry[0] == NO_MEMORY ? FAILED : IGNORED]++;
        note(FORMS + entry[0], script.form[i], script.bytes[script.at[i] + 1] % DECISIONS);
        grants = entry[1];
        at += HEAD + length;
    }
    check(at == end, "there is a result for each datagram only");
}

/* ---- the input */

static void add_datagram(const uint8_t head[HEAD], const uint8_t *bytes, size_t size)
{
    const enum form form = head[2] % FORMS;
    uint8_t nonce[LONGEST_MESSAGE];
    size_t length = 0;
    if (form == RAW) {
        add(head[0], head[1], RAW, bytes, size);
        return;
    }
    if (form != UNSIGNED)
        challenge(head[0], head[1], nonce, &length);
    begin(methods[head[2] / FORMS % sizeof methods], (uint8_t)script.count);
    attributes(bytes, size);
    if (form != UNSIGNED)
        sign(form == FORGED, nonce, length);
    add(head[0], form == UNSIGNED ? head[1] : head[1] % DECISIONS, form, message, message_size);
}

int LLVMFuzzerTestOneInput(const uint8_t *data, size_t size)
{
    if (size == 0)
        return 0;
    const uint8_t failing = *data++;
    script.size = script.count = 0;
    memory_refuse(-1);
    for (size--; size >= HEAD && script.count + 2 <= MOST;) {
        const size_t given = data[3] < size - HEAD ? data[3] : size - HEAD;
        add_datagram(data, data + HEAD, given);
        data += HEAD + given, size -= HEAD + given;
    }
    if (failing < FAILING)
        memory_refuse(failing);
    const size_t end = stun_fuzz_desk(script.bytes, script.size, replies, sizeof replies);
    memory_refuse(-1);
    const bool has_failed = memory_was_refused();
    check(memory_held() == 0, "nothing is left of a server core that is dropped");
    inputs++;
    if (end > 0 || !has_failed)
        check_replies(end, has_failed);
    return 0;
}
