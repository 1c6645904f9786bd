/* messages.c: a server's messages, written without the library, with the signatures of tests/fuzz/sign.c. It is a part
 * of c_calls.c, and of bench/beside. */
#include "messages.h"

#include <stdio.h>
#include <stdlib.h>
#include <string.h>

#include "../tests/fuzz/sign.h"

const uint8_t message_key[KEY_SIZE] = {0x84, 0x93, 0xfb, 0xc5, 0x3b, 0xa5, 0x82, 0xfb,
                                       0x4c, 0x04, 0x4c, 0x45, 0x6b, 0xdc, 0x40, 0xeb};

void message_set(uint8_t *at, uint32_t value, size_t size)
{
    while (size-- > 0) {
        at[size] = (uint8_t)value;
        value >>= 8;
    }
}

struct message message_begin(unsigned type, const uint8_t *id)
{
    struct message made = {.size = HEADER};
    message_set(made.bytes, type, 2);
    memcpy(made.bytes + ID, id, ID_SIZE);
    return made;
}

struct message message_respond(const uint8_t *request, unsigned class)
{
    return message_begin(request[1] | class, request + ID);
}

void message_add(struct message *to, unsigned type, const void *value, size_t size)
{
    const size_t padded = (size + 3) / 4 * 4;
    if (to->size + 4 + padded > sizeof to->bytes) {
        printf("messages: wrong: room for an attribute\n");
        exit(1);
    }
    message_set(to->bytes + to->size, type, 2);
    message_set(to->bytes + to->size + 2, (uint32_t)size, 2);
    memcpy(to->bytes + to->size + 4, value, size);
    to->size += 4 + padded;
    message_set(to->bytes + 2, (uint32_t)(to->size - HEADER), 2);
}

void message_add_number(struct message *to, unsigned type, uint32_t number)
{
    uint8_t value[4];
    message_set(value, number, sizeof value);
    message_add(to, type, value, sizeof value);
}

void message_add_address(struct message *to, unsigned type, const turn_address *address, unsigned port)
{
    static const uint8_t cookie[] = {0x21, 0x12, 0xa4, 0x42};
    uint8_t value[8] = {0, 1};
    message_set(value + 2, port ^ 0x2112, 2);
    for (size_t i = 0; i < sizeof cookie; i++)
        value[4 + i] = address->ip[i] ^ cookie[i];
    message_add(to, type, value, sizeof value);
}

void message_challenge(struct message *to)
{
    static const uint8_t unauthorized[] = {0, 0, 4, 1};
    message_add(to, ERROR_CODE, unauthorized, sizeof unauthorized);
    message_add(to, REALM, "realm", 5);
    message_add(to, NONCE, "a nonce", 7);
}

void message_sign(struct message *message)
{
    uint8_t hmac[HMAC_SIZE];
    message_set(message->bytes + 2, (uint32_t)(message->size - HEADER + 4 + HMAC_SIZE), 2);
    hmac_sha1(message_key, sizeof message_key, message->bytes, message->size, hmac);
    message_add(message, INTEGRITY, hmac, sizeof hmac);
}
