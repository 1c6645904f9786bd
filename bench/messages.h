/* messages.h: a server's messages, written without the library. */
#ifndef MESSAGES_H
#define MESSAGES_H

#include <stddef.h>
#include <stdint.h>

#include "turn_client.h"

enum {
    HEADER = 20, ID = 4, ID_SIZE = 16, MESSAGE_MOST = 160, KEY_SIZE = 16,
    SUCCESS = 0x0100, ERROR = 0x0110,
    INTEGRITY = 0x0008, ERROR_CODE = 0x0009, LIFETIME = 0x000d, PEER = 0x0012, REALM = 0x0014, NONCE = 0x0015,
    RELAYED = 0x0016, CONNECTION_ID = 0x002a,
};

/* MD5 of `user:realm:pass` */
extern const uint8_t message_key[KEY_SIZE];

struct message {
    uint8_t bytes[MESSAGE_MOST];
    size_t size;
};

/* Writes the most significant byte first. */
void message_set(uint8_t *at, uint32_t value, size_t size);

/* A message whose cookie and transaction ID are these bytes. */
struct message message_begin(unsigned type, const uint8_t *id);

/* The beginning of the response of a class to a request. */
struct message message_respond(const uint8_t *request, unsigned class);

/* Adds an attribute; where there is no room for it, the program ends. */
void message_add(struct message *to, unsigned type, const void *value, size_t size);
void message_add_number(struct message *to, unsigned type, uint32_t number);

/* An address of IPv4, by the cookie (RFC 8489, section 14.2). */
void message_add_address(struct message *to, unsigned type, const turn_address *address, unsigned port);

/* The error 401 with realm and nonce. */
void message_challenge(struct message *to);

/* MESSAGE-INTEGRITY by message_key. */
void message_sign(struct message *message);

#endif
