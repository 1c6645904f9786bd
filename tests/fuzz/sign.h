/* sign.h: HMAC-SHA1 (RFC 2104, FIPS 180-4), which shares no code with the library. */
#ifndef SIGN_H
#define SIGN_H

#include <stddef.h>
#include <stdint.h>

enum { HMAC_SIZE = 20 };

/* The HMAC of at most 4,000 bytes by a key of at most 64. */
void hmac_sha1(const uint8_t *key, size_t key_size, const uint8_t *text, size_t size, uint8_t hmac[HMAC_SIZE]);

#endif
