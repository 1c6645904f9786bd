/* turn_driver_openssl.h: TLS to the server by OpenSSL 3, for turn_driver.h and turns: URIs.
 *
 *     char why[256];
 *     turn_driver_tls *tls = turn_driver_openssl_new(NULL, why, sizeof why);
 *     turn_driver_options options = TURN_DRIVER_OPTIONS_INIT;
 *     options.tls = tls;
 *     turn_driver *driver = turn_driver_open("turns:turn.example.org", user, password, &options,
 *                                            &failure);
 *     ...
 *     turn_driver_close(driver);
 *     turn_driver_openssl_free(tls);
 *
 * The server's certificate has to be issued by a trusted authority, and for the host of the URI, a
 * name or an IP address. Otherwise the handshake fails. TLS 1.2 and 1.3 are offered. The control
 * connection and the data connection of RFC 6062 are over TLS.
 *
 * One turn_driver_tls may serve drivers in several threads at once.
 *
 * Link with what `pkg-config --cflags --libs turn_driver_openssl` prints.
 */
#ifndef TURN_DRIVER_OPENSSL_H
#define TURN_DRIVER_OPENSSL_H

#include <openssl/ssl.h>

#include "turn_driver.h"

#ifdef __cplusplus
extern "C" {
#endif

/* Makes TLS that trusts some authorities.
 *
 *   authorities   a file of their certificates in PEM; NULL for those that the system trusts
 *   why           written if the call fails: why, in English, ended by a zero; may be NULL
 *   why_size      bytes of `why`
 *
 * Returns NULL if it fails: the file cannot be read, or an allocation fails. */
turn_driver_tls *turn_driver_openssl_new(const char *authorities, char *why, size_t why_size);

/* Makes TLS of the program's own settings, as for a client's certificate. It counts one more
 * reference to `settings`. If these do not verify certificates (SSL_VERIFY_PEER), nothing is
 * verified, and anybody on the way can read and change what is sent.
 *
 * Returns NULL if an allocation fails. */
turn_driver_tls *turn_driver_openssl_of(SSL_CTX *settings);

/* Frees it. No driver may use it any more. NULL is none. */
void turn_driver_openssl_free(turn_driver_tls *tls);

#ifdef __cplusplus
}
#endif
#endif
