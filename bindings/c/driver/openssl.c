/* openssl.c: TLS by OpenSSL 3, as turn_driver_tls has it. */
#define _GNU_SOURCE
#include "turn_driver_openssl.h"

#include <arpa/inet.h>
#include <errno.h>
#include <limits.h>
#include <openssl/err.h>
#include <openssl/x509v3.h>
#include <stdio.h>
#include <stdlib.h>
#include <string.h>
#include <sys/socket.h>

struct session {
    SSL *ssl;
    int status, error; /* of the last call: SSL_get_error, and errno */
    unsigned long reason;
};

struct context {
    turn_driver_tls tls;
    SSL_CTX *settings;
    BIO_METHOD *socket;
};

/* ---- a socket without SIGPIPE: OpenSSL's own writes by write(2) */

static int fd_of(BIO *bio)
{
    return (int)(intptr_t)BIO_get_data(bio);
}

static int socket_write(BIO *bio, const char *bytes, size_t size, size_t *len)
{
    const ssize_t sent = send(fd_of(bio), bytes, size, MSG_NOSIGNAL);
    BIO_clear_retry_flags(bio);
    if (sent < 0 && (errno == EAGAIN || errno == EINTR))
        BIO_set_retry_write(bio);
    *len = sent < 0 ? 0 : (size_t)sent;
    return sent >= 0;
}

static int socket_read(BIO *bio, char *bytes, size_t size, size_t *len)
{
    const ssize_t came = recv(fd_of(bio), bytes, size, 0);
    BIO_clear_retry_flags(bio);
    if (came < 0 && (errno == EAGAIN || errno == EINTR))
        BIO_set_retry_read(bio);
    if (came == 0)
        BIO_set_flags(bio, BIO_FLAGS_IN_EOF);
    *len = came < 0 ? 0 : (size_t)came;
    return came > 0;
}

static long socket_control(BIO *bio, int command, long value, void *pointer)
{
    (void)value;
    (void)pointer;
    if (command == BIO_CTRL_EOF)
        return BIO_test_flags(bio, BIO_FLAGS_IN_EOF) != 0;
    return command == BIO_CTRL_FLUSH;
}

static BIO_METHOD *socket_method(void)
{
    BIO_METHOD *method = BIO_meth_new(BIO_get_new_index() | BIO_TYPE_SOURCE_SINK, "turn_driver");
    if (method == NULL || !BIO_meth_set_write_ex(method, socket_write)
        || !BIO_meth_set_read_ex(method, socket_read)
        || !BIO_meth_set_ctrl(method, socket_control)) {
        BIO_meth_free(method);
        return NULL;
    }
    return method;
}

/* ---- a session */

/* Has the certificate verified for a host, and names it to the server unless it is an address. */
static bool set_host(SSL *ssl, const char *host)
{
    unsigned char ip[16];
    X509_VERIFY_PARAM *wanted = SSL_get0_param(ssl);
    if (inet_pton(AF_INET, host, ip) == 1 || inet_pton(AF_INET6, host, ip) == 1)
        return X509_VERIFY_PARAM_set1_ip_asc(wanted, host) == 1;
    SSL_set_hostflags(ssl, X509_CHECK_FLAG_NO_PARTIAL_WILDCARDS);
    return SSL_set1_host(ssl, host) == 1 && SSL_set_tlsext_host_name(ssl, host) == 1;
}

static void end(void *it)
{
    struct session *session = it;
    SSL_free(session->ssl);
    free(session);
}

static void *start(void *it, int fd, const char *host)
{
    const struct context *context = it;
    struct session *session = calloc(1, sizeof *session);
    if (session == NULL)
        return NULL;
    session->ssl = SSL_new(context->settings);
    BIO *bio = session->ssl == NULL ? NULL : BIO_new(context->socket);
    if (bio == NULL) {
        end(session);
        return NULL;
    }
    BIO_set_data(bio, (void *)(intptr_t)fd);
    BIO_set_init(bio, 1);
    SSL_set_bio(session->ssl, bio, bio);
    SSL_set_mode(session->ssl,
                 SSL_MODE_ENABLE_PARTIAL_WRITE | SSL_MODE_ACCEPT_MOVING_WRITE_BUFFER);
    if (!set_host(session->ssl, host)) {
        end(session);
        return NULL;
    }
    return session;
}

/* What a call came to. The queue of errors was empty before it. */
static int32_t status_of(struct session *session, int returned)
{
    if (returned == 1)
        return TURN_TLS_OK;
    session->error = errno;
    session->status = SSL_get_error(session->ssl, returned);
    switch (session->status) {
    case SSL_ERROR_WANT_READ:
        return TURN_TLS_WANTS_READ;
    case SSL_ERROR_WANT_WRITE:
        return TURN_TLS_WANTS_WRITE;
    case SSL_ERROR_ZERO_RETURN:
        return TURN_TLS_END;
    default:
        session->reason = ERR_peek_error();
        ERR_clear_error();
        return TURN_TLS_FAILED;
    }
}

static int32_t handshake(void *it)
{
    struct session *session = it;
    ERR_clear_error();
    errno = 0;
    return status_of(session, SSL_connect(session->ssl));
}

static int32_t read_bytes(void *it, void *bytes, size_t size, size_t *len)
{
    struct session *session = it;
    ERR_clear_error();
    errno = 0;
    return status_of(session, SSL_read_ex(session->ssl, bytes, size, len));
}

static int32_t write_bytes(void *it, const void *bytes, size_t size, size_t *len)
{
    struct session *session = it;
    ERR_clear_error();
    errno = 0;
    return status_of(session, SSL_write_ex(session->ssl, bytes, size, len));
}

static void shut_down(void *it)
{
    struct session *session = it;
    ERR_clear_error();
    SSL_shutdown(session->ssl);
    ERR_clear_error();
}

static void text(void *it, char *out, size_t size)
{
    const struct session *session = it;
    const long verified = SSL_get_verify_result(session->ssl);
    const char *reason = ERR_reason_error_string(session->reason);
    if (ERR_GET_LIB(session->reason) == ERR_LIB_SSL
        && ERR_GET_REASON(session->reason) == SSL_R_CERTIFICATE_VERIFY_FAILED)
        snprintf(out, size, "%s: %s", reason, X509_verify_cert_error_string(verified));
    else if (reason != NULL)
        snprintf(out, size, "%s", reason);
    else
        snprintf(out, size, "%s", session->error != 0 ? strerror(session->error)
                                                      : "the server closed the connection");
}

/* ---- what makes it */

turn_driver_tls *turn_driver_openssl_of(SSL_CTX *settings)
{
    struct context *context = calloc(1, sizeof *context);
    if (context == NULL || (context->socket = socket_method()) == NULL
        || SSL_CTX_up_ref(settings) != 1) {
        if (context != NULL)
            BIO_meth_free(context->socket);
        free(context);
        return NULL;
    }
    context->settings = settings;
    context->tls = (turn_driver_tls){.context = context, .start = start, .handshake = handshake,
                                     .read = read_bytes, .write = write_bytes,
                                     .shutdown = shut_down, .text = text, .end = end};
    return &context->tls;
}

static void say(char *why, size_t why_size, const char *what)
{
    const unsigned long error = ERR_peek_error();
    const char *reason = error == 0 ? NULL : ERR_reason_error_string(error);
    if (why != NULL && why_size > 0)
        snprintf(why, why_size, "%s%s%s", what, reason == NULL ? "" : ": ",
                 reason == NULL ? "" : reason);
    ERR_clear_error();
}

turn_driver_tls *turn_driver_openssl_new(const char *authorities, char *why, size_t why_size)
{
    ERR_clear_error();
    SSL_CTX *settings = SSL_CTX_new(TLS_client_method());
    if (settings == NULL || SSL_CTX_set_min_proto_version(settings, TLS1_2_VERSION) != 1) {
        say(why, why_size, "no TLS");
        SSL_CTX_free(settings);
        return NULL;
    }
    SSL_CTX_set_verify(settings, SSL_VERIFY_PEER, NULL);
    const int trusts = authorities == NULL
                           ? SSL_CTX_set_default_verify_paths(settings)
                           : SSL_CTX_load_verify_locations(settings, authorities, NULL);
    if (trusts != 1) {
        say(why, why_size, "the certificates of authorities cannot be read");
        SSL_CTX_free(settings);
        return NULL;
    }
    turn_driver_tls *tls = turn_driver_openssl_of(settings);
    SSL_CTX_free(settings);
    if (tls == NULL)
        say(why, why_size, "out of memory");
    return tls;
}

void turn_driver_openssl_free(turn_driver_tls *tls)
{
    if (tls == NULL)
        return;
    struct context *context = tls->context;
    SSL_CTX_free(context->settings);
    BIO_meth_free(context->socket);
    free(context);
}
