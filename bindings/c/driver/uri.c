/* uri.c: URIs of STUN and TURN servers (RFC 7064, RFC 7065), over the grammar of RFC 3986. */
#define _GNU_SOURCE
#include "internal.h"

#include <arpa/inet.h>
#include <string.h>
#include <strings.h>

enum { PORT = 3478, SECURE_PORT = 5349 }; /* RFC 8489, section 18.6; RFC 8656, section 18.9 */

static const struct {
    const char *name;
    uint32_t scheme;
    bool is_secure;
} SCHEMES[] = {{"stun:", TURN_URI_STUN, false}, {"stuns:", TURN_URI_STUNS, true},
               {"turn:", TURN_URI_TURN, false}, {"turns:", TURN_URI_TURNS, true}};

static bool is_digit(char it)
{
    return it >= '0' && it <= '9';
}

static bool is_letter(char it)
{
    return (it >= 'a' && it <= 'z') || (it >= 'A' && it <= 'Z');
}

/* Whether a byte may stand in a name of the DNS, as hosts have it. */
static bool is_of_name(char it)
{
    return is_letter(it) || is_digit(it) || it == '-' || it == '.' || it == '_';
}

/* Whether a byte may stand in a reg-name of RFC 3986 beside those: unreserved, sub-delims, %. */
static bool is_of_reg_name(char it)
{
    return is_of_name(it) || (it != '\0' && strchr("~!$&'()*+,;=%", it) != NULL);
}

/* Reads the scheme, and returns what follows it; NULL if it is none of the four. */
static const char *read_scheme(const char *text, turn_uri *uri)
{
    for (size_t i = 0; i < sizeof SCHEMES / sizeof *SCHEMES; i++) {
        const size_t size = strlen(SCHEMES[i].name);
        if (strncasecmp(text, SCHEMES[i].name, size) == 0) {
            uri->scheme = SCHEMES[i].scheme;
            uri->is_secure = SCHEMES[i].is_secure;
            uri->port = uri->is_secure ? SECURE_PORT : PORT;
            return text + size;
        }
    }
    return NULL;
}

/* Reads the address in brackets that the text begins with, and moves it past them. */
static int32_t read_literal(const char **text, turn_uri *uri)
{
    unsigned char ip[16];
    const char *first = *text + 1, *close = strchr(first, ']');
    const size_t size = close == NULL ? 0 : (size_t)(close - first);
    if (size > 0 && (first[0] == 'v' || first[0] == 'V'))
        return TURN_URI_UNSUPPORTED_HOST;
    if (size == 0 || size >= INET6_ADDRSTRLEN)
        return TURN_URI_BAD_HOST;
    memcpy(uri->host, first, size);
    uri->host[size] = '\0';
    uri->family = 6;
    *text = close + 1;
    return inet_pton(AF_INET6, uri->host, ip) == 1 ? TURN_URI_OK : TURN_URI_BAD_HOST;
}

/* Whether the last label of a name is a number: then it is no name, but looks like an address. */
static bool ends_in_number(const char *name)
{
    const char *dot = strrchr(name, '.');
    const char *label = dot == NULL ? name : dot + 1;
    if (label[0] == '0' && (label[1] == 'x' || label[1] == 'X'))
        return label[2 + strspn(label + 2, "0123456789abcdefABCDEF")] == '\0';
    return label[strspn(label, "0123456789")] == '\0';
}

/* Whether each label of a name has 1 to 63 bytes; one dot may stand at the end. */
static bool has_labels(const char *name)
{
    size_t size = 0;
    for (; *name != '\0'; name++) {
        if (*name == '.' && (size == 0 || size > 63))
            return false;
        size = *name == '.' ? 0 : size + 1;
    }
    return size <= 63;
}

/* Reads the name or the IPv4 address that the text begins with, and moves it past that. */
static int32_t read_name(const char **text, turn_uri *uri)
{
    unsigned char ip[4];
    size_t size = 0;
    bool is_name = true;
    for (; is_of_reg_name((*text)[size]); size++)
        is_name &= is_of_name((*text)[size]);
    const char end = (*text)[size];
    if (end != '\0' && end != ':' && end != '?')
        return TURN_URI_BAD_HOST;
    if (size == 0)
        return TURN_URI_NO_HOST;
    if (!is_name)
        return TURN_URI_UNSUPPORTED_HOST;
    const size_t without_dot = size - ((*text)[size - 1] == '.');
    if (without_dot > TURN_URI_HOST_MAX)
        return TURN_URI_LONG_HOST;
    memcpy(uri->host, *text, without_dot);
    uri->host[without_dot] = '\0';
    *text += size;
    if (inet_pton(AF_INET, uri->host, ip) == 1)
        uri->family = 4;
    else if (without_dot == 0 || ends_in_number(uri->host) || !has_labels(uri->host))
        return TURN_URI_BAD_HOST;
    return TURN_URI_OK;
}

/* Reads the digits after a colon; none leave the default port. */
static int32_t read_port(const char **text, turn_uri *uri)
{
    uint32_t port = 0;
    const char *first = ++*text;
    for (; is_digit(**text); ++*text)
        port = port > UINT16_MAX ? port : port * 10 + (uint32_t)(**text - '0');
    if (*text == first)
        return **text == '\0' || **text == '?' ? TURN_URI_OK : TURN_URI_BAD_PORT;
    if (port == 0 || port > UINT16_MAX || (**text != '\0' && **text != '?'))
        return TURN_URI_BAD_PORT;
    uri->port = (uint16_t)port;
    return TURN_URI_OK;
}

static int32_t read_query(const char *text, turn_uri *uri)
{
    static const char name[] = "?transport=";
    const bool is_turn = uri->scheme == TURN_URI_TURN || uri->scheme == TURN_URI_TURNS;
    if (text[0] == '\0')
        return TURN_URI_OK;
    if (!is_turn || strncasecmp(text, name, sizeof name - 1) != 0)
        return TURN_URI_BAD_QUERY;
    const char *value = text + sizeof name - 1;
    size_t size = 0;
    while (is_of_name(value[size]) || value[size] == '~')
        size++;
    if (size == 0 || value[size] != '\0')
        return TURN_URI_BAD_QUERY;
    uri->transport = strcasecmp(value, "udp") == 0   ? TURN_UDP
                     : strcasecmp(value, "tcp") == 0 ? TURN_TCP
                                                     : 0;
    return uri->transport == 0 ? TURN_URI_UNSUPPORTED_TRANSPORT : TURN_URI_OK;
}

int32_t turn_uri_parse(const char *text, turn_uri *uri)
{
    turn_uri read = {.scheme = 0};
    const char *rest = read_scheme(text, &read);
    if (rest == NULL)
        return TURN_URI_BAD_SCHEME;
    int32_t status = rest[0] == '[' ? read_literal(&rest, &read) : read_name(&rest, &read);
    if (status == TURN_URI_OK && rest[0] == ':')
        status = read_port(&rest, &read);
    else if (status == TURN_URI_OK && rest[0] != '\0' && rest[0] != '?')
        status = TURN_URI_BAD_HOST;
    if (status == TURN_URI_OK)
        status = read_query(rest, &read);
    if (status == TURN_URI_OK)
        *uri = read;
    return status;
}

const char *turn_uri_status_text(int32_t status)
{
    static const char *const texts[] = {
        "it is a URI of a STUN or TURN server",
        "it does not begin with stun:, stuns:, turn: or turns:",
        "there is no host after the scheme",
        "the host is no name and no IP address",
        "the host has more than 253 bytes",
        "the host is of a form that is not supported",
        "the port is no number of 1 to 65535",
        "what follows the host is not ?transport= with a value",
        "the transport is neither udp nor tcp"};
    const int32_t least = TURN_URI_UNSUPPORTED_TRANSPORT;
    if (status > TURN_URI_OK || status < least)
        return "it is no status of turn_uri_parse";
    return texts[-status];
}
