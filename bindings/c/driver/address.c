/* address.c: addresses as the library, the system and people have them. */
#define _GNU_SOURCE
#include "internal.h"

#include <arpa/inet.h>
#include <stdio.h>
#include <stdlib.h>
#include <string.h>

bool is_address(const turn_address *address)
{
    return address->family == 4 || address->family == 6;
}

bool is_same_host(const turn_address *one, const turn_address *other)
{
    return one->family == other->family
           && memcmp(one->ip, other->ip, one->family == 4 ? 4 : 16) == 0;
}

bool is_same(const turn_address *one, const turn_address *other)
{
    return is_same_host(one, other) && one->port == other->port;
}

socklen_t to_system(const turn_address *address, struct sockaddr_storage *to)
{
    memset(to, 0, sizeof *to);
    if (address->family == 4) {
        struct sockaddr_in v4 = {.sin_family = AF_INET, .sin_port = htons(address->port)};
        memcpy(&v4.sin_addr, address->ip, 4);
        memcpy(to, &v4, sizeof v4);
        return sizeof v4;
    }
    struct sockaddr_in6 v6 = {.sin6_family = AF_INET6, .sin6_port = htons(address->port)};
    memcpy(&v6.sin6_addr, address->ip, 16);
    memcpy(to, &v6, sizeof v6);
    return sizeof v6;
}

turn_address of_system(const struct sockaddr_storage *from)
{
    turn_address to = {.family = from->ss_family == AF_INET ? 4 : 6};
    if (from->ss_family == AF_INET) {
        struct sockaddr_in v4;
        memcpy(&v4, from, sizeof v4);
        memcpy(to.ip, &v4.sin_addr, 4);
        to.port = ntohs(v4.sin_port);
        return to;
    }
    struct sockaddr_in6 v6;
    memcpy(&v6, from, sizeof v6);
    memcpy(to.ip, &v6.sin6_addr, 16);
    to.port = ntohs(v6.sin6_port);
    return to;
}

/* A port of 1 to 65535, of digits alone. */
static bool read_port(const char *text, uint16_t *port)
{
    char *end = NULL;
    if (text[0] < '0' || text[0] > '9')
        return false;
    const unsigned long value = strtoul(text, &end, 10);
    *port = (uint16_t)value;
    return *end == '\0' && value >= 1 && value <= UINT16_MAX;
}

/* An IP address of so many bytes of a text. */
static bool read_ip(const char *text, size_t size, turn_address *address)
{
    char ip[INET6_ADDRSTRLEN];
    if (size >= sizeof ip)
        return false;
    memcpy(ip, text, size);
    ip[size] = '\0';
    if (inet_pton(AF_INET, ip, address->ip) == 1)
        address->family = 4;
    else if (inet_pton(AF_INET6, ip, address->ip) == 1)
        address->family = 6;
    return address->family != 0;
}

bool turn_address_parse(const char *text, turn_address *address)
{
    turn_address read = {.family = 0};
    const char *colon = strchr(text, ':');
    if (text[0] == '[') {
        const char *close = strchr(text, ']');
        if (close == NULL || !read_ip(text + 1, (size_t)(close - text - 1), &read)
            || read.family != 6)
            return false;
        if (close[1] != '\0' && (close[1] != ':' || !read_port(close + 2, &read.port)))
            return false;
    } else if (colon == NULL || strchr(colon + 1, ':') != NULL) { /* no port */
        if (!read_ip(text, strlen(text), &read))
            return false;
    } else if (!read_ip(text, (size_t)(colon - text), &read) || !read_port(colon + 1, &read.port)) {
        return false;
    }
    *address = read;
    return true;
}

const char *turn_address_text(const turn_address *address, char text[TURN_ADDRESS_TEXT_MAX])
{
    char ip[INET6_ADDRSTRLEN] = "none";
    if (is_address(address))
        inet_ntop(address->family == 4 ? AF_INET : AF_INET6, address->ip, ip, sizeof ip);
    if (address->port == 0 || !is_address(address))
        snprintf(text, TURN_ADDRESS_TEXT_MAX, "%s", ip);
    else
        snprintf(text, TURN_ADDRESS_TEXT_MAX, address->family == 4 ? "%s:%u" : "[%s]:%u", ip,
                 (unsigned)address->port);
    return text;
}
