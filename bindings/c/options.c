/* options.c: what options.h declares. It is built with turn_client.c, which says how. */
#define _GNU_SOURCE
#include "options.h"

#include <arpa/inet.h>
#include <getopt.h>
#include <netinet/in.h>
#include <stdio.h>
#include <stdlib.h>
#include <string.h>

enum { SERVER_PORT = 3478, PASSWORD_MAX = 1000, TOKEN_DIGITS = 16 };

/* ---- values */

/* A number of digits alone, within bounds. */
static bool read_number(const char *text, uint32_t least, uint32_t most, uint32_t *number)
{
    char *end = NULL;
    const unsigned long long value = strtoull(text, &end, 10);
    *number = (uint32_t)value;
    return text[0] >= '0' && text[0] <= '9' && *end == '\0' && value >= least && value <= most;
}

/* The colon before the port of an address; NULL where it has none, as IPv6 without brackets. */
static const char *port_of(const char *text)
{
    const char *first = strchr(text, ':'), *last = strrchr(text, ':');
    if (text[0] == '[')
        return last != NULL && last > text && last[-1] == ']' ? last : NULL;
    return first == last ? first : NULL;
}

/* An address. Its port is this one where the text tells none; 0 is no port. */
static bool read_address(const char *text, uint32_t port, turn_address *address)
{
    char ip[INET6_ADDRSTRLEN];
    const char *colon = port_of(text);
    size_t len = colon == NULL ? strlen(text) : (size_t)(colon - text);
    if (len > 1 && text[0] == '[' && text[len - 1] == ']') {
        text++;
        len -= 2;
    }
    if (len >= sizeof ip || (colon != NULL && !read_number(colon + 1, 1, 65535, &port)))
        return false;
    memcpy(ip, text, len);
    ip[len] = '\0';
    *address = (turn_address){.port = (uint16_t)port};
    if (inet_pton(AF_INET, ip, address->ip) == 1)
        address->family = 4;
    else if (inet_pton(AF_INET6, ip, address->ip) == 1)
        address->family = 6;
    return address->family != 0 && port != 0;
}

/* An IP address alone. */
static bool read_ip(const char *text, turn_address *address)
{
    const bool is_read = port_of(text) == NULL && read_address(text, 1, address);
    address->port = 0;
    return is_read;
}

/* The first line of a file, without its end; NULL where there is none, or it is too long. */
static const char *read_password(const char *file)
{
    static char line[PASSWORD_MAX + 2];
    FILE *in = fopen(file, "r");
    const bool is_read = in != NULL && fgets(line, sizeof line, in) != NULL;
    if (in != NULL)
        fclose(in);
    const size_t len = is_read ? strcspn(line, "\r\n") : sizeof line;
    if (len > PASSWORD_MAX)
        return NULL;
    line[len] = '\0';
    return line;
}

/* The token of a reserved port. */
static bool read_token(const char *text, uint64_t *token)
{
    *token = strtoull(text, NULL, 16);
    return strlen(text) == TOKEN_DIGITS && strspn(text, "0123456789abcdefABCDEF") == TOKEN_DIGITS;
}

/* ---- options */

static const char usage[] =
    "turn_client OPTION..: asks a TURN server for an address, and sends payloads through it to a peer\n"
    "  --server ADDRESS      IP or IP:PORT, of IPv6 [IP]:PORT; without a port 3478\n"
    "  --user NAME           whose address it is. The password is that of the variable TURN_PASSWORD, or of\n"
    "  --password-file FILE  its first line; or of\n"
    "  --password TEXT       which other users of the machine can see while the program runs\n"
    "  --family 4|6|both     of the address that is asked for; without it 4\n"
    "  --even-port           asks for an even port of the address\n"
    "  --reserve             the same, and that the server reserve the next port; tells the token for that\n"
    "  --token HEX           asks for the port that is reserved under this token, of 16 digits\n"
    "  --algorithms sha1|sha256|sha512|both|all   that are supported, both of the first two; without it both\n"
    "  --tcp                 a connection over TCP to the server; peers are reached over UDP\n"
    "  --peer ADDRESS        the peer, which is to send back what it gets\n"
    "  --echo                in its place one of this program's own, on loopback\n"
    "  --count N             how many payloads; without it 10. Without a peer there are none\n"
    "  --size BYTES          of each, 4 to 60000; without it 100\n"
    "  --interval MS         between two; without it 20\n"
    "  --seconds N           how long the address is kept at least; without it 0\n"
    "  --indications         no channel: each payload goes in an indication\n"
    "  --follow              goes on at the server that this one names by an error 300, once\n"
    "  --ignore-short-lifetimes   ignores a renewal that grants less than 600 s\n"
    "  --accept IP           in place of a peer: waits until one at IP opens a connection (RFC 6062), prints its bytes and\n"
    "                        sends them back, until it closes that; for --seconds N at most. Needs --tcp\n"
    "  --attempt-indications such a connection may be announced by an indication, as coturn does, which nobody signs\n"
    "  --quiet               tells errors and the result alone\n"
    "  --help\n"
    "  --version\n"
    "Exit status: 0 all came back, or nothing was to be sent; 1 something was lost; 2 options that can't be read;\n"
    "3 the server refused something, or the client failed; 4 no answer\n";

static const struct option names[] = {
    {"server", required_argument, NULL, 's'},   {"user", required_argument, NULL, 'u'},
    {"password", required_argument, NULL, 'p'}, {"password-file", required_argument, NULL, 'w'},
    {"family", required_argument, NULL, 'f'},   {"even-port", no_argument, NULL, 'v'},
    {"reserve", no_argument, NULL, 'z'},        {"token", required_argument, NULL, 'k'},
    {"algorithms", required_argument, NULL, 'a'}, {"tcp", no_argument, NULL, 't'},
    {"peer", required_argument, NULL, 'r'},     {"echo", no_argument, NULL, 'e'},
    {"count", required_argument, NULL, 'c'},    {"size", required_argument, NULL, 'b'},
    {"interval", required_argument, NULL, 'i'}, {"seconds", required_argument, NULL, 'n'},
    {"indications", no_argument, NULL, 'x'},    {"quiet", no_argument, NULL, 'q'},
    {"follow", no_argument, NULL, 'o'},        {"ignore-short-lifetimes", no_argument, NULL, 'l'},
    {"accept", required_argument, NULL, 'g'},   {"attempt-indications", no_argument, NULL, 'm'},
    {"help", no_argument, NULL, 'h'},           {"version", no_argument, NULL, 'V'},
    {NULL, 0, NULL, 0},
};

/* Words, and what bits they are; behind the last one comes none. */
struct word {
    const char *text;
    uint32_t bits;
};

static const struct word families[] = {
    {"4", TURN_IPV4}, {"6", TURN_IPV6}, {"both", TURN_IPV4 | TURN_IPV6}, {NULL, 0},
};
static const struct word algorithms[] = {
    {"sha1", TURN_SHA1}, {"sha256", TURN_SHA256}, {"sha512", TURN_SHA512}, {"both", TURN_SHA1 | TURN_SHA256},
    {"all", TURN_SHA1 | TURN_SHA256 | TURN_SHA512}, {NULL, 0},
};

/* One of some words: its bits. */
static bool read_bits(const char *text, const struct word *words, uint32_t *bits)
{
    while (words->text != NULL && strcmp(text, words->text) != 0)
        words++;
    *bits = words->bits;
    return *bits != 0;
}

/* Takes an option that says which port is asked for. */
static bool take_port(struct options *o, uint32_t port)
{
    o->ports++;
    o->port = port;
    return true;
}

/* Takes an option with its value: whether that can be read. */
static bool take_option(struct options *o, int option, const char *value)
{
    switch (option) {
    case 's': return read_address(value, SERVER_PORT, &o->server);
    case 'u': o->user = value; return true;
    case 'p': o->password = value; return true;
    case 'w': return (o->password = read_password(value)) != NULL;
    case 'f': return read_bits(value, families, &o->families);
    case 'v': return take_port(o, TURN_PORT_EVEN);
    case 'z': return take_port(o, TURN_PORT_EVEN_AND_NEXT);
    case 'k': return take_port(o, TURN_PORT_RESERVED) && read_token(value, &o->token);
    case 'a': return read_bits(value, algorithms, &o->integrity);
    case 't': return o->is_over_tcp = true;
    case 'r': return read_address(value, 0, &o->peer);
    case 'e': return o->has_echo = true;
    case 'c': return read_number(value, 0, MOST_COUNT, &o->count);
    case 'b': return read_number(value, LEAST_SIZE, MOST_SIZE, &o->size);
    case 'i': return read_number(value, 0, UINT32_MAX, &o->interval);
    case 'n': return read_number(value, 0, UINT32_MAX, &o->seconds);
    case 'x': return o->has_no_channel = true;
    case 'q': return o->is_quiet = true;
    case 'o': return o->follows = true;
    case 'l': return o->ignores_short_lifetimes = true;
    case 'g': return read_ip(value, &o->accept);
    case 'm': return o->accepts_indications = true;
    default: return false;
    }
}

/* What is wrong with all of them, or nothing. */
static const char *wrong_with(const struct options *o)
{
    if (o->server.family == 0 || o->user == NULL || o->password == NULL)
        return "a server, a user and a password are wanted";
    if (o->has_echo && o->peer.family != 0)
        return "a peer or an echo, and not both";
    if (o->peer.family != 0 && (o->families & (o->peer.family == 4 ? TURN_IPV4 : TURN_IPV6)) == 0)
        return "an address of the peer's family is to be asked for";
    if (o->accept.family != 0 && (!o->is_over_tcp || o->has_echo || o->peer.family != 0))
        return "--accept needs --tcp, and neither --peer nor --echo";
    if (o->accept.family != 0 && o->families != (o->accept.family == 4 ? TURN_IPV4 : TURN_IPV6))
        return "an address of the family of --accept alone is to be asked for";
    if (o->ports > 1)
        return "one of --even-port, --reserve and --token, and once";
    return NULL;
}

int read_options(int argc, char **argv, struct options *options)
{
    int option;
    *options = (struct options){.password = getenv("TURN_PASSWORD"), .families = TURN_IPV4,
                                .integrity = TURN_SHA1 | TURN_SHA256, .count = 10, .size = 100, .interval = 20};
    while ((option = getopt_long(argc, argv, "h", names, NULL)) != -1) {
        if (option == 'h') {
            fputs(usage, stdout);
            return ALL_BACK;
        }
        if (option == 'V') {
            puts("turn_client " TURN_CLIENT_VERSION);
            return ALL_BACK;
        }
        if (option == '?') {
            fprintf(stderr, "%s: --help tells the options\n", argv[0]); /* getopt_long has told which one */
            return BAD_USAGE;
        }
        if (!take_option(options, option, optarg)) {
            fprintf(stderr, "%s: %s can't be read; --help tells more\n", argv[0], optarg);
            return BAD_USAGE;
        }
    }
    const char *wrong = optind < argc ? "more than options" : wrong_with(options);
    if (wrong == NULL)
        return -1;
    fprintf(stderr, "%s: %s; --help tells more\n", argv[0], wrong);
    return BAD_USAGE;
}
