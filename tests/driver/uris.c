/* uris.c: rows of URIs and of addresses, and what turn_uri_parse and turn_address_parse make of
 * them. The rows are those of RFC 7064 and RFC 7065 (their appendixes A), and what the grammars of
 * these and of RFC 3986 take or leave out.
 *
 * The last line is `N passed, M failed`, and the exit status 0 where M is 0. */
#include <stdio.h>
#include <string.h>
#include <turn_driver.h>

static int passed, failed;

static void count(bool is_right, const char *row)
{
    passed += is_right;
    failed += !is_right;
    if (!is_right)
        printf("failed: %s\n", row);
}

struct good {
    const char *text;
    uint32_t scheme;
    const char *host;
    uint16_t port;
    uint32_t transport;
    uint8_t family;
    bool is_secure;
};

static const struct good goods[] = {
    /* RFC 7064, appendix A; without a port 3478 and 5349 (RFC 8489, section 18.6) */
    {"stun:example.org", TURN_URI_STUN, "example.org", 3478, 0, 0, false},
    {"stuns:example.org", TURN_URI_STUNS, "example.org", 5349, 0, 0, true},
    {"stun:example.org:8000", TURN_URI_STUN, "example.org", 8000, 0, 0, false},
    /* RFC 7065, appendix A */
    {"turn:example.org", TURN_URI_TURN, "example.org", 3478, 0, 0, false},
    {"turns:example.org", TURN_URI_TURNS, "example.org", 5349, 0, 0, true},
    {"turn:example.org:8000", TURN_URI_TURN, "example.org", 8000, 0, 0, false},
    {"turn:example.org?transport=udp", TURN_URI_TURN, "example.org", 3478, TURN_UDP, 0, false},
    {"turn:example.org?transport=tcp", TURN_URI_TURN, "example.org", 3478, TURN_TCP, 0, false},
    {"turns:example.org?transport=tcp", TURN_URI_TURNS, "example.org", 5349, TURN_TCP, 0, true},
    /* more of the grammar: RFC 7065, section 3.1; RFC 3986, sections 3.1, 3.2.2 and 3.2.3 */
    {"turns:example.org:443?transport=tcp", TURN_URI_TURNS, "example.org", 443, TURN_TCP, 0, true},
    {"turns:example.org?transport=udp", TURN_URI_TURNS, "example.org", 5349, TURN_UDP, 0, true},
    {"TURN:Example.ORG", TURN_URI_TURN, "Example.ORG", 3478, 0, 0, false},
    {"Turns:example.org?transport=TCP", TURN_URI_TURNS, "example.org", 5349, TURN_TCP, 0, true},
    {"turn:example.org?Transport=udp", TURN_URI_TURN, "example.org", 3478, TURN_UDP, 0, false},
    {"turn:192.0.2.1", TURN_URI_TURN, "192.0.2.1", 3478, 0, 4, false},
    {"turn:192.0.2.1:1", TURN_URI_TURN, "192.0.2.1", 1, 0, 4, false},
    {"turn:[2001:db8::1]", TURN_URI_TURN, "2001:db8::1", 3478, 0, 6, false},
    {"turns:[2001:db8::1]:65535", TURN_URI_TURNS, "2001:db8::1", 65535, 0, 6, true},
    {"stun:[::ffff:192.0.2.1]:5000", TURN_URI_STUN, "::ffff:192.0.2.1", 5000, 0, 6, false},
    {"turn:[::1]?transport=udp", TURN_URI_TURN, "::1", 3478, TURN_UDP, 6, false},
    {"turn:example.org:", TURN_URI_TURN, "example.org", 3478, 0, 0, false},
    {"turn:example.org:?transport=udp", TURN_URI_TURN, "example.org", 3478, TURN_UDP, 0, false},
    {"turn:example.org:03478", TURN_URI_TURN, "example.org", 3478, 0, 0, false},
    {"turn:example.org.", TURN_URI_TURN, "example.org", 3478, 0, 0, false},
    {"turn:localhost", TURN_URI_TURN, "localhost", 3478, 0, 0, false},
    {"turn:1.example", TURN_URI_TURN, "1.example", 3478, 0, 0, false},
};

struct bad {
    const char *text;
    int32_t status;
};

static const struct bad bads[] = {
    {"", TURN_URI_BAD_SCHEME},
    {"turn", TURN_URI_BAD_SCHEME},
    {"example.org", TURN_URI_BAD_SCHEME},
    {"http:example.org", TURN_URI_BAD_SCHEME},
    {"turnss:example.org", TURN_URI_BAD_SCHEME},
    {" turn:example.org", TURN_URI_BAD_SCHEME},
    {"turn:", TURN_URI_NO_HOST},
    {"turn::3478", TURN_URI_NO_HOST},
    {"turn:?transport=udp", TURN_URI_NO_HOST},
    {"turn://example.org", TURN_URI_BAD_HOST},
    {"turn:alice@example.org", TURN_URI_BAD_HOST},
    {"turn:exam ple.org", TURN_URI_BAD_HOST},
    {"turn:example.org/path", TURN_URI_BAD_HOST},
    {"turn:example.org#part", TURN_URI_BAD_HOST},
    {"turn:ex\xc3\xa4mple.org", TURN_URI_BAD_HOST},
    {"turn:.", TURN_URI_BAD_HOST},
    {"turn:example..org", TURN_URI_BAD_HOST},
    {"turn:.example.org", TURN_URI_BAD_HOST},
    {"turn:256.0.2.1", TURN_URI_BAD_HOST},
    {"turn:192.0.2", TURN_URI_BAD_HOST},
    {"turn:127.1", TURN_URI_BAD_HOST},
    {"turn:2130706433", TURN_URI_BAD_HOST},
    {"turn:0x7f000001", TURN_URI_BAD_HOST},
    {"turn:[]", TURN_URI_BAD_HOST},
    {"turn:[2001:db8::1", TURN_URI_BAD_HOST},
    {"turn:[192.0.2.1]", TURN_URI_BAD_HOST},
    {"turn:[2001:db8::1::2]", TURN_URI_BAD_HOST},
    {"turn:[fe80::1%25eth0]", TURN_URI_BAD_HOST},
    {"turn:[::1]x", TURN_URI_BAD_HOST},
    {"turn:2001:db8::1", TURN_URI_BAD_HOST},
    {"turn:abcd:db8::1", TURN_URI_BAD_PORT},
    {"turn:[v1.fe]", TURN_URI_UNSUPPORTED_HOST},
    {"turn:ex%61mple.org", TURN_URI_UNSUPPORTED_HOST},
    {"turn:example!org", TURN_URI_UNSUPPORTED_HOST},
    {"turn:example.org:0", TURN_URI_BAD_PORT},
    {"turn:example.org:65536", TURN_URI_BAD_PORT},
    {"turn:example.org:99999999999999999999", TURN_URI_BAD_PORT},
    {"turn:example.org:-1", TURN_URI_BAD_PORT},
    {"turn:example.org:3478x", TURN_URI_BAD_PORT},
    {"turn:example.org: 3478", TURN_URI_BAD_PORT},
    {"turn:example.org?", TURN_URI_BAD_QUERY},
    {"turn:example.org?transport", TURN_URI_BAD_QUERY},
    {"turn:example.org?transport=", TURN_URI_BAD_QUERY},
    {"turn:example.org?ttl=60", TURN_URI_BAD_QUERY},
    {"turn:example.org?transport=udp&x=1", TURN_URI_BAD_QUERY},
    {"stun:example.org?transport=udp", TURN_URI_BAD_QUERY},
    {"turn:example.org?transport=sctp", TURN_URI_UNSUPPORTED_TRANSPORT},
    {"turns:example.org?transport=udpx", TURN_URI_UNSUPPORTED_TRANSPORT},
};

static void check_uris(void)
{
    for (size_t i = 0; i < sizeof goods / sizeof *goods; i++) {
        const struct good *row = &goods[i];
        turn_uri uri;
        memset(&uri, 0xee, sizeof uri);
        count(turn_uri_parse(row->text, &uri) == TURN_URI_OK && uri.scheme == row->scheme
                  && strcmp(uri.host, row->host) == 0 && uri.port == row->port
                  && uri.transport == row->transport && uri.family == row->family
                  && uri.is_secure == row->is_secure, row->text);
    }
    for (size_t i = 0; i < sizeof bads / sizeof *bads; i++) {
        turn_uri uri, before;
        memset(&uri, 0xee, sizeof uri);
        before = uri;
        count(turn_uri_parse(bads[i].text, &uri) == bads[i].status
                  && memcmp(&uri, &before, sizeof uri) == 0, bads[i].text);
    }
}

/* Names of 253 and 254 bytes, and labels of 63 and 64 (RFC 1035, section 2.3.4). */
static void check_long_hosts(void)
{
    char text[300] = "turn:";
    turn_uri uri;
    for (size_t i = 0; i < 254; i++)
        text[5 + i] = i % 50 == 49 ? '.' : 'a';
    text[5 + 253] = '\0';
    count(turn_uri_parse(text, &uri) == TURN_URI_OK && strlen(uri.host) == 253, "253 bytes");
    strcpy(text + 5 + 253, ".");
    count(turn_uri_parse(text, &uri) == TURN_URI_OK && strlen(uri.host) == 253, "253 and a dot");
    strcpy(text + 5 + 253, "a");
    count(turn_uri_parse(text, &uri) == TURN_URI_LONG_HOST, "254 bytes");
    memset(text + 5, 'a', 64);
    strcpy(text + 5 + 63, ".org");
    count(turn_uri_parse(text, &uri) == TURN_URI_OK, "a label of 63 bytes");
    memset(text + 5, 'a', 64);
    strcpy(text + 5 + 64, ".org");
    count(turn_uri_parse(text, &uri) == TURN_URI_BAD_HOST, "a label of 64 bytes");
}

struct address_row {
    const char *text, *written; /* NULL: it is none */
    uint8_t family;
    uint16_t port;
};

static const struct address_row addresses[] = {
    {"192.0.2.1:9000", "192.0.2.1:9000", 4, 9000},
    {"192.0.2.1", "192.0.2.1", 4, 0},
    {"[2001:db8::1]:9000", "[2001:db8::1]:9000", 6, 9000},
    {"[2001:DB8:0::1]:1", "[2001:db8::1]:1", 6, 1},
    {"2001:db8::1", "2001:db8::1", 6, 0},
    {"[2001:db8::1]", "2001:db8::1", 6, 0},
    {"192.0.2.1:65535", "192.0.2.1:65535", 4, 65535},
    {"", NULL, 0, 0},
    {"example.org:1", NULL, 0, 0},
    {"192.0.2.1:", NULL, 0, 0},
    {"192.0.2.1:0", NULL, 0, 0},
    {"192.0.2.1:65536", NULL, 0, 0},
    {"192.0.2.1:+1", NULL, 0, 0},
    {"192.0.2.1:1x", NULL, 0, 0},
    {"192.0.2:1", NULL, 0, 0},
    {"[192.0.2.1]:1", NULL, 0, 0},
    {"[2001:db8::1", NULL, 0, 0},
    {"[2001:db8::1]x", NULL, 0, 0},
    {"[2001:db8::1]:", NULL, 0, 0},
    {"[fe80::1%lo]:1", NULL, 0, 0},
};

static void check_addresses(void)
{
    char text[TURN_ADDRESS_TEXT_MAX];
    const turn_address none = {.family = 0};
    for (size_t i = 0; i < sizeof addresses / sizeof *addresses; i++) {
        const struct address_row *row = &addresses[i];
        turn_address address, before;
        memset(&address, 0xee, sizeof address);
        before = address;
        const bool is_one = turn_address_parse(row->text, &address);
        if (row->written == NULL)
            count(!is_one && memcmp(&address, &before, sizeof address) == 0, row->text);
        else
            count(is_one && address.family == row->family && address.port == row->port
                      && strcmp(turn_address_text(&address, text), row->written) == 0, row->text);
    }
    count(strcmp(turn_address_text(&none, text), "none") == 0, "no address");
}

static void check_texts(void)
{
    for (int32_t status = TURN_URI_UNSUPPORTED_TRANSPORT; status <= TURN_URI_OK; status++)
        count(strstr(turn_uri_status_text(status), "no status") == NULL, "the text of a status");
    count(strstr(turn_uri_status_text(1), "no status") != NULL, "the text of 1");
    count(strstr(turn_uri_status_text(-9), "no status") != NULL, "the text of -9");
    count(strstr(turn_uri_status_text(INT32_MIN), "no status") != NULL, "the text of INT32_MIN");
}

int main(void)
{
    check_uris();
    check_long_hosts();
    check_addresses();
    check_texts();
    printf("%d passed, %d failed\n", passed, failed);
    return failed > 0;
}
