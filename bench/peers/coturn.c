/* coturn.c: coturn's library for clients, libturnclient: messages alone. It holds no channels and no permissions, so it
 * is timed beside one of each. */
#include <netinet/in.h>
#include <string.h>

#include "rows.h"
#include "../samples.h"
#include "turn/ns_turn_msg.h"

enum { REQUIRE_FINGERPRINT = 1, NO_PADDING = 0 };

static uint8_t datagram[INDICATION_MOST], out[INDICATION_MOST], response[sizeof response_whole];
static const uint8_t *taken;
static size_t datagram_size, out_size, taken_size;
static ioa_addr peer;
static hmackey_t key;
static password_t no_password;

static ioa_addr address_of(uint32_t ip, uint16_t port)
{
    return (ioa_addr){.s4 = {.sin_family = AF_INET, .sin_addr = {htonl(ip)}, .sin_port = htons(port)}};
}

/* ---- payloads */

static void hold_frame(size_t held)
{
    (void)held;
    row_frame(datagram, 0);
    datagram_size = FRAME_SIZE;
}

static bool take(size_t i)
{
    uint16_t channel = 0;
    size_t size = datagram_size;
    if (!stun_is_channel_message_str(datagram, &size, &channel, NO_PADDING))
        return false;
    taken = datagram + FRAME_HEADER;
    taken_size = size - FRAME_HEADER;
    return channel == LEAST_CHANNEL + i;
}

static bool is_taken(size_t i)
{
    (void)i;
    return taken_size == PAYLOAD && memcmp(taken, row_payload, PAYLOAD) == 0;
}

static bool send_frame(size_t i)
{
    if (stun_init_channel_message_str((uint16_t)(LEAST_CHANNEL + i), out, &out_size, PAYLOAD, NO_PADDING) < 0)
        return false;
    memcpy(out + FRAME_HEADER, row_payload, PAYLOAD);
    return true;
}

static bool is_frame(size_t i)
{
    return row_is_frame(out, out_size, i);
}

static void hold_data(size_t held)
{
    (void)held;
    datagram_size = row_indication(datagram, DATA_INDICATION, CHANNEL_PORT, 0);
}

static bool take_data(size_t i)
{
    (void)i;
    if (!stun_is_command_message_str(datagram, datagram_size) || !stun_is_indication_str(datagram, datagram_size) ||
        stun_get_method_str(datagram, datagram_size) != STUN_METHOD_DATA)
        return false;
    stun_attr_ref data = stun_attr_get_first_by_type_str(datagram, datagram_size, STUN_ATTRIBUTE_DATA);
    taken = stun_attr_get_value(data);
    taken_size = (size_t)stun_attr_get_len(data);
    return stun_attr_get_first_addr_str(datagram, datagram_size, STUN_ATTRIBUTE_XOR_PEER_ADDRESS, &peer, NULL) == 0;
}

static bool is_data(size_t i)
{
    return is_taken(i) && ntohl(peer.s4.sin_addr.s_addr) == FIRST_PEER + i && addr_get_port(&peer) == CHANNEL_PORT;
}

static void hold_peer(size_t held)
{
    (void)held;
    peer = address_of(FIRST_PEER, OTHER_PORT);
}

static bool send_indication(size_t i)
{
    (void)i;
    stun_init_indication_str(STUN_METHOD_SEND, out, &out_size);
    return stun_attr_add_addr_str(out, &out_size, STUN_ATTRIBUTE_XOR_PEER_ADDRESS, &peer) == 0 &&
           stun_attr_add_str(out, &out_size, STUN_ATTRIBUTE_DATA, row_payload, PAYLOAD) == 0;
}

static bool is_indication(size_t i)
{
    return row_is_indication(out, out_size, SEND_INDICATION, OTHER_PORT, i);
}

/* ---- responses */

static void hold_whole(size_t held)
{
    (void)held;
    memcpy(response, response_whole, sizeof response);
}

static bool parse(size_t i)
{
    (void)i;
    int is_present = 0;
    return stun_is_command_message_full_check_str(response, sizeof response, REQUIRE_FINGERPRINT, &is_present) &&
           is_present;
}

static bool refuses_another(size_t i)
{
    response[sizeof response - 1] ^= 1;
    const bool is_parsed = parse(i);
    response[sizeof response - 1] ^= 1;
    return !is_parsed;
}

static void hold_key(size_t held)
{
    (void)held;
    memcpy(key, KEY_TEXT, sizeof KEY_TEXT - 1);
    memcpy(response, response_sha1, sizeof response_sha1);
}

static bool validate(size_t i)
{
    (void)i;
    return stun_is_command_message_str(response, sizeof response_sha1) &&
           stun_check_message_integrity_by_key_str(TURN_CREDENTIALS_LONG_TERM, response, sizeof response_sha1, key,
                                                   no_password, SHATYPE_SHA1) > 0;
}

static bool rejects_another(size_t i)
{
    response[sizeof response_sha1 - 1] ^= 1;
    const bool is_valid = validate(i);
    response[sizeof response_sha1 - 1] ^= 1;
    return !is_valid;
}

static ioa_addr relayed, mapped;
static stun_tid number;

static void hold_addresses(size_t held)
{
    hold_key(held);
    relayed = address_of(RELAYED_IP, RELAYED_PORT);
    mapped = address_of(MAPPED_IP, MAPPED_PORT);
    memcpy(number.tsx_id, response_sha1 + TRANSACTION_AT, sizeof number.tsx_id);
}

static bool sign(size_t i)
{
    (void)i;
    const uint32_t seconds = htonl(GRANTED_SECONDS);
    const uint8_t *lifetime = (const uint8_t *)&seconds, *software = (const uint8_t *)SOFTWARE_TEXT;
    stun_init_success_response_str(STUN_METHOD_ALLOCATE, out, &out_size, &number);
    return stun_attr_add_addr_str(out, &out_size, STUN_ATTRIBUTE_XOR_RELAYED_ADDRESS, &relayed) == 0 &&
           stun_attr_add_str(out, &out_size, STUN_ATTRIBUTE_LIFETIME, lifetime, sizeof seconds) == 0 &&
           stun_attr_add_addr_str(out, &out_size, STUN_ATTRIBUTE_XOR_MAPPED_ADDRESS, &mapped) == 0 &&
           stun_attr_add_str(out, &out_size, STUN_ATTRIBUTE_SOFTWARE, software, sizeof SOFTWARE_TEXT - 1) == 0 &&
           stun_attr_add_integrity_str(TURN_CREDENTIALS_LONG_TERM, out, &out_size, key, no_password, SHATYPE_SHA1) == 0;
}

static bool is_signed(size_t i)
{
    (void)i;
    return out_size == sizeof response_sha1 && memcmp(out, response_sha1, out_size) == 0;
}

const struct row_call row_calls[] = {
    {"take", 1, hold_frame, take, is_taken},
    {"send", 1, NULL, send_frame, is_frame},
    {"data", 1, hold_data, take_data, is_data},
    {"indication", 1, hold_peer, send_indication, is_indication},
    {"parse", 1, hold_whole, parse, refuses_another},
    {"sign", 1, hold_addresses, sign, is_signed},
    {"validate", 1, hold_key, validate, rejects_another},
};
const size_t row_calls_count = sizeof row_calls / sizeof *row_calls;
