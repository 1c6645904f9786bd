/* libnice.c: the functions stun_.. of libnice: messages alone. They hold no channels and no permissions, and have no
 * frames of channels. So they are timed beside one permission. */
#include <netinet/in.h>
#include <string.h>

#include "rows.h"
#include "../samples.h"
#include <stun/stunagent.h>

static const uint16_t known[] = {
    STUN_ATTRIBUTE_MESSAGE_INTEGRITY, STUN_ATTRIBUTE_LIFETIME, STUN_ATTRIBUTE_XOR_PEER_ADDRESS, STUN_ATTRIBUTE_DATA,
    STUN_ATTRIBUTE_XOR_RELAYED_ADDRESS, STUN_ATTRIBUTE_XOR_MAPPED_ADDRESS, 0,
};
static uint8_t key[] = KEY_TEXT;
static StunAgent agent;
static StunMessage request, message;
static uint8_t datagram[INDICATION_MOST], out[INDICATION_MOST], requested[sizeof response_sha1];
static size_t datagram_size, out_size;
static const uint8_t *taken;
static uint16_t taken_size;
static struct sockaddr_storage peer, relayed, mapped;

static struct sockaddr_storage address_of(uint32_t ip, uint16_t port)
{
    struct sockaddr_storage made = {0};
    const struct sockaddr_in it = {.sin_family = AF_INET, .sin_addr = {htonl(ip)}, .sin_port = htons(port)};
    memcpy(&made, &it, sizeof it);
    return made;
}

static void begin(StunAgentUsageFlags flags)
{
    stun_agent_init(&agent, known, STUN_COMPATIBILITY_RFC5389, flags);
}

/* ---- payloads */

static void hold_data(size_t held)
{
    (void)held;
    begin(STUN_AGENT_USAGE_IGNORE_CREDENTIALS);
    datagram_size = row_indication(datagram, DATA_INDICATION, CHANNEL_PORT, 0);
}

static bool take_data(size_t i)
{
    (void)i;
    socklen_t size = sizeof peer;
    if (stun_agent_validate(&agent, &message, datagram, datagram_size, NULL, NULL) != STUN_VALIDATION_SUCCESS ||
        stun_message_get_class(&message) != STUN_INDICATION || stun_message_get_method(&message) != STUN_IND_DATA)
        return false;
    taken = stun_message_find(&message, STUN_ATTRIBUTE_DATA, &taken_size);
    return stun_message_find_xor_addr(&message, STUN_ATTRIBUTE_XOR_PEER_ADDRESS, &peer, &size) ==
           STUN_MESSAGE_RETURN_SUCCESS;
}

static bool is_data(size_t i)
{
    const struct sockaddr_storage wanted = address_of(FIRST_PEER + (uint32_t)i, CHANNEL_PORT);
    return taken_size == PAYLOAD && memcmp(taken, row_payload, PAYLOAD) == 0 &&
           memcmp(&peer, &wanted, sizeof(struct sockaddr_in)) == 0;
}

static void hold_peer(size_t held)
{
    (void)held;
    begin(STUN_AGENT_USAGE_IGNORE_CREDENTIALS);
    peer = address_of(FIRST_PEER, OTHER_PORT);
}

static bool send_indication(size_t i)
{
    (void)i;
    if (!stun_agent_init_indication(&agent, &message, out, sizeof out, STUN_IND_SEND) ||
        stun_message_append_xor_addr(&message, STUN_ATTRIBUTE_XOR_PEER_ADDRESS, &peer, sizeof(struct sockaddr_in)) !=
            STUN_MESSAGE_RETURN_SUCCESS ||
        stun_message_append_bytes(&message, STUN_ATTRIBUTE_DATA, row_payload, PAYLOAD) != STUN_MESSAGE_RETURN_SUCCESS)
        return false;
    out_size = stun_agent_finish_message(&agent, &message, NULL, 0);
    return out_size > 0;
}

static bool is_indication(size_t i)
{
    return row_is_indication(out, out_size, SEND_INDICATION, OTHER_PORT, i);
}

/* ---- responses. An agent takes each response once: so it is told anew that the request is open */

static void hold_request(StunAgentUsageFlags flags)
{
    begin(flags);
    agent.sent_ids[0].method = STUN_ALLOCATE;
    agent.sent_ids[0].key = key;
    agent.sent_ids[0].key_len = sizeof key - 1;
    memcpy(agent.sent_ids[0].id, response_sha1 + STUN_MESSAGE_TRANS_ID_POS, STUN_MESSAGE_TRANS_ID_LEN);
}

static void hold_whole(size_t held)
{
    (void)held;
    hold_request(STUN_AGENT_USAGE_USE_FINGERPRINT | STUN_AGENT_USAGE_IGNORE_CREDENTIALS);
    datagram_size = sizeof response_whole;
    memcpy(datagram, response_whole, datagram_size);
}

static void hold_signed(size_t held)
{
    (void)held;
    hold_request(STUN_AGENT_USAGE_SHORT_TERM_CREDENTIALS);
    datagram_size = sizeof response_sha1;
    memcpy(datagram, response_sha1, datagram_size);
}

static bool validate(size_t i)
{
    (void)i;
    agent.sent_ids[0].valid = true;
    return stun_agent_validate(&agent, &message, datagram, datagram_size, stun_agent_default_validater, NULL) ==
           STUN_VALIDATION_SUCCESS;
}

/* The last byte is of the FINGERPRINT, or of the HMAC where there is none. */
static bool refuses_another(size_t i)
{
    datagram[datagram_size - 1] ^= 1;
    const bool is_valid = validate(i);
    datagram[datagram_size - 1] ^= 1;
    return !is_valid;
}

static void hold_addresses(size_t held)
{
    (void)held;
    begin(STUN_AGENT_USAGE_SHORT_TERM_CREDENTIALS);
    memcpy(requested, response_sha1, sizeof requested);
    requested[0] = 0;
    request = (StunMessage){.agent = &agent, .buffer = requested, .buffer_len = sizeof requested};
    relayed = address_of(RELAYED_IP, RELAYED_PORT);
    mapped = address_of(MAPPED_IP, MAPPED_PORT);
}

static bool add_address(StunAttribute type, const struct sockaddr_storage *address)
{
    return stun_message_append_xor_addr(&message, type, address, sizeof(struct sockaddr_in)) ==
           STUN_MESSAGE_RETURN_SUCCESS;
}

static bool sign(size_t i)
{
    (void)i;
    if (!stun_agent_init_response(&agent, &message, out, sizeof out, &request) ||
        !add_address(STUN_ATTRIBUTE_XOR_RELAYED_ADDRESS, &relayed) ||
        stun_message_append32(&message, STUN_ATTRIBUTE_LIFETIME, GRANTED_SECONDS) != STUN_MESSAGE_RETURN_SUCCESS ||
        !add_address(STUN_ATTRIBUTE_XOR_MAPPED_ADDRESS, &mapped) ||
        stun_message_append_bytes(&message, STUN_ATTRIBUTE_SOFTWARE, SOFTWARE_TEXT, sizeof SOFTWARE_TEXT - 1) !=
            STUN_MESSAGE_RETURN_SUCCESS)
        return false;
    out_size = stun_agent_finish_message(&agent, &message, key, sizeof key - 1);
    return out_size == sizeof response_sha1;
}

static bool is_signed(size_t i)
{
    (void)i;
    return memcmp(out, response_sha1, out_size) == 0;
}

const struct row_call row_calls[] = {
    {"data", 1, hold_data, take_data, is_data},
    {"indication", 1, hold_peer, send_indication, is_indication},
    {"parse", 1, hold_whole, validate, refuses_another},
    {"sign", 1, hold_addresses, sign, is_signed},
    {"validate", 1, hold_signed, validate, refuses_another},
};
const size_t row_calls_count = sizeof row_calls / sizeof *row_calls;
