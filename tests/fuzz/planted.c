/* planted.c: faults that `run --planted` puts before the library one by one, to see that the fuzzer finds each. The
 * library's own calls are renamed to honest_*; PLANTED is the number of the fault. */
#include <stdlib.h>

#include "memory.h"
#include "turn_client.h"

int32_t honest_open(turn_client *client, const turn_settings *settings, const char *username, size_t username_len,
                    const char *password, size_t password_len, const turn_seed *seed);
int32_t honest_feed(turn_client *client, const turn_address *from, const turn_address *to, const uint8_t *bytes,
                    size_t len, uint64_t now, turn_payload *payload);
int32_t honest_send(turn_client *client, uint32_t transport, const turn_address *peer, const uint8_t *bytes, size_t len,
                    uint64_t now, uint8_t *out, size_t out_len, turn_transmit *transmit);
int32_t honest_event(turn_client *client, turn_event *event);
int32_t honest_permit(turn_client *client, uint32_t transport, const turn_address *peer, uint64_t now);
size_t honest_channels(turn_client *client, turn_channel *out, size_t out_len);

int32_t turn_client_open(turn_client *client, const turn_settings *settings, const char *username, size_t username_len,
                         const char *password, size_t password_len, const turn_seed *seed)
{
    const int32_t status = honest_open(client, settings, username, username_len, password, password_len, seed);
    if (PLANTED == 1 && status == TURN_OK)
        library_malloc(1); /* which nobody frees */
    return status;
}

int32_t turn_client_feed(turn_client *client, const turn_address *from, const turn_address *to, const uint8_t *bytes,
                         size_t len, uint64_t now, turn_payload *payload)
{
    if (PLANTED == 2)
        *(volatile const uint8_t *)(bytes + len); /* a read past the end */
    const int32_t status = honest_feed(client, from, to, bytes, len, now, payload);
    if (PLANTED == 3 && status == TURN_PAYLOAD && !payload->is_joined)
        payload->start = len;
    return status;
}

int32_t turn_client_send(turn_client *client, uint32_t transport, const turn_address *peer, const uint8_t *bytes,
                         size_t len, uint64_t now, uint8_t *out, size_t out_len, turn_transmit *transmit)
{
    const int32_t status = honest_send(client, transport, peer, bytes, len, now, out, out_len, transmit);
    if (PLANTED == 4 && status == TURN_OK && transmit->size < out_len)
        out[transmit->size] ^= 1; /* past what was told */
    if (PLANTED == 5 && status == TURN_OK)
        out[transmit->size - 1] ^= 1; /* other bytes than are wanted */
    return status;
}

int32_t turn_client_event(turn_client *client, turn_event *event)
{
    const int32_t status = honest_event(client, event);
    return PLANTED == 6 && status == TURN_NOTHING ? TURN_IGNORED : status;
}

int32_t turn_client_permit(turn_client *client, uint32_t transport, const turn_address *peer, uint64_t now)
{
    turn_event event;
    const int32_t status = honest_permit(client, transport, peer, now);
    if (PLANTED == 7 && status == TURN_BAD_SETTING)
        honest_event(client, &event); /* a refusal that loses an event */
    return status;
}

size_t turn_client_channels(turn_client *client, turn_channel *out, size_t out_len)
{
    const size_t count = honest_channels(client, out, out_len);
    return PLANTED == 8 && out_len == 0 ? 0 : count;
}
