// What calls cost of a client that holds channels, over UDP and over TCP.
#include <float.h>
#include <string.h>

#include "bench.h"

size_t stun_bench_take(size_t channels, size_t rounds, SLICE(bytes));
size_t stun_bench_drain(size_t channels, size_t rounds, SLICE(bytes), size_t size);
size_t stun_bench_send(size_t channels, size_t rounds, uint16_t port, SLICE(bytes), OUT);

static uint8_t payload[PAYLOAD], sent[PAYLOAD + ROOM_MORE];
static volatile unsigned sink;

// ---- a client that holds channels, the i-th to 10.1.0.0 + i, port 9000

enum client_call { TAKE_FRAME, TAKE_INDICATION, SEND_FRAME, SEND_INDICATION };

struct client_row {
    const char *name;
    enum client_call call;
    size_t channels;
    double wanted; // nanoseconds at most
};

enum {
    CLIENT_ROUNDS = 200000,
    CLIENT_RUNS = 7,
    LEAST_CHANNEL = 0x4000,
    CHANNEL_PORT = 9000,
    OTHER_PORT = 9001,
    DATA_INDICATION = 0x0017,
    XOR_PEER_ADDRESS = 0x0012,
    DATA = 0x0013,
    PEER_SIZE = 8,              // of XOR-PEER-ADDRESS of IPv4
    INDICATION_SIZE = HEADER_SIZE + ATTRIBUTE_HEADER_SIZE + PEER_SIZE + ATTRIBUTE_HEADER_SIZE + PAYLOAD,
    COOKIE_HIGH = 0x2112,
    COOKIE_LOW = 0xa442,
    FIRST_PEER_HIGH = 0x0a01,   // 10.1.0.0
    IPV4 = 1,
};

// nanoseconds on model 85, beside one channel and beside 1000
static const double MOST_OF_ONE = 100, MOST_OF_MANY = 2000;

static const struct client_row client_rows[] = {
    {"take a frame of 1200 bytes, 1 channel", TAKE_FRAME, 1, MOST_OF_ONE},
    {"take a frame of 1200 bytes, 100 channels", TAKE_FRAME, 100, NO_BOUND},
    {"take a frame of 1200 bytes, 1000 channels", TAKE_FRAME, 1000, MOST_OF_MANY},
    {"take a DATA indication of 1200 bytes, 1 permission", TAKE_INDICATION, 1, NO_BOUND},
    {"take a DATA indication of 1200 bytes, 1000 permissions", TAKE_INDICATION, 1000, NO_BOUND},
    {"send 1200 bytes by a channel into a buffer, 1 channel", SEND_FRAME, 1, MOST_OF_ONE},
    {"send 1200 bytes by a channel into a buffer, 100 channels", SEND_FRAME, 100, NO_BOUND},
    {"send 1200 bytes by a channel into a buffer, 1000 channels", SEND_FRAME, 1000, MOST_OF_MANY},
    {"send 1200 bytes by an indication into a buffer, 1 channel", SEND_INDICATION, 1, NO_BOUND},
    {"send 1200 bytes by an indication into a buffer, 1000 channels", SEND_INDICATION, 1000, NO_BOUND},
};

// the frame of a channel, or the indication of its peer's data
static size_t make_datagram(const struct client_row *row, uint8_t *at) {
    uint16_t last = (uint16_t)(row->channels - 1);
    if (row->call == TAKE_FRAME) {
        write_short(at, (uint16_t)(LEAST_CHANNEL + last));
        write_short(at + 2, PAYLOAD);
        return ATTRIBUTE_HEADER_SIZE + PAYLOAD;
    }
    write_short(at, DATA_INDICATION);
    write_short(at + 2, INDICATION_SIZE - HEADER_SIZE);
    write_short(at + 4, COOKIE_HIGH);
    write_short(at + 6, COOKIE_LOW);
    uint8_t *peer = at + HEADER_SIZE;
    write_short(peer, XOR_PEER_ADDRESS);
    write_short(peer + 2, PEER_SIZE);
    write_short(peer + 4, IPV4);
    write_short(peer + 6, CHANNEL_PORT ^ COOKIE_HIGH);
    write_short(peer + 8, FIRST_PEER_HIGH ^ COOKIE_HIGH);
    write_short(peer + 10, last ^ COOKIE_LOW);
    uint8_t *data = peer + ATTRIBUTE_HEADER_SIZE + PEER_SIZE;
    write_short(data, DATA);
    write_short(data + 2, PAYLOAD);
    return INDICATION_SIZE;
}

static size_t call_client(const struct client_row *row, size_t rounds) {
    static uint8_t datagram[INDICATION_SIZE];
    if (row->call == TAKE_FRAME || row->call == TAKE_INDICATION) {
        size_t size = make_datagram(row, datagram);
        return stun_bench_take(row->channels, rounds, datagram, size);
    }
    uint16_t port = row->call == SEND_FRAME ? CHANNEL_PORT : OTHER_PORT;
    return stun_bench_send(row->channels, rounds, port, payload, sizeof payload, sent, sizeof sent);
}

// what a call takes and allocates is the difference that so many of them make; answers that of the first row
static double tell_client(void) {
    double start = now(), datagram = 0;
    for (unsigned i = 0; i < CLIENT_ROUNDS; i++) {
        memcpy(sent, payload, PAYLOAD);
        sink += sent[i % PAYLOAD];
    }
    tell("copy 1200 bytes by memcpy, ns", NO_BOUND, (now() - start) / CLIENT_ROUNDS);
    for (size_t i = 0; i < sizeof client_rows / sizeof client_rows[0]; i++) {
        const struct client_row *row = &client_rows[i];
        double least_none = DBL_MAX, least_all = DBL_MAX;
        size_t taken_by_none = 0, taken_by_all = 0;
        for (unsigned run = 0; run < CLIENT_RUNS; run++) {
            size_t before = allocations;
            double begun = now();
            must(call_client(row, 0) == 0, row->name);
            double between = now();
            taken_by_none = allocations - before;
            before = allocations;
            must(call_client(row, CLIENT_ROUNDS) == CLIENT_ROUNDS, row->name);
            double ended = now() - between;
            taken_by_all = allocations - before;
            least_none = between - begun < least_none ? between - begun : least_none;
            least_all = ended < least_all ? ended : least_all;
        }
        double least = (least_all - least_none) / CLIENT_ROUNDS;
        datagram = i ? datagram : least;
        tell(row->name, row->wanted, least);
        tell("  its allocations", 0, (double)(taken_by_all - taken_by_none));
    }
    return datagram;
}

// ---- a client over TCP: frames of a channel, one behind another in a stream

enum {
    STREAM_FRAME = ATTRIBUTE_HEADER_SIZE + PAYLOAD,
    STREAM_FRAMES = 54,         // some 64 kB
    STREAM_ROUNDS = 4000,
    BYTE_FRAMES = 8,            // that come byte by byte, and twice as many
    BYTE_ROUNDS = 40,
};

// a frame in a stream to a datagram; twice as many bytes, one by one, to so many
static const double MOST_OF_STREAM = 2, MOST_OF_TWICE = 2.5;

// what a frame of these takes, in chunks of a size, in nanoseconds, and how many allocations one makes
static double drained(const uint8_t *stream, size_t frames, size_t size, size_t rounds, double *taken) {
    double least_none = DBL_MAX, least_all = DBL_MAX;
    size_t len = frames * STREAM_FRAME, by_none = 0, by_all = 0;
    for (unsigned run = 0; run < CLIENT_RUNS; run++) {
        size_t before = allocations;
        double begun = now();
        must(stun_bench_drain(1, 0, stream, len, size) == 0, "nothing comes in a stream");
        double between = now();
        by_none = allocations - before;
        before = allocations;
        must(stun_bench_drain(1, rounds, stream, len, size) == rounds * frames, "frames of a stream");
        double ended = now() - between;
        by_all = allocations - before;
        least_none = between - begun < least_none ? between - begun : least_none;
        least_all = ended < least_all ? ended : least_all;
    }
    double all = (double)(rounds * frames);
    *taken = (double)(by_all - by_none) / all;
    return (least_all - least_none) / all;
}

static void tell_drained(double datagram) {
    static uint8_t stream[STREAM_FRAMES * STREAM_FRAME];
    for (size_t i = 0; i < STREAM_FRAMES; i++) {
        write_short(stream + i * STREAM_FRAME, LEAST_CHANNEL);
        write_short(stream + i * STREAM_FRAME + 2, PAYLOAD);
    }
    double taken;
    double frame = drained(stream, STREAM_FRAMES, sizeof stream, STREAM_ROUNDS, &taken);
    tell("take a frame of 1200 bytes in a chunk of 54 over TCP, ns", NO_BOUND, frame);
    tell("  its allocations", 1, taken);
    tell("  to a datagram over UDP", MOST_OF_STREAM, frame / datagram);
    double few = drained(stream, BYTE_FRAMES, 1, BYTE_ROUNDS, &taken);
    double many = drained(stream, 2 * BYTE_FRAMES, 1, BYTE_ROUNDS, &taken);
    tell("8 frames byte by byte over TCP, ns a byte", NO_BOUND, few / STREAM_FRAME);
    tell("  16 frames to 8", MOST_OF_TWICE, 2 * many / few);
}

void tell_clients(void) {
    tell_drained(tell_client());
}
