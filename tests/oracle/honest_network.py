#!/usr/bin/env python3
"""What `test_honest_network` prints: what each client and desk come to over an honest network, by RFC 8489. They come
together if and only if they have an algorithm in common (section 9.2.5), and the client's name need not be
hidden from a desk that takes no hash of a name (section 9.2.3). Then when a client that a driver's loop calls transmits
what, over a network that takes time (section 6.2), and what it does if a nonce has expired (section 9.2.5)."""

import itertools

from traces_base import block

TRANSPORTS = ("UDP", "TCP")
FAMILIES = ("IPV4", "IPV6")
SUPPORTED = {"OnlySha1": {1}, "OnlySha256": {256}, "Both": {1, 256}, "OnlySha512": {512}, "All": {1, 256, 512}}
EACH = tuple(SUPPORTED)[:3]
SIDES = ("All All", "OnlySha512 All", "OnlySha512 Both")
FEATURES = ("Auto", "Required", "Disabled")
MS, SECOND = 10**6, 10**9  # in nanoseconds
LATENCIES = (0, 1, 20 * MS, 499 * MS, 501 * MS, 3 * SECOND)
# RFC 8489, section 6.2.1: the time after which a request is first transmitted again, which doubles each time, and how
# often it is transmitted
RTO, RC = 500 * MS, 7
# what a client transmits for the first time comes so much later than what it transmitted before
PACE = 50 * MS
# the second chunk of a reply over TCP comes so much later than the first
PAUSE = MS
# RFC 8656, section 8: an allocation is refreshed about a minute before it expires
LIFETIME, EARLY = 600 * SECOND, 60 * SECOND
# so long the application waits before it requests something
BEFORE = SECOND
BY_UDP = ("Refresh", "CreatePermission", "ChannelBind")
BY_TCP = ("Connect", "ConnectionBind")
# so many transaction IDs of a seed are compared
COUNT = 1000


def come_together(row):
    own, others, hides, takes = row[2:]
    is_shown = hides == "Required" and takes == "Disabled"
    come = SUPPORTED[own] & SUPPORTED[others] and not is_shown
    print(f"{' '.join(row)}: {'Allocated' if come else 'CannotAgree'}")


class Client:
    """When a client transmits, each way taking as long, where of each request the first transmission arrives."""

    def __init__(self, transport, latency):
        self.transport, self.latency, self.now, self.last = transport, latency, 0, -PACE
        self.sent = []

    def request(self):
        """Makes a request: when it is transmitted, until its reply has come; of two things at one time that one counts
        first. Over TCP it is transmitted once (section 6.2.2)."""
        first = max(self.now, self.last + PACE)
        arrival = first + 2 * self.latency
        times = [first]
        for i in range(1, RC if self.transport == "UDP" else 1):
            again = first + RTO * (2**i - 1)
            if again < arrival:
                times.append(again)
        self.last = times[-1]
        self.now = arrival + (PAUSE if self.transport == "TCP" else 0)
        self.sent.append(times)

    def shake(self):
        """Sections 9.2.3 to 9.2.5: a request without credentials is challenged, and then there is one with them."""
        self.request()
        self.request()

    def described(self):
        """Each transaction has an ID of its own (section 6.1), and the nonce of the last challenge."""
        sent = (f"sent at {' '.join(map(str, times))}" for times in self.sent)
        return "; other ID true, other nonce true; ".join(sent)


def shake_over(transport, latency, beside=""):
    client = Client(transport, latency)
    client.shake()
    print(f"{transport} latency {latency}{beside}: Allocated; {client.described()}; reported at {client.now}")


def request_stale(transport, kind, expiries):
    """Section 9.2.5: each time that the nonce has expired, the client requests the same again, with the new one."""
    client = Client(transport, 20 * MS)
    client.shake()
    if kind == "Refresh":
        client.now += LIFETIME - EARLY
    else:
        client.now += BEFORE
    if kind in BY_TCP:
        # RFC 8656, section 9: a permission first; RFC 6062, section 4.3: once the CONNECT is granted, the
        # CONNECTION_BIND follows on a connection of its own
        client.request()
        client.now += BEFORE
    if kind == "ConnectionBind":
        client.request()
    client.sent = []
    for _ in range(expiries + 1):
        client.request()
    print(f"{transport} {kind}: held after {expiries} challenges; {client.described()}")


def numbers_differ(count):
    """Whether the first transaction IDs of a seed of zeros differ: each is three words of ChaCha20 (RFC 8439, section
    2.3)."""
    words = [it for i in range(-(-3 * count // 16)) for it in block(i, [0] * 8)]
    return len({tuple(words[at : at + 3]) for at in range(0, 3 * count, 3)}) == count


def main():
    for row in itertools.product(TRANSPORTS, FAMILIES, EACH, EACH, FEATURES, FEATURES):
        come_together(row)
    for transport, sides in itertools.product(TRANSPORTS, SIDES):
        come_together((transport, "IPV4", *sides.split(), "Auto", "Auto"))
    # RFC 8656, sections 10 and 12: a client that has met a desk asks for a permission, or for a channel,
    # and the desk grants it
    for transport in TRANSPORTS:
        print(f"{transport} permission: Held")
        print(f"{transport} channel: Held")
    # sections 11.3 and 12: and over UDP it gives what a peer of that address sends
    print("UDP data: Held")
    # RFC 6062, section 4.3: a connection that is asked for over TCP is bound
    print("TCP connection is bound: true")
    # RFC 8656, sections 8.1 to 8.3: a client that hides its name, and is left alone with its address, asks before that
    # expires, and the desk renews it
    for transport in TRANSPORTS:
        print(f"{transport} renewed: Renewed")
    for transport, latency in itertools.product(TRANSPORTS, LATENCIES):
        shake_over(transport, latency)
    # RFC 8489, section 6.3.4, and RFC 8656, section 7.3: what isn't the server's reply to the request changes nothing
    for latency in LATENCIES:
        shake_over("UDP", latency, " beside forged datagrams")
    for kind, transport, expiries in itertools.product(BY_UDP, TRANSPORTS, (1, 2)):
        request_stale(transport, kind, expiries)
    for kind, expiries in itertools.product(BY_TCP, (1, 2)):
        request_stale("TCP", kind, expiries)
    print(f"the first {COUNT} transaction IDs of a seed differ: {str(numbers_differ(COUNT)).lower()}")


if __name__ == "__main__":
    main()
