"""What a desk granted in a trace, and what of it has come to the client: read from the bytes of its answers alone.

A grant is a signed success of the desk, under the number of a request that the client has sent. It has come where its
bytes up to the signature have come to the address from which that request went, whole and in order; the two bytes of
the header that tell a length may be others, for a signature tells its own (RFC 8489, section 14.5).
"""

from hostile_messages import INDICATION, SUCCESS, REQUEST, address_in, header, host_of, is_signed, number_in, read
from traces_base import (
    ALLOCATE, CHANNEL, CHANNEL_BIND, CREATE_PERMISSION, MAGIC, MAPPED, PEER, RELAYED_KIND, TRANSPORT,
)

CONNECT, CONNECTION_BIND, CONNECTION_ATTEMPT, CONNECTION_ID = 0x00A, 0x00B, 0x00C, 0x2A
TRANSPORTS = {17: "udp", 6: "tcp"}
COOKIE = MAGIC.to_bytes(4, "big")


class Grant:
    """A success of the desk to a request of the client, and what it grants: pairs of a kind and what is held."""

    def __init__(self, request, source, reply, transport):
        at = reply.integrity()[0]
        self.head, self.rest, self.number = reply.data[:2], reply.data[4:at], reply.number
        self.to = source
        self.holds = list(held_by(request, source, reply, transport))

    def stands_in(self, data, start=0):
        """Whether it stands in some bytes, from a place on."""
        at = data.find(self.rest, max(start, 4))
        while at >= 0:
            if data[at - 4 : at - 2] == self.head:
                return True
            at = data.find(self.rest, at + 1)
        return False


def held_by(request, source, reply, transport):
    """What a client may hold once a request is granted (RFC 8656, sections 7.3, 10 and 12; RFC 6062, section 4.3)."""
    method, number = request.method, request.number
    if method == ALLOCATE:
        asked = request.first(TRANSPORT)
        told = TRANSPORTS.get(asked[0]) if asked else None
        for value in reply.all(RELAYED_KIND):
            yield "relayed", (told, address_in(value, reply.number))
        yield "mapped", address_in(reply.first(MAPPED), reply.number)
    if method in (CREATE_PERMISSION, CHANNEL_BIND):
        for value in request.all(PEER):
            yield "permission", (transport, host_of(address_in(value, number)))
    if method == CHANNEL_BIND:
        channel = number_in(request.first(CHANNEL), 2)
        yield "channel", (channel, address_in(request.first(PEER), number))
    if method == CONNECT:
        yield "connect", (number_in(reply.first(CONNECTION_ID)), address_in(request.first(PEER), number))
    if method == CONNECTION_BIND:
        yield "bind", (source, number_in(request.first(CONNECTION_ID)))


class Grants:
    """All grants of a trace: those on their way, and of what has come the numbers of the requests, by kind and what is
    held. `came` has what came from the server's address, by the address that it came to: over TCP as one text."""

    def __init__(self, user, is_stream):
        self.user, self.is_stream = user, is_stream
        self.pending, self.numbers, self.came = [], {}, {}

    def add(self, grant):
        self.pending.append(grant)

    def hear(self, to, data):
        """Bytes come from the server's address."""
        known = self.came.setdefault(to, b"")
        behind = len(known) if self.is_stream else 0
        self.came[to] = known + data if self.is_stream else data
        left = []
        for it in self.pending:
            start = max(0, behind - len(it.rest) - 4) if self.is_stream else 0
            if it.to == to and it.stands_in(self.came[to], start):
                for held in it.holds:
                    self.numbers.setdefault(held, set()).add(it.number)
            else:
                left.append(it)
        self.pending = left
        if COOKIE in data or self.is_stream:
            self.look_for_attempts(self.came[to], max(0, behind - 2000))

    def look_for_attempts(self, data, start):
        """A CONNECTION_ATTEMPT that the user's key signs tells of a connection (RFC 6062, section 4.4)."""
        kind = CONNECTION_ATTEMPT.to_bytes(2, "big")
        at = data.find(kind, start)
        while at >= 0:
            front = header(data[at : at + 20])
            message = read(data[at : at + 20 + front[1]]) if front else None
            if message and message.form == REQUEST and is_signed(message, *self.user):
                peer = address_in(message.first(PEER), message.number)
                held = "connect", (number_in(message.first(CONNECTION_ID)), peer)
                self.numbers.setdefault(held, set()).add(message.number)
                self.numbers.setdefault(("attempt", message.number), set()).add(message.number)
            at = data.find(kind, at + 1)

    def has(self, kind, what):
        return (kind, what) in self.numbers

    def count(self, kind, what):
        """By how many requests it was granted."""
        return len(self.numbers.get((kind, what), ()))

    def all(self, kind):
        return [what for it, what in self.numbers if it == kind]

    def is_bound(self, local, peer, number):
        return self.has("bind", (local, number)) and self.has("connect", (number, peer))

    def names(self, transport, peer):
        """Whether something that was granted lets a peer's bytes through."""
        if self.has("permission", (transport, host_of(peer))):
            return True
        numbers = {number for number, it in self.all("connect") if it == peer}
        return transport == "tcp" and any(number in numbers for _, number in self.all("bind"))


def payload_in(data):
    """Of a datagram: the number of a channel or the peer that it names, and its bytes; else None."""
    if len(data) >= 4 and 0x40 <= data[0] < 0x80:
        size = int.from_bytes(data[2:4], "big")
        whole = data[4 : 4 + size] if len(data) >= 4 + size else None
        return None if whole is None else (int.from_bytes(data[:2], "big"), whole)
    message = read(data)
    if message is None or message.form != INDICATION or message.method != 7:
        return None
    return address_in(message.first(PEER), message.number), message.first(0x13)


def is_success(reply):
    return reply is not None and reply.form == SUCCESS
