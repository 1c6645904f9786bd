"""The server of the courses in which a client is refused memory, and how messages are read and shown there.

It has one user, and answers each request by RFC 8489, RFC 8656 and RFC 6062, whatever number that has.
Messages are read by `hostile_messages.py`, and written and signed by `traces_base.py`.
"""

import struct
from functools import lru_cache

from hostile_messages import FINGERPRINT, REQUEST, address_in, is_named, is_signed, read
from traces_attempts import CONNECTION_ATTEMPT
from traces_base import (
    ADDITIONAL_FAMILY, ALLOCATE, CHANNEL_BIND, CREATE_PERMISSION, ERROR, FAMILY, LIFETIME, MAPPED, NONCE,
    PASSWORD_ALGORITHMS, PEER, REALM, REFRESH, RELAYED_KIND, SHA1, SHA256, SHA512, SUCCESS, code, lifetime, message,
    xored,
)
from traces_connection_sockets import CONNECTION_BIND
from traces_connections import CONNECT, CONNECTION_ID
from traces_payloads import DATA, ICMP, TOLD, frame

USER, DOMAIN, SECRET = "user", "realm", "pass"
OWN, SERVER = "192.0.2.1:5000", "192.0.2.2:3478"
RELAYED, RELAYED_6 = "203.0.113.5:50000", "[2001:db8::5]:50001"
ORDINARY, OTHER, FEATURED = b"nonce", b"another nonce", b"obMatJos2wAAA and more"
ALL_ALGORITHMS = PASSWORD_ALGORITHMS, b"\0\1\0\0\0\2\0\0\xff\x12\0\0"
SECONDS = 600
REASONS = {
    401: b"Unauthorized", 403: b"Forbidden", 438: b"Stale Nonce", 447: b"Connection Timeout or Failure",
    486: b"Allocation Quota Reached",
}
ADDRESSES = (PEER, RELAYED_KIND, MAPPED)
# how a response is signed, by the integrity attribute of its request
SIGNATURES = {it[0]: it for it in (SHA1, SHA256, SHA512)}
IS_SERVED = (ALLOCATE, REFRESH, CREATE_PERMISSION, CHANNEL_BIND, CONNECT, CONNECTION_BIND)


# ---- what is shown of messages


@lru_cache(maxsize=None)
def shown(data):
    """A message as it is but for its number: addresses in clear, and in place of the signature whether it
    is right. Other bytes in hex."""
    found = read(data)
    if found is None:
        return data.hex()
    values = (f"{kind:04x}={shown_value(found, kind, value)}" for _, kind, value in found.shown)
    return " ".join((data[:2].hex(), *values))


def shown_value(found, kind, value):
    if kind in ADDRESSES:
        return address_in(value, found.number) or value.hex()
    if kind in SIGNATURES:
        return "right" if is_signed(found, USER, DOMAIN, SECRET, kind) else "wrong"
    return "right" if kind == FINGERPRINT else value.hex()


# ---- what the server says by itself


def told(number, peer, *attributes):
    """A DATA indication of a peer, with the server's own number."""
    own = bytes([number]) * 12
    return message(TOLD, own, [(PEER, xored(peer, own)), *attributes])


def data(peer, value):
    return told(0xA1, peer, (DATA, value))


def report(peer):
    """That a port of the peer can't be reached."""
    return told(0xA2, peer, (ICMP, bytes((0, 0, 3, 3, 0, 0, 0, 5))))


def framed(channel, value):
    """A channel's frame as it goes over TCP."""
    return frame(channel, value, bytes(-len(value) % 4))


def attempt(number, connection, peer):
    """That a peer began a connection (RFC 6062, section 4.4), whose number is told where there is one."""
    own = bytes([number]) * 12
    named = [] if connection is None else [(CONNECTION_ID, struct.pack(">I", connection))]
    return message(CONNECTION_ATTEMPT, own, [*named, (PEER, xored(peer, own))], SHA1)


# ---- what it answers


class Server:
    """`nonce` is the one that stands. The next `lost` requests are not answered. What is `refused`, by its
    method and its peer or None, is answered by that code. `given` is the number of the next connection, and
    `behind` stands behind the response that binds one."""

    def __init__(self, nonce=ORDINARY):
        self.nonce, self.lost, self.refused, self.given, self.behind = nonce, 0, {}, 7, b""

    def answer(self, text):
        """The response, where these bytes are a request that is not lost."""
        asked = read(text)
        if asked is None or asked.form != REQUEST or asked.method not in IS_SERVED:
            return None
        if self.lost > 0:
            self.lost -= 1
            return None
        signature = asked.integrity()
        if signature is None:
            return self.challenge(asked, 401)
        if not is_named(asked, USER, DOMAIN) or not is_signed(asked, USER, DOMAIN, SECRET):
            return self.challenge(asked, 401)
        if asked.last(NONCE) != self.nonce:
            return self.challenge(asked, 438)
        return self.judged(asked, SIGNATURES[signature[1]])

    def challenge(self, asked, reason):
        lists = [ALL_ALGORITHMS] if self.nonce == FEATURED else []
        why = [code(reason, REASONS[reason]), (REALM, DOMAIN.encode()), (NONCE, self.nonce), *lists]
        return message(asked.method | ERROR, asked.number, why)

    def judged(self, asked, by):
        """The response to a request that is signed rightly."""
        reason = self.refused.get((asked.method, address_in(asked.last(PEER), asked.number)))
        if reason:
            return message(asked.method | ERROR, asked.number, [code(reason, REASONS[reason])], by)
        response = message(asked.method | SUCCESS, asked.number, self.granted(asked), by)
        return response + self.behind if asked.method == CONNECTION_BIND else response

    def granted(self, asked):
        if asked.method == ALLOCATE:
            relayed = [(RELAYED_KIND, xored(it, asked.number)) for it in self.relayed(asked)]
            return [*relayed, lifetime(SECONDS), (MAPPED, xored(OWN, asked.number))]
        if asked.method == REFRESH:
            return [lifetime(0 if asked.last(LIFETIME) == bytes(4) else SECONDS)]
        if asked.method == CONNECT:
            self.given += 1
            return [(CONNECTION_ID, struct.pack(">I", self.given - 1))]
        return []

    def relayed(self, asked):
        """The addresses of the families that are asked for."""
        if asked.last(ADDITIONAL_FAMILY):
            return [RELAYED, RELAYED_6]
        return [RELAYED_6] if (asked.last(FAMILY) or b"\1")[0] == 2 else [RELAYED]
