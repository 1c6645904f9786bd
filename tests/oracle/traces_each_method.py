"""The trace of a desk that rejects a request of each method (`docs/TRACE.md`). `traces.py` puts it behind its own.

What each method needs is by RFC 8656, sections 7.2, 7.3, 10.2 and 12.2, and by RFC 6062, sections 5.2 and 5.4.
"""

from traces_base import (
    ALLOCATE, CHANNEL, CHANNEL_BIND, CREATE_PERMISSION, HASHED, MS, PEER, REFRESH, RELAYED, SHA1, Trace, UDP, challenge,
    code, error, first, message, number, xored,
)
from traces_connection_sockets import CONNECTION_BIND
from traces_connections import CONNECT, named

AT = "10.0.0.1:5"
BAD_REQUEST, SERVER_ERROR = code(400, b"Bad Request"), code(500, b"Server Error")


def peer(k):
    return PEER, xored(AT, number(k))


def channel(_):
    return CHANNEL, b"\x40\0\0\0"


def connection(_):
    return named(7)


# of each method what it needs, and a decision that is none of it
METHODS = (
    (ALLOCATE, [lambda _: UDP], "refresh 600"),
    (REFRESH, [], "grant"),
    (CREATE_PERMISSION, [peer], "connect 7"),
    (CHANNEL_BIND, [channel, peer], f"allocate {RELAYED} 600"),
    (CONNECT, [peer], "grant"),
    (CONNECTION_BIND, [connection], "refresh 600"),
)


class Desk:
    """A desk that is asked by signed requests, each with a number of its own."""

    def __init__(self):
        self.trace, self.asked = Trace("desk realm sha1 auto\nuser user pass\n"), 0
        self.trace.ask(0, first().hex(), "refuse 400", challenge(0))

    def rejects(self, method, needs, decision, reason):
        self.asked += 1
        attributes = [*(it(self.asked) for it in needs), *HASHED]
        request = message(method, number(self.asked), attributes, SHA1)
        self.trace.ask(50 * MS, request.hex(), decision, error(method, self.asked, reason))


def rejected():
    desk = Desk()
    for method, needs, unfit in METHODS:
        desk.rejects(method, needs, "refuse 400", BAD_REQUEST)
        desk.rejects(method, needs, "refuse 500", SERVER_ERROR)
        # another decision than the method's
        desk.rejects(method, needs, unfit, SERVER_ERROR)
        # without each attribute that it needs
        for left_out in needs:
            desk.rejects(method, [it for it in needs if it is not left_out], "grant", BAD_REQUEST)
    return "Each method, rejected with 400 and with 500", desk.trace


def method_traces():
    yield rejected()
