"""Permissions of several addresses that a client requests by one call (RFC 8656, sections 10.1 to 10.3).

Nothing here knows the repository's code. A request names each address once, with port 0, in the order of the first
places. What the server's response says of the request, the events say of each address. All addresses are asked for
again where the server challenges the request.
"""

from rows_wire_base import part, row
from traces_base import (
    ADDITIONAL_FAMILY, ALLOCATE, CREATE_PERMISSION, ERROR, NAMED, PEER, REFUSED, RELAYED, SHA1, SIXTH, STALE, V6, code,
    error, first, grant, message, number, signed_allocate, success, unsigned, xored,
)

MOST_PEERS = 32  # of one call
INVALID = "there is no address, there are too many, or they are of two families"
EXISTS = "The permission already exists and cannot be recreated."
NO_ALLOCATION = "There is no connection to the TURN server that can handle this permission"
V4_1, V4_2, V4_3, V6_1, V6_2 = "10.0.0.1", "10.0.0.2", "10.0.0.3", "::1", "2001:db8::7"
MANY_4 = [f"10.0.1.{k}" for k in range(MOST_PEERS + 1)]
MANY_6 = [f"2001:db8::{k:x}" for k in range(0x10, 0x10 + MOST_PEERS + 1)]


def requested(k, *ips):
    """The kth request: a CREATE_PERMISSION that names these addresses."""
    peers = ((PEER, xored(f"[{it}]:0" if ":" in it else f"{it}:0", number(k))) for it in ips)
    return message(CREATE_PERMISSION, number(k), [*peers, *NAMED], SHA1)


class Steps:
    """The steps of one client, and what is printed of each."""

    def __init__(self):
        self.words, self.answers = [], []

    def does(self, words, *answers):
        self.words += words.split(" ")
        self.answers += answers

    def draws(self, text=b""):
        self.does("draw", text.hex() or "-")

    def takes(self, text):
        self.does(f"take {text.hex()}")

    def asks(self, *ips, answer="ok", transport="udp"):
        self.does(f"ask {transport} {','.join(ips) or '-'}", answer)

    def sees(self, what=None, *ips):
        self.does("events", *(f"{what} {it}" for it in ips))

    def allocates(self):
        """An address of each family is allocated."""
        more = ADDITIONAL_FAMILY, V6
        self.draws(first(more))
        self.takes(unsigned(ALLOCATE | ERROR, 0, REFUSED))
        self.draws(signed_allocate(1, NAMED, more))
        self.takes(grant(1, addresses=(RELAYED, SIXTH)))
        self.does("events", "other", "other")

    def row(self):
        row("permits", *self.words)(*self.answers)


def permits():
    refused()
    granted()
    asked_again()
    for many in (MANY_4, MANY_6):
        as_many_as_may_be(many[:-1])
    part("words that mean no step")
    for words in (("last",), ("take", "x"), ("take", "00"), ("ask", "udp", "x"), ("ask", "sctp", V4_1), ("ask",)):
        row("permits", *words)("bad line")


def refused():
    part("no permissions of several addresses: each refusal, in the order in which they are checked")
    t = Steps()
    for ips in ((), (V4_1, V6_1), (V6_1, V6_2, V4_1), MANY_4, MANY_6):
        t.asks(*ips, answer=INVALID)
    t.asks(V4_1, V4_2, answer=NO_ALLOCATION)
    t.allocates()
    for ips in ((), (V4_1, V6_1), (V6_1, V6_2, V4_1), MANY_4, MANY_6):
        t.asks(*ips, answer=INVALID)
    t.asks(V4_1, V4_2, answer=NO_ALLOCATION, transport="tcp")
    t.draws()
    t.asks(V4_1, V4_2)
    for ips in ((V4_1,), (V4_2, V4_3), (V4_3, V4_1), (V4_3, V4_3, V4_2)):
        t.asks(*ips, answer=EXISTS)
    t.draws(requested(2, V4_1, V4_2))
    t.draws()
    t.takes(success(CREATE_PERMISSION, 2))
    t.asks(V4_3, V4_2, answer=EXISTS)
    t.row()


def granted():
    part("permissions of several addresses are granted, each once, and rejected")
    t = Steps()
    t.allocates()
    t.asks(V4_2, V4_1, V4_2, V4_3, V4_1)
    t.draws(requested(2, V4_2, V4_1, V4_3))
    t.takes(success(CREATE_PERMISSION, 2))
    t.sees("created", V4_2, V4_1, V4_3)
    t.asks(V6_1, V6_2)
    t.draws(requested(3, V6_1, V6_2))
    t.takes(error(CREATE_PERMISSION, 3, code(403)))
    t.sees("failed", V6_1, V6_2)
    t.asks(V6_2)
    t.draws(requested(4, V6_2))
    t.takes(success(CREATE_PERMISSION, 4))
    t.sees("created", V6_2)
    t.sees()
    t.row()


def asked_again():
    part("permissions of several addresses are asked for again behind a challenge")
    t = Steps()
    t.allocates()
    t.asks(V6_2, V6_1)
    t.draws(requested(2, V6_2, V6_1))
    t.takes(unsigned(CREATE_PERMISSION | ERROR, 2, STALE))
    t.sees()
    t.asks(V6_1, answer=EXISTS)
    t.draws(requested(3, V6_2, V6_1))
    t.takes(success(CREATE_PERMISSION, 3))
    t.sees("created", V6_2, V6_1)
    t.row()


def as_many_as_may_be(ips):
    part(f"permissions of {len(ips)} addresses")
    t = Steps()
    t.allocates()
    t.asks(*ips)
    t.draws(requested(2, *ips))
    t.takes(success(CREATE_PERMISSION, 2))
    t.sees("created", *ips)
    t.row()
