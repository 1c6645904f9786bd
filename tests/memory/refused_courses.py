"""The courses of a client that is refused memory: what its user asks for, and what comes from its server.

Each is walked with ample memory, and once for each of its allocations (`refused_client.py`). What is
requested, the server answers in each turn (`Walk.takes_turn`), and the client renews by itself what it
holds as time passes.
"""

from typing import Callable, NamedTuple

from refused_server import FEATURED, OTHER, SERVER, Server, attempt, data, framed, report
from refused_walk import MS, SECOND, TCP, UDP, pair
from traces_base import ALLOCATE, CHANNEL_BIND, CREATE_PERMISSION, REFRESH
from traces_connection_sockets import CONNECTION_BIND
from traces_connections import CONNECT
from traces_payloads import frame

ONE, TWO, THREE, SIX = "198.51.100.1:9000", "198.51.100.2:9001", "198.51.100.3:9002", "[2001:db8::7]:9003"
MANY = [f"198.51.100.{it}:9000" for it in range(10, 20)]
FIRST, NEXT = "192.0.2.1:5001", "192.0.2.1:5002"
A, B = 0x4000, 0x4001
# more requests than a course has
ALL = 1000


class Course(NamedTuple):
    """What a client is told at its beginning, and the way that it goes."""

    name: str
    way: Callable
    transport: int = UDP
    peers: int = UDP
    families: int = 1
    integrity: int = 1
    server: Callable = Server
    known: tuple = (ONE, TWO, THREE, SIX)


# ---- parts


def allocates(w):
    w.call("open")
    w.runs(0.1)


def permits(w, *peers):
    for peer in peers:
        w.asks("create_permission", w.course.peers, pair(peer)[0])
    w.runs(0.1 * len(peers))


def permits_together(w, *peers):
    """One request for all of them."""
    w.asks("create_permissions", w.course.peers, [pair(peer)[0] for peer in peers])
    w.runs(0.2)


def binds(w, *peers):
    for peer in peers:
        w.asks("bind_channel", w.course.peers, pair(peer))
    w.runs(0.2)


def carries(w):
    """Payloads go to two peers and come from them, by a channel and without, and a report."""
    for peer in (ONE, TWO, THREE):
        w.sends(peer, b"hello")
    w.hears(framed(A, b"in a frame") if w.is_stream else frame(A, b"in a frame"))
    w.hears(data(TWO, b"in an indication"))
    w.hears(data(THREE, b"not permitted"))
    w.hears(report(TWO))


def joins(w):
    """Frames come in pieces, and several in a piece."""
    first, then, last = framed(A, b"first"), data(TWO, b"then"), framed(A, b"the last one")
    w.hears(first[:7])
    w.hears(first[7:] + then + last[:3])
    w.hears(last[3:])
    w.hears(first + then + last)


def ends(w):
    w.asks("delete")
    w.sends(ONE, b"hello")
    w.runs(1)
    w.asks("create_permission", w.course.peers, pair(ONE)[0])


# ---- over UDP and TCP


def whole(w):
    allocates(w)
    permits(w, ONE, TWO)
    binds(w, ONE)
    carries(w)
    w.runs(600)
    carries(w)
    ends(w)


def in_pieces(w):
    w.cut = 33
    allocates(w)
    permits(w, ONE, TWO)
    w.cut = 0
    binds(w, ONE, THREE)
    joins(w)
    w.runs(300)
    joins(w)
    ends(w)


def of_both_families(w):
    allocates(w)
    permits(w, ONE, SIX)
    binds(w, ONE, SIX)
    w.sends(ONE, b"hello")
    w.sends(SIX, b"hello")
    w.hears(frame(B, b"in a frame"))
    w.hears(data(SIX, b"in an indication"))
    w.runs(560)
    ends(w)


def lost_and_stale(w):
    """The first request is lost, then two that are due again at one moment, and the nonce changes."""
    w.server.lost = 1
    allocates(w)
    w.runs(1)
    w.server.lost = 2
    permits(w, ONE, TWO)
    w.now += 2 * SECOND
    w.runs(1)
    w.server.nonce = OTHER
    binds(w, ONE, THREE)
    w.runs(250)
    ends(w)


def taken_late(w):
    """The user asks and hears until the first renewals, and takes no event."""
    w.call("open")
    one, two, three = map(pair, (ONE, TWO, THREE))
    for name, *given in (
        ("poll",), ("poll",), ("create_permission", UDP, one[0]), ("bind_channel", UDP, two),
        ("create_permission", UDP, three[0]), ("poll",),
    ):
        w.answers(w.draws())
        w.now += 60 * MS
        w.asks(name, *given)
    w.now += 240 * SECOND
    w.answers(w.draws())
    w.asks("delete")
    w.runs(1)


def several_at_once(w):
    """One request for several permissions is granted, the next finds another nonce, one is refused by its last peer,
    and one is never answered. Then each is renewed by itself."""
    allocates(w)
    permits_together(w, ONE, TWO)
    w.server.nonce = OTHER
    permits_together(w, *MANY[:4])
    w.server.refused = {(CREATE_PERMISSION, host(MANY[9])): 403}
    permits_together(w, *MANY[4:])
    w.server.lost = ALL
    permits_together(w, THREE, *MANY[4:7])
    w.runs(60)
    w.server.lost = 0
    w.runs(250)
    ends(w)


# ---- what ends


def refused(w):
    """A permission and a channel are refused at once, the others when they are renewed."""
    w.server.refused = {(CREATE_PERMISSION, host(THREE)): 403, (CHANNEL_BIND, THREE): 403}
    allocates(w)
    permits(w, ONE, TWO, THREE)
    binds(w, ONE, THREE)
    w.server.refused |= {(CREATE_PERMISSION, host(it)): 403 for it in (ONE, TWO)}
    w.server.refused[(CHANNEL_BIND, ONE)] = 403
    w.runs(560)
    w.server.refused[(REFRESH, None)] = 403
    w.runs(100)
    ends(w)


def host(peer):
    return peer.rsplit(":", 1)[0] + ":0"


def no_address(w):
    w.server.refused = {(ALLOCATE, None): 486}
    allocates(w)
    w.asks("delete")
    w.runs(1)


def never_answered(w):
    w.server.lost = ALL
    allocates(w)
    w.runs(60)
    w.asks("delete")


def time_passes(w):
    """Nothing is renewed any more: the permissions end, then the channel, and the allocation."""
    allocates(w)
    permits(w, ONE, TWO)
    binds(w, ONE)
    w.server.lost = ALL
    w.runs(700)
    ends(w)


def permissions_pass(w):
    """The user comes back when many permissions are over, which is told at one moment."""
    allocates(w)
    permits(w, *MANY)
    w.server.lost = ALL
    w.now += 400 * SECOND
    w.runs(1)
    ends(w)


def found_over(w):
    """The user comes back late: that the allocation's time is over a call finds."""
    allocates(w)
    permits(w, ONE)
    binds(w, ONE)
    w.now += 700 * SECOND
    w.asks("create_permission", w.course.peers, pair(TWO)[0])
    w.asks("bind_channel", w.course.peers, pair(TWO))
    w.sends(ONE, b"hello")
    w.runs(100)


# ---- connections to peers (RFC 6062)


def connects(w, peer, socket):
    w.sockets.append(socket)
    w.asks("tcp_connect", pair(peer))
    w.runs(0.3)


def connected(w):
    """Connections are asked for: no socket is opened for one, one carries bytes, one is refused, one
    closed."""
    allocates(w)
    permits(w, ONE, TWO)
    connects(w, ONE, None)
    connects(w, ONE, FIRST)
    w.sends(ONE, b"hello")
    w.hears(b"bytes of a peer", pair(FIRST))
    w.server.refused = {(CONNECT, TWO): 447}
    connects(w, TWO, NEXT)
    w.server.refused = {}
    connects(w, TWO, NEXT)
    w.hears(b"more", pair(NEXT))
    w.hears(b"", pair(NEXT))
    w.runs(0.3)
    w.runs(560)
    w.asks("tcp_closed", pair(FIRST), pair(SERVER))
    w.runs(0.3)
    ends(w)


def not_bound(w):
    """One connection is refused over its socket, one never answered there, one goes with the allocation."""
    allocates(w)
    permits(w, ONE, TWO, THREE)
    w.server.refused = {(CONNECTION_BIND, None): 403}
    connects(w, ONE, FIRST)
    w.server.refused = {}
    w.sockets.append(FIRST)
    w.asks("tcp_connect", pair(ONE))
    w.runs(0.06)
    w.server.lost = ALL
    w.runs(50)
    w.server.lost = 0
    connects(w, TWO, NEXT)
    w.server.lost = ALL
    w.runs(700)
    ends(w)


def begun_by_peers(w):
    """Peers begin connections, two of which are bound, and one gets no socket. The server tells one twice,
    and one whose number it doesn't say."""
    allocates(w)
    permits(w, ONE, TWO)
    w.sockets = [FIRST, None, NEXT]
    w.server.behind = b"behind the response"
    w.hears(attempt(1, 12, ONE))
    w.hears(attempt(1, 12, ONE))
    w.runs(0.3)
    w.sends(ONE, b"hello")
    w.hears(attempt(2, 13, TWO) + attempt(3, None, TWO))
    w.runs(0.3)
    w.hears(attempt(4, 15, TWO))
    w.runs(0.3)
    w.hears(b"bytes of a peer", pair(NEXT))
    w.asks("tcp_closed", pair(NEXT), pair(SERVER))
    w.runs(0.3)
    ends(w)


def featured():
    return Server(FEATURED)


OVER_TCP = {"transport": TCP, "peers": TCP}
COURSES = (
    Course("over UDP", whole),
    Course("over TCP", whole, TCP),
    Course("over TCP, in pieces", in_pieces, TCP),
    Course("both families", of_both_families, families=3, integrity=7, server=featured),
    Course("events that are taken late", taken_late),
    Course("requests that are lost, and another nonce", lost_and_stale),
    Course("permissions of several peers at once", several_at_once),
    Course("refused", refused),
    Course("no address", no_address, families=3),
    Course("never answered", never_answered, families=3),
    Course("time passes", time_passes),
    Course("permissions whose time has passed", permissions_pass),
    Course("an allocation whose time has passed", found_over),
    Course("connections", connected, **OVER_TCP),
    Course("connections that are not bound", not_bound, **OVER_TCP),
    Course("connections that peers begin", begun_by_peers, **OVER_TCP),
)
