"""The traces of connections that are bound (`docs/TRACE.md`): how they are, and bytes of the peers both ways (RFC 6062,
sections 4.3 to 4.6). `traces_unbound_connections.py` has what comes in place of the reply. `traces.py` puts them behind
those of sockets.
"""

import traces_connections as connections
from rows_proto_keys import nonce_of, words
from traces_base import (
    ADDITIONAL_FAMILY, ALLOCATE, CREATE_PERMISSION, DONT_FRAGMENT, ERROR, HASHED, MS, NONCE, REALM, REFRESH, RELAYED,
    SERVER, SHA1, V6, challenge, code, create_permission, error, grant, lifetime, message, number, refresh, success,
    unsigned,
)
from traces_bound_connections_base import FOURTH, LATE, NOW, THEN, Socket, ends, joined, joining, payload, three_joining
from traces_connection_sockets import (
    CONNECTION_BIND, ONE, THREE, TWO, UNTIL, awaiting, bind, closed, closes, draws_from, lists, opens,
)
from traces_connections import AT, NEXT_TO, OVER, THIRD, asks, asks_socket, connect, connected, decided, permitted
from traces_payloads import HI, MOST, data, fingerprinted, not_sent, of, told
from traces_permissions import DUE, LAPSE, NAMED_ANEW, OTHER_NONCE, PEER_3, PEER_6, RELAYED_6
from traces_tcp import by_bytes
from traces_tcp_base import GARBLED, OVER_TCP, Piped, over, padded, spans
from traces_unbound_connections import unbound_traces

# ---- by a desk


def nonce_from(seed):
    """The first nonce that the desk draws from such a seed: it knows hashed names, and SHA-1 alone."""
    return NONCE, nonce_of((False, True), words(seed)).encode()


def under(seed):
    """What a client tells under that nonce."""
    return [*HASHED[:2], nonce_from(seed)]


def with_bytes(line, size, behind, a, b):
    """From one place to another, what a line was answered, of this size, with bytes behind it."""
    parts = [f"@{line}:{a}:{min(b, size)}"] if a < size else []
    if b > size:
        parts.append(behind[max(a - size, 0) : b - size].hex())
    return "+".join(parts)


def comes(s, now, line, text, places, behind=b""):
    """What a line was answered comes over a socket, with bytes behind it, cut at these places. Each piece is followed
    by `recv` until nothing waits: what is given."""
    whole, given = text + behind, []
    for a, b in spans(len(whole), places):
        given += [s.piece(now, whole[a:b], with_bytes(line, len(text), behind, a, b)), *s.t.rest(now)]
    return given


def asks_for_nonce(s, now, drawn, seed, k, places=()):
    """The desk has no such nonce for the address of a socket. Its challenge comes cut at some places, and the client
    makes a request of another number."""
    text = s.challenge(k, [code(438, b"Stale Nonce"), (REALM, b"realm"), nonce_from(seed)])
    comes(s, now, s.t.ask(now, f"@{drawn}", "refuse 400", text, seed, s.here), text, places)


def granted_by_desk(t, places):
    """A socket is opened. The desk challenges the CONNECTION_BIND, and grants the next one: the line of the grant."""
    opens(t, 150 * MS, 7, AT, ONE)
    s = Socket(t, ONE, AT, 4)
    asks_for_nonce(s, NOW, draws_from(t, NOW, ONE, bind(4, 7)), 1, 5, places)
    t.poll(NOW, 250 * MS)
    t.draw(250 * MS - 1, None)
    drawn = draws_from(t, 250 * MS, ONE, bind(5, 7, under(1)))
    return s, t.ask(250 * MS, f"@{drawn}", "grant", success(CONNECTION_BIND, 5), source=ONE)


def worked(t, places=(), others=()):
    """The challenge comes cut at some places, and the grant with bytes behind it at others: whatever the places are,
    the bytes are the same."""
    s, line = granted_by_desk(t, places)
    given = comes(s, 250 * MS, line, success(CONNECTION_BIND, 5), others, HI)
    assert payload(given) == HI, given
    s.connected()
    t.event("none")
    return t


# how many bytes the challenge has, and the grant with what is behind it
CHALLENGE = len(unsigned(CONNECTION_BIND | ERROR, 4, [code(438, b"Stale Nonce"), (REALM, b"realm"), nonce_from(1)]))
WHOLE = len(success(CONNECTION_BIND, 5) + HI)


def challenged_by_desk():
    t = worked(awaiting())
    lists(t, (ONE, AT, 7, "bound"))
    # the request that was challenged has its own end
    t.poll(250 * MS, UNTIL)
    t.poll(UNTIL, UNTIL)
    t.poll(UNTIL, DUE)
    return "The nonce of a CONNECTION_BIND is for another address: it is asked anew, and granted with bytes behind", t


def worked_in_two():
    for at in range(1, WHOLE):
        t = worked(awaiting(), [at], [at])
        yield f"The challenge of a CONNECTION_BIND, and its grant with bytes behind, are cut behind {at} bytes", t


def worked_in_bytes():
    yield "The grant of a connection, with bytes behind it, byte by byte", worked(awaiting(), (), range(1, WHOLE))
    for at in (60, CHALLENGE - 1):
        yield f"The challenge of a CONNECTION_BIND is cut behind {at} bytes", worked(awaiting(), [at])
    yield "The challenge of a CONNECTION_BIND, byte by byte", worked(awaiting(), range(1, CHALLENGE))


class Bytewise(Piped):
    """All that a desk answers comes byte by byte, and behind each byte all that waits is asked for."""

    def comes(self, now, line, text, *_):
        by_bytes(self, now, line, text)


def all_in_bytes():
    t = permitted(Bytewise)
    asks(t, 100 * MS, AT)
    connected(t, 150 * MS, 3, AT, 7)
    asks_socket(t, 150 * MS, 7, AT)
    worked(t, range(1, CHALLENGE), range(1, WHOLE))
    t.sockets[0].pieces(250 * MS, b"o", b"n")
    return "From the first challenge on to bytes of a peer over its connection, all comes byte by byte", t


# ---- once it is bound


def bound():
    t, s = joining()
    lists(t, (ONE, AT, 7))
    not_sent(t, NOW, AT, "NoTcpSocket", transport="tcp")
    s.piece(NOW, success(CONNECTION_BIND, 4))
    t.poll(NOW, NOW)
    s.connected()
    t.event("none")
    lists(t, (ONE, AT, 7, "bound"))
    t.poll(NOW, DUE)
    t.recv(NOW)
    s.piece(NOW, HI)
    asks(t, NOW, AT, "refused AlreadyExists")
    closed(t, NOW, ONE, TWO)
    closed(t, NOW, TWO)
    s.piece(NOW, HI)
    s.is_closed(NOW)
    lists(t)
    s.piece(NOW, HI)
    t.event("none")
    t.poll(NOW, DUE)
    asks(t, NOW, AT)
    return "A connection is bound, and bytes of the peer come; once it is closed, what comes is for nobody", t


def bound_by_a_marked_one():
    t, s = joining()
    reply = success(CONNECTION_BIND, 4)
    bad = fingerprinted(reply, wrong=1)
    t.means[bad] = [GARBLED]
    s.piece(NOW, bad)
    t.event("none")
    s.piece(NOW, bad + fingerprinted(reply) + bad)
    s.connected()
    t.recv(NOW)
    return "A grant with a wrong fingerprint does nothing, and with its own one it binds: bytes stand behind it", t


def bytes_that_wait():
    t, s = joined(b"one ")
    t.poll(NOW, DUE)
    s.piece(NOW, b"two")
    t.recv(NOW)
    s.pieces(NOW, b"three", b"\0", b"\xff" * 70)
    t.recv(NOW)
    return "Bytes wait behind the grant of a connection: they are given with those that come next, and before them", t


def stays_bound():
    t, s = joined()
    t.poll(UNTIL + 1, DUE)
    s.piece(UNTIL + 1, HI)
    lists(t, (ONE, AT, 7, "bound"))
    t.poll(LAPSE, LAPSE)
    t.event(f"PermissionCreateFailed tcp {PEER_3}")
    s.piece(LAPSE, HI)
    not_sent(t, LAPSE, AT, "NoPermission", transport="tcp")
    return "A bound connection has no end in 39.5 seconds, and gives bytes when the permission has lapsed", t


def granted_late():
    t, s = joining()
    late = UNTIL + 10_000 * MS
    s.binds(late, HI)
    t.recv(late)
    t.poll(late, DUE)
    return "A grant comes when the time of a connection is over, before that was seen: it is bound", t


# ---- it goes


def closed_while_bytes_wait():
    t, s = joined(HI)
    s.is_closed(NOW)
    t.recv(NOW)
    s.pieces(NOW, HI, success(CONNECTION_BIND, 4), b"")
    t.event("none")
    t.poll(NOW, DUE)
    return "Bytes wait when the socket of a connection is closed: they are gone", t


def ended_by_the_server():
    t, s = joined(HI)
    s.piece(NOW, b"")
    lists(t)
    t.recv(NOW)
    t.event("none")
    s.pieces(NOW, HI, b"")
    closes(t, NOW, ONE)
    t.poll(NOW, DUE)
    not_sent(t, NOW, AT, "NoTcpSocket", transport="tcp")
    return "The stream of a bound connection ends: what waited is gone, and its socket is to be closed", t


def ended_before_it_is_bound():
    t, s = joining()
    reply = success(CONNECTION_BIND, 4)
    s.pieces(NOW, reply[:30], b"", reply[30:], reply)
    lists(t)
    t.event("none")
    closes(t, NOW, ONE)
    t.poll(NOW, UNTIL)
    t.poll(UNTIL, UNTIL)
    t.poll(UNTIL, DUE)
    return "The stream of a connection ends before it is bound: nothing is told but that it is to be closed", t


def end_before_others():
    t, one, two, three = three_joining()
    two.piece(THEN, unsigned(CONNECTION_BIND | ERROR, 7, [code(400)]))
    three.piece(THEN, b"")
    one.piece(THEN, b"")
    t.event(f"TcpConnectFailed {NEXT_TO}")
    for it in (one, three, two):
        closes(t, THEN, it.here)
    lists(t)
    return "One connection fails, and then the streams of two end: these are to be closed before it, the last first", t


def failures_in_order():
    t, one, two, three = three_joining()
    for it, k in ((three, 8), (one, 6)):
        it.piece(THEN, error(CONNECTION_BIND, k, code(400)))
    two.piece(THEN, success(CONNECTION_BIND, 7))
    for it in (three, one):
        t.event(f"TcpConnectFailed {it.peer}")
    two.connected()
    two.piece(THEN, HI)
    for it in (three, one):
        closes(t, THEN, it.here)
    t.poll(THEN, DUE)
    return "Of three connections the last one fails, and then the first: they are to be closed in that order", t


def others_wait_too_long():
    t, one, two, three = three_joining()
    two.binds(THEN, HI)
    t.poll(THEN, LATE)
    now = LATE + 1
    closes(t, now, ONE)
    t.event(f"TcpConnectFailed {AT}")
    t.event(f"TcpConnectFailed {THIRD}")
    one.goes(now)
    three.goes(now)
    t.recv(now)
    two.piece(now, HI)
    lists(t, (TWO, NEXT_TO, 8, "bound"))
    closes(t, now, THREE)
    t.poll(now, DUE)
    return "Of three connections the first and the last have waited too long at once, and the middle one is bound", t


def again(t, now, k, connection):
    """A connection to the peer is asked for anew, and its socket has the address that the last one had."""
    asks(t, now, AT)
    connected(t, now + 50 * MS, k, AT, connection)
    asks_socket(t, now + 50 * MS, connection, AT)
    opens(t, now + 50 * MS, connection, AT, ONE)
    draws_from(t, now + 100 * MS, ONE, bind(k + 1, connection))
    return Socket(t, ONE, AT, k + 1)


def nothing_kept():
    t, s = joining()
    s.piece(NOW, success(CONNECTION_BIND, 4)[:30])
    s.is_closed(NOW)
    s = again(t, NOW, 5, 8)
    s.binds(300 * MS, HI)
    s.is_closed(300 * MS)
    s = again(t, 300 * MS, 7, 9)
    s.binds(400 * MS)
    t.recv(400 * MS)
    s.piece(400 * MS, b"\x80")
    s.piece(400 * MS, b"")
    closes(t, 400 * MS, ONE)
    again(t, 400 * MS, 9, 10).binds(500 * MS, b"\x80")
    t.recv(500 * MS)
    lists(t, (ONE, AT, 10, "bound"))
    return "A socket has the own address of one that is closed: nothing of what was kept of that one counts", t


# ---- what the bytes are


def bytes_like_frames():
    t, s = joining()
    t.permission(NOW, FOURTH, transport="tcp")
    s.binds(NOW)
    t.draw(250 * MS, create_permission(5, FOURTH))
    reply = success(CREATE_PERMISSION, 5)
    anew = unsigned(CONNECTION_BIND | ERROR, 4, OTHER_NONCE)
    s.pieces(250 * MS, reply, success(CONNECTION_BIND, 4), anew, error(CONNECTION_BIND, 4, code(400)))
    s.pieces(250 * MS, bind(4, 7), reply[:7], padded(0x4000, HI), padded(0x4000, HI)[:5], b"\x80", b"\xff" * 9)
    t.recv(250 * MS)
    t.event("none")
    t.has(FOURTH, "no", "tcp")
    lists(t, (ONE, AT, 7, "bound"))
    t.pieces(250 * MS, t.is_handled_once(reply))
    t.event(f"PermissionCreated tcp {FOURTH}")
    asks(t, 250 * MS, NEXT_TO)
    t.draw(300 * MS, connect(6, NEXT_TO))
    return "Bytes of a peer that look like messages and frames of channels: they are given, and nothing else happens", t


def waiting_like_frames():
    t, s = joining()
    t.permission(NOW, FOURTH, transport="tcp")
    t.draw(250 * MS, create_permission(5, FOURTH))
    s.binds(250 * MS, success(CREATE_PERMISSION, 5) + padded(0x4000, HI) + b"\x80" + success(CONNECTION_BIND, 4)[:9])
    t.recv(250 * MS)
    t.event("none")
    t.has(FOURTH, "no", "tcp")
    t.recv(250 * MS)
    return "The same behind the grant, in one piece: all of it is given at once", t


def bound_twice():
    t, s = joining()
    s.binds(NOW, success(CONNECTION_BIND, 4))
    t.recv(NOW)
    t.event("none")
    lists(t, (ONE, AT, 7, "bound"))
    return "The grant of a connection comes twice in one piece: the second one is bytes of the peer", t


# ---- several connections


def gives_before_control():
    t, one, two, three = three_joining()
    three.binds(THEN, b"c")
    one.binds(THEN, b"a")
    near = f"{PEER_3}:5"
    t.lets(near, transport="tcp")
    whole = told(of(near), data(HI))
    t.pieces(THEN, whole + whole)
    t.rest(THEN)
    t.pieces(THEN, whole + whole, whole)
    three.pieces(THEN, b"cc")
    t.rest(THEN)
    two.binds(THEN, b"b")
    t.pieces(THEN, b"\0")
    t.pieces(THEN, told(of(near), data(HI))[1:])
    t.rest(THEN)
    return "Bytes wait of two connections, and data in the client's own: the first one's come first, and data last", t


def each_its_own():
    t, one, two, three = three_joining()
    for it, behind in ((two, b"b"), (one, b"a"), (three, b"c")):
        it.binds(THEN, behind)
    lists(t, (ONE, AT, 7, "bound"), (TWO, NEXT_TO, 8, "bound"), (THREE, THIRD, 9, "bound"))
    two.piece(THEN, b"b")
    t.rest(THEN)
    for value, it in ((b"1", three), (b"2", one), (b"3", two)):
        it.piece(THEN, value)
        it.sends(THEN, value)
    t.recv(THEN)
    t.poll(THEN, DUE)
    return "Three connections are bound in another order: each gives and sends its own bytes", t


def of_both_families(**how):
    """A client with an allocation over TCP of each family, and a permission in each, granted at 150 ms."""
    t, both = over("tcp", families="4,6", **how), (ADDITIONAL_FAMILY, V6)
    drawn = t.draw(0, message(ALLOCATE, number(0), [lifetime(1800), OVER_TCP, (DONT_FRAGMENT, b""), both]))
    t.comes(0, t.ask(0, f"@{drawn}", "refuse 400", challenge(0)), challenge(0))
    drawn = t.draw(50 * MS, message(ALLOCATE, number(1), [OVER_TCP, lifetime(1800), both, *HASHED], SHA1))
    reply = grant(1, addresses=(RELAYED, RELAYED_6))
    t.comes(50 * MS, t.ask(50 * MS, f"@{drawn}", f"allocate {RELAYED},{RELAYED_6} 600", reply), reply)
    for it in (RELAYED, RELAYED_6):
        t.event(f"AllocationCreated tcp {it}")
    for i, ip in enumerate((PEER_3, PEER_6)):
        t.permission(50 * MS, ip, transport="tcp")
        decided(t, 100 * MS + 50 * MS * i, create_permission(2 + i, ip), "grant", success(CREATE_PERMISSION, 2 + i))
        t.event(f"PermissionCreated tcp {ip}")
    return t


def of_each_family():
    t, sockets, far = of_both_families(), [], f"[{PEER_6}]:9000"
    for i, (peer, here) in enumerate(((far, ONE), (AT, TWO))):
        now = 200 * MS + 100 * MS * i
        asks(t, now - 50 * MS, peer)
        connected(t, now, 4 + 2 * i, peer, 7 + i)
        asks_socket(t, now, 7 + i, peer)
        opens(t, now, 7 + i, peer, here)
        draws_from(t, now + 50 * MS, here, bind(5 + 2 * i, 7 + i))
        sockets.append(Socket(t, here, peer, 5 + 2 * i))
    now = 350 * MS
    for it, behind in zip(sockets, (b"six", b"four")):
        it.binds(now, behind)
    lists(t, (TWO, AT, 8, "bound"), (ONE, far, 7, "bound"))
    # those of the first allocation are given first, though its socket was told last
    t.sockets.reverse()
    t.rest(now)
    for it in sockets:
        it.piece(now, HI)
        it.sends(now, HI)
    return "Bytes wait of a connection in each of two allocations: the first allocation's are given first", t


def without_the_middle(goes):
    """Of three connections two are bound, and bytes of the third one wait. The middle one goes, at the moment that is
    answered."""
    t, one, two, three = three_joining()
    one.binds(THEN)
    two.piece(THEN, success(CONNECTION_BIND, 7)[:20])
    three.binds(THEN, b"c")
    now = goes(two)
    t.event("none")
    two.piece(now, success(CONNECTION_BIND, 7)[20:] + b"b")
    lists(t, (ONE, AT, 7, "bound"), (THREE, THIRD, 9, "bound"))
    one.piece(now, b"a")
    t.rest(now)
    three.piece(now, b"cc")
    one.sends(now, b"to the first")
    not_sent(t, now, NEXT_TO, "NoTcpSocket", transport="tcp")
    three.sends(now, b"to the third")
    asks(t, now, AT, "refused AlreadyExists")
    asks(t, now, THIRD, "refused AlreadyExists")
    asks(t, now, NEXT_TO)
    return t


def middle_fails(s):
    s.piece(THEN, success(CONNECTION_BIND, 7)[20:43] + b"\0")
    s.has_failed(THEN)
    return THEN


def middle_is_closed(s):
    s.is_closed(THEN)
    return THEN


def middle_ends(s):
    s.piece(THEN, b"")
    closes(s.t, THEN, s.here)
    return THEN


def middle_waits_too_long(s):
    s.is_over = True
    s.t.poll(THEN, LATE)
    closes(s.t, LATE, s.here)
    s.t.event(f"TcpConnectFailed {s.peer}")
    return LATE


def middle_goes():
    ways = (
        ("fails", middle_fails), ("is closed", middle_is_closed), ("ends", middle_ends),
        ("has waited too long", middle_waits_too_long),
    )
    for what, goes in ways:
        yield f"Of three connections the middle one {what}: the others give and send on", without_the_middle(goes)


def middle_goes_while_it_is_bound():
    t, one, two, three = three_joining()
    for it, behind in ((one, b"a"), (two, b"b"), (three, b"c")):
        it.binds(THEN, behind)
    two.is_closed(THEN)
    t.rest(THEN)
    one.piece(THEN, b"")
    three.pieces(THEN, b"cc")
    two.pieces(THEN, b"bb")
    closes(t, THEN, ONE)
    lists(t, (THREE, THIRD, 9, "bound"))
    t.poll(THEN, DUE)
    return "Bytes wait of three bound connections, and the middle one is closed: those of the others are given", t


# ---- what goes to peers


def sends():
    t, s = joined()
    line = s.sends(NOW, b"hello")
    s.sends(NOW, b"")
    s.sends(NOW, success(CONNECTION_BIND, 4))
    s.sends(NOW, b"hellohell", f"@{line}+@{line}:0:4")
    for peer, transport, why in (
        (NEXT_TO, "tcp", "NoTcpSocket"), (f"{FOURTH}:9000", "tcp", "NoPermission"), (AT, "udp", "NoPermission"),
    ):
        not_sent(t, NOW, peer, why, transport=transport)
    s.piece(NOW, b"echo")
    s.sends(NOW, b"echo", f"@{t.events}")
    t.say(f"send {2**62 + 1} tcp {AT} 00", "out of range")
    t.draw(NOW, None)
    t.poll(NOW, DUE)
    asks(t, NOW, NEXT_TO)
    t.draw(250 * MS, connect(5, NEXT_TO))
    s.is_closed(250 * MS)
    not_sent(t, 250 * MS, AT, "NoTcpSocket", transport="tcp")
    return "Bytes go to a peer over its connection as they are, and no number is drawn for them", t


def sends_much():
    t, s = joined()
    line = s.sends(NOW, bytes(4096))
    s.sends(NOW, bytes(MOST + 1), "+".join([f"@{line}"] * 15 + [f"@{line}:0:4064", "00"]))
    return "More bytes than a datagram holds go to a peer over its connection", t


# ---- the end of an allocation, and of a client


def allocation_over():
    t, s = joined(HI)
    s.piece(OVER, b"late")
    asks(t, OVER, NEXT_TO, "refused NoAllocation")
    lists(t)
    s.piece(OVER, b"later")
    t.poll(OVER, None)
    s.goes(OVER)
    t.recv(OVER)
    t.event("none")
    not_sent(t, OVER, AT, "NoPermission", transport="tcp")
    return "The allocation of a bound connection is over: bytes are given until that is seen, and none behind", t


def bytes_wait_when_all_is_over():
    t, one, two, three = three_joining()
    one.binds(THEN, b"a")
    three.binds(THEN, b"c")
    t.poll(OVER, None)
    for it in (one, two, three):
        it.goes(OVER)
    t.recv(OVER)
    t.event("none")
    lists(t)
    return "Bytes wait when an allocation is over: none is given, and no socket is told to be closed", t


def deleted():
    t, s = joined(HI)
    t.say(f"delete {NOW}", "ok")
    lists(t)
    t.recv(NOW)
    s.piece(NOW, HI)
    not_sent(t, NOW, AT, "NoPermission", transport="tcp")
    decided(t, 250 * MS, refresh(5, 0, HASHED), "refresh 0", success(REFRESH, 5, lifetime(0)))
    s.goes(250 * MS)
    t.recv(250 * MS)
    t.poll(250 * MS, None)
    return "The end is asked for: a bound connection gives bytes until its allocation has gone", t


def bound_when_it_is_deleted():
    t, s = joining()
    t.say(f"delete {NOW}", "ok")
    s.binds(NOW, HI)
    lists(t)
    t.recv(NOW)
    t.draw(250 * MS, refresh(5, 0, HASHED))
    s.is_closed(250 * MS)
    return "A connection is bound when the end has been asked for: it gives bytes, and isn't shown", t


def client_ended():
    t, one, two, three = three_joining()
    one.binds(THEN, b"a")
    two.piece(THEN, success(CONNECTION_BIND, 7)[:30])
    ends(t)
    t.recv(THEN)
    one.piece(THEN, b"aa")
    one.sends(THEN, b"on")
    two.pieces(THEN, success(CONNECTION_BIND, 7)[30:], success(CONNECTION_BIND, 7))
    three.piece(THEN, padded(0x4000, HI))
    three.pieces(THEN, success(CONNECTION_BIND, 9), three.challenge(9), bind(8, 9), b"\x80", b"more")
    t.event("none")
    t.recv(THEN)
    not_sent(t, THEN, NEXT_TO, "NoTcpSocket", transport="tcp")
    lists(t, (ONE, AT, 7, "bound"), (TWO, NEXT_TO, 8), (THREE, THIRD, 9))
    two.piece(THEN, b"")
    lists(t, (ONE, AT, 7, "bound"), (THREE, THIRD, 9))
    t.poll(THEN, None)
    one.piece(LATE + 1, b"late")
    return "A client has ended: a bound connection gives and sends on, and no other one is bound any more", t


def failed_then_ended():
    t, s = joining()
    s.piece(NOW, bind(4, 7))
    t.say("error", "ok")
    t.event(f"TcpConnectFailed {AT}")
    t.event("AllocationCreateFailed 4")
    t.poll(NOW, None)
    return "A connection fails, and then the client ends: it tells of the socket no more", t


# ---- what isn't of a socket


def from_others():
    t, s = joining()
    reply = success(CONNECTION_BIND, 4)
    for source, to in ((SERVER, TWO), ("10.0.0.2:2001", ONE), ("10.0.0.3:2000", ONE), (SERVER, "192.168.0.2:1001")):
        for what in (reply, b"\x80", b""):
            t.hear(NOW, what, "ignored", source=source, to=to)
    for what in (reply, b""):
        t.hear(2**62 + 1, what, "out of range", to=ONE)
    t.event("none")
    s.binds(NOW)
    for source, to in ((SERVER, TWO), ("10.0.0.2:2001", ONE)):
        for what in (HI, b""):
            t.hear(NOW, what, "ignored", source=source, to=to)
    t.hear(2**62 + 1, HI, "out of range", to=ONE)
    s.piece(NOW, HI)
    t.recv(NOW)
    return "What comes from another host, or to the address of no connection, is none of a connection's", t


# ---- an example


def example():
    """Both sockets of the connections of `connections.example` are opened, and bound by a desk. Bytes go both ways."""
    t = connections.example()
    now = 300 * MS
    opens(t, now, 7, AT, ONE)
    opens(t, now, 8, NEXT_TO, ONE, "refused AlreadyExists")
    opens(t, now, 8, NEXT_TO, TWO)
    lists(t, (ONE, AT, 7), (TWO, NEXT_TO, 8))
    one, two = Socket(t, ONE, AT, 7), Socket(t, TWO, NEXT_TO, 8)
    for i, (it, k) in enumerate(((one, 7), (two, 8))):
        now = 350 * MS + 50 * MS * i
        drawn = draws_from(t, now, it.here, bind(7 + i, k, NAMED_ANEW))
        asks_for_nonce(it, now, drawn, 1 + i, 9 + i)
    for i, (it, k) in enumerate(((one, 7), (two, 8))):
        now = 450 * MS + 50 * MS * i
        drawn = draws_from(t, now, it.here, bind(9 + i, k, under(1 + i)))
        reply = success(CONNECTION_BIND, 9 + i)
        line = t.ask(now, f"@{drawn}", "grant", reply, source=it.here)
        comes(it, now, line, reply, [30], HI)
        it.connected()
    lists(t, (ONE, AT, 7, "bound"), (TWO, NEXT_TO, 8, "bound"))
    one.sends(now, b"hello")
    two.piece(now, b"bye")
    two.sends(now, b"bye", f"@{t.events}")
    one.is_closed(now)
    two.piece(now, b"")
    closes(t, now, TWO)
    one.piece(now, b"late")
    lists(t)
    t.event("none")
    return "Connections to two peers, one of them granted at the third request: both are bound, and closed", t


def bound_traces():
    yield from (
        challenged_by_desk(), *worked_in_two(), *worked_in_bytes(), all_in_bytes(), bound(), bound_by_a_marked_one(),
        bytes_that_wait(), stays_bound(), granted_late(), closed_while_bytes_wait(), ended_by_the_server(),
        ended_before_it_is_bound(), end_before_others(), failures_in_order(), others_wait_too_long(), nothing_kept(),
        bytes_like_frames(), waiting_like_frames(), bound_twice(), gives_before_control(), each_its_own(),
        of_each_family(), *middle_goes(), middle_goes_while_it_is_bound(), sends(), sends_much(), allocation_over(),
        bytes_wait_when_all_is_over(), deleted(), bound_when_it_is_deleted(), client_ended(), failed_then_ended(),
        from_others(), *unbound_traces(), example(),
    )
