"""The traces of sockets for connections to peers (`docs/TRACE.md`): what is asked over them, until when, and what
becomes of them (RFC 6062, sections 4.3 and 4.6). No connection is bound here: what comes over the sockets is in
`traces_bound_connections.py`. `traces.py` puts them behind those of connections.
"""

from traces_base import (
    CLIENT, CREATE_PERMISSION, ERROR, HASHED, MS, SECOND, SERVER, SHA1, Trace, create_permission, message, number,
    setup, success, unsigned,
)
from traces_connections import AT, NEXT_TO, OVER, THIRD, asking, asks, asks_socket, connect, connected, named
from traces_permissions import DUE, NAMED_ANEW, OTHER_NONCE
from traces_tcp_base import LONGEST, over

CONNECTION_BIND = 0x00B
ONE, TWO, THREE = (f"192.168.0.1:{port}" for port in (1001, 1002, 1003))
# the first CONNECTION_BIND is asked for at 150 ms, and so long it may be answered
UNTIL = LONGEST + 150 * MS


def bind(k, connection, credentials=HASHED):
    return message(CONNECTION_BIND, number(k), [named(connection), *credentials], SHA1)


def opens(t, now, connection, peer, local, answer="ok"):
    return t.say(f"socket {now} {connection} {peer} {local}", answer)


def draws_from(t, now, local, text):
    return t.say(f"draw {now}", f"transmit {local} {SERVER} {text.hex()}")


def closes(t, now, local):
    return t.say(f"poll {now}", f"close {local} {SERVER}")


def closed(t, now, local, server=SERVER):
    return t.say(f"closed {now} {local} {server}", "ok")


def lists(t, *rows):
    """The client shows these connections, each by its own address, its peer and its number, and `bound` where it isn't
    waiting."""
    shown = (f"{here} {peer} {k} {how[0] if how else 'waiting'}" for here, peer, k, *how in rows)
    return t.say("connections", " ".join(["connections", *shown]))


def awaiting():
    """The socket of one connection is asked for at 150 ms, with the fourth number next."""
    t = asking(AT)
    connected(t, 150 * MS, 3, AT, 7)
    asks_socket(t, 150 * MS, 7, AT)
    return t


def opened():
    """It is opened, and it is asked over it that the connection be bound."""
    t = awaiting()
    opens(t, 150 * MS, 7, AT, ONE)
    draws_from(t, 200 * MS, ONE, bind(4, 7))
    return t


def all_three(now):
    """Three connections are granted at a moment, and their sockets are opened, in their order."""
    peers = (AT, NEXT_TO, THIRD)
    t = asking(*peers)
    for i, peer in enumerate(peers):
        connected(t, now - 50 * MS * (2 - i), 3 + i, peer, 7 + i)
    for i, (peer, here) in enumerate(zip(peers, (ONE, TWO, THREE))):
        asks_socket(t, now, 7 + i, peer)
        opens(t, now, 7 + i, peer, here)
    return t


def never_answered():
    t = awaiting()
    lists(t)
    opens(t, 150 * MS, 7, AT, ONE)
    lists(t, (ONE, AT, 7))
    asks(t, 150 * MS, AT, "refused AlreadyExists")
    t.poll(150 * MS, 200 * MS)
    t.draw(200 * MS - 1, None)
    draws_from(t, 200 * MS, ONE, bind(4, 7))
    t.draw(250 * MS, None)
    t.say(f"send {250 * MS} tcp {AT} 00", "refused NoTcpSocket")
    t.poll(250 * MS, UNTIL)
    t.poll(UNTIL - 1, UNTIL)
    lists(t, (ONE, AT, 7))
    closes(t, UNTIL, ONE)
    lists(t)
    t.event(f"TcpConnectFailed {AT}")
    t.event("none")
    t.poll(UNTIL, DUE)
    asks(t, UNTIL, AT)
    connected(t, UNTIL, 5, AT, 9)
    asks_socket(t, UNTIL, 9, AT)
    opens(t, UNTIL, 9, AT, ONE)
    lists(t, (ONE, AT, 9))
    return "A connection is never bound: when its time is over it fails, and its socket is to be closed, once", t


def not_asked_yet():
    t = asking(AT)
    connected(t, 150 * MS, 3, AT, 7)
    opens(t, 150 * MS, 7, AT, ONE)
    t.poll(150 * MS, 200 * MS)
    draws_from(t, 200 * MS, ONE, bind(4, 7))
    return "A socket is told before it is asked for: it is taken, and never asked for", t


def without():
    t = awaiting()
    opens(t, 150 * MS, 7, AT, "none")
    opens(t, 150 * MS, 7, AT, ONE, "refused NoAllocation")
    lists(t)
    t.poll(150 * MS, DUE)
    t.draw(200 * MS, None)
    t.event("none")
    asks(t, 200 * MS, AT)
    connected(t, 250 * MS, 4, AT, 8)
    asks_socket(t, 250 * MS, 8, AT)
    return "No socket was opened: the connection is forgotten without an event, and can be asked for anew", t


def refused_in_order():
    t = over("tcp")
    opens(t, 0, 7, AT, ONE, "refused NoAllocation")
    opens(t, 0, 7, AT, "none", "refused NoAllocation")
    closed(t, 0, ONE)
    lists(t)
    yield "No socket is taken before the server has allocated", t
    t = Trace(setup())
    t.held()
    opens(t, 50 * MS, 7, AT, ONE, "refused NoAllocation")
    closed(t, 50 * MS, ONE)
    closed(t, 50 * MS, CLIENT)
    lists(t)
    t.poll(50 * MS, 540 * SECOND + 50 * MS)
    yield "No socket is taken by a client over UDP", t
    t = awaiting()
    opens(t, 150 * MS, 8, AT, ONE, "refused NoAllocation")
    opens(t, 150 * MS, 7, NEXT_TO, ONE, "refused NoAllocation")
    opens(t, 150 * MS, 8, AT, "none", "refused NoAllocation")
    opens(t, 2**62 + 1, 7, AT, ONE, "out of range")
    t.say(f"closed {2**62 + 1} {ONE} {SERVER}", "out of range")
    opens(t, 150 * MS, 7, AT, ONE)
    opens(t, 150 * MS, 7, AT, ONE, "refused NoAllocation")
    opens(t, 150 * MS, 7, AT, TWO, "refused NoAllocation")
    lists(t, (ONE, AT, 7))
    draws_from(t, 200 * MS, ONE, bind(4, 7))
    t.draw(250 * MS, None)
    yield "A socket of another number or to another peer is refused, and so is a second one", t
    t = asking(AT, NEXT_TO)
    connected(t, 150 * MS, 3, AT, 7)
    asks_socket(t, 150 * MS, 7, AT)
    opens(t, 150 * MS, 7, AT, ONE)
    connected(t, 200 * MS, 4, NEXT_TO, 8)
    asks_socket(t, 200 * MS, 8, NEXT_TO)
    opens(t, 200 * MS, 8, NEXT_TO, ONE, "refused AlreadyExists")
    lists(t, (ONE, AT, 7))
    opens(t, 200 * MS, 8, NEXT_TO, TWO)
    lists(t, (ONE, AT, 7), (TWO, NEXT_TO, 8))
    draws_from(t, 250 * MS, ONE, bind(5, 7))
    draws_from(t, 300 * MS, TWO, bind(6, 8))
    yield "A socket with the address of another connection is refused, and with one of its own it is taken", t
    t = awaiting()
    t.say("error", "ok")
    opens(t, 150 * MS, 7, AT, ONE, "refused NoAllocation")
    opens(t, 150 * MS, 7, AT, "none", "refused NoAllocation")
    yield "No socket is taken by a client that has ended", t


def late():
    t = awaiting()
    asks(t, OVER, NEXT_TO, "refused NoAllocation")
    opens(t, OVER, 7, AT, ONE)
    lists(t)
    draws_from(t, OVER, ONE, bind(4, 7))
    t.poll(OVER, None)
    t.draw(OVER + 50 * MS, None)
    return "A socket is told when the allocation's time is over: it is taken, and goes with the allocation", t


def closed_by_user():
    t = opened()
    closed(t, 200 * MS, TWO)
    closed(t, 200 * MS, ONE, TWO)
    closed(t, 200 * MS, CLIENT)
    lists(t, (ONE, AT, 7))
    t.poll(200 * MS, UNTIL)
    closed(t, 200 * MS, ONE)
    lists(t)
    t.event("none")
    closes(t, 200 * MS, ONE)
    t.poll(200 * MS, UNTIL)
    closed(t, 200 * MS, ONE)
    t.poll(200 * MS, UNTIL)
    asks(t, 200 * MS, AT)
    connected(t, 250 * MS, 5, AT, 7)
    asks_socket(t, 250 * MS, 7, AT)
    t.poll(UNTIL, UNTIL)
    t.event("none")
    t.poll(UNTIL, DUE)
    return "The socket of a connection was closed: it goes without an event, and what was asked over it ends later", t


def middle_closed():
    now = 250 * MS
    t = all_three(now)
    lists(t, (ONE, AT, 7), (TWO, NEXT_TO, 8), (THREE, THIRD, 9))
    closed(t, now, TWO)
    lists(t, (ONE, AT, 7), (THREE, THIRD, 9))
    closes(t, now, TWO)
    t.poll(now, 300 * MS)
    for i, (here, k) in enumerate(((ONE, 7), (TWO, 8), (THREE, 9))):
        draws_from(t, 300 * MS + 50 * MS * i, here, bind(6 + i, k))
    for peer in (AT, THIRD):
        asks(t, 400 * MS, peer, "refused AlreadyExists")
    asks(t, 400 * MS, NEXT_TO)
    return "Of three connections the middle one is closed: the others stay, and what was made for it still goes out", t


def closed_first():
    now = 250 * MS
    t = all_three(now)
    closed(t, now, THREE)
    closed(t, now, ONE)
    closes(t, now, ONE)
    closes(t, now, THREE)
    until = LONGEST + now
    t.poll(now, 300 * MS)
    for i, (here, k) in enumerate(((ONE, 7), (TWO, 8), (THREE, 9))):
        draws_from(t, 300 * MS + 50 * MS * i, here, bind(6 + i, k))
    closes(t, until + 1, TWO)
    t.event(f"TcpConnectFailed {NEXT_TO}")
    t.poll(until + 1, until + 1)
    t.poll(until + 1, until + 1)
    t.poll(until + 1, DUE)
    return "Sockets that the user closed are told the last one first, and before one whose connection failed", t


def over_control():
    t = opened()
    t.pieces(200 * MS, success(CONNECTION_BIND, 4))
    t.poll(200 * MS, UNTIL)
    t.poll(UNTIL, UNTIL)
    lists(t, (ONE, AT, 7))
    closes(t, UNTIL + 1, ONE)
    t.event(f"TcpConnectFailed {AT}")
    t.poll(UNTIL + 1, DUE)
    return "The grant comes over the client's own connection: it binds nothing, and the request has ended", t


def challenged_over_control():
    t = opened()
    t.pieces(200 * MS, unsigned(CONNECTION_BIND | ERROR, 4, OTHER_NONCE))
    t.poll(200 * MS, UNTIL)
    asks(t, 200 * MS, NEXT_TO)
    t.draw(250 * MS, connect(5, NEXT_TO, NAMED_ANEW))
    closes(t, UNTIL, ONE)
    t.event(f"TcpConnectFailed {AT}")
    return "A challenge of it comes over the client's own connection: it isn't sent again, and the nonce counts", t


def in_place_of_control():
    t = awaiting()
    piece = success(CREATE_PERMISSION, 9)
    t.hear(150 * MS, piece[:10])
    opens(t, 150 * MS, 7, AT, CLIENT)
    lists(t, (CLIENT, AT, 7))
    t.hear(150 * MS, piece[10:])
    t.say(f"recv {150 * MS}", "none")
    draws_from(t, 200 * MS, CLIENT, bind(4, 7))
    closes(t, UNTIL, CLIENT)
    t.event(f"TcpConnectFailed {AT}")
    t.hear(UNTIL, piece, "ignored")
    t.poll(UNTIL, DUE)
    return "A socket has the address of the client's own connection: what comes to it is no longer that one's", t


def closed_then_ended():
    t = opened()
    closed(t, 200 * MS, ONE)
    t.say("error", "ok")
    t.poll(200 * MS, 200 * MS)
    t.event("AllocationCreateFailed 4")
    t.poll(200 * MS, None)
    t.poll(200 * MS, None)
    return "A client ends while a socket is to be closed: it tells of it no more", t


def closed_behind_events():
    t = opened()
    t.permission(200 * MS, "10.0.0.4", transport="tcp")
    closed(t, 200 * MS, ONE)
    drawn = t.draw(250 * MS, create_permission(5, "10.0.0.4"))
    reply = success(CREATE_PERMISSION, 5)
    t.comes(250 * MS, t.ask(250 * MS, f"@{drawn}", "grant", reply), reply)
    t.poll(250 * MS, 250 * MS)
    t.event("PermissionCreated tcp 10.0.0.4")
    closes(t, 250 * MS, ONE)
    return "A socket is to be closed: that is told behind the events that wait", t


def deleted():
    t = opened()
    t.say(f"delete {200 * MS}", "ok")
    lists(t)
    closed(t, 200 * MS, TWO)
    t.poll(200 * MS, 250 * MS)
    closed(t, 200 * MS, ONE)
    closes(t, 200 * MS, ONE)
    return "The end is asked for: no connection is shown, and one that is closed goes as before", t


def ends_with_allocation():
    t = awaiting()
    late = OVER - 1
    opens(t, late, 7, AT, ONE)
    draws_from(t, late, ONE, bind(4, 7))
    t.poll(OVER, None)
    lists(t)
    return "An allocation's time is over while a connection is to be bound: it goes without an event", t


def socket_traces():
    yield from (
        never_answered(), not_asked_yet(), without(), *refused_in_order(), late(), closed_by_user(), middle_closed(),
        closed_first(), over_control(), challenged_over_control(), in_place_of_control(), closed_then_ended(),
        closed_behind_events(), deleted(), ends_with_allocation(),
    )
