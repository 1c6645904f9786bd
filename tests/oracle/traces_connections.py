"""The traces of connections to peers, as far as a client asks for them (`docs/TRACE.md`): CONNECT, what answers it,
and the sockets that are asked for (RFC 6062, section 4.3). `traces.py` puts them behind those of a client over TCP.
"""

import struct

from traces_base import (
    CLIENT, ERROR, HASHED, MS, PEER, SECOND, SERVER, SHA1, code, create_permission, error, lifetime,
    message, number, refresh, success, unsigned, xored, CREATE_PERMISSION, REFRESH,
)
from traces_permissions import DUE, NAMED_ANEW, OTHER_NONCE, PEER_3, PEER_6
from traces_tcp import of_tcp
from traces_tcp_base import LONGEST, Piped, over

CONNECT, CONNECTION_ID = 0x00A, 0x2A
AT, NEXT_TO, THIRD = f"{PEER_3}:9000", f"{PEER_3}:9001", f"{PEER_3}:9002"
# when an allocation ends that was granted at 50 ms for 600 seconds
OVER = 600 * SECOND + 50 * MS


def connect(k, peer, credentials=HASHED):
    return message(CONNECT, number(k), [(PEER, xored(peer, number(k))), *credentials], SHA1)


def named(connection):
    return CONNECTION_ID, struct.pack(">I", connection)


def asks(t, now, peer, answer="ok"):
    return t.say(f"connect {now} {peer}", answer)


def asks_socket(t, now, connection, peer):
    return t.say(f"poll {now}", f"socket {connection} {CLIENT} {SERVER} {peer}")


def decided(t, now, request, decision, reply):
    """What was asked for is drawn and decided, and the client is told."""
    drawn = t.draw(now, request)
    t.comes(now, t.ask(now, f"@{drawn}", decision, reply), reply)


def unreached(t, now, k, peer):
    """The desk doesn't reach the peer."""
    decided(t, now, connect(k, peer), "refuse 447", error(CONNECT, k, code(447, b"Connection Timeout or Failure")))


def permitted(kind=Piped, **how):
    """A client with an allocation over TCP and a permission for a peer, granted at 100 ms."""
    t = of_tcp(kind=kind, **how)
    t.permission(50 * MS, PEER_3, transport="tcp")
    decided(t, 100 * MS, create_permission(2, PEER_3), "grant", success(CREATE_PERMISSION, 2))
    t.event(f"PermissionCreated tcp {PEER_3}")
    return t


def asking(*peers, **how):
    """It asks for a connection to each of these peers."""
    t = permitted(**how)
    for peer in peers:
        asks(t, 100 * MS, peer)
    return t


def sent():
    """It asks for one to a peer, and its CONNECT is under way, with the third number."""
    t = asking(AT)
    t.draw(150 * MS, connect(3, AT))
    return t


def connected(t, now, k, peer, connection):
    decided(t, now, connect(k, peer), f"connect {connection}", success(CONNECT, k, named(connection)))


def granted():
    t = asking(AT)
    t.poll(100 * MS, 150 * MS)
    t.draw(150 * MS - 1, None)
    connected(t, 150 * MS, 3, AT, 7)
    t.event("none")
    asks_socket(t, 150 * MS, 7, AT)
    t.event("none")
    t.poll(150 * MS, DUE)
    t.poll(151 * MS, DUE)
    t.say(f"send {151 * MS} tcp {AT} 00", "refused NoTcpSocket")
    return "A connection is asked for and granted: its socket is asked for, once", t


def greatest():
    t = asking(AT)
    connected(t, 150 * MS, 3, AT, 2**32 - 1)
    asks_socket(t, 150 * MS, 2**32 - 1, AT)
    return "The greatest number of a connection", t


def refused_in_order():
    t = over("tcp")
    asks(t, 0, AT, "refused NoAllocation")
    yield "No connection can be had before the server has allocated", t
    t = over()
    t.held()
    asks(t, 50 * MS, AT, "refused NoAllocation")
    yield "No connection can be had over an allocation over UDP", t
    t = of_tcp()
    asks(t, 50 * MS, f"[{PEER_6}]:9000", "refused NoAllocation")
    asks(t, 50 * MS, AT, "refused NoPermission")
    t.permission(50 * MS, PEER_3, transport="tcp")
    asks(t, 50 * MS, AT, "refused NoPermission")
    asks(t, 2**62 + 1, AT, "out of range")
    t.draw(100 * MS, create_permission(2, PEER_3))
    t.draw(150 * MS, None)
    yield "A connection wants an allocation of its family, and a permission that is granted: nothing is sent", t
    t = asking(AT)
    asks(t, 100 * MS, AT, "refused AlreadyExists")
    asks(t, 100 * MS, NEXT_TO)
    connected(t, 150 * MS, 3, AT, 7)
    asks(t, 150 * MS, AT, "refused AlreadyExists")
    asks_socket(t, 150 * MS, 7, AT)
    asks(t, 150 * MS, AT, "refused AlreadyExists")
    connected(t, 200 * MS, 4, NEXT_TO, 8)
    t.draw(250 * MS, None)
    asks(t, 250 * MS, NEXT_TO, "refused AlreadyExists")
    yield "A connection to one peer is asked for once, while it is under way and while it waits for its socket", t
    t = permitted()
    asks(t, OVER - 1, AT)
    asks(t, OVER, NEXT_TO, "refused NoAllocation")
    t.shows()
    yield "A connection is asked for when the allocation's time is over: nothing of that is shown from then on", t
    t = permitted()
    t.say("error", "ok")
    asks(t, 100 * MS, NEXT_TO, "refused NoAllocation")
    asks(t, 100 * MS, f"{PEER_3[:-1]}9:1", "refused NoAllocation")
    yield "A client that has ended asks for no connection, whether a permission stands or not", t


def refusal():
    t = asking(AT)
    decided(t, 150 * MS, connect(3, AT), "refuse 403", error(CONNECT, 3, code(403, b"Forbidden")))
    t.poll(150 * MS, 150 * MS)
    t.event(f"TcpConnectFailed {AT}")
    t.event("none")
    t.poll(150 * MS, DUE)
    asks(t, 150 * MS, AT)
    connected(t, 200 * MS, 4, AT, 9)
    asks_socket(t, 200 * MS, 9, AT)
    return "A connection is refused, and asked for anew", t


def without_a_number():
    for k, told in enumerate(([], [(CONNECTION_ID, b"\0\0\7")], [(CONNECTION_ID, b"\0\0\7"), named(7)])):
        t = sent()
        t.pieces(150 * MS, t.is_handled_once(success(CONNECT, 3, *told)))
        t.event(f"TcpConnectFailed {AT}")
        t.poll(150 * MS, DUE)
        yield f"A success tells no connection's number that can be read, {k}: the connection has failed", t


def number_in_an_error():
    t = sent()
    t.pieces(150 * MS, t.is_handled_once(error(CONNECT, 3, code(447), named(7), named(8))))
    t.event("none")
    asks_socket(t, 150 * MS, 7, AT)
    return "An error tells a connection's number: the number counts, of two the first", t


def twice():
    t = asking(AT)
    connected(t, 150 * MS, 3, AT, 7)
    t.pieces(150 * MS, success(CONNECT, 3, named(7)))
    t.pieces(150 * MS, success(CONNECT, 3, named(8)))
    asks_socket(t, 150 * MS, 7, AT)
    t.poll(150 * MS, DUE)
    return "The grant of a connection comes twice, and of another number: the first counts", t


def forged():
    t = sent()
    whole = success(CONNECT, 3, named(7))
    t.pieces(150 * MS, unsigned(CONNECT | 0x100, 3, [named(7)]), whole[:27] + b"\x08" + whole[28:])
    t.pieces(150 * MS, success(CONNECT, 4, named(7)), connect(3, AT))
    t.poll(150 * MS, LONGEST + 100 * MS)
    t.pieces(150 * MS, t.is_handled_once(whole))
    asks_socket(t, 150 * MS, 7, AT)
    return "Grants that are unsigned, changed or unasked, and the request itself, count for nothing", t


def of_another_kind():
    t = sent()
    t.pieces(150 * MS, success(CREATE_PERMISSION, 3))
    t.pieces(150 * MS, success(CONNECT, 3, named(7)))
    t.poll(150 * MS, DUE)
    asks(t, 150 * MS, AT, "refused AlreadyExists")
    return "A success of another method has the number of a CONNECT, whose transaction ends: no answer counts then", t


def stale():
    t = sent()
    t.pieces(150 * MS, t.is_handled_once(unsigned(CONNECT | ERROR, 3, OTHER_NONCE)))
    t.poll(150 * MS, 200 * MS)
    asks(t, 150 * MS, AT, "refused AlreadyExists")
    t.draw(200 * MS, connect(4, AT, NAMED_ANEW))
    t.pieces(200 * MS, success(CONNECT, 3, named(7)))
    t.poll(200 * MS, LONGEST + 150 * MS)
    t.pieces(200 * MS, t.is_handled_once(success(CONNECT, 4, named(8))))
    asks_socket(t, 200 * MS, 8, AT)
    return "The nonce of a CONNECT is stale: it is signed anew, under another number, and that one's grant counts", t


def stale_and_lost():
    t = sent()
    t.pieces(150 * MS, t.is_handled_once(unsigned(CONNECT | ERROR, 3, OTHER_NONCE)))
    t.draw(200 * MS, connect(4, AT, NAMED_ANEW))
    now = LONGEST + 150 * MS
    t.poll(now - 1, now)
    t.poll(now, now)
    t.event(f"TcpConnectFailed {AT}")
    t.event("none")
    asks(t, now, AT)
    return "A CONNECT that was signed anew is never answered: it is given up under its new number", t


def lost():
    t = sent()
    now = LONGEST + 100 * MS
    t.poll(150 * MS, now)
    t.poll(now - 1, now)
    t.event("none")
    t.poll(now, now)
    t.event(f"TcpConnectFailed {AT}")
    t.event("none")
    t.poll(now, DUE)
    t.pieces(now, success(CONNECT, 3, named(7)))
    asks(t, now, AT)
    connected(t, now, 4, AT, 9)
    asks_socket(t, now, 9, AT)
    return "A CONNECT is never answered: it is given up when its time is over, and asked for anew", t


def three():
    peers = (AT, NEXT_TO, THIRD)
    t = asking(*peers)
    replies = []
    for i, peer in enumerate(peers):
        now, k = 150 * MS + 50 * MS * i, 3 + i
        drawn = t.draw(now, connect(k, peer))
        reply = success(CONNECT, k, named(7 + i))
        replies.append((t.ask(now, f"@{drawn}", f"connect {7 + i}", reply), reply))
    now = 250 * MS
    for i in (2, 0):
        t.comes(now, *replies[i])
    asks_socket(t, now, 9, THIRD)
    t.comes(now, *replies[1])
    asks_socket(t, now, 7, AT)
    asks_socket(t, now, 8, NEXT_TO)
    t.poll(now, DUE)
    return "Three connections, of which the replies come in another order: sockets are asked for one by one", t


def among_three():
    peers = (AT, NEXT_TO, THIRD)
    t = asking(*peers)
    now = 150 * MS
    connected(t, now, 3, AT, 7)
    unreached(t, now + 50 * MS, 4, NEXT_TO)
    connected(t, now + 100 * MS, 5, THIRD, 9)
    now += 100 * MS
    t.poll(now, now)
    t.event(f"TcpConnectFailed {NEXT_TO}")
    asks_socket(t, now, 7, AT)
    asks_socket(t, now, 9, THIRD)
    asks(t, now, AT, "refused AlreadyExists")
    asks(t, now, NEXT_TO)
    asks(t, now, THIRD, "refused AlreadyExists")
    return "Of three connections the middle one is refused: the others wait for their sockets", t


def behind_events():
    t = asking(AT)
    t.permission(100 * MS, "10.0.0.4", transport="tcp")
    connected(t, 150 * MS, 3, AT, 7)
    decided(t, 200 * MS, create_permission(4, "10.0.0.4"), "grant", success(CREATE_PERMISSION, 4))
    t.poll(200 * MS, 200 * MS)
    t.event("PermissionCreated tcp 10.0.0.4")
    asks_socket(t, 200 * MS, 7, AT)
    return "A socket is asked for behind the events that wait", t


def before_what_ends():
    t = asking(AT, NEXT_TO)
    connected(t, 150 * MS, 3, AT, 7)
    t.draw(200 * MS, connect(4, NEXT_TO))
    now = LONGEST + 100 * MS
    asks_socket(t, now, 7, AT)
    t.event("none")
    t.poll(now, DUE)
    asks(t, now, NEXT_TO, "refused AlreadyExists")
    return "A socket is asked for at the moment at which another CONNECT is given up: nothing is told of that one", t


def deleted():
    t = asking(AT)
    connected(t, 150 * MS, 3, AT, 7)
    t.say(f"delete {150 * MS}", "ok")
    asks(t, 150 * MS, NEXT_TO, "refused NoAllocation")
    asks_socket(t, 150 * MS, 7, AT)
    decided(t, 200 * MS, refresh(4, 0, HASHED), "refresh 0", success(REFRESH, 4, lifetime(0)))
    t.poll(200 * MS, None)
    return "The end is asked for while a connection waits for its socket: that is asked for still", t


def ended():
    t = asking(AT)
    connected(t, 150 * MS, 3, AT, 7)
    t.say("error", "ok")
    t.event("AllocationCreateFailed 4")
    t.poll(150 * MS, None)
    return "A client ends while a connection waits for its socket: it asks for none any more", t


def example():
    """Two connections, of which one is refused, asked for anew and then challenged."""
    t = asking(AT)
    asks(t, 100 * MS, AT, "refused AlreadyExists")
    asks(t, 100 * MS, NEXT_TO)
    connected(t, 150 * MS, 3, AT, 7)
    unreached(t, 200 * MS, 4, NEXT_TO)
    t.event(f"TcpConnectFailed {NEXT_TO}")
    asks_socket(t, 200 * MS, 7, AT)
    asks(t, 200 * MS, NEXT_TO)
    t.draw(250 * MS, connect(5, NEXT_TO))
    t.pieces(250 * MS, t.is_handled_once(unsigned(CONNECT | ERROR, 5, OTHER_NONCE)))
    t.draw(300 * MS, connect(6, NEXT_TO, NAMED_ANEW))
    t.pieces(300 * MS, t.is_handled_once(success(CONNECT, 6, named(8))))
    asks_socket(t, 300 * MS, 8, NEXT_TO)
    t.poll(300 * MS, DUE)
    return t


def connection_traces():
    yield from (
        granted(), greatest(), *refused_in_order(), refusal(), *without_a_number(), number_in_an_error(), twice(),
        forged(), of_another_kind(), stale(), stale_and_lost(), lost(), three(), among_three(), behind_events(),
        before_what_ends(), deleted(), ended(),
    )
