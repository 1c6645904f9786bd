"""The traces of connections that peers begin (`docs/TRACE.md`; RFC 6062, section 4.4): CONNECTION_ATTEMPT, a request of
the server's, and what the client answers. `traces_attempts_beside_connections.py` has attempts beside the client's own
connections, `traces_attempt_timing.py` when the answers go out and how attempts end. `traces.py` puts them behind bound
connections.

The server signs under the key of the client's user, and so does the client what it answers: an error, or the signature
alone. An attempt is refused as soon as it comes. Another one is answered when the client is told of its socket.
`example` is stored by itself, and is none of the traces that are yielded here.
"""

import traces_bound_connections as bound
from traces_base import (
    ALLOCATE, BINDING, CHANNEL_BIND, CREATE_PERMISSION, ERROR, INDICATION, MS, NAMED, PEER, REFRESH, SHA1, SHA256,
    SUCCESS, code, message, success, xored,
)
from traces_bound_connections_base import Socket
from traces_channels import SIX
from traces_connection_sockets import CONNECTION_BIND, ONE, bind, draws_from, lists, opens
from traces_connections import (
    AT, CONNECT, CONNECTION_ID, NEXT_TO, asking, asks, asks_socket, connected, named, permitted,
)
from traces_payloads import HI, SEND, SOFTWARE, fingerprinted, not_sent
from traces_permissions import DUE
from traces_tcp import of_tcp
from traces_tcp_base import GARBLED, LONGEST, over

CONNECTION_ATTEMPT = 0x00C
REASONS = {400: b"Bad Request", 446: b"Connection Already Exists", 447: b"Connection Timeout or Failure"}
# when a client is permitted its peer, and drew last
NOW = 100 * MS
# until when a request of that moment is awaited
UNTIL = NOW + LONGEST


def own(k):
    """A number that the server draws."""
    return bytes([k]) * 12


def to(peer, k):
    return PEER, xored(peer, own(k))


def asked(k, *told, kind=CONNECTION_ATTEMPT, by=SHA1, realm=b"realm"):
    """A request of the server's with its kth number."""
    return message(kind, own(k), told, by, realm)


def attempt(k, connection, peer, *told, **how):
    return asked(k, named(connection), to(peer, k), *told, **how)


def taken(k, **how):
    """The client's answer to it where there is a socket."""
    return asked(k, kind=CONNECTION_ATTEMPT | SUCCESS, **how)


def refusal(k, value, **how):
    """And where there is none."""
    return asked(k, code(value, REASONS[value]), kind=CONNECTION_ATTEMPT | ERROR, **how)


def comes(t, now, *texts):
    """These come over the client's own connection, and it handles each, however often that comes."""
    for it in texts:
        t.means[it] = ["handled"]
    t.pieces(now, *texts)


def is_refused(t, now, k, value, *texts):
    """One of the kth number comes, and its refusal is drawn at once."""
    comes(t, now, *texts)
    t.poll(now, now)
    t.draw(now, refusal(k, value))
    t.draw(now, None)


def goes_on(t, now, s, peer):
    """A connection is bound, gives and sends, and is closed."""
    s.binds(now, HI)
    t.recv(now)
    s.piece(now, b"more")
    s.sends(now, b"hello")
    s.is_closed(now)
    lists(t)
    comes(t, now, attempt(9, 9, peer))
    asks_socket(t, now, 9, peer)


# ---- taken


def waits_and_opens(t, text):
    """What tells of a connection comes: the client asks for a socket, which is opened."""
    comes(t, NOW, text)
    t.event("none")
    t.draw(NOW, None)
    asks_socket(t, NOW, 7, AT)
    t.poll(NOW, DUE)
    asks(t, NOW, AT, "refused AlreadyExists")
    lists(t)
    opens(t, NOW, 7, AT, ONE)
    lists(t, (ONE, AT, 7))


def carried():
    t = permitted()
    waits_and_opens(t, attempt(1, 7, AT))
    t.poll(NOW, NOW)
    drawn = t.draw(NOW, taken(1))
    t.ask(NOW, f"@{drawn}", "grant", None)
    t.poll(NOW, 150 * MS)
    t.draw(150 * MS - 1, None)
    # an answer has no number of the client's
    draws_from(t, 150 * MS, ONE, bind(3, 7))
    t.poll(150 * MS, UNTIL)
    goes_on(t, 150 * MS, Socket(t, ONE, AT, 3), AT)
    return "A peer begins a connection: a socket is asked for, the server is told, and bytes go both ways", t


def without_permission():
    t = of_tcp()
    comes(t, 50 * MS, attempt(1, 2**32 - 1, AT), attempt(2, 0, NEXT_TO))
    asks_socket(t, 50 * MS, 2**32 - 1, AT)
    asks_socket(t, 50 * MS, 0, NEXT_TO)
    opens(t, 50 * MS, 2**32 - 1, AT, ONE)
    t.draw(50 * MS, taken(1))
    draws_from(t, 100 * MS, ONE, bind(2, 2**32 - 1))
    s = Socket(t, ONE, AT, 2)
    s.binds(100 * MS, HI)
    t.recv(100 * MS)
    not_sent(t, 100 * MS, AT, "NoPermission", transport="tcp")
    asks(t, 100 * MS, AT, "refused NoPermission")
    return "A peer without a permission begins a connection: it is bound, and nothing goes to the peer", t


def told_more():
    t = permitted()
    more = [*NAMED, (SOFTWARE, b"soft"), (0x7777, b"unknown"), named(8), to(NEXT_TO, 1), (CONNECTION_ID, b"\0")]
    comes(t, NOW, attempt(1, 7, AT, *more))
    asks_socket(t, NOW, 7, AT)
    marked, wrong = (fingerprinted(attempt(2, 8, NEXT_TO), wrong=it) for it in (0, 1))
    t.means[wrong] = [GARBLED]
    t.pieces(NOW, wrong)
    t.poll(NOW, DUE)
    comes(t, NOW, marked)
    asks_socket(t, NOW, 8, NEXT_TO)
    return "Attempts tell more than they have to: of two numbers and two peers the first count", t


def cut():
    text, other = attempt(1, 7, AT), attempt(2, 7, SIX)
    for what, pieces, answers in (
        ("byte by byte", [bytes([it]) for it in text], []),
        ("in two pieces", [text[:30], text[30:]], []),
        ("behind a grant that isn't awaited, in one piece", [success(CREATE_PERMISSION, 9) + text], []),
        ("before another one, in one piece", [text + other], [refusal(2, 400)]),
    ):
        t = permitted()
        t.means[text] = t.means[other] = ["handled"]
        t.pieces(NOW, *pieces)
        for it in answers:
            t.draw(NOW, it)
        asks_socket(t, NOW, 7, AT)
        yield f"An attempt comes {what}", t


# ---- refused


def malformed():
    """What it is, and what it tells under the first number of the server's."""
    connection, peer, short = named(7), to(AT, 1), (CONNECTION_ID, b"\0\0\7")
    unknown = PEER, b"\0\3" + peer[1][2:]
    yield "without a number", [peer]
    yield "with a number of three bytes", [short, peer]
    yield "with a number of five bytes", [(CONNECTION_ID, bytes(5)), peer]
    yield "with a number of three bytes, and then a good one", [short, connection, peer]
    yield "without a peer", [connection]
    yield "with a peer of another family than the two", [connection, unknown]
    yield "with a peer that is cut short", [connection, (PEER, peer[1][:7])]
    yield "with a peer that can't be read, and then a good one", [connection, unknown, peer]
    yield "without anything", []
    yield "to a peer of a family that isn't allocated", [connection, to(SIX, 1)]


def each_malformed():
    for what, attributes in malformed():
        t = permitted()
        is_refused(t, NOW, 1, 400, asked(1, *attributes))
        comes(t, NOW, attempt(2, 7, AT))
        asks_socket(t, NOW, 7, AT)
        t.poll(NOW, DUE)
        yield f"An attempt {what} is refused", t


def behind_the_signature():
    t = permitted()
    whole, more = asked(1, named(7)), xored(AT, own(1))
    is_refused(t, NOW, 1, 400, whole[:3] + bytes([whole[3] + 12]) + whole[4:] + b"\0\x12\0\x08" + more)
    t.poll(NOW, DUE)
    return "The peer of an attempt stands behind its signature: the attempt is refused", t


def over_udp():
    t = over()
    t.held()
    is_refused(t, 50 * MS, 1, 400, attempt(1, 7, AT))
    return "An attempt over TCP, and an allocation over UDP: it is refused", t


def each_bars():
    t = asking(AT)
    connected(t, 150 * MS, 3, AT, 7)
    is_refused(t, 150 * MS, 1, 446, attempt(1, 8, AT))
    asks_socket(t, 150 * MS, 7, AT)
    is_refused(t, 150 * MS, 2, 446, attempt(2, 7, AT))
    opens(t, 150 * MS, 7, AT, ONE)
    is_refused(t, 150 * MS, 3, 446, attempt(3, 8, AT))
    draws_from(t, 200 * MS, ONE, bind(4, 7))
    comes(t, 200 * MS, attempt(4, 8, NEXT_TO))
    asks_socket(t, 200 * MS, 8, NEXT_TO)
    s = Socket(t, ONE, AT, 4)
    s.binds(200 * MS)
    is_refused(t, 200 * MS, 5, 446, attempt(5, 9, AT))
    s.is_closed(200 * MS)
    comes(t, 200 * MS, attempt(6, 9, AT))
    asks_socket(t, 200 * MS, 9, AT)
    return "While a connection to a peer is granted, has a socket or is bound, the peer's attempts are refused", t


def repeated():
    t, text = permitted(), attempt(1, 7, AT)
    comes(t, NOW, text)
    is_refused(t, NOW, 1, 446, text)
    asks_socket(t, NOW, 7, AT)
    is_refused(t, NOW, 1, 446, text)
    opens(t, NOW, 7, AT, "none")
    t.poll(NOW, NOW)
    t.draw(NOW, refusal(1, 447))
    t.poll(NOW, DUE)
    opens(t, NOW, 7, AT, ONE, "refused NoAllocation")
    t.event("none")
    comes(t, NOW, text)
    asks_socket(t, NOW, 7, AT)
    return "An attempt comes again: it is refused, until no socket was opened, which is told, and then taken anew", t


# ---- passed by


def others():
    """What a client has no use for, with the number and the peer of a connection."""
    whole, told = attempt(1, 7, AT), [named(7), to(AT, 1)]
    yield message(CONNECTION_ATTEMPT, own(1), told)
    yield whole[:-1] + bytes([whole[-1] ^ 1])
    yield whole[:27] + bytes([whole[27] ^ 1]) + whole[28:]
    yield attempt(1, 7, AT, realm=b"other")
    yield attempt(1, 7, AT, by=SHA256)
    yield whole[:3] + bytes([whole[3] + 36]) + whole[4:] + b"\0\x1c\0\x20" + bytes(32)
    for it in (INDICATION, SUCCESS, ERROR):
        yield asked(1, *told, kind=CONNECTION_ATTEMPT | it)
    yield message(CONNECTION_ATTEMPT | INDICATION, own(1), told)
    for it in (BINDING, ALLOCATE, REFRESH, SEND, CREATE_PERMISSION, CHANNEL_BIND, CONNECT, CONNECTION_BIND, 0x00D):
        yield asked(1, *told, kind=it)


def passed_by():
    t = permitted()
    t.pieces(NOW, *others())
    t.poll(NOW, DUE)
    t.draw(NOW, None)
    comes(t, NOW, attempt(1, 7, AT))
    asks_socket(t, NOW, 7, AT)
    return "Attempts that are unsigned, changed or signed otherwise, and other requests, count for nothing", t


# ---- an example


def bound_by_desk(t, s):
    """The socket of connection 7 is told. The desk challenges its CONNECTION_BIND, and grants the next one."""
    opens(t, NOW, 7, s.peer, s.here)
    lists(t, (s.here, s.peer, 7))
    t.poll(NOW, NOW)
    t.draw(NOW, taken(1))
    t.poll(NOW, 150 * MS)
    bound.asks_for_nonce(s, 150 * MS, draws_from(t, 150 * MS, s.here, bind(3, 7)), 1, 4)
    drawn = draws_from(t, 200 * MS, s.here, bind(4, 7, bound.under(1)))
    reply = success(CONNECTION_BIND, 4)
    line = t.ask(200 * MS, f"@{drawn}", "grant", reply, source=s.here)
    bound.comes(s, 200 * MS, line, reply, [], HI)
    s.connected()


def example():
    """Four attempts are answered: a success, since there is a socket; 446, since there is a connection; 400, since no
    peer is named; and 447, since there is no socket."""
    t, now = permitted(), 200 * MS
    comes(t, NOW, attempt(1, 7, AT))
    asks_socket(t, NOW, 7, AT)
    s = Socket(t, ONE, AT, 3)
    bound_by_desk(t, s)
    s.sends(now, b"hello")
    s.piece(now, b"bye")
    comes(t, now, attempt(2, 8, AT), asked(3, named(8)), attempt(4, 9, NEXT_TO))
    for k, value in ((2, 446), (3, 400)):
        t.poll(now, now)
        t.draw(now, refusal(k, value))
    asks_socket(t, now, 9, NEXT_TO)
    opens(t, now, 9, NEXT_TO, "none")
    t.poll(now, now)
    t.draw(now, refusal(4, 447))
    t.draw(now, None)
    s.is_closed(now)
    lists(t)
    t.event("none")
    return "Peers begin connections: one is bound, and the others are refused, each for a cause of its own", t


def answered_traces():
    yield from (
        carried(), without_permission(), told_more(), *cut(), *each_malformed(), behind_the_signature(), over_udp(),
        each_bars(), repeated(), passed_by(),
    )
