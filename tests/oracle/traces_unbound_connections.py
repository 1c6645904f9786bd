"""The traces of connections over whose sockets other things come than the reply that binds them, or before it
(`docs/TRACE.md`; RFC 6062, section 4.3). `traces_bound_connections.py` puts them among its own.
"""

from traces_base import (
    BINDING, CLIENT, CREATE_PERMISSION, ERROR, INDICATION, MS, NONCE, NONCES, PASSWORD_ALGORITHMS, REALM, REFRESH,
    SECOND, SHA1, SHA256, SUCCESS, code, create_permission, error, message, number, success, unsigned,
)
from traces_bound_connections_base import BOUND, FOURTH, NOW, Socket, ends, joining, payload
from traces_channels import A
from traces_connection_sockets import (
    CONNECTION_BIND, ONE, UNTIL, awaiting, bind, closed, closes, draws_from, lists, opens,
)
from traces_connections import AT, CONNECT, NEXT_TO, asks, connect
from traces_payloads import HI, data, fingerprinted, not_sent, of, told
from traces_permissions import DUE, NAMED_ANEW, OTHER_NONCE, PEER_3
from traces_tcp_base import BROKEN, DATA_OF_1, LONGEST, MARKED, ODD, padded, places_within, spans

REPLY = success(CONNECTION_BIND, 4)


# ---- in place of the reply


def signed(kind, *told_of, by=SHA1, realm=b"realm"):
    return message(CONNECTION_BIND | kind, number(4), told_of, by, realm)


def refusals():
    """What it is, its bytes, and whether the request has ended by it."""
    yield "A success of another number", success(CONNECTION_BIND, 9), False
    yield "An error of another number", error(CONNECTION_BIND, 9, code(403)), False
    yield "A challenge of another number", unsigned(CONNECTION_BIND | ERROR, 9, OTHER_NONCE), False
    yield "The request itself", bind(4, 7), False
    yield "A request without a signature", unsigned(CONNECTION_BIND, 4, []), False
    yield "An indication", signed(INDICATION), False
    yield "An indication without a signature", unsigned(CONNECTION_BIND | INDICATION, 9, []), False
    yield "An error", signed(ERROR, code(403, b"Forbidden")), True
    yield "An error without a code", signed(ERROR), True
    yield "An error without a signature", unsigned(CONNECTION_BIND | ERROR, 4, [code(400)]), True
    yield "A challenge without a nonce", unsigned(CONNECTION_BIND | ERROR, 4, [code(401), (REALM, b"realm")]), True
    yield "A challenge without a realm", unsigned(CONNECTION_BIND | ERROR, 4, [code(438), (NONCE, b"other")]), True
    listed = [code(401), (REALM, b"realm"), (NONCE, NONCES[b"gAAA"]), (PASSWORD_ALGORITHMS, b"\0\2\0\0")]
    yield "A challenge to what the client can't do", unsigned(CONNECTION_BIND | ERROR, 4, listed), True
    yield "A success without a signature", unsigned(CONNECTION_BIND | SUCCESS, 4, []), True
    yield "A success with a wrong digest", REPLY[:30] + bytes([REPLY[30] ^ 1]) + REPLY[31:], True
    yield "A success with a wrong fingerprint's digest", fingerprinted(REPLY[:-1] + bytes([REPLY[-1] ^ 1])), True
    yield "A success that is signed for another realm", signed(SUCCESS, realm=b"other"), True
    yield "A success that is signed by another algorithm", signed(SUCCESS, by=SHA256), True


def refused(what, text, is_over):
    t, s = joining()
    s.piece(NOW, text)
    lists(t)
    t.poll(NOW, NOW)
    s.has_failed(NOW)
    s.pieces(NOW, REPLY, b"")
    t.event("none")
    if not is_over:
        t.poll(NOW, UNTIL)
        t.poll(UNTIL, UNTIL)
    t.poll(UNTIL, DUE)
    asks(t, UNTIL, AT)
    # what came has changed no nonce
    t.draw(UNTIL, connect(5, AT))
    end = "its request has ended" if is_over else "its request has its own end"
    return f"{what} comes over a connection's socket: it fails, and {end}", t


def each_refused():
    for it in refusals():
        yield refused(*it)


def refused_with_more():
    t, s = joining()
    s.piece(NOW, error(CONNECTION_BIND, 4, code(447)) + REPLY + HI)
    s.has_failed(NOW)
    t.recv(NOW)
    t.event("none")
    t.poll(NOW, DUE)
    return "An error comes over a connection's socket, and in the same piece its grant: it has failed", t


def nothing_sent():
    for what, text in (
        ("An error tells that there is a connection to the peer", error(CONNECTION_BIND, 4, code(446))),
        ("A success over a socket is signed for another realm", signed(SUCCESS, realm=b"wrong-realm")),
    ):
        t, s = joining()
        s.piece(NOW, text)
        t.event(f"TcpConnectFailed {AT}")
        not_sent(t, NOW, AT, "NoTcpSocket", bytes([4] * 9), "tcp")
        closes(t, NOW, ONE)
        not_sent(t, NOW, AT, "NoTcpSocket", bytes([4] * 9), "tcp")
        yield f"{what}: the connection fails, and nothing goes to the peer", t


def refused_in_pieces():
    t, s = joining()
    text = error(CONNECTION_BIND, 4, code(447, b"Connection Timeout or Failure"))
    s.pieces(NOW, *(bytes([it]) for it in text))
    s.has_failed(NOW)
    s.piece(NOW, REPLY)
    t.poll(NOW, DUE)
    return "An error comes over a connection's socket byte by byte: it has failed with the last one", t


def told_more():
    t, s = joining()
    reply = signed(SUCCESS, code(438), *OTHER_NONCE[1:], (0x8022, b"soft"))
    s.means[reply] = BOUND
    s.piece(NOW, reply + HI)
    s.connected()
    t.recv(NOW)
    return "A grant of a connection tells more than it has to, a nonce too: it binds", t


# ---- challenges


def asked_anew(t, s, now, k, text):
    """A challenge comes, and the next request goes out 50 ms later, with the number k."""
    s.piece(now, text)
    lists(t, (ONE, AT, 7))
    t.poll(now, now + 50 * MS)
    t.draw(now + 50 * MS - 1, None)
    draws_from(t, now + 50 * MS, ONE, bind(k, 7, NAMED_ANEW))


def challenged():
    for what, attributes, by in (
        ("A 438", OTHER_NONCE, None), ("A 401", [code(401), *OTHER_NONCE[1:]], None),
        ("A signed 438", OTHER_NONCE, SHA1),
    ):
        t, s = joining()
        text = message(CONNECTION_BIND | ERROR, number(4), attributes, by)
        s.means[text] = 5
        asked_anew(t, s, NOW, 5, text)
        s.binds(250 * MS, HI)
        t.recv(250 * MS)
        t.poll(250 * MS, UNTIL)
        t.poll(UNTIL, UNTIL)
        t.poll(UNTIL, DUE)
        asks(t, UNTIL, NEXT_TO)
        t.draw(UNTIL, connect(6, NEXT_TO, NAMED_ANEW))
        yield f"{what} answers a CONNECTION_BIND: it is asked anew, and the request before it has its own end", t


def both_outstanding(t, now):
    """The request that was challenged ends, and then the one that was made by the challenge."""
    t.poll(now, UNTIL)
    t.poll(UNTIL, UNTIL)
    t.poll(UNTIL, LONGEST + NOW)
    t.poll(LONGEST + NOW, LONGEST + NOW)
    t.poll(LONGEST + NOW, DUE)


def grant_of_the_one_before():
    t, s = joining()
    asked_anew(t, s, NOW, 5, s.challenge(5))
    s.piece(250 * MS, REPLY)
    s.has_failed(250 * MS)
    s.piece(250 * MS, success(CONNECTION_BIND, 5))
    both_outstanding(t, 250 * MS)
    return "A CONNECTION_BIND is challenged, and then granted under its old number: the connection fails", t


def challenged_twice():
    t, s = joining()
    s.piece(NOW, s.challenge(5) * 2)
    s.has_failed(NOW)
    t.poll(NOW, 250 * MS)
    draws_from(t, 250 * MS, ONE, bind(5, 7, NAMED_ANEW))
    both_outstanding(t, 250 * MS)
    return "A challenge comes twice in one piece: the connection fails, and what was made for it still goes out", t


def challenge_and_grant():
    t, s = joining()
    s.piece(NOW, s.challenge(5) + success(CONNECTION_BIND, 5) + HI)
    s.connected()
    t.recv(NOW)
    t.poll(NOW, 250 * MS)
    draws_from(t, 250 * MS, ONE, bind(5, 7, NAMED_ANEW))
    t.poll(250 * MS, UNTIL)
    t.poll(UNTIL, UNTIL)
    t.poll(UNTIL, DUE)
    return "A challenge, and in the same piece the grant of the request that is made by it: the connection is bound", t


def challenged_late():
    t, s = joining()
    now = 30 * SECOND
    s.piece(now, s.challenge(5))
    t.poll(now, now)
    draws_from(t, now, ONE, bind(5, 7, NAMED_ANEW))
    t.poll(now, UNTIL)
    t.poll(UNTIL, UNTIL)
    t.poll(UNTIL, now + LONGEST)
    t.poll(now + LONGEST - 1, now + LONGEST)
    lists(t, (ONE, AT, 7))
    closes(t, now + LONGEST, ONE)
    t.event(f"TcpConnectFailed {AT}")
    s.is_over = True
    s.piece(now + LONGEST, success(CONNECTION_BIND, 5))
    t.poll(now + LONGEST, DUE)
    return "A CONNECTION_BIND is challenged after 30 seconds, and never again answered: 39.5 seconds begin anew", t


def many_challenges():
    t, s = joining()
    for k in range(5, 17):
        now = NOW + 50 * MS * (k - 5)
        s.piece(now, s.challenge(k))
        draws_from(t, now + 50 * MS, ONE, bind(k, 7, NAMED_ANEW))
    s.binds(now + 50 * MS, HI)
    t.recv(now + 50 * MS)
    t.poll(now + 50 * MS, UNTIL)
    t.poll(UNTIL, UNTIL)
    t.poll(UNTIL, LONGEST + NOW)
    return "Twelve challenges in a row come over a connection's socket: each is answered, and then the grant counts", t


def nine_before():
    """Nine challenges come over the client's own connection, and then one over the socket: the numbers 14 and 15 are
    outstanding."""
    t, s = joining()
    t.permission(NOW, FOURTH, transport="tcp")
    t.draw(250 * MS, create_permission(5, FOURTH))
    for k in range(5, 14):
        now = 50 * MS * k
        challenged_in_control(t, now, k)
        t.draw(now + 50 * MS, create_permission(k + 1, FOURTH, NAMED_ANEW))
    now += 50 * MS
    s.piece(now, s.challenge(15))
    draws_from(t, now + 50 * MS, ONE, bind(15, 7, NAMED_ANEW))
    return t, s, now + 50 * MS


def challenged_in_control(t, now, k):
    t.pieces(now, t.is_handled_once(unsigned(CREATE_PERMISSION | ERROR, k, OTHER_NONCE)))


def tenth_is_answered(t, now):
    """A response has counted: the row of challenges is over, and the next one begins another."""
    challenged_in_control(t, now, 14)
    t.draw(now + 50 * MS, create_permission(16, FOURTH, NAMED_ANEW))
    t.pieces(now + 50 * MS, t.is_handled_once(success(CREATE_PERMISSION, 16)))
    t.event(f"PermissionCreated tcp {FOURTH}")


def tenth_ends(t, now):
    challenged_in_control(t, now, 14)
    t.event("AllocationCreateFailed 4")
    t.poll(now, None)


def uncounted():
    t, s, now = nine_before()
    s.binds(now, HI)
    t.recv(now)
    tenth_is_answered(t, now)
    yield "Nine challenges come, and one over a connection's socket, which isn't counted: its grant ends the row", t
    t, s, now = nine_before()
    s.piece(now, error(CONNECTION_BIND, 15, code(400)))
    s.has_failed(now)
    tenth_is_answered(t, now)
    yield "Nine challenges come, and a signed error over a connection's socket: it ends the row", t
    t, s, now = nine_before()
    s.piece(now, unsigned(CONNECTION_BIND | ERROR, 15, [code(400)]))
    s.has_failed(now)
    tenth_ends(t, now)
    yield "Nine challenges come, and an unsigned error over a connection's socket: the tenth one ends the client", t
    t, s, now = nine_before()
    tenth_ends(t, now)
    s.is_heard = False
    s.piece(now, success(CONNECTION_BIND, 15))
    lists(t, (ONE, AT, 7))
    yield "Nine challenges come, one over a connection's socket, and a tenth that counts: that one ends the client", t


# ---- over the client's own connection


def granted_there_first():
    t, s = joining()
    t.pieces(NOW, REPLY)
    s.means = {}
    s.piece(NOW, REPLY)
    s.has_failed(NOW)
    t.poll(NOW, DUE)
    return "The grant of a connection comes over the client's own and then over its socket: the connection fails", t


def challenged_there_first():
    t, s = joining()
    t.pieces(NOW, unsigned(CONNECTION_BIND | ERROR, 4, OTHER_NONCE))
    s.binds(NOW, HI)
    t.recv(NOW)
    t.poll(NOW, DUE)
    asks(t, NOW, NEXT_TO)
    t.draw(250 * MS, connect(5, NEXT_TO, NAMED_ANEW))
    return "The challenge of a connection comes over the client's own: it is for nobody, and the grant counts yet", t


# ---- before the reply


# what does nothing to a connection, a channel frame last
WITHOUT_EFFECT = (
    success(CREATE_PERMISSION, 9), success(CREATE_PERMISSION, 4), error(REFRESH, 4, code(437)), DATA_OF_1, BROKEN,
    unsigned(CONNECT | ERROR, 4, OTHER_NONCE), unsigned(BINDING, 4, []), told(of(f"{PEER_3}:9000"), data(HI)), MARKED,
    ODD, padded(A, HI), padded(0x7FFF, b""),
)


def passed_by_one_by_one():
    t, s = joining()
    s.pieces(NOW, *WITHOUT_EFFECT)
    for it in WITHOUT_EFFECT:
        s.pieces(NOW, it[:3], it[3:])
    t.recv(NOW)
    t.event("none")
    t.poll(NOW, UNTIL)
    s.binds(NOW)
    t.poll(NOW, DUE)
    asks(t, NOW, NEXT_TO)
    t.draw(250 * MS, connect(5, NEXT_TO))
    return "Frames of channels, messages of other methods and ones that don't parse come before a grant", t


def passed_by_in_one():
    stream = b"".join(WITHOUT_EFFECT)
    for what, front in ("a message", b""), ("a frame of a channel", padded(A, b"x")):
        t, s = joining()
        s.piece(NOW, front + stream + REPLY + HI)
        s.connected()
        t.event("none")
        t.recv(NOW)
        t.recv(NOW)
        yield f"All of these and the grant in one piece, with {what} first", t


def passed_by_at_random():
    stream = b"".join(WITHOUT_EFFECT) + REPLY + padded(A, b"hello") + REPLY
    for seed in range(10):
        t, s = joining()
        places, given = places_within(len(stream), seed), []
        for a, b in spans(len(stream), places):
            given += [s.piece(NOW, stream[a:b]), *t.rest(NOW)]
        assert payload(given) == padded(A, b"hello") + REPLY, given
        s.connected()
        yield f"All of these, the grant, and bytes that look like frames, in pieces of any length, {seed}", t


def grant_of_a_permission():
    t, s = joining()
    t.permission(NOW, FOURTH, transport="tcp")
    t.draw(250 * MS, create_permission(5, FOURTH))
    grant = success(CREATE_PERMISSION, 5)
    s.pieces(250 * MS, grant, unsigned(CREATE_PERMISSION | ERROR, 5, OTHER_NONCE))
    t.has(FOURTH, "no", "tcp")
    t.event("none")
    t.pieces(250 * MS, t.is_handled_once(grant))
    t.event(f"PermissionCreated tcp {FOURTH}")
    asks(t, 250 * MS, NEXT_TO)
    t.draw(300 * MS, connect(6, NEXT_TO))
    s.binds(300 * MS)
    return "A challenge and a grant of a permission come over a connection's socket: they count for nothing there", t


def broken_stream():
    fronts = (
        ("begins with 80", b"\x80"), ("begins with c0", b"\xc0"), ("has a wrong cookie", REPLY[:7] + b"\x43"),
        ("breaks behind a frame of a channel", padded(A, HI) + b"\x80"),
        ("breaks behind a message", success(CREATE_PERMISSION, 9) + b"\xff"),
    )
    for what, front in fronts:
        t, s = joining()
        s.pieces(NOW, front, REPLY, padded(A, HI), REPLY[:7], REPLY[7:])
        lists(t, (ONE, AT, 7))
        t.recv(NOW)
        t.event("none")
        t.poll(NOW, UNTIL)
        closes(t, UNTIL, ONE)
        t.event(f"TcpConnectFailed {AT}")
        t.poll(UNTIL, DUE)
        s.goes(UNTIL)
        yield f"What comes over a connection's socket {what}: no grant comes of it, and its time runs out", t


def too_long():
    t, s = joining()
    s.pieces(NOW, REPLY[:2] + b"\xff\xfc" + REPLY[4:], REPLY * 30)
    t.poll(NOW, UNTIL)
    closes(t, UNTIL, ONE)
    t.event(f"TcpConnectFailed {AT}")
    s.goes(UNTIL)
    return "A message that tells of more than comes is over a connection's socket: its time runs out", t


# ---- over a socket that has the client's own address


def own_address():
    """A permission is asked for, with the fourth number, and that a connection be bound, with the fifth, over a socket
    that has the client's own address."""
    t = awaiting()
    t.permission(150 * MS, FOURTH, transport="tcp")
    opens(t, 150 * MS, 7, AT, CLIENT)
    s = Socket(t, CLIENT, AT, 5)
    t.draw(200 * MS, create_permission(4, FOURTH))
    draws_from(t, 250 * MS, CLIENT, bind(5, 7))
    return t, s


def own_address_never_bound():
    t, s = own_address()
    grant = success(CREATE_PERMISSION, 4)
    s.pieces(250 * MS, padded(A, HI), grant[:9], grant[9:] + told(of(f"{PEER_3}:5"), data(HI)))
    t.event(f"PermissionCreated tcp {FOURTH}")
    t.has(FOURTH, transport="tcp")
    t.recv(250 * MS)
    wrong = unsigned(CONNECTION_BIND | SUCCESS, 5, [])
    s.pieces(250 * MS, bind(5, 7), success(CONNECTION_BIND, 9), wrong, success(CONNECTION_BIND, 5) + padded(A, HI))
    t.event("none")
    lists(t, (CLIENT, AT, 7))
    t.poll(250 * MS, UNTIL)
    t.poll(UNTIL, UNTIL)
    closes(t, UNTIL + 1, CLIENT)
    t.event(f"TcpConnectFailed {AT}")
    s.goes(UNTIL + 1)
    s.piece(UNTIL + 1, b"")
    return "A socket has the address of the client's own connection: messages count as there, and none binds it", t


def own_address_challenged():
    t, s = own_address()
    s.piece(250 * MS, unsigned(CONNECTION_BIND | ERROR, 5, OTHER_NONCE))
    t.draw(300 * MS, None)
    asks(t, 300 * MS, NEXT_TO)
    t.draw(300 * MS, connect(6, NEXT_TO, NAMED_ANEW))
    s.piece(300 * MS, unsigned(CREATE_PERMISSION | ERROR, 4, OTHER_NONCE))
    t.draw(350 * MS, create_permission(7, FOURTH, NAMED_ANEW))
    lists(t, (CLIENT, AT, 7))
    t.poll(350 * MS, UNTIL)
    closes(t, UNTIL, CLIENT)
    t.event(f"TcpConnectFailed {AT}")
    s.goes(UNTIL)
    return "Challenges come over a socket that has the client's own address: the one of a connection isn't answered", t


def own_address_closed():
    for what, how in (("is closed", None), ("ends", b"")):
        t, s = own_address()
        s.piece(250 * MS, success(CREATE_PERMISSION, 4)[:9])
        if how is None:
            s.is_closed(250 * MS)
        else:
            s.piece(250 * MS, how)
            closes(t, 250 * MS, CLIENT)
        s.pieces(250 * MS, success(CREATE_PERMISSION, 4)[9:], success(CREATE_PERMISSION, 4), b"")
        lists(t)
        t.event("none")
        t.has(FOURTH, "no", "tcp")
        closed(t, 250 * MS, CLIENT)
        t.recv(250 * MS)
        yield f"A socket that has the client's own address {what}: all that comes there is for nobody", t


def own_address_broken():
    t, s = own_address()
    s.pieces(250 * MS, b"\x80", success(CREATE_PERMISSION, 4), padded(A, HI))
    t.event("none")
    t.has(FOURTH, "no", "tcp")
    return "What comes over a socket that has the client's own address is no stream of frames: nothing comes of it", t


def own_address_ended():
    t, s = own_address()
    ends(t)
    s.pieces(250 * MS, success(CREATE_PERMISSION, 4), padded(A, HI), success(CONNECTION_BIND, 5))
    t.event("none")
    t.has(FOURTH, "no", "tcp")
    t.poll(250 * MS, None)
    return "A client has ended that has a socket with its own address: messages there do nothing", t


def unbound_traces():
    yield from (
        *each_refused(), refused_with_more(), *nothing_sent(), refused_in_pieces(), told_more(), *challenged(),
        grant_of_the_one_before(), challenged_twice(), challenge_and_grant(), challenged_late(), many_challenges(),
        *uncounted(), granted_there_first(), challenged_there_first(), passed_by_one_by_one(), *passed_by_in_one(),
        *passed_by_at_random(), grant_of_a_permission(), *broken_stream(), too_long(), own_address_never_bound(),
        own_address_challenged(), *own_address_closed(), own_address_broken(), own_address_ended(),
    )
