"""The traces of connections that peers open and an indication announces (`docs/TRACE.md`: `indications`; RFC 6062,
sections 4.4 and 5.4). `traces_attempts.py` has those that a signed request announces. `traces.py` puts these behind
those of a limit.

An indication has no signature, and gets no response: not when its connection gets a socket, and not when it doesn't.
A client without the word `indications` ignores it. One with it, whose allocation is over TCP, handles it, and either
waits for the socket of the new connection, or changes nothing.
"""

from traces_attempt_limits import FOURTH
from traces_attempts import (
    CONNECTION_ATTEMPT, NOW, UNTIL, asked, attempt, comes, goes_on, is_refused, malformed, own, taken, to,
    waits_and_opens,
)
from traces_attempts_beside_connections import is_granted_before
from traces_base import (
    ALLOCATE, BINDING, CHANNEL_BIND, CREATE_PERMISSION, DONT_FRAGMENT, ERROR, HASHED, INDICATION, MS, NAMED, REFRESH,
    RELAYED, SECOND, SHA1, SHA256, SUCCESS, Trace, challenge, code, error, grant, lifetime, message, number, refresh,
    setup, success, unsigned,
)
from traces_bound_connections import of_both_families
from traces_bound_connections_base import Socket
from traces_channels import SIX
from traces_connection_sockets import CONNECTION_BIND, ONE, TWO, bind, closes, draws_from, lists, opens
from traces_connections import (
    AT, CONNECT, CONNECTION_ID, NEXT_TO, OVER, THIRD, asking, asks, asks_socket, connected, named, permitted,
)
from traces_payloads import HI, SOFTWARE, fingerprinted, not_sent
from traces_permissions import DUE, NAMED_ANEW, OTHER_NONCE, PEER_3
from traces_tcp import of_tcp
from traces_tcp_base import GARBLED, LONGEST, OVER_TCP, over

ANNOUNCES = CONNECTION_ATTEMPT | INDICATION
# how many wait for their socket without a limit
MOST = 64


def told(k, *attributes):
    """An indication of the server's with its kth number."""
    return message(ANNOUNCES, own(k), attributes)


def announced(k, connection, peer, *more):
    return told(k, named(connection), to(peer, k), *more)


def accepting(**how):
    """A client that accepts indications, with an allocation over TCP and a permission, granted at 100 ms."""
    return permitted(indications=True, **how)


def changes_nothing(t, now, until, *texts):
    """These are handled, and there is nothing to do for them."""
    comes(t, now, *texts)
    t.poll(now, until)
    t.draw(now, None)


def is_accepted(t, now, k, connection, peer):
    """Its socket is asked for."""
    comes(t, now, announced(k, connection, peer))
    asks_socket(t, now, connection, peer)


def never_counts(t, now, k, peer):
    """One to this peer is passed by."""
    t.pieces(now, announced(k, k, peer))


# ---- accepted


def carried():
    t = accepting()
    waits_and_opens(t, announced(1, 7, AT))
    # no response is due: the CONNECTION_BIND is the next message, 50 ms behind the one before
    t.poll(NOW, 150 * MS)
    t.draw(150 * MS - 1, None)
    draws_from(t, 150 * MS, ONE, bind(3, 7))
    t.draw(150 * MS, None)
    t.poll(150 * MS, UNTIL)
    goes_on(t, 150 * MS, Socket(t, ONE, AT, 3), AT)
    return "An indication announces a connection: a socket is asked for, no response goes out, bytes go both ways", t


def of_ipv6():
    t, now = of_both_families(indications=True), 150 * MS
    is_accepted(t, now, 1, 7, SIX)
    changes_nothing(t, now, DUE, announced(2, 8, SIX))
    opens(t, now, 7, SIX, ONE)
    draws_from(t, 200 * MS, ONE, bind(4, 7))
    goes_on(t, 200 * MS, Socket(t, ONE, SIX, 4), SIX)
    return "An indication announces a connection of an IPv6 peer: it is bound, and bytes go both ways", t


def of_each_family():
    t, now = of_both_families(indications=True), 150 * MS
    comes(t, now, announced(1, 7, SIX), announced(2, 8, AT))
    asks_socket(t, now, 8, AT)
    asks_socket(t, now, 7, SIX)
    opens(t, now, 7, SIX, ONE)
    opens(t, now, 8, AT, TWO)
    lists(t, (TWO, AT, 8), (ONE, SIX, 7))
    t.poll(now, 200 * MS)
    draws_from(t, 200 * MS, ONE, bind(4, 7))
    draws_from(t, 250 * MS, TWO, bind(5, 8))
    return "Indications announce a peer of each family: the first allocation's socket is asked for first", t


def challenged():
    t = accepting()
    is_accepted(t, NOW, 1, 7, AT)
    opens(t, NOW, 7, AT, ONE)
    draws_from(t, 150 * MS, ONE, bind(3, 7))
    s = Socket(t, ONE, AT, 3)
    s.piece(150 * MS, s.challenge(4))
    t.poll(150 * MS, 200 * MS)
    draws_from(t, 200 * MS, ONE, bind(4, 7, NAMED_ANEW))
    s.binds(200 * MS, HI)
    t.recv(200 * MS)
    assert OTHER_NONCE[0] == code(438)
    return "The CONNECTION_BIND of an announced connection is challenged, and made anew: it is bound", t


def without_permission():
    t = of_tcp(indications=True)
    comes(t, 50 * MS, announced(1, 2**32 - 1, AT), announced(2, 0, NEXT_TO))
    asks_socket(t, 50 * MS, 2**32 - 1, AT)
    asks_socket(t, 50 * MS, 0, NEXT_TO)
    opens(t, 50 * MS, 2**32 - 1, AT, ONE)
    draws_from(t, 100 * MS, ONE, bind(2, 2**32 - 1))
    Socket(t, ONE, AT, 2).binds(100 * MS, HI)
    t.recv(100 * MS)
    not_sent(t, 100 * MS, AT, "NoPermission", transport="tcp")
    return "An indication announces a peer without a permission: it is bound, and nothing goes to the peer", t


def told_more():
    t = accepting()
    more = [(SOFTWARE, b"soft"), (0x7777, b"unknown"), named(8), to(NEXT_TO, 1), (CONNECTION_ID, b"\0")]
    comes(t, NOW, announced(1, 7, AT, *more))
    asks_socket(t, NOW, 7, AT)
    marked, wrong = (fingerprinted(announced(2, 8, NEXT_TO), wrong=it) for it in (0, 1))
    t.means[wrong] = [GARBLED]
    t.pieces(NOW, wrong)
    t.poll(NOW, DUE)
    comes(t, NOW, marked)
    asks_socket(t, NOW, 8, NEXT_TO)
    # the peer stands before the number
    comes(t, NOW, told(3, to(THIRD, 3), named(9)))
    asks_socket(t, NOW, 9, THIRD)
    return "Indications say more than they have to: of two numbers and two peers the first count", t


def signed():
    """Nobody can sign an indication (RFC 8489, section 9.2): a signature says nothing."""
    t, whole = accepting(), asked(1, named(7), to(AT, 1), kind=ANNOUNCES)
    comes(t, NOW, whole)
    asks_socket(t, NOW, 7, AT)
    comes(t, NOW, asked(2, named(8), to(NEXT_TO, 2), kind=ANNOUNCES, realm=b"other"))
    asks_socket(t, NOW, 8, NEXT_TO)
    comes(t, NOW, asked(3, named(9), to(THIRD, 3), kind=ANNOUNCES, by=SHA256))
    asks_socket(t, NOW, 9, THIRD)
    return "Indications that are signed, in whatever way, announce connections as well", t


def cut():
    text, other = announced(1, 7, AT), announced(2, 8, NEXT_TO)
    for what, pieces in (
        ("byte by byte", [bytes([it]) for it in text]),
        ("in two pieces", [text[:30], text[30:]]),
        ("behind a grant that isn't awaited, in one piece", [success(CREATE_PERMISSION, 9) + text]),
    ):
        t = accepting()
        t.means[text] = ["handled"]
        t.pieces(NOW, *pieces)
        asks_socket(t, NOW, 7, AT)
        t.poll(NOW, DUE)
        yield f"An indication that announces a connection comes {what}", t
    t = accepting()
    t.means[text] = t.means[other] = ["handled"]
    t.pieces(NOW, text + other)
    asks_socket(t, NOW, 7, AT)
    asks_socket(t, NOW, 8, NEXT_TO)
    t.poll(NOW, DUE)
    yield "Two indications that announce connections come in one piece", t


def hardened():
    t = accepting(hardened=True, attempts=2)
    is_accepted(t, NOW, 1, 7, AT)
    opens(t, NOW, 7, AT, ONE)
    draws_from(t, 150 * MS, ONE, bind(3, 7))
    goes_on(t, 150 * MS, Socket(t, ONE, AT, 3), AT)
    return "A hardened client with all words accepts indications: a connection is bound", t


# ---- passed by


def off():
    for what, how in (
        ("not set to accept them", {}), ("hardened", {"hardened": True}), ("with a limit", {"attempts": 9}),
        ("whose allocation may be shortened", {"short": True}),
    ):
        t = permitted(**how)
        for k, peer in enumerate((AT, NEXT_TO), 1):
            never_counts(t, NOW, k, peer)
        t.poll(NOW, DUE)
        t.draw(NOW, None)
        comes(t, NOW, attempt(3, 7, AT))
        asks_socket(t, NOW, 7, AT)
        yield f"Indications announce connections to a client that is {what}: only a signed request counts", t


def over_udp():
    t = over(indications=True)
    t.held()
    never_counts(t, 50 * MS, 1, AT)
    t.poll(50 * MS, 540 * SECOND + 50 * MS)
    t.draw(50 * MS, None)
    yield "An allocation over UDP, of a client over TCP that accepts indications: none counts", t
    t = Trace(setup(indications=True))
    t.held()
    t.hear(50 * MS, announced(1, 7, AT), "ignored")
    t.poll(50 * MS, 540 * SECOND + 50 * MS)
    t.draw(50 * MS, None)
    yield "A client over UDP that accepts indications: none counts", t


def each_malformed():
    for what, attributes in malformed():
        t = accepting()
        changes_nothing(t, NOW, DUE, told(1, *attributes))
        t.event("none")
        is_accepted(t, NOW, 2, 7, AT)
        t.poll(NOW, DUE)
        yield f"An indication of a connection {what} changes nothing", t


def behind_the_signature():
    t, whole = accepting(), asked(1, named(7), kind=ANNOUNCES)
    _, value = to(AT, 1)
    changes_nothing(t, NOW, DUE, whole[:3] + bytes([whole[3] + 12]) + whole[4:] + b"\0\x12\0\x08" + value)
    return "The peer of an indication stands behind a signature: it changes nothing", t


def others():
    """What is no indication of CONNECTION_ATTEMPT, with the number and the peer of a connection."""
    attributes = [named(7), to(AT, 1)]
    for it in (0, SUCCESS, ERROR):
        yield message(CONNECTION_ATTEMPT | it, own(1), attributes)
    for it in (BINDING, ALLOCATE, REFRESH, CREATE_PERMISSION, CHANNEL_BIND, CONNECT, CONNECTION_BIND, 0x00D):
        yield message(it | INDICATION, own(1), attributes)


def passed_by():
    t = accepting()
    t.pieces(NOW, *others())
    t.poll(NOW, DUE)
    t.draw(NOW, None)
    is_accepted(t, NOW, 1, 7, AT)
    return "Other indications, and requests and responses without a signature, announce nothing", t


def of_strangers():
    t, text = accepting(), announced(1, 7, AT)
    t.hear(NOW, text, "ignored", source="10.0.0.9:2000")
    t.hear(NOW, text, "ignored", to="192.168.0.9:1000")
    t.poll(NOW, DUE)
    return "An indication from another address than the server's, and one to another address: neither counts", t


def before_there_is_one():
    t = over("tcp", indications=True)
    never_counts(t, 0, 1, AT)
    drawn = t.draw(0, message(ALLOCATE, number(0), [lifetime(1800), OVER_TCP, (DONT_FRAGMENT, b"")]))
    never_counts(t, 0, 2, AT)
    t.comes(0, t.ask(0, f"@{drawn}", "refuse 400", challenge(0)), challenge(0))
    never_counts(t, 0, 3, AT)
    drawn = t.draw(50 * MS, message(ALLOCATE, number(1), [OVER_TCP, lifetime(1800), *HASHED], SHA1))
    never_counts(t, 50 * MS, 4, AT)
    t.poll(50 * MS, LONGEST)
    is_granted_before(t, drawn, announced(5, 7, AT))
    return "Indications come before the server has allocated: the one behind the grant counts", t


def over_a_socket():
    t, now, text = asking(AT, indications=True), 200 * MS, announced(1, 8, NEXT_TO)
    connected(t, 150 * MS, 3, AT, 7)
    asks_socket(t, 150 * MS, 7, AT)
    opens(t, 150 * MS, 7, AT, ONE)
    draws_from(t, now, ONE, bind(4, 7))
    s = Socket(t, ONE, AT, 4)
    s.pieces(now, text, text[:30], text[30:])
    t.poll(now, UNTIL + 50 * MS)
    t.draw(now, None)
    s.binds(now, text)
    t.recv(now)
    s.piece(now, text)
    t.poll(now, DUE)
    return "Indications come over a connection's socket: before it is bound they are passed over, then they are bytes", t


# ---- beside other connections


def one_a_peer():
    t, later = accepting(), 150 * MS
    is_accepted(t, NOW, 1, 7, AT)
    changes_nothing(t, NOW, DUE, announced(1, 7, AT), announced(2, 8, AT))
    opens(t, NOW, 7, AT, ONE)
    comes(t, NOW, announced(3, 8, AT))
    draws_from(t, later, ONE, bind(3, 7))
    changes_nothing(t, later, UNTIL, announced(4, 8, AT))
    s = Socket(t, ONE, AT, 3)
    s.binds(later)
    changes_nothing(t, later, DUE, announced(5, 8, AT))
    lists(t, (ONE, AT, 7, "bound"))
    is_accepted(t, later, 6, 7, NEXT_TO)
    s.is_closed(later)
    is_accepted(t, later, 7, 8, AT)
    return "Indications announce one peer again, while its connection waits, has a socket and is bound: it has one", t


def beside_its_own():
    t, later = asking(AT, indications=True), 150 * MS
    connected(t, later, 3, AT, 7)
    changes_nothing_but_asks(t, later)
    opens(t, later, 7, AT, ONE)
    comes(t, later, announced(2, 8, AT))
    draws_from(t, 200 * MS, ONE, bind(4, 7))
    Socket(t, ONE, AT, 4).binds(200 * MS)
    changes_nothing(t, 200 * MS, DUE, announced(3, 8, AT))
    return "Indications announce a peer to whom the client has a connection, granted or bound: they change nothing", t


def changes_nothing_but_asks(t, now):
    """The socket of the client's own connection is asked for, and no other."""
    comes(t, now, announced(1, 8, AT))
    t.draw(now, None)
    asks_socket(t, now, 7, AT)
    t.poll(now, DUE)


def beside_requests():
    t = accepting()
    is_accepted(t, NOW, 1, 7, AT)
    is_refused(t, NOW, 2, 446, attempt(2, 8, AT))
    comes(t, NOW, attempt(3, 7, NEXT_TO))
    asks_socket(t, NOW, 7, NEXT_TO)
    changes_nothing(t, NOW, DUE, announced(4, 9, NEXT_TO))
    opens(t, NOW, 7, AT, ONE)
    t.draw(NOW, None)
    opens(t, NOW, 7, NEXT_TO, TWO)
    t.draw(NOW, taken(3))
    t.draw(NOW, None)
    draws_from(t, 150 * MS, ONE, bind(3, 7))
    draws_from(t, 200 * MS, TWO, bind(4, 7))
    return "An indication and a request announce a connection each, of one number: the request alone gets a response", t


# ---- limits


def of_one():
    t, later = accepting(attempts=1), 150 * MS
    is_accepted(t, NOW, 1, 7, AT)
    changes_nothing(t, NOW, DUE, announced(2, 8, NEXT_TO))
    is_refused(t, NOW, 3, 447, attempt(3, 8, NEXT_TO))
    opens(t, NOW, 7, AT, ONE)
    draws_from(t, later, ONE, bind(3, 7))
    is_accepted(t, later, 4, 8, NEXT_TO)
    changes_nothing(t, later, UNTIL, announced(5, 9, THIRD))
    opens(t, later, 8, NEXT_TO, "none")
    is_accepted(t, later, 6, 9, THIRD)
    return "A limit of one, and two peers: one connection waits, another once that has its socket or gets none", t


def own_counts():
    t, later = asking(AT, indications=True, attempts=1), 150 * MS
    connected(t, later, 3, AT, 7)
    comes(t, later, announced(1, 8, NEXT_TO))
    asks_socket(t, later, 7, AT)
    changes_nothing(t, later, DUE, announced(2, 8, NEXT_TO))
    opens(t, later, 7, AT, ONE)
    draws_from(t, 200 * MS, ONE, bind(4, 7))
    is_accepted(t, 200 * MS, 3, 8, NEXT_TO)
    return "A limit of one: a connection that the client requested waits, and an indication changes nothing", t


def of_none():
    t = accepting(attempts=0)
    changes_nothing(t, NOW, DUE, announced(1, 7, AT))
    return "A limit of none: an indication changes nothing", t


def several(count, **how):
    """So many are announced. The client that waits for sockets of all that it accepts."""
    t = accepting(**how)
    peers = [f"{PEER_3}:{9000 + k}" for k in range(1, count + 1)]
    comes(t, NOW, *(announced(k, k, peer) for k, peer in enumerate(peers, 1)))
    return t, peers


def without_limit():
    t, peers = several(MOST + 1)
    for k, peer in enumerate(peers[:MOST], 1):
        asks_socket(t, NOW, k, peer)
    t.poll(NOW, DUE)
    changes_nothing(t, NOW, DUE, announced(66, 66, peers[MOST]))
    # a request isn't held to that number
    comes(t, NOW, attempt(67, 67, FOURTH.replace("9003", "8000")))
    asks_socket(t, NOW, 67, FOURTH.replace("9003", "8000"))
    for k in (1, 2):
        opens(t, NOW, k, peers[k - 1], "none")
    is_accepted(t, NOW, 68, 65, peers[MOST])
    changes_nothing(t, NOW, DUE, announced(69, 69, f"{PEER_3}:8001"))
    return "Indications announce 65 peers, without a limit: 64 wait, and the last once there is room", t


def with_greater_limit():
    t, peers = several(100, attempts=99)
    for k, peer in enumerate(peers[:99], 1):
        asks_socket(t, NOW, k, peer)
    t.poll(NOW, DUE)
    return "Indications announce a hundred peers, with a limit of 99: as many wait", t


# ---- ends


def without_socket():
    t, text = accepting(), announced(1, 7, AT)
    is_accepted(t, NOW, 1, 7, AT)
    opens(t, NOW, 7, AT, "none")
    t.poll(NOW, DUE)
    t.draw(NOW, None)
    t.event("none")
    lists(t)
    opens(t, NOW, 7, AT, ONE, "refused NoAllocation")
    comes(t, NOW, text)
    asks_socket(t, NOW, 7, AT)
    return "No socket is opened for an announced connection: the server isn't told, and it may be announced again", t


def rejected():
    for what, reply in (
        ("rejected", error(CONNECTION_BIND, 3, code(447, b"Connection Timeout or Failure"))),
        ("rejected without a signature", unsigned(CONNECTION_BIND | ERROR, 3, [code(400, b"Bad Request")])),
        ("granted without a signature", unsigned(CONNECTION_BIND | SUCCESS, 3, [])),
        ("granted in another realm", message(CONNECTION_BIND | SUCCESS, number(3), [], SHA1, b"other")),
    ):
        t = accepting()
        is_accepted(t, NOW, 1, 7, AT)
        opens(t, NOW, 7, AT, ONE)
        draws_from(t, 150 * MS, ONE, bind(3, 7))
        s = Socket(t, ONE, AT, 3)
        s.piece(150 * MS, reply)
        lists(t)
        t.poll(150 * MS, 150 * MS)
        s.has_failed(150 * MS)
        t.draw(200 * MS, None)
        is_accepted(t, 200 * MS, 2, 8, AT)
        yield f"The CONNECTION_BIND of an announced connection is {what}: it fails, and may be announced again", t


def never_bound():
    t = accepting()
    is_accepted(t, NOW, 1, 7, AT)
    opens(t, NOW, 7, AT, ONE)
    draws_from(t, 150 * MS, ONE, bind(3, 7))
    t.poll(UNTIL - 1, UNTIL)
    closes(t, UNTIL, ONE)
    t.event(f"TcpConnectFailed {AT}")
    is_accepted(t, UNTIL, 2, 8, AT)
    return "An announced connection is never bound: it fails, and may be announced again", t


def ended():
    t = accepting()
    comes(t, NOW, announced(1, 8, AT))
    t.say("error", "ok")
    t.poll(NOW, NOW)
    t.event("AllocationCreateFailed 4")
    t.poll(NOW, None)
    t.means = {}
    never_counts(t, NOW, 2, NEXT_TO)
    opens(t, NOW, 8, AT, ONE, "refused NoAllocation")
    opens(t, NOW, 8, AT, "none", "refused NoAllocation")
    t.draw(150 * MS, None)
    t.poll(150 * MS, None)
    return "A client ends while an announced connection waits for its socket: nothing counts any more", t


def deleted():
    t = accepting()
    t.say(f"delete {NOW}", "ok")
    is_accepted(t, NOW, 1, 7, AT)
    t.draw(150 * MS, refresh(3, 0, HASHED))
    t.pieces(150 * MS, t.is_handled_once(success(REFRESH, 3, lifetime(0))))
    t.poll(150 * MS, None)
    never_counts(t, 150 * MS, 2, NEXT_TO)
    opens(t, 150 * MS, 7, AT, ONE, "refused NoAllocation")
    t.poll(150 * MS, None)
    t.draw(200 * MS, None)
    return "The end is requested: indications count until the allocation has gone, and then no longer", t


def expired():
    t = accepting()
    t.poll(OVER, None)
    t.event("none")
    comes(t, OVER, announced(1, 7, AT))
    t.poll(OVER, None)
    opens(t, OVER, 7, AT, ONE, "refused NoAllocation")
    return "An allocation's time is over: an indication changes nothing", t


def announced_traces():
    yield from (
        carried(), of_ipv6(), of_each_family(), challenged(), without_permission(), told_more(), signed(), *cut(),
        hardened(), *off(), *over_udp(), *each_malformed(), behind_the_signature(), passed_by(), of_strangers(),
        before_there_is_one(), over_a_socket(), one_a_peer(), beside_its_own(), beside_requests(), of_one(),
        own_counts(), of_none(), without_limit(), with_greater_limit(), without_socket(), *rejected(), never_bound(),
        ended(), deleted(), expired(),
    )


def bad_words():
    """A remark, and words behind a client's seed that are no options of it."""
    for remark, words in (
        ("spelled otherwise", "Indications"), ("with a letter less", "indication"),
        ("twice", "indications indications"), ("and a word behind it", "indications 1"),
        ("behind the word that hardens it", "hardened indications"), ("behind the word of short", "short indications"),
        ("behind the words of its limit", "attempts 1 indications"),
        ("between the words of its limit", "attempts indications 1"),
        ("and the word of its limit alone", "indications attempts"),
        ("and two other words in another order", "indications short hardened"),
    ):
        yield f"A client that accepts indications, with that word {remark}", words


def good_words():
    """All of a client's words in their order, each of them or not: such a client draws its first ALLOCATE."""
    for hard in (False, True):
        for short in (False, True):
            for attempts in (None, 7):
                t = Trace(setup(indications=True, hardened=hard, short=short, attempts=attempts))
                words = t.lines.split(" pass 0 ")[1].strip()
                t.poll(0, 0)
                yield f"A client with the words {words}", t
