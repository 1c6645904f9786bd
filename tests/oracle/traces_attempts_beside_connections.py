"""The traces of attempts of peers beside the client's own connections, before and behind the grant of its allocation,
and over sockets (`docs/TRACE.md`; RFC 6062, section 4.4). `traces_attempt_timing.py` puts them behind those of
`traces_attempts.py`.
"""

from traces_attempts import NOW, UNTIL, attempt, comes, is_refused, refusal, taken
from traces_base import (
    ALLOCATE, DONT_FRAGMENT, HASHED, MS, PASSWORD_ALGORITHM, PASSWORD_ALGORITHMS, RELAYED, SHA1, SHA256, challenge,
    grant, hashed, lifetime, message, number, success,
)
from traces_bound_connections import of_both_families
from traces_bound_connections_base import Socket, joining
from traces_channels import SIX
from traces_connection_sockets import CONNECTION_BIND, ONE, THREE, TWO, bind, closes, draws_from, lists, opens
from traces_connections import AT, CONNECT, NEXT_TO, THIRD, asking, asks, asks_socket, named, permitted, sent, unreached
from traces_payloads import HI
from traces_permissions import DUE
from traces_tcp_base import OVER_TCP, over
from traces_unbound_connections import own_address


# ---- with an allocation, and without


def is_granted_before(t, drawn, text):
    """The grant comes, and behind it in one piece what tells of a connection, for which the client asks for a socket."""
    reply = t.is_handled_once(grant(1))
    line = t.ask(50 * MS, f"@{drawn}", f"allocate {RELAYED} 600", reply)
    t.means[text] = ["handled"]
    t.piece(50 * MS, reply + text, f"@{line}+{text.hex()}")
    t.poll(50 * MS, 50 * MS)
    t.event(f"AllocationCreated tcp {RELAYED}")
    asks_socket(t, 50 * MS, 7, AT)


def before_there_is_one():
    t, text = over("tcp"), attempt(1, 7, AT)
    t.pieces(0, text)
    drawn = t.draw(0, message(ALLOCATE, number(0), [lifetime(1800), OVER_TCP, (DONT_FRAGMENT, b"")]))
    t.pieces(0, text)
    t.comes(0, t.ask(0, f"@{drawn}", "refuse 400", challenge(0)), challenge(0))
    t.pieces(0, text)
    drawn = t.draw(50 * MS, message(ALLOCATE, number(1), [OVER_TCP, lifetime(1800), *HASHED], SHA1))
    t.pieces(50 * MS, text)
    is_granted_before(t, drawn, text)
    return "An attempt comes before the server has allocated, again and again: the one behind the grant counts", t


def of_each_family():
    t, now = of_both_families(), 150 * MS
    comes(t, now, attempt(1, 7, SIX), attempt(2, 8, AT))
    asks_socket(t, now, 8, AT)
    asks_socket(t, now, 7, SIX)
    for k, peer in ((3, SIX), (4, AT)):
        is_refused(t, now, k, 446, attempt(k, 9, peer))
    opens(t, now, 7, SIX, ONE)
    opens(t, now, 8, AT, TWO)
    lists(t, (TWO, AT, 8), (ONE, SIX, 7))
    t.draw(now, taken(1))
    t.draw(now, taken(2))
    draws_from(t, 200 * MS, ONE, bind(4, 7))
    draws_from(t, 250 * MS, TWO, bind(5, 8))
    return "A peer of each family begins a connection: the first allocation's socket is asked for first", t


def by_the_stronger():
    t = over("tcp", algorithms="sha1,sha256", desk="sha1,sha256 auto")
    offered = (PASSWORD_ALGORITHMS, b"\0\1\0\0\0\2\0\0")
    drawn = t.draw(0, message(ALLOCATE, number(0), [lifetime(1800), OVER_TCP, (DONT_FRAGMENT, b"")]))
    first = challenge(0, b"wAAA", [offered])
    t.comes(0, t.ask(0, f"@{drawn}", "refuse 400", first), first)
    chosen = [*hashed(b"wAAA"), offered, (PASSWORD_ALGORITHM, b"\0\2\0\0")]
    drawn = t.draw(50 * MS, message(ALLOCATE, number(1), [OVER_TCP, lifetime(1800), *chosen], SHA256))
    reply = grant(1, SHA256)
    t.comes(50 * MS, t.ask(50 * MS, f"@{drawn}", f"allocate {RELAYED} 600", reply), reply)
    t.event(f"AllocationCreated tcp {RELAYED}")
    t.pieces(50 * MS, attempt(1, 7, AT))
    comes(t, 50 * MS, attempt(1, 7, AT, by=SHA256), attempt(2, 8, AT, by=SHA256), attempt(3, 9, SIX, by=SHA256))
    t.draw(50 * MS, refusal(2, 446, by=SHA256))
    t.draw(50 * MS, refusal(3, 400, by=SHA256))
    asks_socket(t, 50 * MS, 7, AT)
    opens(t, 50 * MS, 7, AT, ONE)
    t.draw(50 * MS, taken(1, by=SHA256))
    draws_from(t, 100 * MS, ONE, message(CONNECTION_BIND, number(2), [named(7), *chosen], SHA256))
    return "Both sides know SHA-256: attempts are signed by it, and their answers", t


# ---- beside other connections


def under_way():
    t = sent()
    comes(t, 150 * MS, attempt(1, 8, AT))
    t.draw(150 * MS, None)
    t.pieces(150 * MS, t.is_handled_once(success(CONNECT, 3, named(7))))
    asks_socket(t, 150 * MS, 8, AT)
    asks_socket(t, 150 * MS, 7, AT)
    opens(t, 150 * MS, 7, AT, TWO)
    t.draw(150 * MS, None)
    opens(t, 150 * MS, 8, AT, ONE)
    lists(t, (TWO, AT, 7), (ONE, AT, 8))
    t.draw(150 * MS, taken(1))
    draws_from(t, 200 * MS, TWO, bind(4, 7))
    draws_from(t, 250 * MS, ONE, bind(5, 8))
    two, one = Socket(t, TWO, AT, 4), Socket(t, ONE, AT, 5)
    one.binds(250 * MS)
    one.sends(250 * MS, HI)
    two.binds(250 * MS)
    two.sends(250 * MS, HI)
    one.piece(250 * MS, HI)
    return "A peer begins a connection while one to it is under way: both are bound, and bytes go by the first", t


def under_way_in_vain():
    t = asking(AT)
    comes(t, NOW, attempt(1, 8, AT))
    unreached(t, 150 * MS, 3, AT)
    t.event(f"TcpConnectFailed {AT}")
    asks(t, 150 * MS, AT, "refused AlreadyExists")
    asks_socket(t, 150 * MS, 8, AT)
    return "The same, and the one that was under way is refused: the peer's own goes on", t


def of_one_number():
    t = sent()
    comes(t, 150 * MS, attempt(1, 7, AT), attempt(2, 7, NEXT_TO))
    t.pieces(150 * MS, t.is_handled_once(success(CONNECT, 3, named(7))))
    for peer in (AT, NEXT_TO, AT):
        asks_socket(t, 150 * MS, 7, peer)
    opens(t, 150 * MS, 7, AT, "none")
    t.draw(150 * MS, refusal(1, 447))
    opens(t, 150 * MS, 7, AT, "none")
    t.poll(150 * MS, DUE)
    opens(t, 150 * MS, 7, AT, "none", "refused NoAllocation")
    opens(t, 150 * MS, 7, NEXT_TO, ONE)
    t.draw(150 * MS, taken(2))
    return "Connections of one number, two of them to one peer: the first one is told, and the server of that", t


def three_begun():
    t, peers = permitted(), (AT, NEXT_TO, THIRD)
    comes(t, NOW, *(attempt(1 + i, 7 + i, it) for i, it in enumerate(peers)))
    for i, it in enumerate(peers):
        asks_socket(t, NOW, 7 + i, it)
    opens(t, NOW, 9, THIRD, THREE)
    opens(t, NOW, 8, NEXT_TO, "none")
    opens(t, NOW, 7, AT, THREE, "refused AlreadyExists")
    opens(t, NOW, 7, AT, ONE)
    lists(t, (THREE, THIRD, 9), (ONE, AT, 7))
    for it in (taken(3), refusal(2, 447), taken(1), None):
        t.draw(NOW, it)
    t.poll(NOW, 150 * MS)
    draws_from(t, 150 * MS, THREE, bind(3, 9))
    draws_from(t, 200 * MS, ONE, bind(4, 7))
    return "Peers begin three connections: one socket isn't opened, and one has another's address at first", t


def told_unasked():
    t = permitted()
    comes(t, NOW, attempt(1, 7, AT), attempt(2, 8, NEXT_TO), attempt(3, 9, THIRD))
    opens(t, 150 * MS, 7, AT, ONE)
    t.draw(150 * MS, taken(1))
    t.draw(150 * MS, None)
    asks_socket(t, 150 * MS, 8, NEXT_TO)
    asks_socket(t, 150 * MS, 9, THIRD)
    t.poll(150 * MS, 200 * MS)
    draws_from(t, 200 * MS, ONE, bind(3, 7))
    return "The socket of the first of three attempts is told before it is asked for: the others' are asked for", t


def never_bound():
    t = permitted()
    comes(t, NOW, attempt(1, 7, AT))
    opens(t, NOW, 7, AT, ONE)
    t.draw(NOW, taken(1))
    draws_from(t, 150 * MS, ONE, bind(3, 7))
    t.poll(UNTIL - 1, UNTIL)
    closes(t, UNTIL, ONE)
    t.event(f"TcpConnectFailed {AT}")
    comes(t, UNTIL, attempt(2, 8, AT))
    asks_socket(t, UNTIL, 8, AT)
    return "A connection that a peer began is never bound: it fails, and the peer begins another one", t


def over_a_socket():
    (t, s), now, text = joining(), 200 * MS, attempt(1, 8, NEXT_TO)
    s.pieces(now, text, text[:30], text[30:])
    t.poll(now, UNTIL + 50 * MS)
    t.draw(now, None)
    comes(t, now, text)
    asks_socket(t, now, 8, NEXT_TO)
    s.binds(now, attempt(2, 9, THIRD))
    t.recv(now)
    s.piece(now, attempt(2, 9, THIRD))
    t.poll(now, DUE)
    return "Attempts come over a connection's socket: before it is bound they are passed over, then they are bytes", t


def over_its_own_address():
    (t, s), now = own_address(), 250 * MS
    s.pieces(now, attempt(1, 8, NEXT_TO), attempt(2, 9, AT))
    t.draw(now, refusal(2, 446))
    asks_socket(t, now, 8, NEXT_TO)
    opens(t, now, 8, NEXT_TO, TWO)
    t.draw(now, taken(1))
    return "A socket has the client's own address, and attempts come over it: they count as on the client's own", t


def beside_traces():
    yield from (
        before_there_is_one(), of_each_family(), by_the_stronger(), under_way(), under_way_in_vain(), of_one_number(),
        three_begun(), told_unasked(), never_bound(), over_a_socket(), over_its_own_address(),
    )
