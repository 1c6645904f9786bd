"""The traces of a client with a limit on connections of peers (`docs/TRACE.md`: `attempts N`; RFC 6062, section 4.4).

While as many connections as the limit says wait for their socket, whoever began them, the next one of a peer gets 447,
Connection Timeout or Failure. One that has its socket counts no longer. While as many messages as the limit says wait
to be drawn, an attempt that would get an error is not answered. What else an attempt is answered is as ever:
`traces_attempts.py`.
"""

from traces_attempts import NOW, asked, attempt, comes, is_refused, refusal, taken, to
from traces_base import MS
from traces_bound_connections_base import Socket
from traces_channels import SIX
from traces_connection_sockets import ONE, bind, draws_from, opens
from traces_connections import AT, NEXT_TO, THIRD, asking, asks_socket, connected, permitted
from traces_permissions import DUE, PEER_3

FOURTH = f"{PEER_3}:9003"


def two_wait():
    t, later = permitted(attempts=2), 150 * MS
    comes(t, NOW, attempt(1, 7, AT), attempt(2, 8, NEXT_TO))
    is_refused(t, NOW, 3, 447, attempt(3, 9, THIRD))
    # whatever has another cause gets the error of that
    is_refused(t, NOW, 4, 446, attempt(4, 9, AT))
    is_refused(t, NOW, 5, 400, asked(5, to(THIRD, 5)))
    is_refused(t, NOW, 6, 400, attempt(6, 9, SIX))
    asks_socket(t, NOW, 7, AT)
    is_refused(t, NOW, 7, 447, attempt(7, 9, THIRD))
    asks_socket(t, NOW, 8, NEXT_TO)
    t.poll(NOW, DUE)
    opens(t, NOW, 7, AT, ONE)
    t.draw(NOW, taken(1))
    draws_from(t, later, ONE, bind(3, 7))
    comes(t, later, attempt(8, 9, THIRD))
    asks_socket(t, later, 9, THIRD)
    is_refused(t, later, 9, 447, attempt(9, 10, FOURTH))
    Socket(t, ONE, AT, 3).binds(later)
    is_refused(t, later, 10, 447, attempt(10, 10, FOURTH))
    opens(t, later, 9, THIRD, "none")
    t.draw(later, refusal(8, 447))
    comes(t, later, attempt(11, 10, FOURTH))
    asks_socket(t, later, 10, FOURTH)
    return "A limit of two: two connections of peers wait, the third gets 447, a fourth waits once one has a socket", t


def own_count():
    t, later = asking(AT, attempts=1), 150 * MS
    connected(t, later, 3, AT, 7)
    is_refused(t, later, 1, 447, attempt(1, 8, NEXT_TO))
    asks_socket(t, later, 7, AT)
    is_refused(t, later, 2, 447, attempt(2, 8, NEXT_TO))
    opens(t, later, 7, AT, ONE)
    draws_from(t, 200 * MS, ONE, bind(4, 7))
    comes(t, 200 * MS, attempt(3, 8, NEXT_TO))
    asks_socket(t, 200 * MS, 8, NEXT_TO)
    return "A limit of one: a connection that the client requested waits, and a peer's gets 447", t


def queue_is_full():
    t = permitted(attempts=2)
    comes(t, NOW, attempt(1, 7, AT), attempt(2, 8, NEXT_TO))
    comes(t, NOW, attempt(3, 9, THIRD), attempt(4, 9, AT), attempt(5, 9, THIRD), asked(6), attempt(7, 9, AT))
    for k, value in ((3, 447), (4, 446)):
        t.poll(NOW, NOW)
        t.draw(NOW, refusal(k, value))
    t.draw(NOW, None)
    asks_socket(t, NOW, 7, AT)
    asks_socket(t, NOW, 8, NEXT_TO)
    is_refused(t, NOW, 5, 447, attempt(5, 9, THIRD))
    is_refused(t, NOW, 6, 400, asked(6))
    is_refused(t, NOW, 7, 446, attempt(7, 9, AT))
    t.poll(NOW, DUE)
    return "A limit of two: two errors wait, further attempts aren't answered, and they are when they come again", t


def queue_is_full_and_one_is_taken():
    t = permitted(attempts=2)
    comes(t, NOW, asked(1), attempt(2, 7, SIX), asked(3), attempt(4, 7, AT), asked(5), attempt(6, 8, NEXT_TO))
    for k in (1, 2):
        t.poll(NOW, NOW)
        t.draw(NOW, refusal(k, 400))
    t.draw(NOW, None)
    asks_socket(t, NOW, 7, AT)
    asks_socket(t, NOW, 8, NEXT_TO)
    t.poll(NOW, DUE)
    return "A limit of two: two errors wait, and connections of peers are taken all the same", t


def of_none():
    t = permitted(attempts=0)
    comes(t, NOW, attempt(1, 7, AT), asked(2), attempt(3, 7, SIX))
    t.poll(NOW, DUE)
    t.draw(NOW, None)
    return "A limit of none: no attempt is taken or answered", t


def hundred(**how):
    t = permitted(**how)
    peers = [f"{PEER_3}:{9000 + k}" for k in range(1, 101)]
    comes(t, NOW, *(attempt(k, k, peer) for k, peer in enumerate(peers, 1)))
    for k, peer in enumerate(peers, 1):
        asks_socket(t, NOW, k, peer)
    t.poll(NOW, DUE)
    return t


def limited_traces():
    yield from (two_wait(), own_count(), queue_is_full(), queue_is_full_and_one_is_taken(), of_none())
    yield "Without a limit a hundred connections of peers wait", hundred()
    yield "With the greatest limit a hundred connections of peers wait", hundred(attempts=2**32 - 1)
    yield "A hardened client with a limit of a hundred: as many wait", hundred(attempts=100, hardened=True)
