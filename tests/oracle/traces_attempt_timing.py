"""When the client's answers to attempts of peers go out, and how attempts end (`docs/TRACE.md`; RFC 6062, section 4.4).
`traces_attempts.py` has what an attempt is answered.

Requests of the client's keep 50 ms apart, and an answer needn't: while the client rests from what it drew last, the
first answer is drawn before the requests that wait. Else what waits is drawn in its order, and the client rests behind
it, an answer or not. While an answer waits, `poll` tells nothing but that.
"""

from traces_attempts import NOW, UNTIL, answered_traces, asked, attempt, comes, is_refused, refusal, taken
from traces_attempts_beside_connections import beside_traces
from traces_base import (
    CREATE_PERMISSION, ERROR, HASHED, MS, NONCE, PEER, REALM, REFRESH, SHA1, USERNAME, Trace, code,
    create_permission, lifetime, message, number, refresh, setup, success, unsigned, xored,
)
from traces_channels import SIX
from traces_connection_sockets import CONNECTION_BIND, ONE, bind, draws_from, lists, opens
from traces_connections import (
    AT, CONNECT, NEXT_TO, OVER, THIRD, asking, asks, asks_socket, connect, decided, named, permitted, sent,
)
from traces_permissions import DUE, PEER_1, PEER_3, RENEWAL
from traces_unbound_connections import nine_before, tenth_ends


# ---- when answers go out


def two_in_a_row():
    t = permitted()
    comes(t, NOW, attempt(1, 7, SIX), asked(2), attempt(3, 8, AT))
    for k in (1, 2):
        t.poll(NOW, NOW)
        t.draw(NOW, refusal(k, 400))
    t.draw(NOW, None)
    asks_socket(t, NOW, 8, AT)
    return "Two attempts are refused in a row: both answers go at once, and then a third one's socket is asked for", t


def behind_a_request():
    t = asking(AT)
    comes(t, NOW, asked(1), asked(2))
    t.draw(150 * MS - 1, refusal(1, 400))
    t.poll(150 * MS - 1, 150 * MS - 1)
    t.draw(150 * MS, connect(3, AT))
    t.poll(150 * MS, 150 * MS)
    t.draw(150 * MS, refusal(2, 400))
    t.draw(150 * MS, None)
    return "Answers wait behind a request: while the client rests they go before it, and else behind it", t


def before_a_request():
    t = permitted()
    comes(t, NOW, asked(1), asked(2))
    asks(t, NOW, AT)
    t.draw(150 * MS, refusal(1, 400))
    t.draw(150 * MS, refusal(2, 400))
    t.draw(150 * MS, None)
    t.poll(150 * MS, 200 * MS)
    t.draw(200 * MS - 1, None)
    t.draw(200 * MS, connect(3, AT))
    return "Answers wait before a request, and the client has rested: it rests behind the first one anew", t


def before_a_renewal():
    t = permitted()
    comes(t, DUE, asked(1))
    t.poll(DUE, DUE)
    t.draw(DUE, refusal(1, 400))
    t.draw(DUE, None)
    t.poll(DUE, DUE + 50 * MS)
    decided(t, DUE + 50 * MS, create_permission(3, PEER_3), "grant", success(CREATE_PERMISSION, 3))
    comes(t, RENEWAL, asked(2))
    t.draw(RENEWAL, refusal(2, 400))
    decided(t, RENEWAL + 50 * MS, refresh(4, 1800, HASHED), "refresh 600", success(REFRESH, 4, lifetime(600)))
    is_refused(t, RENEWAL + 50 * MS, 3, 400, asked(3))
    return "Answers wait when a permission and an allocation are to be renewed: they go before, and behind", t


def before_what_ends():
    t = sent()
    comes(t, UNTIL, attempt(1, 7, NEXT_TO), asked(2))
    t.poll(UNTIL, UNTIL)
    t.event("none")
    t.draw(UNTIL, refusal(2, 400))
    asks_socket(t, UNTIL, 7, NEXT_TO)
    t.event("none")
    asks(t, UNTIL, AT, "refused AlreadyExists")
    t.poll(UNTIL, DUE)
    return "A CONNECT is given up while an answer waits and a socket is to be asked for: nothing is told of its end", t


def before_what_is_told():
    t = sent()
    comes(t, UNTIL, asked(1))
    t.poll(UNTIL, UNTIL)
    t.event("none")
    t.draw(UNTIL, refusal(1, 400))
    t.poll(UNTIL, UNTIL)
    t.event(f"TcpConnectFailed {AT}")
    t.poll(UNTIL, DUE)
    return "A CONNECT is given up while an answer waits: that is told behind the answer", t


# ---- a client over UDP


def without_sockets():
    t, now = Trace(setup()), 50 * MS
    t.held()
    t.hear(now, attempt(1, 7, AT), "ignored", source="10.0.0.3:2000")
    t.hear(now, attempt(1, 7, AT))
    asks_socket(t, now, 7, AT)
    t.poll(now, RENEWAL)
    for local in (ONE, "none"):
        opens(t, now, 7, AT, local, "refused NoAllocation")
    lists(t)
    t.hear(now, attempt(2, 8, AT))
    t.hear(now, attempt(3, 9, SIX))
    t.hear(now, attempt(4, 10, NEXT_TO))
    t.poll(now, now)
    t.draw(now, refusal(2, 446))
    t.draw(now, refusal(3, 400))
    asks_socket(t, now, 10, NEXT_TO)
    t.poll(now, RENEWAL)
    return "Attempts come to a client over UDP: a socket is asked for, and none is taken", t


def behind_a_retransmission():
    t, now = Trace(setup()), 550 * MS
    t.held()
    t.asks(50 * MS, 2, PEER_1)
    t.hear(now, attempt(1, 7, SIX))
    t.poll(now, now)
    t.draw(now, create_permission(2, PEER_1))
    t.draw(now, refusal(1, 400))
    t.draw(now, None)
    t.poll(now, 1550 * MS)
    return "An answer waits when a request is to be sent again: that goes first", t


# ---- how attempts end


def given_up():
    t = sent()
    for peer in (NEXT_TO, THIRD):
        comes(t, 150 * MS, message(0x00C, number(3), [named(8), (PEER, xored(peer, number(3)))], SHA1))
        asks_socket(t, 150 * MS, 8, peer)
    t.poll(UNTIL - 1, UNTIL)
    t.poll(UNTIL, UNTIL)
    for peer in (AT, NEXT_TO):
        t.event(f"TcpConnectFailed {peer}")
    t.event("none")
    t.poll(UNTIL, DUE)
    opens(t, UNTIL, 8, NEXT_TO, ONE, "refused NoAllocation")
    opens(t, UNTIL, 8, THIRD, ONE)
    return "Two attempts have the number of a CONNECT, which is given up: the first one fails with it", t


def ended():
    t = permitted()
    comes(t, NOW, asked(1), attempt(2, 8, AT))
    t.say("error", "ok")
    t.poll(NOW, NOW)
    t.event("AllocationCreateFailed 4")
    t.poll(NOW, NOW)
    t.means = {}
    t.pieces(NOW, attempt(3, 9, NEXT_TO), asked(1))
    opens(t, NOW, 8, AT, ONE, "refused NoAllocation")
    opens(t, NOW, 8, AT, "none", "refused NoAllocation")
    t.draw(NOW, refusal(1, 400))
    t.poll(NOW, None)
    t.draw(150 * MS, None)
    return "A client ends while an answer and a socket wait: the answer still goes, and no attempt counts any more", t


def deleted():
    t = permitted()
    comes(t, NOW, attempt(1, 7, AT))
    t.say(f"delete {NOW}", "ok")
    asks_socket(t, NOW, 7, AT)
    opens(t, NOW, 7, AT, ONE)
    lists(t)
    comes(t, NOW, attempt(2, 8, NEXT_TO), attempt(3, 9, AT))
    t.draw(NOW, taken(1))
    t.draw(NOW, refusal(3, 446))
    asks_socket(t, NOW, 8, NEXT_TO)
    t.draw(150 * MS, refresh(3, 0, HASHED))
    comes(t, 150 * MS, attempt(4, 9, AT))
    t.pieces(150 * MS, t.is_handled_once(success(REFRESH, 3, lifetime(0))))
    t.poll(150 * MS, 150 * MS)
    t.draw(150 * MS, refusal(4, 446))
    t.poll(150 * MS, None)
    opens(t, 150 * MS, 8, NEXT_TO, "none", "refused NoAllocation")
    draws_from(t, 200 * MS, ONE, bind(4, 7))
    return "The end is asked for among attempts: they are taken and refused until the allocation has gone", t


def over_with_its_allocation():
    t = permitted()
    comes(t, NOW, attempt(1, 7, AT))
    asks_socket(t, NOW, 7, AT)
    comes(t, OVER, attempt(2, 8, NEXT_TO), asked(3))
    asks(t, OVER, THIRD, "refused NoAllocation")
    comes(t, OVER, attempt(4, 9, AT))
    t.poll(OVER, OVER)
    t.draw(OVER, refusal(3, 400))
    t.draw(OVER, refusal(4, 446))
    asks_socket(t, OVER, 8, NEXT_TO)
    t.poll(OVER, None)
    t.event("none")
    opens(t, OVER, 7, AT, ONE, "refused NoAllocation")
    comes(t, OVER, attempt(5, 9, AT))
    t.poll(OVER, OVER)
    t.draw(OVER, refusal(5, 400))
    t.poll(OVER, None)
    return "An allocation's time is over: attempts are taken and refused until that is seen, and then refused", t


def another_realm():
    t, now = sent(), 150 * MS
    anew = [(USERNAME, b"user"), (REALM, b"other"), (NONCE, b"nonce")]
    comes(t, now, attempt(1, 8, NEXT_TO))
    asks_socket(t, now, 8, NEXT_TO)
    t.pieces(now, t.is_handled_once(unsigned(CONNECT | ERROR, 3, [code(438), *anew[1:]])))
    t.pieces(now, attempt(2, 9, THIRD))
    comes(t, now, attempt(3, 9, THIRD, realm=b"other"))
    asks_socket(t, now, 9, THIRD)
    opens(t, now, 8, NEXT_TO, "none")
    opens(t, now, 9, THIRD, ONE)
    t.draw(now, refusal(1, 447, realm=b"other"))
    t.draw(now, taken(3, realm=b"other"))
    t.draw(200 * MS, message(CONNECT, number(4), [(PEER, xored(AT, number(4))), *anew], SHA1, b"other"))
    draws_from(t, 250 * MS, ONE, message(CONNECTION_BIND, number(5), [named(9), *anew], SHA1, b"other"))
    return "A challenge tells another realm: attempts count if they are signed for it, and so are later answers", t


def uncounted():
    t, _, now = nine_before()
    comes(t, now, attempt(1, 8, NEXT_TO))
    tenth_ends(t, now)
    return "Nine challenges come, and an attempt, which is no response: the tenth challenge ends the client", t


def attempt_traces():
    yield from (
        *answered_traces(), *beside_traces(), two_in_a_row(), behind_a_request(), before_a_request(),
        before_a_renewal(), before_what_ends(), before_what_is_told(), without_sockets(), behind_a_retransmission(),
        given_up(), ended(), deleted(), over_with_its_allocation(), another_realm(), uncounted(),
    )
