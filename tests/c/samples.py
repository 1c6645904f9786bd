#!/usr/bin/env python3
"""Writes samples.h: exchanges of a client with a server, as steps (steps.h): what the client is given, and what it has
to answer and to send.

    tests/c/samples.py

None of it is the client's own output: what is sent either way is worked out by the RFCs (samples_base.py). When a
request goes out, and when what is held is to be renewed, is as crates/turn_client_proto/CALLING.md says.
"""

import sys

sys.dont_write_bytecode = True

from samples_base import (  # noqa: E402
    A, ADDITIONAL_FAMILY, B, BEHIND_PEER, BY_SHA1, CHANNEL_BIND, CONNECT, CONNECTION_ATTEMPT, CONNECTION_BIND,
    CREATE_PERMISSION, ELSEWHERE, ERROR, Exchange, FIRST, HERE, LONGEST, MS, NAME, NOBODY, ONE, OTHER, OWN,
    REFRESH, RELAYED, RELAYED_6, REPORT, SECOND, SECOND_SOCKET, SECRET, SEED, SERVER, SIX, STRANGER, SUCCESS, TCP,
    TEXTS, TWO, UDP, V6, allocate, asks_socket, attempt, attempted, bind, c_fields, challenge, closes_socket, code,
    connect, data, fingerprinted, first, frame, grant, host, identified, indication, join, lifetime, message, named,
    number, opens_socket, padded, permit, permit_several, refresh, rejection, success,
)
from samples_settings import (  # noqa: E402
    announced, announced_over_udp, another_password, asked_otherwise, binds, both, even, expired,
    expired_behind_deletion, expired_untold, hidden, introduced, introduced_to_peers, lapsed, none_in_common,
    not_announced, redirected, redirected_unsigned, rejected, replaced, replaced_at_first, replaced_by_stale_nonce,
    reserved, strongest, the_others, unanswered,
)


# ---- over UDP


def udp_allocation(t):
    t.begins()
    t.reaches("permit", ONE, "TURN_NO_ALLOCATION")
    t.reaches("bind", ONE, "TURN_NO_ALLOCATION")
    t.does("delete", "TURN_NO_ALLOCATION")
    t.sends_not(ONE, "TURN_NO_PERMISSION")
    t.does("read", "TURN_NOTHING")
    t.pulls_nothing()
    t.waits(0)
    t.draws(first())
    t.draws_nothing()
    t.waits(500 * MS)
    t.feeds(challenge(), "TURN_IGNORED", "from elsewhere", source=ELSEWHERE)
    t.feeds(challenge(), "TURN_IGNORED", "to elsewhere", local=ELSEWHERE)
    t.feeds(b"\xff" * 40, "TURN_IGNORED", "no message")
    t.feeds(b"", "TURN_IGNORED", "an empty datagram")
    t.at(499)
    t.draws_nothing()
    t.at(500)
    t.draws(first(), name="the same request again")
    t.waits(1500 * MS)
    t.feeds(challenge())
    t.waits(550 * MS)
    t.draws_nothing("before 50 ms are over")
    t.at(550)
    t.draws(allocate())
    t.tells_no_more()
    t.because("TURN_CAUSE_NONE")
    t.does("mapped", "TURN_NOTHING")
    t.holds_relayed()
    t.at(600)
    t.feeds(fingerprinted(grant(RELAYED)))
    t.waits(600 * MS, "an event waits")
    t.tells("TURN_ALLOCATION_CREATED", RELAYED)
    t.because("TURN_CAUSE_NONE")
    t.is_mapped(OWN)
    t.tells_no_more()
    t.holds_relayed(RELAYED)
    t.waits(1740 * SECOND + 600 * MS)


def udp_permission(t):
    t.part("a permission")
    t.sends_not(ONE, "TURN_NO_PERMISSION")
    t.reaches("permit", ONE, "TURN_NO_ALLOCATION", "tcp")
    t.reaches("permit", SIX, "TURN_NO_ALLOCATION", name="a family without an allocation")
    t.reaches("connect", ONE, "TURN_NO_ALLOCATION")
    t.reaches("socket", ONE, "TURN_NO_ALLOCATION", number=7, **{"from": "192.0.2.1:5001"})
    t.reaches("permit", ONE)
    t.reaches("permit", ONE, "TURN_ALREADY_EXISTS")
    t.waits(600 * MS)
    t.draws(permit(2, ONE))
    t.is_permitted(ONE, 0)
    t.permits()
    t.at(620)
    t.feeds(success(CREATE_PERMISSION, 2))
    t.tells("TURN_PERMISSION_CREATED", host(ONE))
    t.tells_no_more()
    t.feeds(success(CREATE_PERMISSION, 2), "TURN_IGNORED", "the same response again")
    t.is_permitted(ONE)
    t.is_permitted(host(ONE))
    t.is_permitted(ONE, 0, "tcp")
    t.is_permitted(STRANGER, 0)
    t.permits(ONE)
    t.holds("permissions", transport="udp", to=ELSEWHERE)
    t.reaches("permit", ONE, "TURN_ALREADY_EXISTS")


def udp_indications(t):
    t.part("indications")
    t.at(700)
    t.gives(data(ONE, b"hello"), ONE, b"hello", BEHIND_PEER)
    t.gives(data(host(ONE)[:-1] + "7", b""), host(ONE)[:-1] + "7", b"", BEHIND_PEER, "another port, and no bytes")
    t.gives(fingerprinted(data(ONE, b"hello")), ONE, b"hello", BEHIND_PEER)
    t.feeds(data(STRANGER, b"hello"), "TURN_IGNORED", "of a peer without a permission")
    t.feeds(REPORT, "TURN_ICMP", transport="udp", peer=ONE, icmp_type=3, icmp_code=3, number=5)
    t.sends(ONE, b"hello", indication(3, ONE, b"hello"))
    t.sends_not(STRANGER, "TURN_NO_PERMISSION")
    t.sends_not(ONE, "TURN_NO_PERMISSION", transport="tcp")
    t.sends_not(ONE, "TURN_TOO_LARGE", 65505)


def udp_channels(t):
    t.part("channels")
    t.at(800)
    t.feeds(frame(A, b"early"), "TURN_IGNORED", "a channel that isn't bound")
    t.reaches("bind", ONE)
    t.draws(bind(4, A, ONE))
    t.at(820)
    t.feeds(success(CHANNEL_BIND, 4))
    t.tells("TURN_CHANNEL_CREATED", ONE)
    t.tells_no_more()
    t.reaches("bind", ONE, "TURN_ALREADY_EXISTS")
    t.gives(frame(A, b"hello"), ONE, b"hello", 4)
    t.gives(frame(A, b"hello", b"\0\0\0"), ONE, b"hello", 4, "bytes behind the frame")
    t.feeds(frame(B, b"hello"), "TURN_IGNORED", "another channel")
    t.sends(ONE, b"hello", frame(A, b"hello"))
    t.sends(ONE, b"", frame(A, b""))
    t.sends_not(ONE, "TURN_TOO_LARGE", 65505)
    t.reaches("bind", TWO, name="a permission comes with the channel")
    t.draws_nothing()
    t.at(850)
    t.draws(bind(5, B, TWO))
    t.at(870)
    t.feeds(success(CHANNEL_BIND, 5))
    t.tells("TURN_PERMISSION_CREATED", host(TWO))
    t.tells("TURN_CHANNEL_CREATED", TWO)
    t.tells_no_more()
    t.permits(ONE, TWO)
    t.holds_channels((A, ONE), (B, TWO))
    t.holds_connections()


def udp_renewal(t):
    t.part("renewals under another nonce")
    t.at(1000)
    due = 240 * SECOND + 620 * MS
    t.waits(due)
    t.now = due - 1
    t.draws_nothing()
    t.now = due
    t.draws(permit(6, ONE))
    t.feeds(challenge(6, CREATE_PERMISSION, code(438, b"Stale Nonce"), OTHER))
    t.now = due + 50 * MS
    t.draws(permit(7, ONE, named(OTHER)))
    t.now = due + 100 * MS
    t.feeds(success(CREATE_PERMISSION, 7))
    t.tells_no_more()
    t.now = due + 250 * MS
    t.draws(permit(8, TWO, named(OTHER)))
    t.feeds(success(CREATE_PERMISSION, 8))
    t.tells_no_more()
    t.permits(ONE, TWO)
    t.waits(2 * due - 620 * MS + 100 * MS)


def udp():
    t = Exchange("over UDP")
    udp_allocation(t)
    udp_permission(t)
    udp_indications(t)
    udp_channels(t)
    udp_renewal(t)
    t.part("the end")
    t.at(241_000)
    t.deleted(9, named(OTHER))
    t.reaches("permit", ONE, "TURN_NO_ALLOCATION")
    t.reaches("bind", ONE, "TURN_NO_ALLOCATION")
    t.does("delete", "TURN_NO_ALLOCATION")
    t.sends_not(ONE, "TURN_NO_PERMISSION")
    t.feeds(data(ONE, b"hello"), "TURN_IGNORED")
    t.is_permitted(ONE, 0)
    t.permits()
    t.holds_channels()
    t.does("close")
    return t


# ---- permissions of several peers

SIX_2 = "[2001:db8::8]:9000"
MOST_PEERS = 32
MANY = [f"10.0.0.{k}:9000" for k in range(MOST_PEERS + 1)]


def several_allocations(t):
    t.begins()
    t.reaches_several((ONE, TWO), "TURN_NO_ALLOCATION")
    t.reaches_several((), "TURN_BAD_ADDRESSES", name="no peer")
    t.reaches_several((ONE, SIX), "TURN_BAD_ADDRESSES", name="two families")
    t.reaches_several(MANY, "TURN_BAD_ADDRESSES", name="33 peers")
    more = ADDITIONAL_FAMILY, V6
    t.draws(first(UDP, more))
    t.feeds(challenge())
    t.at(50)
    t.draws(allocate(UDP, more))
    t.at(60)
    t.feeds(grant(RELAYED, RELAYED_6))
    t.tells("TURN_ALLOCATION_CREATED", RELAYED)
    t.tells("TURN_ALLOCATION_CREATED", RELAYED_6)
    t.tells_no_more()


def several_granted(t):
    t.part("one request, and each address once")
    t.reaches_several((ONE, TWO), "TURN_NO_ALLOCATION", "tcp")
    t.reaches_several((SIX, SIX_2, TWO), "TURN_BAD_ADDRESSES", name="the last is of another family")
    t.reaches_several((ONE, TWO, ONE, host(TWO)))
    t.reaches_several((STRANGER, TWO), "TURN_ALREADY_EXISTS", name="one was asked for")
    t.reaches("permit", TWO, "TURN_ALREADY_EXISTS")
    t.at(100)
    t.draws(permit_several(2, ONE, TWO))
    t.draws_nothing()
    t.permits()
    t.at(120)
    t.feeds(success(CREATE_PERMISSION, 2))
    t.tells("TURN_PERMISSION_CREATED", host(ONE))
    t.tells("TURN_PERMISSION_CREATED", host(TWO))
    t.tells_no_more()
    t.permits(ONE, TWO)
    t.reaches_several((STRANGER, ONE), "TURN_ALREADY_EXISTS", name="one stands")
    t.is_permitted(STRANGER, 0)
    t.gives(data(TWO, b"hello"), TWO, b"hello", BEHIND_PEER)


def several_rejected(t):
    t.part("challenged, made again, and rejected")
    t.at(150)
    t.reaches_several((SIX, SIX_2))
    t.draws(permit_several(3, SIX, SIX_2))
    t.feeds(challenge(3, CREATE_PERMISSION, code(438, b"Stale Nonce"), OTHER))
    t.tells_no_more()
    t.at(200)
    t.draws(permit_several(4, SIX, SIX_2, told=named(OTHER)))
    t.feeds(rejection(CREATE_PERMISSION, 4, 403, b"Forbidden"))
    for peer in (SIX, SIX_2):
        t.tells("TURN_PERMISSION_FAILED", host(peer))
        t.because("TURN_REJECTED", 403, True, b"Forbidden")
    t.tells_no_more()
    t.holds("permissions", transport="udp", to=RELAYED_6)
    t.reaches_several((SIX,), name="one alone")
    t.at(250)
    t.draws(permit(5, SIX, named(OTHER)))
    t.feeds(success(CREATE_PERMISSION, 5))
    t.tells("TURN_PERMISSION_CREATED", host(SIX))
    t.tells_no_more()


def several_unanswered(t):
    t.part("32 peers, and no answer")
    t.at(300)
    t.reaches_several(MANY[:-1])
    t.draws(permit_several(6, *MANY[:-1], told=named(OTHER)))
    t.at(800)
    t.draws(permit_several(6, *MANY[:-1], told=named(OTHER)), name="the same request again")
    t.waits(1800 * MS)
    t.at(1799)
    t.tells_no_more()
    t.reaches("permit", MANY[-2], "TURN_ALREADY_EXISTS")
    t.at(1800)
    t.waits(1800 * MS)
    for peer in MANY[:-1]:
        t.tells("TURN_PERMISSION_FAILED", host(peer))
    t.because("TURN_UNANSWERED")
    t.tells_no_more()
    t.permits(ONE, TWO)


def several_renewed(t):
    t.part("each is renewed by itself")
    due = 240 * SECOND + 120 * MS
    t.at(2000)
    t.waits(due)
    t.now = due - 1
    t.draws_nothing()
    for k, (peer, later) in enumerate(((ONE, 0), (TWO, 50), (SIX, 130)), 7):
        t.now = due + later * MS
        t.draws(permit(k, peer, named(OTHER)))
        t.feeds(success(CREATE_PERMISSION, k))
        t.tells_no_more()
    t.permits(ONE, TWO)


def several():
    t = Exchange("permissions of several peers", families=3, sends=2, first_wait=500, most_wait=500, last_wait=1000)
    several_allocations(t)
    several_granted(t)
    several_rejected(t)
    several_unanswered(t)
    several_renewed(t)
    t.part("the end")
    t.at(241_000)
    t.deleted(10, named(OTHER))
    t.reaches_several((ONE, TWO), "TURN_NO_ALLOCATION")
    t.does("close")
    return t


# ---- over TCP


def tcp_peers(t):
    t.part("a permission, and a channel in pieces")
    t.at(100)
    t.reaches("permit", TWO)
    t.draws(permit(2, TWO))
    t.at(110)
    t.feeds_cut(success(CREATE_PERMISSION, 2), 24)
    t.tells("TURN_PERMISSION_CREATED", host(TWO))
    t.reaches("bind", ONE)
    t.at(150)
    t.draws(bind(3, A, ONE))
    t.at(160)
    bound, whole = success(CHANNEL_BIND, 3), padded(A, b"hello")
    t.feeds(bound[:8])
    t.pulls_nothing()
    t.feeds(bound[8:] + whole[:7])
    t.pulls_nothing()
    t.tells("TURN_PERMISSION_CREATED", host(ONE))
    t.tells("TURN_CHANNEL_CREATED", ONE)
    t.gives_joined(whole[7:] + data(TWO, b"hi") + padded(A, b"bye")[:3], ONE, b"hello", "the rest, and more")
    t.pulls(TWO, b"hi")
    t.pulls_nothing()
    t.gives_joined(padded(A, b"bye")[3:], ONE, b"bye")
    t.does("read", "TURN_NOTHING", "the joined bytes went")
    t.pulls_nothing()


def tcp_payloads(t):
    t.part("payloads")
    t.gives(padded(A, b"one") + padded(A, b"three"), ONE, b"one", 4, "two frames")
    t.pulls(ONE, b"three")
    t.pulls_nothing()
    t.gives(padded(A, b"") + padded(A, b"") + data(TWO, b"hi"), ONE, b"", 4, "no bytes, twice")
    t.pulls(ONE, b"")
    t.pulls(TWO, b"hi")
    t.pulls_nothing()
    t.gives(padded(A, b"five!")[:9] + b"\1\2\3", ONE, b"five!", 4, "any padding")
    t.feeds(padded(A, b"five!")[:9], name="the padding is to come")
    t.gives_joined(b"\0\0\0", ONE, b"five!")
    t.feeds(padded(B, b"none"), "TURN_IGNORED", "another channel")
    t.feeds(padded(A, b"late"), "TURN_IGNORED", "from elsewhere", source=ELSEWHERE)
    t.feeds(REPORT, "TURN_ICMP", transport="udp", peer=ONE, icmp_type=3, icmp_code=3, number=5)
    t.sends(ONE, b"hello", padded(A, b"hello"))
    t.sends(ONE, b"four", padded(A, b"four"))
    t.sends(TWO, b"hi", indication(4, TWO, b"hi"))
    t.sends_not(STRANGER, "TURN_NO_PERMISSION")
    t.sends_not(ONE, "TURN_TOO_LARGE", 65505)


def tcp():
    t = Exchange("over TCP", "tcp")
    t.begins()
    t.draws(first())
    t.waits(LONGEST)
    t.feeds_cut(challenge(), 1, 20, 50)
    t.waits(50 * MS)
    t.granted(UDP, 75)
    t.waits(1740 * SECOND + 60 * MS)
    tcp_peers(t)
    tcp_payloads(t)
    t.part("the end")
    t.at(300)
    t.deleted(5, named(), BY_SHA1, 20, 43)
    t.feeds(b"", name="the end of the stream")
    t.feeds(padded(A, b"late"), "TURN_IGNORED")
    t.pulls_nothing()
    t.does("close")
    return t


# ---- connections to peers

def connections_asked(t):
    t.part("two are asked for")
    t.reaches("connect", ONE, "TURN_NO_PERMISSION")
    t.reaches("permit", ONE, "TURN_NO_ALLOCATION", "udp")
    t.reaches("permit", ONE)
    t.reaches("permit", TWO)
    t.at(100)
    t.draws(permit(2, ONE))
    t.feeds_cut(success(CREATE_PERMISSION, 2))
    t.tells("TURN_PERMISSION_CREATED", host(ONE))
    t.at(150)
    t.draws(permit(3, TWO))
    t.feeds_cut(success(CREATE_PERMISSION, 3))
    t.tells("TURN_PERMISSION_CREATED", host(TWO))
    t.reaches("connect", ONE)
    t.reaches("connect", ONE, "TURN_ALREADY_EXISTS")
    t.reaches("connect", TWO)
    t.at(200)
    t.draws(connect(4, ONE))
    t.feeds_cut(success(CONNECT, 4, identified(7)), 30)
    t.at(250)
    t.draws(connect(5, TWO))
    refusal = message(CONNECT | ERROR, number(5), [code(447, b"Connection Timeout or Failure")], BY_SHA1)
    t.feeds_cut(refusal)
    t.tells("TURN_TCP_FAILED", TWO)
    t.because("TURN_REJECTED", 447, True, b"Connection Timeout or Failure")
    t.sends_not(ONE, "TURN_NO_SOCKET")
    t.sends_not(ONE, "TURN_NO_PERMISSION", transport="udp")


def connection_bound(t):
    t.part("one is bound, and carries bytes")
    asks_socket(t, 7, ONE)
    t.holds_connections()
    opens_socket(t, 8, ONE, FIRST, "TURN_NO_ALLOCATION")
    opens_socket(t, 7, TWO, FIRST, "TURN_NO_ALLOCATION")
    opens_socket(t, 7, ONE, FIRST)
    opens_socket(t, 7, ONE, FIRST, "TURN_NO_ALLOCATION")
    t.holds_connections((FIRST, ONE, 7, False))
    t.reaches("connect", ONE, "TURN_ALREADY_EXISTS")
    t.at(300)
    t.draws(join(6, 7), FIRST)
    bound = success(CONNECTION_BIND, 6)
    t.feeds(bound[:30], local=FIRST)
    t.pulls_nothing()
    t.feeds(bound[30:] + b"hi", local=FIRST, name="bytes stand behind the response")
    t.pulls(ONE, b"hi")
    t.pulls_nothing()
    t.tells("TURN_TCP_CONNECTED", ONE)
    t.tells_no_more()
    t.holds_connections((FIRST, ONE, 7, True))
    t.gives(b"any bytes", ONE, b"any bytes", 0, local=FIRST)
    t.sends(ONE, b"hello", b"hello", FIRST)


def connections_closed(t):
    t.part("they are refused, and closed")
    t.reaches("connect", TWO)
    t.at(350)
    t.draws(connect(7, TWO))
    t.feeds_cut(success(CONNECT, 7, identified(8)))
    asks_socket(t, 8, TWO)
    opens_socket(t, 8, TWO, FIRST, "TURN_ALREADY_EXISTS")
    opens_socket(t, 8, TWO, NOBODY)
    opens_socket(t, 8, TWO, SECOND_SOCKET, "TURN_NO_ALLOCATION")
    t.reaches("connect", TWO)
    t.at(400)
    t.draws(connect(8, TWO))
    t.feeds_cut(success(CONNECT, 8, identified(9)))
    asks_socket(t, 9, TWO)
    opens_socket(t, 9, TWO, SECOND_SOCKET)
    t.at(450)
    t.draws(join(9, 9), SECOND_SOCKET)
    t.feeds(success(CONNECTION_BIND, 9), local=SECOND_SOCKET)
    t.tells("TURN_TCP_CONNECTED", TWO)
    t.holds_connections((FIRST, ONE, 7, True), (SECOND_SOCKET, TWO, 9, True))
    t.feeds(b"", local=FIRST, name="the server closed it")
    closes_socket(t, FIRST)
    t.holds_connections((SECOND_SOCKET, TWO, 9, True))
    t.feeds(b"late", "TURN_IGNORED", local=FIRST)
    t.does("closed", **{"from": FIRST, "to": SERVER})
    t.does("closed", **{"from": SECOND_SOCKET, "to": SERVER})
    closes_socket(t, SECOND_SOCKET)
    t.holds_connections()


def connections_begun(t):
    t.part("peers begin two")
    t.at(460)
    t.feeds_cut(attempt(1, 12, ONE), 40)
    asks_socket(t, 12, ONE)
    opens_socket(t, 12, ONE, FIRST)
    t.waits(t.now, "an answer to the server waits")
    t.draws(attempted(1, kind=CONNECTION_ATTEMPT | SUCCESS))
    t.draws_nothing()
    t.waits(500 * MS)
    t.at(500)
    t.draws(join(10, 12), FIRST)
    t.feeds(success(CONNECTION_BIND, 10), local=FIRST)
    t.tells("TURN_TCP_CONNECTED", ONE)
    t.feeds_cut(attempt(2, 13, TWO))
    asks_socket(t, 13, TWO)
    opens_socket(t, 13, TWO, NOBODY)
    refusal = code(447, b"Connection Timeout or Failure")
    t.draws(attempted(2, refusal, kind=CONNECTION_ATTEMPT | ERROR))
    t.holds_connections((FIRST, ONE, 12, True))


def connections():
    t = Exchange("connections to peers", "tcp", "tcp")
    t.begins()
    t.challenged(TCP)
    t.granted(TCP)
    connections_asked(t)
    connection_bound(t)
    connections_closed(t)
    connections_begun(t)
    t.part("the end")
    t.at(550)
    t.deleted(11)
    t.does("close")
    return t


# ---- what is timed

LONG = bytes(range(240)) * 5


def asks(t):
    """What changes nothing, with an allocation, a permission and a channel."""
    t.draws_nothing("draw: nothing", repeats=16)
    t.waits(240 * SECOND + 100 * MS, "poll", repeats=16)
    t.step("event", {}, {}, "TURN_NOTHING", "event: none", repeats=16)
    t.holds_relayed(RELAYED, name="relayed", repeats=16)
    t.permits(ONE, name="permissions", repeats=16)
    t.is_permitted(ONE, name="is_permitted", repeats=16)
    t.holds_channels((A, ONE), name="channels", repeats=16)
    t.holds_connections(name="connections", repeats=16)
    t.step("cause", {}, {"number": "TURN_CAUSE_NONE"}, name="cause: none", repeats=16)
    t.step("mapped", {}, {"peer": OWN}, name="mapped", repeats=16)


def timed_udp():
    t = Exchange("over UDP")
    t.part("all of it")
    t.step("open", {}, {}, name="open")
    t.draws(first(), name="draw: the first ALLOCATE")
    t.feeds(challenge(), name="feed: its challenge")
    t.at(50)
    t.draws(allocate(), name="draw: the signed ALLOCATE")
    t.feeds(grant(RELAYED), name="feed: its success")
    t.tells("TURN_ALLOCATION_CREATED", RELAYED, name="event: the allocation was created")
    t.reaches("permit", ONE, name="permit")
    t.at(100)
    t.draws(permit(2, ONE), name="draw: CREATE_PERMISSION")
    t.feeds(success(CREATE_PERMISSION, 2), name="feed: its success")
    t.tells("TURN_PERMISSION_CREATED", host(ONE), name="event: the permission was created")
    t.sends(ONE, LONG, indication(3, ONE, LONG), name="send: 1200 bytes by an indication")
    t.gives(data(ONE, LONG), ONE, LONG, BEHIND_PEER, "feed: a DATA indication of 1200 bytes", repeats=16)
    t.reaches("bind", ONE, name="bind")
    t.at(150)
    t.draws(bind(4, A, ONE), name="draw: CHANNEL_BIND")
    t.feeds(success(CHANNEL_BIND, 4), name="feed: its success")
    t.tells("TURN_CHANNEL_CREATED", ONE, name="event: the channel was created")
    t.sends(ONE, LONG, frame(A, LONG), name="send: 1200 bytes by a channel", repeats=16)
    t.gives(frame(A, LONG), ONE, LONG, 4, "feed: a channel frame of 1200 bytes", repeats=16)
    t.feeds(frame(A, LONG), "TURN_IGNORED", "feed: 1200 bytes from elsewhere", ELSEWHERE, repeats=16)
    t.feeds(b"\xff" * 1200, "TURN_IGNORED", "feed: 1200 bytes that are no message", repeats=16)
    asks(t)
    t.at(200)
    t.does("delete", name="delete")
    t.draws(refresh(5, 0), name="draw: REFRESH")
    t.feeds(success(REFRESH, 5, lifetime(0)), name="feed: its success")
    t.does("poll", "TURN_CLOSED", "poll: it has ended")
    t.does("close", name="close")
    return t


def timed_tcp():
    t = Exchange("over TCP", "tcp")
    t.part("all of it")
    t.does("open")
    t.draws(first())
    t.feeds(challenge())
    t.at(50)
    t.draws(allocate())
    t.feeds(grant(RELAYED))
    t.tells("TURN_ALLOCATION_CREATED", RELAYED)
    binds(t)
    t.gives(padded(A, LONG), ONE, LONG, 4, "feed: a frame of 1200 bytes that is whole", repeats=16)
    t.step("pull", {}, {}, "TURN_NOTHING", "pull: nothing", repeats=16)
    t.feeds(padded(A, LONG)[:600], name="feed: half of it")
    want = t.given_apart(ONE, LONG)
    t.feeds(padded(A, LONG)[600:], "TURN_PAYLOAD", "feed: the other half", **want)
    t.step("read", {}, {"bytes": LONG}, name="read: 1200 bytes")
    t.gives(padded(A, LONG) * 2, ONE, LONG, 4, "feed: two of them")
    t.step("pull", {}, want, "TURN_PAYLOAD", "pull: the second")
    t.step("read", {}, {"bytes": LONG}, name="read: 1200 bytes")
    t.sends(ONE, LONG, padded(A, LONG), name="send: 1200 bytes by a channel", repeats=16)
    t.does("close", name="close, without delete")
    return t


EXCHANGES = (
    udp, tcp, connections, both, the_others, unanswered, hidden, lapsed, strongest, none_in_common, rejected,
    redirected,
    redirected_unsigned, another_password, replaced, replaced_by_stale_nonce, replaced_at_first, introduced,
    introduced_to_peers, expired, expired_untold, expired_behind_deletion, asked_otherwise, reserved, even,
    announced, not_announced, announced_over_udp, several,
)

# ---- the file

HEAD = """/* samples.h: exchanges of a client with a server, as steps (steps.h). Written by samples.py: change that.
 *
 * It is included by steps.c alone. */
"""


def c_bytes(name, value):
    return f"static const uint8_t {name}[{len(value)}] = {{{', '.join(map(str, value))}}};"


def c_exchanges(name, exchanges):
    """The tables of these, and the table of them."""
    rows = []
    for i, it in enumerate(exchanges):
        yield from it.lines(f"{name}_{i}")
        rows.append(f'    {{"{it.name}", {{.size = sizeof(turn_settings), {c_fields(it.settings)}}}, {name}_{i}_parts, {len(it.parts)}}},')
    yield from (f"const struct exchange {name}[] = {{", *rows, "};")


def main():
    exchanges = [make() for make in EXCHANGES]
    timed = [timed_udp(), timed_tcp()]
    tables = [*c_exchanges("exchanges", exchanges), *c_exchanges("timed", timed)]
    lines = [
        HEAD, c_bytes("name", NAME), c_bytes("secret", SECRET), "static const uint8_t zeros[65505];",
        f"static const turn_seed sample_seed = {{{{{', '.join(map(str, SEED))}}}}};",
        "const struct bytes sample_user = {name, sizeof name}, sample_password = {secret, sizeof secret};",
        *TEXTS.lines(), *tables,
        f"const size_t exchange_count = {len(exchanges)}, timed_count = {len(timed)};",
    ]
    (HERE / "samples.h").write_text("\n".join(lines) + "\n")


if __name__ == "__main__":
    main()
