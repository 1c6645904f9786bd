"""The traces of a client over TCP, which `traces.py` puts behind those of payloads (`docs/TRACE.md`).

Here are the handshake, the requests, an allocation over TCP and the end of a client; `traces_tcp_frames.py` has what
comes of a stream. What is known of a stream is in `traces_tcp_base.py`.
"""

from traces_base import (
    ADDITIONAL_FAMILY, ALLOCATE, CHANNEL_BIND, CREATE_PERMISSION, DONT_FRAGMENT, END, ERROR, HASHED, MS, NAMED,
    OTHER, REFRESH, REFUSED, RELAYED, SECOND, SHA1, STALE, V6, challenge, channel_bind, code, create_permission,
    error, first, grant, hashed, lifetime, message, number, refresh, relayed, signed_allocate, success, unsigned,
)
from traces_channels import A, B, ONE, ONE_IP, SIX, bound, created
from traces_payloads import AT_1, AT_2, HI, indicates, not_sent
from traces_permissions import DUE, NAMED_ANEW, OTHER_NONCE, PEER_1, PEER_6, RELAYED_6
from traces_tcp_base import (
    DATA_OF_1, LONGEST, NEXT, NOW, OVER_TCP, REPORT_OF_1, Piped, carrying, over, padded, places_within,
)
from traces_tcp_frames import (
    channel_behind_its_grant, dead_behind_a_frame, end_and_beginning, end_of_the_stream, end_within_a_frame,
    endless_message, garbled, given_back, lengths, long_sends, no_stream, nothing_waits, of_strangers, other_hosts,
    out_of_range, padded_sends, reports, reports_passed_over, response_behind_a_payload, sends, several_payloads,
    stream_at_random, stream_in_bytes, stream_in_two, stream_whole, unbound_channel, waiting_challenge,
    waiting_grant, waiting_too_long, waiting_while_it_is_deleted, waiting_while_it_lapses, wrong_cookies,
)


# ---- the handshake


def whole_handshake():
    t = over()
    t.held()
    t.recv(50 * MS)
    t.event("none")
    return "Over TCP a client is challenged, and granted", t


def shaken(t, places, others):
    """The challenge comes cut at some places, and the grant at others."""
    t.comes(0, t.challenged(), challenge(0), *places)
    t.poll(0, 50 * MS)
    drawn = t.draw(50 * MS, signed_allocate(1, HASHED))
    line = t.ask(50 * MS, f"@{drawn}", f"allocate {RELAYED} 600", grant(1))
    t.comes(50 * MS, line, grant(1), *others)
    t.is_created(RELAYED)


def handshake_in_bytes():
    t = over()
    size, other = len(challenge(0)), len(grant(1))
    shaken(t, range(1, size), range(1, other))
    t.event("none")
    return "Over TCP the challenge and the grant come byte by byte", t


def handshake_asked_for():
    t = over()
    by_bytes(t, 0, t.challenged(), challenge(0))
    t.poll(0, 50 * MS)
    drawn = t.draw(50 * MS, signed_allocate(1, HASHED))
    line = t.ask(50 * MS, f"@{drawn}", f"allocate {RELAYED} 600", grant(1))
    by_bytes(t, 50 * MS, line, grant(1))
    t.is_created(RELAYED)
    return "Over TCP the challenge and the grant come byte by byte, and behind each what waits is asked for", t


def handshakes_in_two():
    """The longer one is cut at each place, and the other one as far as it goes."""
    size, other = len(challenge(0)), len(grant(1))
    for at in range(1, max(size, other)):
        t = over()
        shaken(t, [min(at, size - 1)], [min(at, other - 1)])
        yield f"Over TCP challenge and grant come in two pieces each, cut behind {at} bytes or before the last", t


def handshakes_at_random():
    size, other = len(challenge(0)), len(grant(1))
    for seed in range(10):
        t = over()
        shaken(t, places_within(size, 2 * seed), places_within(other, 2 * seed + 1))
        yield f"Over TCP challenge and grant come in pieces of any length, {seed}", t


def by_bytes(t, now, line, text):
    """The answer of a line comes byte by byte, and behind each byte all that waits is asked for."""
    t.is_handled_once(text)
    for at in range(len(text)):
        t.piece(now, text[at : at + 1], f"@{line}:{at}:{at + 1}")
        t.rest(now)


def all_in_bytes():
    t = over(families="4,6")
    both = (ADDITIONAL_FAMILY, V6)
    drawn = t.draw(0, first(both))
    by_bytes(t, 0, t.ask(0, f"@{drawn}", "refuse 400", challenge(0)), challenge(0))
    drawn = t.draw(50 * MS, signed_allocate(1, HASHED, both))
    reply = grant(1, addresses=(RELAYED, RELAYED_6))
    by_bytes(t, 50 * MS, t.ask(50 * MS, f"@{drawn}", f"allocate {RELAYED},{RELAYED_6} 600", reply), reply)
    t.is_created(RELAYED, RELAYED_6)
    t.pieces(50 * MS, *(bytes([it]) for it in padded(A, b"\1\2\3\4")))
    for k, channel, peer in (2, A, ONE), (3, B, SIX):
        now = 50 * MS * k
        drawn = t.binds(now - 50 * MS, k, channel, peer)
        reply = success(CHANNEL_BIND, k)
        by_bytes(t, now, t.ask(now, f"@{drawn}", "grant", reply), reply)
        created(t, peer)
        t.peers[channel] = peer
    t.channels((A, ONE), (B, SIX))
    for it in padded(A, b"\1\2\3\4") + padded(B, b"hello") + padded(A, b"hello"):
        t.piece(NOW, bytes([it]))
        t.rest(NOW)
    return "Over TCP an address of each family, a channel to a peer of each, and frames of both, byte by byte", t


def waiting_for_a_byte():
    t = over()
    line, text = t.challenged(), challenge(0)
    t.is_handled_once(text)
    last = len(text) - 1
    t.piece(0, text[:last], f"@{line}:0:{last}")
    t.poll(0, LONGEST)
    t.draw(50 * MS, None)
    t.recv(50 * MS)
    t.piece(60 * MS, text[last:], f"@{line}:{last}:{last + 1}")
    # it could go 50 ms behind the first one, which is over
    t.poll(60 * MS, 50 * MS)
    t.draw(60 * MS, signed_allocate(1, HASHED))
    return "Over TCP the last byte of the challenge is late, and so is the next request", t


def before_it_asks():
    t = over()
    text = challenge(0)
    t.piece(0, text)
    t.piece(0, text[:30])
    t.poll(0, 0)
    t.draw(0, first())
    t.is_handled_once(text)
    t.piece(0, text[30:])
    t.draw(50 * MS, signed_allocate(1, HASHED))
    return "Over TCP a challenge comes before the request, and another one begins before it: that one counts", t


def handshake_of_both_families():
    t = over(families="4,6")
    both = (ADDITIONAL_FAMILY, V6)
    drawn = t.draw(0, first(both))
    line = t.ask(0, f"@{drawn}", "refuse 400", challenge(0))
    t.comes(0, line, challenge(0), 21)
    drawn = t.draw(50 * MS, signed_allocate(1, HASHED, both))
    reply = grant(1, addresses=(RELAYED, RELAYED_6))
    line = t.ask(50 * MS, f"@{drawn}", f"allocate {RELAYED},{RELAYED_6} 600", reply)
    t.comes(50 * MS, line, reply, 4, 20)
    t.is_created(RELAYED, RELAYED_6)
    bound(t, 50 * MS, 2, A, ONE)
    bound(t, 100 * MS, 3, B, SIX)
    t.peers.update({A: ONE, B: SIX})
    t.channels((A, ONE), (B, SIX))
    t.pieces(150 * MS, padded(B, b"six") + padded(A, b"four!"), padded(B, b""))
    t.rest(150 * MS)
    return "Over TCP an address of each family, a channel to a peer of each, and frames of both", t


def each_setting():
    for algorithms, desk, bits in (("sha1", "sha1 disabled", b"AAAA"), ("sha1,sha256", "sha1 auto", b"QAAA")):
        t = over(algorithms=algorithms, desk=desk)
        drawn = t.draw(0, first())
        text = challenge(0, bits)
        line = t.ask(0, f"@{drawn}", "refuse 400", text)
        t.comes(0, line, text, 20)
        t.is_granted(50 * MS, 1, NAMED[:1] + hashed(bits)[1:] if bits == b"AAAA" else hashed(bits))
        yield f"Over TCP the client has {algorithms} and the desk has {desk.split()[0]}, {desk.split()[1]}", t


def nobody_answers():
    t = over()
    t.draw(0, first())
    t.draw(0, None)
    for now in (0, 50, 500, 1500, 31500, 39499):
        t.draw(now * MS, None)
        t.poll(now * MS, LONGEST)
    t.poll(LONGEST - 1, LONGEST)
    t.poll(LONGEST, None)
    t.fails(LONGEST)
    t.draw(LONGEST, None)
    t.pieces(LONGEST, challenge(0)[:40], challenge(0)[40:])
    return "Over TCP nobody answers: one transmission, and the end is that of the waits over UDP", t


def nobody_answers_at_other_waits():
    t = over(rto="rto 600 1000 3 3000\n")
    t.draw(0, first())
    t.poll(0, 4600 * MS)
    for now in (600, 1600, 4599):
        t.draw(now * MS, None)
    t.poll(4600 * MS, None)
    t.fails(4600 * MS)
    return "Over TCP nobody answers, with waits that the trace tells: one transmission, and the sum of all of them", t


# ---- requests


def deleted():
    t = over()
    t.say("delete 0", "refused NoAllocation")
    t.held()
    t.say("delete 100000000", "ok")
    t.shows()
    drawn = t.draw(100 * MS, refresh(2, 0, HASHED))
    reply = success(REFRESH, 2, lifetime(0))
    line = t.ask(100 * MS, f"@{drawn}", "refresh 0", reply)
    t.comes(100 * MS, line, reply, 20, 40)
    t.poll(100 * MS, None)
    t.shows()
    t.say("delete 100000000", "refused NoAllocation")
    t.pieces(100 * MS, reply, DATA_OF_1, padded(A, HI))
    return "Over TCP the allocation is deleted", t


def renewal_lost():
    t = over()
    now = t.allocated()
    t.draw(now, refresh(2, 1800, NAMED))
    over_at = now + LONGEST
    t.poll(now, over_at)
    t.draw(now + 500 * MS, None)
    t.poll(over_at, over_at)
    t.draw(over_at, refresh(3, 1800, NAMED))
    t.poll(over_at, END)
    t.poll(END, None)
    t.shows()
    return "Over TCP a REFRESH is not answered, nor is the next one: each goes out once, and the time is over", t


def permission_and_channel():
    t = over()
    t.held()
    now = 50 * MS
    t.permission(now, PEER_1)
    t.permission(now, PEER_1, "refused AlreadyExists")
    t.bind(now, ONE)
    t.poll(now, 100 * MS)
    t.draw(100 * MS - 1, None)
    drawn = t.draw(100 * MS, create_permission(2, PEER_1))
    t.draw(100 * MS, None)
    t.poll(100 * MS, 150 * MS)
    other = t.draw(150 * MS, channel_bind(3, A, ONE))
    # the wait of a request begins when it is made
    t.poll(150 * MS, now + LONGEST)
    one, two = success(CREATE_PERMISSION, 2), success(CHANNEL_BIND, 3)
    line = t.ask(150 * MS, f"@{drawn}", "grant", one)
    behind = t.ask(150 * MS, f"@{other}", "grant", two)
    t.is_handled_once(one)
    t.is_handled_once(two)
    half = len(one) // 2
    t.piece(150 * MS, one[:half], f"@{line}:0:{half}")
    t.event("none")
    t.piece(150 * MS, one[half:] + two, f"@{line}:{half}:{len(one)}+@{behind}")
    t.event(f"PermissionCreated udp {PEER_1}")
    created(t, ONE)
    t.event("none")
    t.permits(PEER_1, ONE_IP)
    t.channels((A, ONE))
    t.has(PEER_1)
    t.has(PEER_1, "no", "tcp")
    t.poll(150 * MS, 240 * SECOND + 150 * MS)
    return "Over TCP a permission and a channel are granted: one reply comes with half of the other", t


def stale_nonces():
    t = over()
    t.refused()
    t.pieces(50 * MS, t.is_handled_once(unsigned(ALLOCATE | ERROR, 1, STALE)))
    t.poll(50 * MS, 100 * MS)
    t.draw(100 * MS, signed_allocate(2, NAMED))
    t.pieces(100 * MS, t.is_handled_once(success(ALLOCATE, 2, relayed(OTHER, 2), lifetime(1000))))
    t.is_created(OTHER)
    t.permission(100 * MS, PEER_1)
    t.draw(150 * MS, create_permission(3, PEER_1, NAMED))
    t.pieces(150 * MS, t.is_handled_once(unsigned(CREATE_PERMISSION | ERROR, 3, OTHER_NONCE)))
    t.poll(150 * MS, 200 * MS)
    t.draw(200 * MS, create_permission(4, PEER_1, NAMED_ANEW))
    t.pieces(200 * MS, t.is_handled_once(success(CREATE_PERMISSION, 4)))
    t.is_permitted(PEER_1, at=OTHER)
    return "Over TCP the nonces of the signed ALLOCATE and of a CREATE_PERMISSION are stale: each is signed anew", t


def stale_renewal():
    t = over()
    now = t.renews()
    text = t.is_handled_once(unsigned(REFRESH | ERROR, 2, STALE))
    t.pieces(now, text[:7], text[7:])
    t.poll(now, now + 50 * MS)
    now += 50 * MS
    t.draw(now, refresh(3, 1800, NAMED))
    t.pieces(now, t.is_handled_once(success(REFRESH, 3, lifetime(1000))))
    t.poll(now + 61 * SECOND, now + 940 * SECOND)
    t.shows(OTHER)
    return "Over TCP the nonce of a REFRESH is stale: it is signed anew, and granted", t


def second_challenge():
    t = over()
    line = t.challenged()
    text = t.is_handled_once(challenge(0))
    t.piece(0, text * 2, f"@{line}+@{line}")
    t.piece(0, text, f"@{line}")
    t.draw(50 * MS, signed_allocate(1, HASHED))
    t.draw(100 * MS, None)
    return "Over TCP a challenge comes twice in one piece, and once more: the request is signed anew once", t


def reflected_request():
    t = over()
    line = t.challenged()
    text = t.is_handled_once(challenge(0))
    t.piece(0, first(), "@1")
    t.piece(0, first() + text, f"@1+@{line}")
    t.poll(0, 50 * MS)
    t.draw(50 * MS, signed_allocate(1, HASHED))
    return "Over TCP the client's own request comes back, and again in front of the challenge, which counts", t


def ten_challenges():
    t = over()
    t.draw(0, first())
    for k in range(9):
        t.pieces(50 * MS * k, t.is_handled_once(unsigned(ALLOCATE | ERROR, k, REFUSED)))
        t.draw(50 * MS * (k + 1), signed_allocate(k + 1, NAMED))
    t.pieces(450 * MS, t.is_handled_once(unsigned(ALLOCATE | ERROR, 9, REFUSED)))
    t.fails(450 * MS)
    return "Over TCP ten challenges, one behind the other: nine are answered, and the tenth ends the client", t


def grant_twice():
    t = over()
    line = t.granted()
    text = t.is_handled_once(grant(1))
    t.piece(50 * MS, text * 2, f"@{line}+@{line}")
    t.is_created(RELAYED)
    t.event("none")
    t.piece(50 * MS, text, f"@{line}")
    t.event("none")
    t.shows(RELAYED)
    return "Over TCP a success comes twice in one piece, and once more: it counts once", t


def forged_grant():
    t = over()
    line = t.granted()
    size = len(grant(1))
    forged = grant(1)[:27] + b"\x43" + grant(1)[28:]
    t.is_handled_once(forged)
    t.piece(50 * MS, forged, f"@{line}:0:27+43+@{line}:28:{size}")
    t.shows()
    t.fails(50 * MS)
    t.piece(50 * MS, grant(1), f"@{line}")
    return "Over TCP a byte of the relayed address is changed on the way: the client ends", t


# ---- an allocation over TCP


def of_tcp(seconds=600, kind=Piped, **how):
    """A client that is granted an allocation over TCP."""
    t = over("tcp", kind, **how)
    asked = message(ALLOCATE, number(0), [lifetime(1800), OVER_TCP, (DONT_FRAGMENT, b"")])
    drawn = t.draw(0, asked)
    line = t.ask(0, f"@{drawn}", "refuse 400", challenge(0))
    t.comes(0, line, challenge(0))
    drawn = t.draw(50 * MS, message(ALLOCATE, number(1), [OVER_TCP, lifetime(1800), *HASHED], SHA1))
    line = t.ask(50 * MS, f"@{drawn}", f"allocate {RELAYED} {seconds}", grant(1, seconds=seconds))
    t.comes(50 * MS, line, grant(1, seconds=seconds), 40)
    t.event(f"AllocationCreated tcp {RELAYED}")
    t.say("relayed", f"relayed tcp {RELAYED}")
    return t


def tcp_allocation():
    t = of_tcp()
    now = 50 * MS
    not_sent(t, now, AT_1, "NoPermission", transport="tcp")
    t.permission(now, PEER_1, "refused NoAllocation")
    t.permission(now, PEER_6, "refused NoAllocation", "tcp")
    t.permission(now, PEER_1, transport="tcp")
    t.permission(now, PEER_1, "refused AlreadyExists", "tcp")
    drawn = t.draw(100 * MS, create_permission(2, PEER_1))
    t.has(PEER_1, "no", "tcp")
    reply = success(CREATE_PERMISSION, 2)
    line = t.ask(100 * MS, f"@{drawn}", "grant", reply)
    t.comes(100 * MS, line, reply, 1)
    t.event(f"PermissionCreated tcp {PEER_1}")
    t.event("none")
    t.has(PEER_1, transport="tcp")
    t.has(PEER_1, "no")
    t.permits(PEER_1, transport="tcp")
    t.permits()
    t.lets(AT_1, transport="tcp")
    t.pieces(100 * MS, DATA_OF_1, REPORT_OF_1, padded(A, HI))
    not_sent(t, 100 * MS, AT_1, "NoTcpSocket", transport="tcp")
    not_sent(t, 100 * MS, AT_1, "NoPermission")
    not_sent(t, 100 * MS, AT_2, "NoPermission", transport="tcp")
    t.poll(100 * MS, DUE)
    return "An allocation over TCP, and a permission for a peer, to which no connection stands: nothing goes to it", t


def tcp_permission_refused():
    t = of_tcp()
    t.permission(50 * MS, PEER_1, transport="tcp")
    drawn = t.draw(100 * MS, create_permission(2, PEER_1))
    reply = error(CREATE_PERMISSION, 2, code(403, b"Forbidden"))
    line = t.ask(100 * MS, f"@{drawn}", "refuse 403", reply)
    t.comes(100 * MS, line, reply, 20)
    t.event(f"PermissionCreateFailed tcp {PEER_1}")
    t.has(PEER_1, "no", "tcp")
    t.permits(transport="tcp")
    not_sent(t, 100 * MS, AT_1, "NoPermission", transport="tcp")
    return "An allocation over TCP, and a permission that is refused", t


def tcp_allocation_deleted():
    t = of_tcp()
    t.say("delete 100000000", "ok")
    t.shows()
    drawn = t.draw(100 * MS, refresh(2, 0, HASHED))
    reply = success(REFRESH, 2, lifetime(0))
    line = t.ask(100 * MS, f"@{drawn}", "refresh 0", reply)
    t.comes(100 * MS, line, reply, 43)
    t.poll(100 * MS, None)
    t.permission(100 * MS, PEER_1, "refused NoAllocation", "tcp")
    return "An allocation over TCP is deleted", t


def tcp_allocation_renewed():
    t = of_tcp()
    now = 540 * SECOND + 50 * MS
    t.poll(50 * MS, now)
    drawn = t.draw(now, refresh(2, 1800, HASHED))
    reply = success(REFRESH, 2, lifetime(600))
    line = t.ask(now, f"@{drawn}", "refresh 600", reply)
    t.comes(now, line, reply, 20, 21)
    t.poll(now, now + 540 * SECOND)
    t.say("relayed", f"relayed tcp {RELAYED}")
    return "An allocation over TCP is renewed a minute before its end", t


def tcp_allocation_refused():
    t = over("tcp")
    t.draw(0, message(ALLOCATE, number(0), [lifetime(1800), OVER_TCP, (DONT_FRAGMENT, b"")]))
    refused = t.is_handled_once(unsigned(ALLOCATE | ERROR, 0, [code(442)]))
    t.pieces(0, refused[:25], refused[25:])
    t.fails(0)
    return "An allocation over TCP, and a server that has none", t


# ---- a client that has ended


def error_above():
    t = carrying()
    t.say("error", "ok")
    t.event("AllocationCreateFailed 4")
    t.event("none")
    t.means = {}
    t.piece(NOW, DATA_OF_1[:9])
    t.piece(NOW, DATA_OF_1[9:])
    t.pieces(NOW, REPORT_OF_1, padded(B, b"none"))
    # frames of a channel give data on
    t.piece(NOW, padded(A, HI))
    t.piece(NOW, DATA_OF_1 + padded(A, b"on") + padded(A, b"and on"))
    t.rest(NOW)
    sends(t, NOW, b"on")
    t.poll(NOW, None)
    t.piece(NOW, b"")
    t.pieces(NOW, padded(A, HI), b"")
    t.recv(NOW)
    return "A layer above met an error: messages are for nobody then, and frames of a channel give data on", t


def error_before_the_challenge():
    t = over()
    line = t.challenged()
    text = challenge(0)
    t.piece(0, text[:10], f"@{line}:0:10")
    t.say("error", "ok")
    t.piece(0, text[10:30], f"@{line}:10:30")
    t.piece(0, text[30:], f"@{line}:30:{len(text)}")
    t.pieces(0, padded(A, HI), text)
    t.recv(0)
    t.event("AllocationCreateFailed 4")
    t.poll(0, None)
    t.draw(50 * MS, None)
    return "A layer above met an error within the challenge: pieces are handled up to its end, which is for nobody", t


# ---- an example


def example():
    t = over()
    shaken(t, [1, 20, 50], [len(grant(1)) - 1])
    t.permission(50 * MS, PEER_1)
    drawn = t.draw(100 * MS, create_permission(2, PEER_1))
    reply = success(CREATE_PERMISSION, 2)
    line = t.ask(100 * MS, f"@{drawn}", "grant", reply)
    t.comes(100 * MS, line, reply, 24)
    t.lets(AT_1)
    t.is_permitted(PEER_1)
    drawn = t.binds(100 * MS, 3, A, ONE)
    reply = success(CHANNEL_BIND, 3)
    line = t.ask(NOW, f"@{drawn}", "grant", reply)
    # half of a payload comes with the end of the reply
    whole = padded(A, b"hello")
    t.is_handled_once(reply)
    t.peers[A] = ONE
    t.piece(NOW, reply[:8], f"@{line}:0:8")
    t.piece(NOW, reply[8:] + whole[:6], f"@{line}:8:{len(reply)}+{whole[:6].hex()}")
    created(t, ONE)
    t.channels((A, ONE))
    t.piece(NOW, whole[6:] + DATA_OF_1 + padded(A, b"bye")[:5])
    t.recv(NOW)
    t.recv(NOW)
    t.piece(NOW, padded(A, b"bye")[5:])
    t.piece(NOW, REPORT_OF_1)
    sends(t, NOW, b"hello")
    indicates(t, NOW, NEXT, AT_1, HI)
    t.piece(NOW, b"")
    t.piece(NOW, whole)
    return "Over TCP: the handshake in pieces, a permission, a channel, and data both ways", t


def stream_traces():
    yield from (
        whole_handshake(), handshake_in_bytes(), handshake_asked_for(), *handshakes_in_two(),
        *handshakes_at_random(), all_in_bytes(), waiting_for_a_byte(), before_it_asks(),
        handshake_of_both_families(), *each_setting(), nobody_answers(), nobody_answers_at_other_waits(), deleted(),
        renewal_lost(), permission_and_channel(), stale_nonces(), stale_renewal(), second_challenge(),
        reflected_request(), ten_challenges(), grant_twice(), forged_grant(), stream_whole(), stream_in_two(),
        stream_in_bytes(), stream_at_random(), several_payloads(), end_and_beginning(), lengths(),
        response_behind_a_payload(), channel_behind_its_grant(), unbound_channel(), reports(), reports_passed_over(),
        endless_message(), of_strangers(), garbled(), waiting_challenge(), waiting_grant(), waiting_too_long(),
        waiting_while_it_lapses(), waiting_while_it_is_deleted(), end_of_the_stream(), end_within_a_frame(),
        *no_stream(), *wrong_cookies(), dead_behind_a_frame(), other_hosts(), out_of_range(), nothing_waits(),
        padded_sends(), long_sends(), given_back(), tcp_allocation(), tcp_permission_refused(),
        tcp_allocation_deleted(), tcp_allocation_renewed(), tcp_allocation_refused(), error_above(),
        error_before_the_challenge(), example(),
    )
