"""The traces of a client over TCP: what its frames give, what waits, how the stream ends, and what goes.

`traces_tcp.py` has the others, and `traces_tcp_base.py` what is known of a stream.
"""

from traces_base import (
    CHANNEL_BIND, CLIENT, CREATE_PERMISSION, HASHED, MS, RELAYED, SECOND, SERVER, Trace, challenge, setup,
    signed_allocate, success,
)
from traces_channels import A, B, FOUR, ONE, ONE_IP, created
from traces_payloads import AT_1, AT_2, HI, OTHER_REPORT, REPORT, data, indicates, not_sent, of, send, told
from traces_permissions import DUE, LAPSE, PEER_1, PEER_2
from traces_tcp_base import (
    BROKEN, DATA_OF_1, LONGEST, MARKED, NEXT, NOW, ODD, REPORT_OF_1, carrying, holding, over, padded, peer_gives,
    places_within, spans,
)


# ---- a stream of three frames: a DATA indication, a channel frame with padding, and a response


def cut(t, now, k, ip, *places):
    """Its response grants a permission that is asked for. It comes cut at these places, and each piece is followed
    by `recv` until nothing waits: whatever the places are, the payloads are the same, and so is what is held."""
    t.asks(now, k, ip)
    now += 50 * MS
    stream = DATA_OF_1 + padded(A, b"hello") + t.is_handled_once(success(CREATE_PERMISSION, k))
    given = []
    for a, b in spans(len(stream), places):
        given += [t.piece(now, stream[a:b]), *t.rest(now)]
    wanted = [peer_gives(AT_1, HI), peer_gives(ONE, b"hello")]
    assert [it for it in given if it.startswith("peer")] == wanted, given
    t.event(f"PermissionCreated udp {ip}")
    t.has(ip)
    return now


# how many bytes it has
STREAM = len(DATA_OF_1) + 12 + len(success(CREATE_PERMISSION, 0))


def stream_in_two():
    t, now = carrying(), NOW
    for at in range(1, STREAM):
        now = cut(t, now, NEXT + at - 1, f"10.1.0.{at}", at)
    t.event("none")
    t.channels((A, ONE))
    t.permits(PEER_1, ONE_IP, *(f"10.1.0.{at}" for at in range(1, STREAM)))
    return "A stream of two messages with a channel frame between them, cut in two at each place", t


def stream_in_bytes():
    t = carrying()
    cut(t, NOW, NEXT, PEER_2, *range(1, STREAM))
    t.event("none")
    t.permits(PEER_1, ONE_IP, PEER_2)
    return "The same stream, byte by byte", t


def stream_whole():
    t = carrying()
    cut(t, NOW, NEXT, PEER_2)
    t.event("none")
    t.permits(PEER_1, ONE_IP, PEER_2)
    return "The same stream in one piece", t


def stream_at_random():
    t, now = carrying(), NOW
    for seed in range(30):
        now = cut(t, now, NEXT + seed, f"10.1.0.{seed + 1}", *places_within(STREAM, seed))
    t.event("none")
    return "The same stream thirty times, in pieces of any length", t


# ---- what a piece gives


def several_payloads():
    t = carrying()
    t.piece(NOW, padded(A, b"one") + DATA_OF_1 + padded(A, b"two"))
    t.rest(NOW)
    t.piece(NOW, padded(A, b"three") + padded(A, b"four") + padded(A, b"five!"))
    # each piece gives the first that waits
    t.piece(NOW, DATA_OF_1 + padded(A, b"six"))
    t.piece(NOW, padded(A, b"seven")[:3])
    t.rest(NOW)
    t.piece(NOW, padded(A, b"seven")[3:])
    t.rest(NOW)
    return "Several payloads in one piece: the others wait until the next piece comes, or one asks for them", t


def end_and_beginning():
    t = carrying()
    one, other = padded(A, b"payload"), DATA_OF_1
    t.piece(NOW, one[:5])
    t.rest(NOW)
    t.piece(NOW, one[5:] + other[:19])
    t.rest(NOW)
    t.piece(NOW, other[19:] + one[:11])
    t.rest(NOW)
    t.piece(NOW, one[11:])
    t.rest(NOW)
    return "Pieces that hold the end of one frame and the beginning of the next", t


def lengths():
    t = carrying()
    for size in range(10):
        value = bytes(range(size))
        t.piece(NOW, padded(A, value))
        t.piece(NOW, padded(A, value, 0xFF))
        whole = padded(A, value)
        if len(whole) > 4 + size:
            # it is whole with its padding
            t.pieces(NOW, whole[: 4 + size], whole[4 + size :])
        t.recv(NOW)
    return "Channel frames of each length, whatever their padding is: each is given without it", t


def response_behind_a_payload():
    t = carrying()
    t.asks(NOW, NEXT, PEER_2)
    now = NOW + 50 * MS
    reply = t.is_handled_once(success(CREATE_PERMISSION, NEXT))
    t.piece(now, DATA_OF_1 + reply)
    t.event("none")
    t.has(PEER_2, "no")
    t.poll(now, NOW + LONGEST)
    t.draw(now, None)
    t.recv(now)
    t.is_permitted(PEER_2, PEER_1, ONE_IP)
    return "A response waits behind a payload: it has its effect when it is asked for", t


def channel_behind_its_grant():
    t = holding(PEER_1)
    t.binds(100 * MS, 3, A, ONE)
    now = 150 * MS
    reply = t.is_handled_once(success(CHANNEL_BIND, 3))
    t.piece(now, padded(A, b"early") + reply)
    t.peers[A] = ONE
    created(t, ONE)
    t.event("none")
    t.binds(now, 4, B, FOUR)
    now += 50 * MS
    reply = t.is_handled_once(success(CHANNEL_BIND, 4))
    t.peers[B] = FOUR
    t.piece(now, reply + padded(B, b"timely"))
    created(t, FOUR)
    t.piece(now, padded(A, b"late"))
    return "A frame of a channel comes before its grant in one piece, and another one behind its grant", t


def unbound_channel():
    t = carrying()
    t.pieces(NOW, padded(B, b"none"), padded(0x7FFF, b""), padded(0x5000, b"x"))
    t.recv(NOW)
    t.pieces(NOW, padded(B, b"none") + padded(A, HI), padded(B, b"a") + padded(B, b"b"))
    t.recv(NOW)
    t.piece(NOW, padded(A, HI) + padded(B, b"none") + padded(A, b"behind"))
    t.rest(NOW)
    return "Frames of channels that aren't bound: they are passed by, and what stands behind them is given", t


def reports():
    t = carrying()
    t.piece(NOW, REPORT_OF_1)
    t.recv(NOW)
    t.piece(NOW, REPORT_OF_1 + told(of(AT_1), OTHER_REPORT))
    t.rest(NOW)
    t.piece(NOW, REPORT_OF_1 + padded(A, HI) + REPORT_OF_1 + DATA_OF_1)
    t.rest(NOW)
    t.pieces(NOW, REPORT_OF_1[:30], REPORT_OF_1[30:])
    return "A report is given as the first frame of a piece", t


def reports_passed_over():
    t = carrying()
    t.piece(NOW, padded(B, b"none") + REPORT_OF_1)
    t.recv(NOW)
    t.piece(NOW, padded(B, b"none") + REPORT_OF_1 + padded(A, HI))
    t.recv(NOW)
    t.piece(NOW, padded(A, HI) + REPORT_OF_1)
    t.recv(NOW)
    t.asks(NOW, NEXT, PEER_2)
    now = NOW + 50 * MS
    t.piece(now, t.is_handled_once(success(CREATE_PERMISSION, NEXT)) + REPORT_OF_1)
    t.recv(now)
    t.is_permitted(PEER_2, PEER_1, ONE_IP)
    t.piece(now, padded(A, HI) + REPORT_OF_1 + DATA_OF_1)
    t.rest(now)
    # it is the first one of the next piece
    t.piece(now, padded(A, HI) + REPORT_OF_1)
    t.piece(now, padded(A, HI))
    t.rest(now)
    return "A report behind another frame is passed over, unless that gave a payload and the next piece comes", t


def endless_message():
    t = carrying()
    begin = told()
    t.piece(NOW, padded(A, HI) + begin[:2] + b"\xff\xfc" + begin[4:])
    t.pieces(NOW, padded(A, HI), DATA_OF_1 * 10)
    t.recv(NOW)
    t.poll(NOW, DUE)
    t.piece(NOW, b"")
    return "A message that tells of more than ever comes: what stands behind it is part of it", t


def of_strangers():
    t = carrying()
    strange = told(of(AT_2), data(HI))
    t.pieces(NOW, strange, told(of(AT_2), REPORT), strange[:20], strange[20:], strange * 2)
    t.recv(NOW)
    t.piece(NOW, strange + told(of(AT_2), REPORT) + DATA_OF_1 + strange)
    t.rest(NOW)
    return "Data and reports of peers without a permission are passed by, and what stands behind them is given", t


def garbled():
    t = carrying()
    for bad in (MARKED, BROKEN, ODD):
        t.piece(NOW, bad)
        t.recv(NOW)
        t.piece(NOW, bad + padded(A, HI))
        t.rest(NOW)
        t.piece(NOW, bad + padded(A, b"one"))
        t.piece(NOW, padded(A, b"two"))
        t.rest(NOW)
        t.pieces(NOW, bad * 2 + DATA_OF_1, bad, bad)
        t.rest(NOW)
        t.pieces(NOW, bad[:21], bad[21:] + padded(A, HI))
        t.rest(NOW)
        t.piece(NOW, padded(B, b"none") + bad + padded(A, HI))
        t.rest(NOW)
    return "A message that doesn't parse in front of a payload: no other frame is taken by its piece", t


# ---- what waits


def waiting_challenge():
    t = over()
    line = t.challenged()
    text = t.is_handled_once(challenge(0))
    t.piece(0, MARKED + text, f"{MARKED.hex()}+@{line}")
    t.poll(0, LONGEST)
    t.draw(50 * MS, None)
    t.recv(10 * SECOND)
    t.draw(10 * SECOND, signed_allocate(1, HASHED))
    t.poll(10 * SECOND, 10 * SECOND + LONGEST)
    return "The challenge waits behind what doesn't parse: the request is signed when one asks for what waits", t


def waiting_grant():
    t = holding()
    t.asks(50 * MS, 2, PEER_1)
    t.piece(100 * MS, MARKED + t.is_handled_once(success(CREATE_PERMISSION, 2)))
    t.has(PEER_1, "no")
    t.recv(10 * SECOND)
    t.is_permitted(PEER_1)
    t.poll(10 * SECOND, 250 * SECOND)
    return "A grant waits: the permission stands from the moment at which it is taken", t


def waiting_too_long():
    t = holding()
    t.asks(50 * MS, 2, PEER_1)
    t.piece(100 * MS, MARKED + success(CREATE_PERMISSION, 2))
    late = 50 * MS + LONGEST
    t.poll(100 * MS, late)
    t.poll(late, late)
    t.recv(late)
    t.is_forbidden(PEER_1)
    t.event("none")
    return "A grant waits until its request is given up: it counts no more", t


def waiting_while_it_lapses():
    t = carrying()
    t.piece(NOW, DATA_OF_1 * 2 + padded(A, HI))
    t.poll(LAPSE, LAPSE)
    t.event(f"PermissionCreateFailed udp {PEER_1}")
    t.means = {}
    t.rest(LAPSE)
    return "Data waits until the permission for its peer has lapsed: it is passed by, and a frame behind it is given", t


def waiting_while_it_is_deleted():
    t = carrying()
    t.piece(NOW, padded(A, HI) * 2 + DATA_OF_1)
    t.say(f"delete {NOW}", "ok")
    t.means, t.peers = {}, {}
    t.recv(NOW)
    t.piece(NOW, padded(A, HI))
    return "Payloads wait until the allocation is deleted: none is given", t


# ---- the end of the stream, and streams that are none


def end_of_the_stream():
    t = over()
    line = t.challenged()
    text = challenge(0)
    t.piece(0, b"")
    t.piece(0, text, f"@{line}")
    t.piece(0, b"")
    t.piece(0, text[:1], f"@{line}:0:1")
    t.recv(0)
    t.draw(50 * MS, None)
    t.poll(50 * MS, LONGEST)
    t.poll(LONGEST, None)
    t.fails(LONGEST)
    return "The stream ends, and pieces behind its end are for nobody", t


def end_within_a_frame():
    t = carrying()
    t.piece(NOW, padded(A, b"one") + padded(A, b"two") + padded(A, b"three")[:5])
    t.piece(NOW, b"")
    t.recv(NOW)
    t.pieces(NOW, padded(A, b"three")[5:], DATA_OF_1, b"")
    t.recv(NOW)
    t.has(PEER_1)
    t.channels((A, ONE))
    sends(t, NOW, HI)
    t.shows(RELAYED)
    t.poll(NOW, DUE)
    return "The stream ends while frames wait: they are gone, and what is held stays", t


def no_stream():
    """What begins with other bits than a message or a channel frame ends what is kept."""
    for begin in (b"\x80", b"\xc0", b"\xff\0\0\0"):
        t = over()
        line = t.challenged()
        t.piece(0, begin)
        t.piece(0, challenge(0), f"@{line}")
        t.recv(0)
        t.draw(50 * MS, None)
        t.poll(50 * MS, LONGEST)
        t.piece(50 * MS, b"")
        t.piece(50 * MS, b"\0")
        yield f"The bytes {begin.hex()}, and then the genuine challenge: no frame comes of that stream any more", t


def wrong_cookies():
    for at in range(4, 8):
        t = carrying()
        bad = bytearray(told())
        bad[at] ^= 1
        t.piece(NOW, bytes(bad[: at + 1]))
        t.piece(NOW, bytes(bad[at + 1 :]))
        t.pieces(NOW, padded(A, HI), DATA_OF_1)
        t.recv(NOW)
        t.has(PEER_1)
        sends(t, NOW, HI)
        yield f"Byte {at} of a message is wrong, one of the cookie: nothing comes behind it", t


def dead_behind_a_frame():
    t = carrying()
    t.piece(NOW, padded(A, HI) + b"\x80" + padded(A, b"behind"))
    t.rest(NOW)
    t.piece(NOW, padded(A, b"behind"))
    t.recv(NOW)
    return "A payload in front of what is no frame: it is given, and nothing behind it", t


def other_hosts():
    t = carrying()
    whole = padded(A, b"payload")
    t.piece(NOW, whole[:6])
    for source, to in (("10.0.0.2:2001", CLIENT), ("10.0.0.3:2000", CLIENT), (SERVER, "192.168.0.1:1001")):
        for what in (whole[6:], whole, DATA_OF_1, b"\x80", b""):
            t.hear(NOW, what, "ignored", source=source, to=to)
    t.recv(NOW)
    t.piece(NOW, whole[6:])
    t.recv(NOW)
    return "What other hosts send, and what goes to another address: none of it is of the stream, nor its end", t


def out_of_range():
    t = carrying()
    whole = padded(A, b"payload")
    late = 2**62 + 1
    t.piece(NOW, whole[:6])
    t.hear(late, whole[6:], "out of range")
    t.hear(late, b"", "out of range")
    t.say(f"recv {late}", "out of range")
    t.say("recv 18446744073709551615", "out of range")
    t.piece(NOW, whole[6:] + DATA_OF_1)
    t.say(f"recv {late}", "out of range")
    t.recv(NOW)
    t.recv(2**62)
    return "Pieces, and what waits, behind the last moment of a client: nothing is done", t


def nothing_waits():
    t = Trace(setup())
    t.say("recv 0", "none")
    t.held()
    t.permitted(50 * MS, 2, PEER_1)
    now = 100 * MS
    t.hear(now, DATA_OF_1, peer_gives(AT_1, HI))
    t.hear(now, DATA_OF_1[:30], "ignored")
    t.hear(now, DATA_OF_1[30:], "ignored")
    t.hear(now, b"", "ignored")
    t.hear(now, DATA_OF_1, peer_gives(AT_1, HI))
    t.say(f"recv {now}", "none")
    t.say(f"recv {2**62}", "none")
    t.say(f"recv {2**62 + 1}", "out of range")
    return "Over UDP nothing waits, and no datagram is put together with another one", t


# ---- what goes


def sends(t, now, value, channel=A, peer=ONE):
    """Bytes go in a channel frame with its padding."""
    text = padded(channel, value)
    return send(t, now, peer, value, f"transmit {CLIENT} {SERVER} {text.hex()}")


def padded_sends():
    t = carrying()
    for size in range(6):
        value = bytes(range(1, size + 1))
        sends(t, NOW, value)
        indicates(t, NOW, NEXT + size, AT_1, value)
    not_sent(t, NOW, AT_2, "NoPermission")
    not_sent(t, NOW, AT_1, "NoPermission", transport="tcp")
    t.draw(NOW, None)
    t.poll(NOW, DUE)
    return "Over TCP bytes of each length go by a channel, with zeros up to a multiple of four, or in an indication", t


def long_sends():
    t = carrying()
    line = sends(t, NOW, bytes(4093))
    each = f"@{line}:4:4098"
    most = "+".join([each] * 16)
    sends(t, NOW, bytes(4096))
    send(t, NOW, ONE, f"{most}+00", "refused TooLarge")
    send(t, NOW, f"{ONE_IP}:9001", f"{most}+00", "refused TooLarge")
    send(t, NOW, AT_2, f"{most}+00", "refused NoPermission")
    return "Over TCP long frames, and one byte more than there may be, which is refused", t


def given_back():
    t = carrying()
    t.piece(NOW, padded(A, b"echo!"))
    line = t.events
    text = padded(A, b"echo!")
    sent = send(t, NOW, ONE, f"@{line}", f"transmit {CLIENT} {SERVER} {text.hex()}")
    t.piece(NOW, text, f"@{sent}")
    t.piece(NOW, text + text[:6], f"@{sent}+@{sent}:0:6")
    t.piece(NOW, text[6:], f"@{sent}:6:12")
    t.piece(NOW, text + padded(A, b"two"))
    t.recv(NOW)
    line = t.events
    send(t, NOW, ONE, f"@{line}:1:3", f"transmit {CLIENT} {SERVER} {padded(A, b'wo').hex()}")
    return "Over TCP what was given goes back to the peer, and what the client sends comes back to it", t
