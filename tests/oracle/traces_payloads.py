"""The traces of sends and payloads, which `traces.py` puts behind those of channels (`docs/TRACE.md`).

What goes to a peer goes by a channel to it, in a frame of four bytes and the data, or else in a SEND indication,
for which a number is drawn. What comes of a peer is the data of a frame of a channel that stands, or the last
DATA of an indication that names a peer whose permission stands, or without one the report of its last ICMP.
"""

import struct
import zlib

from traces_base import (
    ALLOCATE, BINDING, CHANNEL_BIND, CLIENT, CREATE_PERMISSION, ERROR, INDICATION, MAGIC, MS, NONCE, PEER, REALM,
    RELAYED, SECOND, SERVER, SHA1, SHA256, SUCCESS, UNKNOWN, USERNAME, Trace, attribute, channel_bind,
    create_permission, error, lifetime, message, number, setup, success, xored,
)
from traces_channels import (
    A, B, C, CHANNEL_LAPSE, ONE, ONE_IP, SIX, TWO, bound, created, forbidden, lasting, of_both_families,
)
from traces_permissions import DUE, FORBIDDEN, LAPSE, PEER_1, PEER_2, PEER_3, PEER_6, RELAYED_6, holding

SEND, DATA_METHOD = 0x006, 0x007
TOLD = DATA_METHOD | INDICATION
DATA, ICMP, SOFTWARE, FINGERPRINT = 0x13, 0x8004, 0x8022, 0x8028
MOST = 65504
# the number of an indication of the server's
ANY = bytes(range(0xA0, 0xAC))
HI = b"hi"
REPORT = (ICMP, bytes((0, 0, 3, 1, 0, 0, 0, 5)))
OTHER_REPORT = (ICMP, bytes((0, 0, 1, 2, 0, 0, 0, 3)))
# a port of each peer
AT_1, AT_2, AT_3, AT_6 = f"{PEER_1}:5", f"{PEER_2}:5", f"{PEER_3}:5", f"[{PEER_6}]:5"


def of(peer):
    return PEER, xored(peer, ANY)


def told(*attributes, kind=TOLD, signed=None):
    """A message of the server's, a DATA indication unless another kind is said."""
    return message(kind, ANY, attributes, signed)


def data(value):
    return DATA, value


def fingerprinted(text, wrong=0):
    """A message with a FINGERPRINT behind it (RFC 8489, section 14.7)."""
    kind, size, rest = *struct.unpack(">HH", text[:4]), text[4:]
    whole = struct.pack(">HH", kind, size + 8) + rest
    value = zlib.crc32(whole) ^ 0x5354554E ^ wrong
    return whole + attribute(FINGERPRINT, struct.pack(">I", value))


def frame(channel, value, behind=b""):
    return struct.pack(">HH", channel, len(value)) + value + behind


def shown(value):
    return value.hex() or "-"


def gives(t, now, what, peer, value):
    """What comes gives data of a peer: the number of the line."""
    return t.hear(now, what, f"peer udp {peer} {shown(value)}")


def reports(t, now, what, peer, kind, code, details):
    return t.hear(now, what, f"icmp udp {peer} {kind} {code} {details}")


def passes(t, now, *texts):
    """The client has no use for these."""
    for it in texts:
        t.hear(now, it, "ignored")


def send(t, now, peer, what, answer, transport="udp"):
    what = what if isinstance(what, str) else shown(what)
    return t.say(f"send {now} {transport} {peer} {what}", answer)


def indicates(t, now, k, peer, value, what=None):
    """Bytes go in a SEND indication: the number of the line."""
    text = message(SEND | INDICATION, number(k), [(PEER, xored(peer, number(k))), (DATA, value)])
    return send(t, now, peer, value if what is None else what, f"transmit {CLIENT} {SERVER} {text.hex()}")


def frames(t, now, channel, peer, value, what=None):
    """Bytes go in a frame of a channel: the number of the line."""
    text = frame(channel, value)
    return send(t, now, peer, value if what is None else what, f"transmit {CLIENT} {SERVER} {text.hex()}")


def not_sent(t, now, peer, why, value=HI, transport="udp"):
    return send(t, now, peer, value, f"refused {why}", transport)


# ---- what comes


def asks_for_two(t):
    """Permissions are asked for, of which the desk grants the first and refuses the second: its replies."""
    t.permission(50 * MS, PEER_1)
    t.permission(50 * MS, PEER_2)
    one = t.draw(100 * MS, create_permission(2, PEER_1))
    other = t.draw(150 * MS, create_permission(3, PEER_2))
    granted = t.ask(100 * MS, f"@{one}", "grant", success(CREATE_PERMISSION, 2))
    refused = t.ask(150 * MS, f"@{other}", "refuse 403", error(CREATE_PERMISSION, 3, FORBIDDEN))
    return granted, refused


def data_of_a_peer():
    t = holding()
    granted, refused = asks_for_two(t)
    now = 150 * MS
    passes(t, now, told(of(AT_1), data(HI)))
    t.hear(now, f"@{refused}")
    t.hear(now, f"@{granted}")
    t.is_forbidden(PEER_2, PEER_1)
    t.is_permitted(PEER_1)
    gives(t, now, told(of(AT_1), data(HI)), AT_1, HI)
    reports(t, now, told(of(AT_1), REPORT), AT_1, 3, 1, 5)
    passes(t, now, told(of(AT_2), data(HI)), told(of(AT_2), REPORT), told(of(AT_3), data(HI)))
    t.event("none")
    t.permits(PEER_1)
    return "Data and an ICMP report of a peer with a permission, and of two without one", t


def any_port():
    t = holding(PEER_1)
    now = 100 * MS
    for port in (0, 1, 5, 65535):
        at = f"{PEER_1}:{port}"
        gives(t, now, told(of(at), data(bytes((port & 255,)))), at, bytes((port & 255,)))
    passes(t, now, told(of(f"[::ffff:{PEER_1}]:5"), data(HI)))
    return "A permission is of an address: each port of it is let through", t


def no_data():
    t = holding(PEER_1)
    now = 100 * MS
    gives(t, now, told(of(AT_1), data(b"")), AT_1, b"")
    passes(t, now, told(of(AT_1)), told(data(HI)), told(REPORT), told())
    return "Data of no bytes is data; an indication without data and report is none, nor is one without a peer", t


def attributes_in_any_order():
    t = holding(PEER_1)
    now = 100 * MS
    gives(t, now, told(data(HI), of(AT_1)), AT_1, HI)
    gives(t, now, told(of(AT_1), data(HI), REPORT), AT_1, HI)
    gives(t, now, told(REPORT, data(HI), of(AT_1)), AT_1, HI)
    gives(t, now, told(of(AT_1), data(b""), REPORT), AT_1, b"")
    reports(t, now, told(REPORT, of(AT_1)), AT_1, 3, 1, 5)
    return "Data goes before a report, in whatever order they stand", t


def the_last_of_each():
    t = holding(PEER_1, PEER_3)
    now = 150 * MS
    gives(t, now, told(of(AT_1), data(b"one"), data(b"other")), AT_1, b"other")
    gives(t, now, told(of(AT_1), data(b"one"), data(b"")), AT_1, b"")
    gives(t, now, told(of(AT_1), of(AT_3), data(HI)), AT_3, HI)
    gives(t, now, told(of(AT_2), of(AT_1), data(HI)), AT_1, HI)
    passes(t, now, told(of(AT_1), of(AT_2), data(HI)))
    reports(t, now, told(of(AT_1), REPORT, OTHER_REPORT), AT_1, 1, 2, 3)
    return "Of several peers, data and reports the last counts", t


def malformed():
    t = holding(PEER_1)
    now = 100 * MS
    short, long = (PEER, xored(AT_1, ANY)[:7]), (PEER, xored(AT_1, ANY) + b"\0")
    no_family = (PEER, b"\0\3" + xored(AT_1, ANY)[2:])
    for bad in (short, long, no_family, (PEER, b"")):
        passes(t, now, told(bad, data(HI)), told(of(AT_1), bad, data(HI)))
        gives(t, now, told(bad, of(AT_1), data(HI)), AT_1, HI)
    for bad in ((ICMP, REPORT[1][:7]), (ICMP, REPORT[1] + b"\0"), (ICMP, b"")):
        passes(t, now, told(of(AT_1), bad), told(of(AT_1), REPORT, bad))
        reports(t, now, told(of(AT_1), bad, REPORT), AT_1, 3, 1, 5)
        gives(t, now, told(of(AT_1), bad, data(HI)), AT_1, HI)
    return "A peer or a report that is malformed counts for none, and one before it doesn't count either", t


def reserved_bytes():
    t = holding(PEER_1)
    now = 100 * MS
    gives(t, now, told((PEER, b"\xff" + xored(AT_1, ANY)[1:]), data(HI)), AT_1, HI)
    reports(t, now, told(of(AT_1), (ICMP, b"\xff\xff" + REPORT[1][2:])), AT_1, 3, 1, 5)
    reports(t, now, told(of(AT_1), (ICMP, b"\0\0\xff\xff\xff\xff\xff\xff")), AT_1, 255, 255, 2**32 - 1)
    return "Bytes that are reserved are not looked at", t


def unknown_attributes():
    t = holding(PEER_1)
    now = 100 * MS
    for kind in (0x0000, 0x0001, 0x0017, 0x002B, 0x7FFF):
        passes(t, now, told((kind, b""), of(AT_1), data(HI)), told(of(AT_1), data(HI), (kind, b"abc")))
        passes(t, now, told(of(AT_1), (kind, b""), REPORT))
    for kind in (0x8000, 0x8003, 0x8005, 0xFFFF):
        gives(t, now, told((kind, b""), of(AT_1), data(HI), (kind, b"abc")), AT_1, HI)
        reports(t, now, told(of(AT_1), (kind, b"abcd"), REPORT), AT_1, 3, 1, 5)
    return "An attribute that has to be understood and isn't, and one that may be passed by", t


def attributes_of_other_messages():
    t = holding(PEER_1)
    now = 100 * MS
    for it in ((USERNAME, b"user"), (REALM, b"realm"), (NONCE, b"nonce"), lifetime(600), (UNKNOWN, b"")):
        passes(t, now, told(of(AT_1), data(HI), it), told(it, of(AT_1), REPORT))
    for it in ((SOFTWARE, b"desk"), (0x8002, b"\0\1\0\0")):
        gives(t, now, told(of(AT_1), data(HI), it), AT_1, HI)
    return "An indication shows what has no place in it: it is passed by, where that has to be understood", t


def signed_data():
    t = holding(PEER_1)
    now = 100 * MS
    passes(t, now, told(of(AT_1), data(HI), signed=SHA1), told(of(AT_1), data(HI), signed=SHA256))
    passes(t, now, told(of(AT_1), data(HI)) [:2] + b"\0\x24" + told(of(AT_1), data(HI))[4:] + attribute(8, bytes(20)))
    passes(t, now, told(of(AT_1), REPORT, signed=SHA1))
    return "An indication that shows its integrity, right or wrong: it is passed by", t


def with_a_fingerprint():
    t = holding(PEER_1)
    now = 100 * MS
    gives(t, now, fingerprinted(told(of(AT_1), data(HI))), AT_1, HI)
    reports(t, now, fingerprinted(told(of(AT_1), OTHER_REPORT)), AT_1, 1, 2, 3)
    passes(t, now, fingerprinted(told(of(AT_1), data(HI)), wrong=1))
    return "An indication with a fingerprint, and with a wrong one", t


def report_without_a_permission():
    t = holding()
    passes(t, 50 * MS, told(of(AT_1), OTHER_REPORT), told(of(AT_1), data(HI)))
    t.event("none")
    return "A report and data of a peer, and no permission", t


def other_messages():
    t = holding(PEER_1)
    now = 100 * MS
    for kind in (SEND | INDICATION, BINDING | INDICATION, ALLOCATE | INDICATION):
        passes(t, now, told(of(AT_1), data(HI), kind=kind))
    for kind in (DATA_METHOD, DATA_METHOD | SUCCESS, DATA_METHOD | ERROR):
        passes(t, now, told(of(AT_1), data(HI), kind=kind), told(of(AT_1), data(HI), kind=kind, signed=SHA1))
    gives(t, now, told(of(AT_1), data(HI)), AT_1, HI)
    return "Other indications than DATA, and other messages of that method: none gives data", t


def cut_short():
    t = holding(PEER_1)
    now = 100 * MS
    whole = told(of(AT_1), data(b"data"))
    for size in (0, 1, 19, 20, 24, 32, len(whole) - 1):
        passes(t, now, whole[:size])
    passes(t, now, whole + b"\0", whole[:4] + bytes(4) + whole[8:])
    for source, to in (("10.0.0.2:2001", CLIENT), ("10.0.0.3:2000", CLIENT), (SERVER, "192.168.0.1:1001")):
        t.hear(now, whole, "ignored", source=source, to=to)
    gives(t, now, whole, AT_1, b"data")
    return "An indication that is cut short or too long, with a wrong cookie, or not from the server to the client", t


def longest_data():
    t = holding(PEER_1)
    now = 100 * MS
    most = 65532 - 16
    value = bytes(most)
    gives(t, now, told(of(AT_1), data(value)), AT_1, value)
    return "As much data as an indication has room for", t


def data_of_both_families():
    t = of_both_families(RELAYED, RELAYED_6)
    t.is_created(RELAYED, RELAYED_6)
    drawn = t.asks(50 * MS, 2, PEER_6)
    t.decides(100 * MS, drawn, "grant", success(CREATE_PERMISSION, 2))
    t.is_permitted(PEER_6, at=RELAYED_6)
    now = 100 * MS
    gives(t, now, told(of(AT_6), data(HI)), AT_6, HI)
    reports(t, now, told(of(AT_6), REPORT), AT_6, 3, 1, 5)
    passes(t, now, told(of(AT_1), data(HI)))
    t.permitted(now, 3, PEER_1)
    gives(t, now, told(of(AT_1), data(HI)), AT_1, HI)
    indicates(t, now, 4, AT_6, HI)
    indicates(t, now, 5, AT_1, HI)
    not_sent(t, now, f"[::ffff:{PEER_1}]:5", "NoPermission")
    return "Data and reports of peers of both families, and data for them", t


def before_there_is_one():
    t = Trace(setup())
    indication, one = told(of(AT_1), data(HI)), frame(A, HI)
    passes(t, 0, indication, one)
    not_sent(t, 0, AT_1, "NoPermission")
    line = t.granted()
    passes(t, 50 * MS, indication, one)
    not_sent(t, 50 * MS, AT_1, "NoPermission")
    t.hear(50 * MS, f"@{line}")
    t.is_created(RELAYED)
    passes(t, 50 * MS, indication, one)
    not_sent(t, 50 * MS, AT_1, "NoPermission")
    t.permission(50 * MS, PEER_1)
    passes(t, 50 * MS, indication)
    not_sent(t, 50 * MS, AT_1, "NoPermission")
    drawn = t.draw(100 * MS, create_permission(2, PEER_1))
    t.decides(100 * MS, drawn, "grant", success(CREATE_PERMISSION, 2))
    gives(t, 100 * MS, indication, AT_1, HI)
    indicates(t, 100 * MS, 3, AT_1, HI)
    return "Before there is an allocation, a permission was asked for and it was granted, nothing comes or goes", t


# ---- by channels


def frames_of_both_families():
    t = of_both_families(RELAYED, RELAYED_6)
    t.is_created(RELAYED, RELAYED_6)
    four = bytes((1, 2, 3, 4))
    passes(t, 50 * MS, frame(A, four))
    drawn = t.binds(50 * MS, 2, A, ONE)
    now = 100 * MS
    passes(t, now, frame(A, four))
    t.decides(now, drawn, "grant", success(CHANNEL_BIND, 2))
    created(t, ONE)
    gives(t, now, frame(A, four), ONE, four)
    drawn = t.binds(now, 3, B, SIX)
    now = 150 * MS
    passes(t, now, frame(B, four))
    t.decides(now, drawn, "grant", success(CHANNEL_BIND, 3))
    created(t, SIX)
    t.channels((A, ONE), (B, SIX))
    gives(t, now, frame(B, four), SIX, four)
    gives(t, now, frame(A, four), ONE, four)
    passes(t, now, frame(C, four))
    frames(t, now, A, ONE, four)
    frames(t, now, B, SIX, four)
    # another port of the peer has the permission, and no channel
    indicates(t, now, 4, "10.0.0.3:9001", four)
    return "A frame of a channel of each family, and data for either peer", t


def frames_of_each_length():
    t = lasting(ONE)
    now = 100 * MS
    for size in (0, 1, 2, 3, 4, 5, 1200):
        value = bytes(i & 255 for i in range(size))
        gives(t, now, frame(A, value), ONE, value)
        gives(t, now, frame(A, value, b"behind"), ONE, value)
        if size:
            passes(t, now, frame(A, value)[:-1])
    passes(t, now, b"", b"\x40", b"\x40\0", b"\x40\0\0", frame(A, b"")[:2] + b"\xff\xff")
    for channel in (0x3FFF, B, 0x4FFF, 0x7FFF, 0x8000, 0xFFFF):
        passes(t, now, frame(channel, HI))
    t.hear(now, frame(A, HI), "ignored", source="10.0.0.3:2000")
    t.hear(now, frame(A, HI), "ignored", to="192.168.0.1:1001")
    t.event("none")
    return "Frames of each length, with bytes behind them and a byte short; of other numbers, and of another host", t


def longest_frame():
    t = lasting(ONE)
    value = bytes(65535)
    gives(t, 100 * MS, frame(A, value), ONE, value)
    return "The longest frame there is", t


def refused_channel():
    t = forbidden()
    passes(t, 100 * MS, frame(A, HI), told(of(ONE), data(HI)))
    not_sent(t, 100 * MS, ONE, "NoPermission")
    bound(t, 100 * MS, 3, A, TWO)
    gives(t, 150 * MS, frame(A, HI), TWO, HI)
    return "A channel is refused: its frames give nothing, until its number is another channel's", t


def frame_without_a_permission():
    t = lasting(ONE)
    t.poll(LAPSE, LAPSE)
    t.event(f"PermissionCreateFailed udp {ONE_IP}")
    gives(t, LAPSE, frame(A, HI), ONE, HI)
    passes(t, LAPSE, told(of(ONE), data(HI)))
    not_sent(t, LAPSE, ONE, "NoPermission")
    return "A channel stands, and the permission that came with it has lapsed: frames come, and nothing goes", t


# ---- what goes


def longest_sends():
    t = holding(PEER_1)
    now = 100 * MS
    # bytes that are long enough: sixteen, and four times twelve of each
    line = indicates(t, now, 3, AT_1, bytes(16))
    part, k = f"@{line}:40:52+@{line}:4:8", 4
    sixteen = bytes(12) + struct.pack(">I", MAGIC)
    value = sixteen * 16
    line = indicates(t, now, k, AT_1, value, "+".join([part] * 16))
    value = value * 16
    line = indicates(t, now, k + 1, AT_1, value, "+".join([f"@{line}:36:292"] * 16))
    whole = value * 16
    assert len(whole) == 65536
    each = f"@{line}:36:4132"
    most = "+".join([each] * 15 + [f"@{line}:36:4100"])
    indicates(t, now, k + 2, AT_1, whole[:MOST], most)
    send(t, now, AT_1, f"{most}+00", "refused TooLarge")
    send(t, now, AT_1, "+".join([each] * 17), "refused TooLarge")
    send(t, now, AT_2, f"{most}+00", "refused NoPermission")
    indicates(t, now, k + 3, AT_1, HI)
    return "A SEND indication of as many bytes as there may be; one more is refused, and draws no number", t


def longest_framed_send():
    t = lasting(ONE)
    now = 100 * MS
    zeros = "00" * 4094
    value = bytes(4094)
    line = frames(t, now, A, ONE, value, zeros)
    most = "+".join([f"@{line}:4:4098"] * 16)
    frames(t, now, A, ONE, bytes(MOST), most)
    send(t, now, ONE, f"{most}+00", "refused TooLarge")
    send(t, now, TWO, f"{most}+00", "refused NoPermission")
    return "A frame of as many bytes as there may be; one more is refused", t


def sends_refused():
    t = holding(PEER_1)
    now = 100 * MS
    indicates(t, now, 3, AT_1, HI)
    not_sent(t, now, f"{PEER_2}:5", "NoPermission")
    not_sent(t, now, "10.0.0.9:5", "NoPermission")
    not_sent(t, now, AT_6, "NoPermission")
    not_sent(t, now, AT_1, "NoPermission", transport="tcp")
    not_sent(t, now, f"[::ffff:{PEER_1}]:5", "NoPermission")
    send(t, 2**62 + 1, AT_1, HI, "out of range")
    indicates(t, 2**62, 4, AT_1, HI)
    drawn = t.asks(now, 5, PEER_2)
    t.decides(150 * MS, drawn, "grant", success(CREATE_PERMISSION, 5))
    return "Nothing goes to a peer without a permission, or over another transport: no number is drawn then", t


def sends_of_no_bytes():
    t = lasting(ONE)
    now = 100 * MS
    frames(t, now, A, ONE, b"")
    indicates(t, now, 3, "10.0.0.3:9001", b"")
    for size in range(1, 6):
        value = bytes(range(size))
        frames(t, now, A, ONE, value)
        indicates(t, now, 3 + size, "10.0.0.3:9001", value)
    return "Bytes of each length go by a channel, and to another port by an indication", t


def not_to_the_desk():
    t = holding(PEER_1)
    now = 100 * MS
    line = indicates(t, now, 3, AT_1, HI)
    t.ask(now, f"@{line}", "grant", None)
    given = gives(t, now, told(of(AT_1), data(b"payload")), AT_1, b"payload")
    indicates(t, now, 4, AT_1, b"payload", f"@{given}")
    indicates(t, now, 5, AT_1, b"load", f"@{given}:3:7")
    t.draw(now, None)
    t.poll(now, DUE)
    return "What was given goes back to the peer; a SEND indication is no request, and is not drawn again", t


def numbers_between():
    t = holding(PEER_1)
    now = 100 * MS
    t.permission(now, PEER_2)
    indicates(t, now, 4, AT_1, HI)
    t.bind(now, ONE)
    indicates(t, now, 6, AT_1, HI)
    t.draw(150 * MS, create_permission(3, PEER_2))
    t.draw(200 * MS, channel_bind(5, A, ONE))
    return "Each SEND indication takes a number, between those of requests that wait", t


def channel_at_its_end():
    t = lasting(ONE)
    frames(t, CHANNEL_LAPSE - 1, A, ONE, HI)
    frames(t, CHANNEL_LAPSE, A, ONE, HI)
    indicates(t, CHANNEL_LAPSE + 1, 3, ONE, HI)
    gives(t, CHANNEL_LAPSE + 1, frame(A, HI), ONE, HI)
    frames(t, CHANNEL_LAPSE, A, ONE, HI)
    t.poll(CHANNEL_LAPSE + 1, CHANNEL_LAPSE + 1)
    t.event(f"PermissionCreateFailed udp {ONE_IP}")
    t.event(f"ChannelCreateFailed udp {ONE}")
    t.event("none")
    passes(t, CHANNEL_LAPSE + 1, frame(A, HI))
    not_sent(t, CHANNEL_LAPSE, ONE, "NoPermission")
    return ("A channel's time is over: bytes go by an indication, "
            "and its frames still give data until the client is polled"), t


def second_channel():
    t = lasting()
    drawn = t.binds(50 * MS, 2, A, ONE)
    t.bind(100 * MS, ONE)
    t.decides(100 * MS, drawn, "grant", success(CHANNEL_BIND, 2))
    created(t, ONE)
    now = 20 * SECOND
    drawn = t.draw(now, channel_bind(3, B, ONE))
    t.decides(now, drawn, "grant", success(CHANNEL_BIND, 3))
    created(t, ONE, permission=False)
    t.channels((A, ONE), (B, ONE))
    frames(t, now, A, ONE, HI)
    gives(t, now, frame(A, b"a"), ONE, b"a")
    gives(t, now, frame(B, b"b"), ONE, b"b")
    # its time is over, and that of the second one is not
    indicates(t, CHANNEL_LAPSE + 1, 4, ONE, HI)
    return "Two channels to one peer: bytes go by the first, and where its time is over by an indication", t


# ---- what has ended


def lapsed_permission():
    t = holding(PEER_1)
    gives(t, LAPSE, told(of(AT_1), data(HI)), AT_1, HI)
    indicates(t, LAPSE + SECOND, 3, AT_1, HI)
    t.poll(LAPSE + SECOND, LAPSE + SECOND)
    t.is_forbidden(PEER_1)
    passes(t, LAPSE, told(of(AT_1), data(HI)), told(of(AT_1), REPORT))
    not_sent(t, LAPSE, AT_1, "NoPermission")
    return "A permission's time is over: it counts until the client is polled", t


def marked_allocation():
    t = lasting(ONE)
    now = 3600 * SECOND + 50 * MS
    t.has(ONE_IP)
    t.permission(now, PEER_2, "refused NoAllocation")
    t.has(ONE_IP, "no")
    t.channels()
    t.shows()
    gives(t, now, told(of(ONE), data(HI)), ONE, HI)
    reports(t, now, told(of(ONE), REPORT), ONE, 3, 1, 5)
    gives(t, now, frame(A, HI), ONE, HI)
    not_sent(t, now, ONE, "NoPermission")
    t.poll(now, None)
    passes(t, now, told(of(ONE), data(HI)), frame(A, HI))
    return "An allocation is marked as expired: data comes of its peers until the client is polled, and none goes", t


def deleted():
    t = lasting(ONE)
    t.say("delete 150000000", "ok")
    passes(t, 150 * MS, told(of(ONE), data(HI)), frame(A, HI))
    not_sent(t, 150 * MS, ONE, "NoPermission")
    return "The allocation is deleted: nothing comes and nothing goes", t


def above_an_error():
    t = lasting(ONE)
    now = 100 * MS
    t.say("error", "ok")
    t.event("AllocationCreateFailed 4")
    passes(t, now, told(of(ONE), data(HI)), told(of(ONE), REPORT))
    gives(t, now, frame(A, HI), ONE, HI)
    frames(t, now, A, ONE, HI)
    indicates(t, now, 3, "10.0.0.3:9001", HI)
    t.poll(now, None)
    gives(t, now, frame(A, b"on"), ONE, b"on")
    indicates(t, now, 4, "10.0.0.3:9001", HI)
    t.draw(150 * MS, None)
    return "The client has ended: frames give data on, indications don't, and bytes go on", t


# ---- a permission is renewed at the second request


def renewal_answered_late():
    t = holding(PEER_1)
    t.poll(100 * MS, DUE)
    slots = (0, 500, 1500, 3500, 7500, 15500, 31500, 39500)
    for at, until in zip(slots, slots[1:]):
        t.draw(DUE + at * MS, create_permission(3, PEER_1))
        t.poll(DUE + at * MS, DUE + until * MS)
    over = DUE + 39500 * MS
    t.poll(over, over)
    for at, until in zip(slots, slots[1:5]):
        t.draw(over + at * MS, create_permission(4, PEER_1))
        t.poll(over + at * MS, over + until * MS)
    now = over + 7500 * MS
    drawn = t.draw(now, create_permission(4, PEER_1))
    t.decides(now, drawn, "grant", success(CREATE_PERMISSION, 4))
    t.event("none")
    t.has(PEER_1)
    gives(t, now, told(of(AT_1), data(HI)), AT_1, HI)
    t.poll(LAPSE, now + 240 * SECOND)
    gives(t, LAPSE, told(of(AT_1), data(HI)), AT_1, HI)
    t.event("none")
    return "Nobody answers the renewal of a permission, and the second one is granted: it stands on", t


def example():
    """Both ways, by a permission and by channels of both families."""
    t = of_both_families(RELAYED, RELAYED_6)
    t.is_created(RELAYED, RELAYED_6)
    four = bytes((1, 2, 3, 4))
    granted, refused = asks_for_two(t)
    now = 150 * MS
    t.hear(now, f"@{refused}")
    t.hear(now, f"@{granted}")
    t.event(f"PermissionCreateFailed udp {PEER_2}")
    t.event(f"PermissionCreated udp {PEER_1}")
    gives(t, now, told(of(AT_1), data(HI)), AT_1, HI)
    reports(t, now, told(of(AT_1), REPORT), AT_1, 3, 1, 5)
    passes(t, now, told(of(AT_2), data(HI)), frame(A, four))
    indicates(t, now, 4, AT_1, HI)
    not_sent(t, now, AT_2, "NoPermission")
    bound(t, now, 5, A, ONE)
    bound(t, now + 50 * MS, 6, B, SIX)
    now += 100 * MS
    t.channels((A, ONE), (B, SIX))
    gives(t, now, frame(A, four), ONE, four)
    gives(t, now, frame(B, four), SIX, four)
    frames(t, now, A, ONE, four)
    frames(t, now, B, SIX, four)
    return "Data of peers and for them, by a permission and by a channel of each family", t


def payload_traces():
    yield from (
        data_of_a_peer(), any_port(), no_data(), attributes_in_any_order(), the_last_of_each(), malformed(),
        reserved_bytes(), unknown_attributes(), attributes_of_other_messages(), signed_data(),
        with_a_fingerprint(), report_without_a_permission(), other_messages(), cut_short(), longest_data(),
        data_of_both_families(), before_there_is_one(), frames_of_both_families(), frames_of_each_length(),
        longest_frame(), refused_channel(), frame_without_a_permission(), longest_sends(),
        longest_framed_send(), sends_refused(), sends_of_no_bytes(), not_to_the_desk(), numbers_between(),
        channel_at_its_end(), second_channel(), lapsed_permission(), marked_allocation(), deleted(),
        above_an_error(), renewal_answered_late(), example(),
    )
