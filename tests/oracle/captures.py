"""Captures of packets in the format pcap, and what `stun-inspect --pcap` is to print of them (docs/INSPECT.md).

Each packet is written with what it is to be read as, so nothing here reads a capture: what is said of a message or a
frame is dissector.py's, and the rest stands beside the packet. `CAPTURES` has the bytes, the lines in words, the
objects and the exit status of each, by a name."""

import ipaddress
import struct
from collections import namedtuple

import dissector

# What is said of a packet: its number, time, protocol and addresses, what is complete with it, and what lacks.
Told = namedtuple("Told", "number time protocol source to frames gap broken", defaults=(None, None))

IPV4, IPV6 = 0x0800, 0x86DD
ETHERNET, LOOPBACK, RAW, COOKED, COOKED2 = 1, 0, 101, 113, 276
CLIENT, SERVER = ("192.0.2.1", 50000), ("198.51.100.7", 3478)
CLIENT6, SERVER6 = ("2001:db8::1", 50000), ("2001:db8::2", 3478)
# RFC 5769, section 2.2: a response with SOFTWARE "test vector", XOR-MAPPED-ADDRESS, MESSAGE-INTEGRITY and FINGERPRINT
RESPONSE = bytes.fromhex(
    "0101003c2112a442b7e7a701bc34d686fa87dfae8022000b7465737420766563746f7220002000080001a147e112a643000800142b91f599"
    "fd9e90c38c7489f92af9ba53f06be7d780280004c07d4c96"
)
REQUEST = bytes.fromhex("000100002112a442000000000000000000007392")
FRAME = bytes.fromhex("4000000568656c6c6f")
PADDED = FRAME + bytes(3)
SYN, ACK, PUSHED = 0x02, 0x10, 0x18


def network(data, source, to, protocol):
    """A packet of IP around a datagram or a segment."""
    one, other = (ipaddress.ip_address(it[0]).packed for it in (source, to))
    if len(one) == 4:
        return struct.pack(">BBHHHBBH", 0x45, 0, 20 + len(data), 7, 0x4000, 64, protocol, 0) + one + other + data
    return struct.pack(">IHBB", 0x60000000, len(data), protocol, 64) + one + other + data


def udp(payload, source=CLIENT, to=SERVER):
    return network(struct.pack(">HHHH", source[1], to[1], 8 + len(payload), 0) + payload, source, to, 17)


def tcp(payload, sequence, flags=PUSHED, source=CLIENT, to=SERVER, options=b""):
    offset = (20 + len(options)) // 4 << 4
    head = struct.pack(">HHIIBBHHH", source[1], to[1], sequence % 2**32, 1, offset, flags, 512, 0, 0)
    return network(head + options + payload, source, to, 6)


def kind(packet):
    return struct.pack(">H", IPV4 if packet[0] >> 4 == 4 else IPV6)


def linked(packet, link):
    """The packet behind the head of a link."""
    return {
        ETHERNET: lambda: bytes(12) + kind(packet),
        LOOPBACK: lambda: struct.pack("<I", 2),
        RAW: lambda: b"",
        COOKED: lambda: bytes(14) + kind(packet),
        COOKED2: lambda: kind(packet) + bytes(18),
    }[link]() + packet


def tagged(packet, tags):
    """The packet behind the head of Ethernet, with tags of VLANs."""
    return bytes(12) + b"".join(struct.pack(">HH", it, 5) for it in tags) + kind(packet) + packet


def capture(packets, link=ETHERNET, order="<", is_nano=False, upper=0):
    """A file with these packets, which have the head of their link, a second apart, the first at 1700000000.000001."""
    magic = 0xA1B23C4D if is_nano else 0xA1B2C3D4
    head = struct.pack(order + "IHHiIII", magic, 2, 4, 0, 0, 262144, link | upper)
    return head + b"".join(
        struct.pack(order + "IIII", 1700000000 + at, 1, len(it), len(it)) + it for at, it in enumerate(packets)
    )


def shown(address):
    return f"[{address[0]}]:{address[1]}" if ":" in address[0] else f"{address[0]}:{address[1]}"


def lines_of(told):
    """What is printed of a packet in words."""
    yield f"packet {told.number} {told.time} {told.protocol} {shown(told.source)} {shown(told.to)}"
    for word, data in told.frames:
        yield dissector.described(word, data, None, False)
    if told.gap:
        yield f"gap {told.gap} bytes"
    if told.broken:
        yield f"broken {told.broken.hex()}"


def object_of(told):
    how = {"message": lambda data: dissector.message_in_json(data, None), "frame": dissector.frame_in_json}
    known = {
        "kind": "packet", "number": told.number, "time": told.time, "protocol": told.protocol,
        "from": shown(told.source), "to": shown(told.to), "frames": [how[word](data) for word, data in told.frames],
    }
    return known | ({"gap": told.gap} if told.gap else {}) | ({"broken": told.broken.hex()} if told.broken else {})


def printed(told, last, is_json):
    """All that is printed: of each packet, and the last line, which is an object or how many packets there are."""
    if is_json:
        known = last if isinstance(last, dict) else {"kind": "capture", "packets": last, "described": len(told)}
        return "".join(f"{dissector.in_text(it)}\n" for it in [*map(object_of, told), known]).encode()
    ended = refusal(**last["refused"]) if isinstance(last, dict) else f"capture {last} packets {len(told)} described"
    return "".join(f"{line}\n" for it in told for line in lines_of(it)).encode() + f"{ended}\n".encode()


def refusal(name, link=None, packet=None):
    """The last line in words of an input that is refused."""
    return {
        "NotPcap": "bad capture: not pcap", "Pcapng": "bad capture: pcapng", "BadLink": f"bad capture: link {link}",
        "BadPacket": f"bad capture: packet {packet}", "ReadFault": "read fault",
    }[name]


def at(number, fraction="000001"):
    """The time of a packet."""
    return f"{1700000000 + number - 1}.{fraction}"


def asked(number, frames, protocol="udp", source=CLIENT, to=SERVER, **more):
    """What is said of a packet from the client to the server."""
    return Told(number, at(number), protocol, source, to, frames, **more)


def of_udp():
    """Datagrams: messages, malformed ones too, frames, and others, of which nothing is said."""
    cut = RESPONSE[:-4]
    others = (b"", b"GET / HTTP/1.1\r\n", REQUEST[:19])
    payloads = (REQUEST, RESPONSE, FRAME, PADDED, FRAME + bytes(4), FRAME[:-1], cut, *others)
    read = {1: "message", 2: "message", 3: "frame", 4: "frame", 7: "message"}
    told = [asked(n, [(read[n], it)]) for n, it in enumerate(payloads, 1) if n in read]
    return [udp(it) for it in payloads], told


def of_tcp():
    """A stream: one message in two packets, one of which is repeated, then a message and a frame in one; the other
    direction; a gap, after which nothing is read until a message begins."""
    first, back = 2**32 - 7, 5000
    packets = [
        tcp(b"", first, SYN, options=bytes(4)),
        tcp(b"", back, SYN | ACK, SERVER, CLIENT),
        tcp(REQUEST[:9], first + 1),
        tcp(REQUEST[:9], first + 1),
        tcp(REQUEST[4:] + PADDED, first + 5),
        tcp(RESPONSE + PADDED[:6], back + 1, source=SERVER, to=CLIENT),
        tcp(PADDED[6:] + REQUEST, back + 7 + len(RESPONSE), source=SERVER, to=CLIENT),
        tcp(REQUEST, first + 133),
        tcp(PADDED, first + 153),
        tcp(REQUEST, first + 165),
    ]
    whole = [("message", REQUEST), ("frame", PADDED)]
    told = [
        asked(5, whole, "tcp"),
        asked(6, [("message", RESPONSE)], "tcp", SERVER, CLIENT),
        asked(7, whole[::-1], "tcp", SERVER, CLIENT),
        asked(8, [], "tcp", gap=100),
        asked(10, [("message", REQUEST)], "tcp"),
    ]
    return packets, told


def of_connection():
    """A connection to a peer: what follows the message is neither a message nor a frame, and no longer read."""
    packets = [tcp(b"", 9, SYN), tcp(REQUEST + b"\xff\xffraw", 10), tcp(REQUEST, 35 + 0)]
    again = asked(3, [("message", REQUEST)], "tcp")
    return packets, [asked(2, [("message", REQUEST)], "tcp", broken=b"\xff\xffraw"), again]


def of_others():
    """Streams of other protocols, which begin with no message: HTTP, TLS; and a stream that begins with a frame. Each
    once in one packet, and once in two, the first of one byte, which a message may begin with."""
    starts = (b"GET / HTTP/1.1\r\n\r\n", bytes.fromhex("1603010200010001fc0303"), PADDED)
    packets = []
    for n, text in enumerate(starts):
        whole, cut = (CLIENT[0], 40000 + n), (CLIENT[0], 41000 + n)
        packets += [tcp(b"", 100, SYN, whole), tcp(text, 101, PUSHED, whole), tcp(b"", 100, SYN, cut)]
        packets += [tcp(text[:1], 101, PUSHED, cut), tcp(text[1:], 102, PUSHED, cut)]
    return packets, []


def of_fragments():
    """What isn't read: fragments, other protocols, a packet that is cut, one without IP. Extensions of IPv6 are."""
    whole, six = udp(REQUEST), udp(REQUEST, CLIENT6, SERVER6)
    more, offset = (whole[:6] + bits + whole[8:] for bits in (b"\x20\x00", b"\x00\x03"))
    options = struct.pack(">BB6x", 17, 0)
    extended = six[:4] + struct.pack(">HB", len(six) - 40 + 8, 60) + six[7:40] + options + six[40:]
    unsized = whole[:2] + bytes(2) + whole[4:]
    packets = [more, offset, whole[:9] + b"\x01" + whole[10:], whole[:-1], b"", b"\x00", six, extended, unsized]
    told = [asked(n, [("message", REQUEST)], source=one, to=other)
            for n, one, other in ((7, CLIENT6, SERVER6), (8, CLIENT6, SERVER6), (9, CLIENT, SERVER))]
    return packets, told


def good():
    """Captures that are read to their end: the bytes, and what is told."""
    one = [udp(REQUEST)], [asked(1, [("message", REQUEST)])]
    for name, (packets, told) in {
        "datagrams": of_udp(), "streams": of_tcp(), "a connection": of_connection(), "other streams": of_others(),
        "what isn't read": of_fragments(),
    }.items():
        yield name, capture([linked(it, RAW) for it in packets], RAW), len(packets), told
    for link in (ETHERNET, LOOPBACK, COOKED, COOKED2):
        yield f"a link of type {link}", capture([linked(it, link) for it in one[0]], link), 1, one[1]
    for number in (12, 14, 228, 229):
        yield f"a raw link of type {number}", capture(one[0], number), 1, one[1]
    yield "the family of loopback in network order", capture([linked(it, LOOPBACK) for it in one[0]], 108), 1, one[1]
    checked = capture([linked(it, ETHERNET) for it in one[0]], upper=0x24000000)
    yield "a length of the check sequence", checked, 1, one[1]
    for tags in ([0x8100], [0x88A8, 0x8100]):
        yield f"{len(tags)} tags", capture([tagged(one[0][0], tags)]), 1, one[1]
    yield "three tags", capture([tagged(one[0][0], [0x8100] * 3)]), 1, []
    yield "big-endian", capture(one[0], RAW, ">"), 1, one[1]
    for order in "<>":
        told = [asked(1, one[1][0].frames)._replace(time=at(1, "000000001"))]
        yield f"nanoseconds, {order}", capture(one[0], RAW, order, True), 1, told
    yield "no packet", capture([]), 0, []


def bad():
    """Captures that are refused: the bytes, what is told before, and the object that says why."""
    whole, told = capture([udp(REQUEST)] * 2, RAW), [asked(1, [("message", REQUEST)])]
    yield "no bytes", b"", [], {"name": "NotPcap"}
    yield "lines", b"message -\n", [], {"name": "NotPcap"}
    yield "a cut head", whole[:23], [], {"name": "NotPcap"}
    yield "pcapng", bytes.fromhex("0a0d0d0a1c0000004d3c2b1a"), [], {"name": "Pcapng"}
    yield "another link", capture([udp(REQUEST)], 147), [], {"name": "BadLink", "link": 147}
    yield "a cut packet", whole[:-1], told, {"name": "BadPacket", "packet": 2}
    yield "a cut record", whole[:24 + 64 + 15], told, {"name": "BadPacket", "packet": 2}
    long = struct.pack("<IIII", 0, 0, 262145, 262145) + bytes(262145)
    yield "a long packet", capture([udp(REQUEST)], RAW) + long, told, {"name": "BadPacket", "packet": 2}


CAPTURES = {
    **{name: (data, told, count, 0) for name, data, count, told in good()},
    **{name: (data, told, {"refused": why}, 1) for name, data, told, why in bad()},
}
