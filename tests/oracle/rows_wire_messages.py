"""Rows of messages that are read and judged (RFC 8489, sections 5, 6 and 14)."""

import hashlib
import hmac
import itertools
import struct
import zlib

from rows_wire_attributes import LONG_6, read
from rows_wire_base import (
    BINDING, CLASSES, COOKIE, DATA, INVALID, MISMATCH, NOT_STUN, NUMBER, Refused, SEND, SMALL, UNSIGNED,
    UNSIGNED_TEXT, answer_of, missing, part, row, too_long, truncated,
)
from traces_base import attribute, message, xored

# ---- types of messages, headers, numbers (RFC 8489, section 5)


def message_type(kind, method):
    """Class and method, whose bits are interleaved."""
    bits = CLASSES.index(kind)
    return (bits & 1) << 4 | (bits & 2) << 7 | method & 0xF | (method & 0x70) << 1 | (method & 0xF80) << 2


def type_told(data):
    if data and data[0] >> 6:
        raise Refused(NOT_STUN)
    if len(data) < 2:
        raise Refused(truncated(2, len(data)))
    kind = int.from_bytes(data[:2], "big")
    of_class = CLASSES[kind >> 4 & 1 | kind >> 7 & 2]
    method = kind & 0xF | kind >> 1 & 0x70 | kind >> 2 & 0xF80
    return of_class, of_class in ("success", "error"), struct.pack(">H", method)


def message_types():
    part("types of messages")
    # as RFC 8489, section 5, interleaves their bits, worked by hand
    for kind, method, value in (
        ("request", 0x001, 0x0001), ("indication", 0x006, 0x0016), ("success", 0x003, 0x0103),
        ("error", 0x003, 0x0113), ("request", 0x009, 0x0009), ("error", 0xFFF, 0x3FFF),
    ):
        assert message_type(kind, method) == value
    for kind in CLASSES:
        for method in [*range(13), *(1 << it for it in range(4, 12)), 0x0F0, 0xF00, 0xFFF]:
            data = struct.pack(">H", message_type(kind, method))
            answer = type_told(data)
            assert answer[0] == kind and answer[2] == struct.pack(">H", method)
            row("type", kind, f"{method:03x}")(data, data + b"\t", *answer)


def header_told(data):
    """Length, number and all of a header."""
    if data and data[0] >> 6 or not COOKIE.startswith(data[4:8]):
        raise Refused(NOT_STUN)
    if len(data) < 20:
        raise Refused(truncated(20, len(data)))
    return int.from_bytes(data[2:4], "big"), f"0x{data[8:20].hex()}", data[:20]


def headers():
    part("headers: each front, each bit of type, length and cookie turned, and with something behind")
    # the error response to an ALLOCATE, without the 68 bytes that it tells of
    whole = bytes.fromhex("011300442112a442ade0b876903df1a0e56a5d40")
    turned = []
    for at in range(8):
        for bit in range(8):
            turned.append(whole[:at] + bytes([whole[at] ^ 1 << bit]) + whole[at + 1 :])
    sends = [message(0x10 | it, NUMBER, [(0x12, xored("127.0.0.1:1", NUMBER))]) for it in (SEND, DATA)]
    # six bytes, of which the last is no part of a cookie, and five that may begin one
    fronts = [bytes.fromhex(it) for it in ("000100082100", "0001000821")]
    for data in [whole[:it] for it in range(21)] + turned + [whole + b"\1", UNSIGNED, *sends, *fronts]:
        row("header", data)(*answer_of(type_told, data), "|", *answer_of(header_told, data))
    for first in (0x3F, 0x40, 0x80, 0xC0, 0xFF):
        data = bytes([first])
        row("header", data)(*answer_of(type_told, data), "|", *answer_of(header_told, data))


def small():
    part("numbers of transactions have 96 bits; names of transports; families of addresses")
    for number in (0, 5, int.from_bytes(NUMBER, "big"), 2**64, 2**96 - 1, 2**96, 2**96 + 5, 2**128 - 1):
        low = number % 2**96
        row("number", f"{number:x}")(f"0x{low:024x}", low.to_bytes(16, "big"))
    for name in ("UDP", "TCP", "udp", "Tcp", "UDPX", "TC", "-"):
        row("transport", name)(name if name in ("UDP", "TCP") else "Unknown transport value was provided")
    for address in ("10.0.0.1:1", "0.0.0.0:0", "[::1]:2", LONG_6):
        row("family", address)(*["IPV6" if address[0] == "[" else "IPV4"] * 4)
    part("causes that no row is refused for")
    after = "An attribute of type 32802 was found after the integrity"
    row("causes")(after, *["no memory"] * 3)


# ---- messages that are read (RFC 8489, sections 6 and 14)

USERNAME, INTEGRITY, INTEGRITY_SHA256, INTEGRITY_SHA512, FINGERPRINT = 0x0006, 0x0008, 0x001C, 0x3F12, 0x8028
# the attributes that end a message, in their order
RANKS = {INTEGRITY: 1, INTEGRITY_SHA256: 2, INTEGRITY_SHA512: 3, FINGERPRINT: 4}


def covered(data, end):
    """The message before an offset, its length told as if the attribute there ended it."""
    size = 4 + -(-int.from_bytes(data[end + 2 : end + 4], "big") // 4) * 4
    return data[:2] + struct.pack(">H", end + size - 20) + data[4:end]


def crc(text):
    return struct.pack(">I", zlib.crc32(text) ^ 0x5354554E)


def attributes_of(data):
    """The attributes that a message shows: offset, type and value."""
    size, _, whole = header_told(data)
    if len(data) < 20 + size:
        raise Refused(truncated(20 + size, len(data)))
    if len(data) > 20 + size:
        raise Refused(too_long(20 + size, len(data)))
    listed, at, last = [], len(whole), 0
    while at < len(data):
        if len(data) - at < 4:
            raise Refused(truncated(4, len(data) - at))
        kind, size = struct.unpack(">HH", data[at : at + 4])
        rank, end = RANKS.get(kind, 0), 4 + size + -size % 4
        if rank <= last and (rank or last):
            break
        if len(data) - at < end:
            raise Refused(truncated(end, len(data) - at))
        value = data[at + 4 : at + 4 + size]
        if kind == FINGERPRINT and value != crc(covered(data, at)):
            raise Refused(MISMATCH)
        listed.append((at, kind, value))
        at, last = at + end, rank
    return listed


# the types that have rows of their own
LOOKED = [
    0x0018, 0x0022, 0x8001,
    0x0006, 0x0009, 0x000C, 0x000D, 0x0012, 0x0013, 0x0014, 0x0015, 0x0017, 0x0019, 0x001D, 0x0020, 0x8000, 0x8002,
    0x8004, 0x8028, 0x0001, 0x0024, 0x0025, 0x8029, 0x802A,
]


def look(data, kind, count=0):
    """What a message shows of a type."""
    values = [value for _, it, value in attributes_of(data) if it == kind]
    of_class, is_response, method = type_told(data)
    answers = [of_class == "request", method == b"\0\1", is_response]
    answers += [bool(values)] + [attribute(kind, it) for it in values[:1]]
    if kind in LOOKED:
        for word, at in (("first", 0), ("nth", count)):
            answers.append(word)
            if at < len(values):
                answers += answer_of(read, kind, values[at], data[8:20])[:1]
            else:
                answers.append(missing(kind))
    row("look", f"{kind:04x}", count, data)(*answers)


# the request of RFC 5769, section 2.1, with the spaces that pad its texts
SAMPLE = bytes.fromhex(
    "000100582112a442b7e7a701bc34d686fa87dfae802200105354554e207465737420636c69656e74002400046e0001ff80290008932f"
    "f9b151263b36000600096576746a3a68367659202020000800149aeaa70cbfd8cb56781ef2b5b2d3f249c1b571a280280004e57a3bcf"
)


def looks():
    part("what messages show of a type")
    repeated = message(BINDING, SMALL, [
        (0x06, b"\xff"), (0x14, b"realm"), (0x14, b"other"), (0x15, b"nonce"), (0x15, b"\xc3"), (0x09, b"\0\0\4"),
    ])
    for kind in (0x06, 0x14, 0x15, 0x09, 0x20, 0x1D):
        for count in range(4):
            look(repeated, kind, count)
    # MESSAGE-INTEGRITY-SHA256, and behind it MESSAGE-INTEGRITY with a length that is not there; -SHA512, and such
    # a -SHA256; FINGERPRINT, whose CRC-32 counts the length through itself, and SOFTWARE behind it
    sha256, sha512 = (
        message(BINDING, SMALL, [])[:2] + b"\0\x08" + COOKIE + SMALL + bytes.fromhex(it)
        for it in ("001c00000008ffff", "3f120000001cffff")
    )
    head = message(BINDING, SMALL, [])[:2] + b"\0\x10" + COOKIE + SMALL
    marked = attribute(FINGERPRINT, crc(message(BINDING, SMALL, [])[:2] + b"\0\x08" + head[4:]))
    behind = head + marked + attribute(0x8022, b"abcd")
    for data, kinds in (
        (UNSIGNED, (0x1D, 0x06)), (SAMPLE, (0x24, 0x8029, 0x8022, 0x06, 0x08, 0x8028, 0x1C)),
        (sha256, (0x1C, 0x08)), (sha512, (0x3F12, 0x1C)), (behind, (0x8028, 0x8022)),
    ):
        for kind in kinds:
            look(data, kind)
    endings()
    typed_looks()


# one attribute of each type that ends a message, in their order, but FINGERPRINT, whose value tells of the whole
ENDINGS = [(INTEGRITY, bytes(20)), (INTEGRITY_SHA256, bytes(32)), (INTEGRITY_SHA512, bytes(64))]


def endings():
    part("attributes that end a message: shown are those in their order, each once, and none behind them")
    for kind, value in ENDINGS:
        before = [(0x0014, b"realm"), (kind, value)]
        for behind in ((0x0006, b"user"), (0x7FFF, b""), (0xFFFF, b"\1"), *ENDINGS):
            data = message(BINDING, SMALL, [*before, behind])
            for it in dict.fromkeys((kind, behind[0])):
                look(data, it)
        whole = message(BINDING, SMALL, before)
        whole = whole[:2] + struct.pack(">H", len(whole) - 12) + whole[4:]
        marked = whole + attribute(FINGERPRINT, crc(whole))
        look(marked, kind)
        look(marked, FINGERPRINT)
    shown, user = ENDINGS, (0x0006, b"user")
    for listed in (shown, [*reversed(shown)], [*shown, user], [user, *shown]):
        data = message(BINDING, SMALL, listed)
        for kind in (*dict(shown), 0x0006):
            look(data, kind)


def typed_looks():
    part("each type in a message of its own, with all that is not looked at set; twice where it may be")
    for kind, value in (
        (0x18, "ff"), (0x18, ""), (0x22, "0123456789abcdef"), (0x22, "00"), (0x8001, "02ff050846756c6c"),
        (0x8001, "00"),
        (0x06, "75736572"), (0x09, "ffff06636f6464"), (0x0C, "1234ffff"), (0x0D, "00000258"),
        (0x12, "09e1e242ea12d547"), (0x12, "ff01e242ea12d547"), (0x12, "0002bd522112a442ade0b876903df1a0e56a5d41"),
        (0x13, "0505050505"), (0x13, ""), (0x17, "02ffffff"), (0x17, "03000000"), (0x19, "110180ff"),
        (0x1D, "0001ff04"), (0x20, "ff0122fae1baa443"), (0x8000, "01ffffff"), (0x8002, "0001000400010100"),
        (0x8004, "ffff0b04000005dc"), (0x0D, "0002"), (0x8004, "00"),
        (0x01, "0901e242ea12d547"), (0x01, "0003000000000000"), (0x24, "6e0001ff"), (0x24, "6e0001"), (0x25, ""),
        (0x25, "00"), (0x8029, "932ff9b151263b36"), (0x8029, "932ff9b1"), (0x802A, "ffffffffffffffff"),
        (0x802A, "00"),
    ):
        value = bytes.fromhex(value)
        for count in (1, 2):
            look(message(BINDING, NUMBER, [(kind, value)] * count), kind, 1)
    for method in (SEND, DATA):
        told = message(0x10 | method, NUMBER, [(0x12, xored("127.0.0.1:1", NUMBER)), (0x13, b"\5" * 5)])
        look(told, 0x12)
        look(told, 0x13)


# ---- messages that are judged

USER = ("user", "realm", "pass")
PAST = ("user", "realm", "past")
PASSWORD = ("-", "-", "VOkJxbRl1RmTxUk/WvJxBt")
NAMED = [(0x0006, b"user"), (0x0014, b"realm")]
# of each algorithm: its name, the digests of its HMAC and of its key, and the lengths that its attribute may have
DIGESTS = {
    INTEGRITY: ("Sha1", "sha1", "md5", (20,)),
    INTEGRITY_SHA256: ("Sha256", "sha256", "sha256", range(16, 33, 4)),
    INTEGRITY_SHA512: ("Sha512", "sha512", "sha512", range(16, 65, 4)),
}


def key_of(credentials, kind):
    user, realm, password = credentials
    if user == "-":
        return password.encode()
    return hashlib.new(DIGESTS[kind][2], f"{user}:{realm}:{password}".encode()).digest()


def hmac_of(credentials, kind, text):
    return hmac.new(key_of(credentials, kind), text, DIGESTS[kind][1]).digest()


def verdict(data, kind, credentials):
    """By the integrity attribute of one algorithm."""
    for at, it, value in attributes_of(data):
        if it == kind:
            if len(value) not in DIGESTS[kind][3]:
                return INVALID
            right = hmac_of(credentials, kind, covered(data, at)).startswith(value)
            return DIGESTS[kind][0] if right else UNSIGNED_TEXT
    return missing(kind)


def verdicts(data, credentials):
    """By the last integrity attribute, and by the key of each algorithm."""
    ends = [kind for _, kind, _ in attributes_of(data) if kind in DIGESTS]
    last = ends[-1] if ends else INTEGRITY
    return [verdict(data, kind, credentials) for kind in (last, *DIGESTS)]


def judge(data, credentials, accepted=None):
    answer = answer_of(verdicts, data, credentials)
    if accepted is not None:
        assert accepted == (answer[0] in [name for name, *_ in DIGESTS.values()]), (answer, data.hex())
    row("judge", *credentials, data)(*answer)
    return answer


def signed(*kinds, attributes=NAMED, credentials=USER):
    """A BINDING request, signed by the integrity attributes of these types."""
    data = message(BINDING, SMALL, attributes)
    for kind in kinds:
        data = data[:2] + struct.pack(">H", len(data) + 4 + max(DIGESTS[kind][3]) - 20) + data[4:]
        data += attribute(kind, hmac_of(credentials, kind, data))
    return data


def with_front(kind, size):
    """A BINDING request with so many bytes of its HMAC, as if it had been signed with these alone."""
    padded = size + -size % 4
    text = struct.pack(">HH", BINDING, 4 + padded) + COOKIE + SMALL
    return text + attribute(kind, (hmac_of(USER, kind, text) + bytes(8))[:size])


# messages that show a FINGERPRINT as their last attribute: of RFC 5769, sections 2.1, 2.2 and 2.3; ALLOCATEs that
# pion/turn 2.1.0 and turnutils_uclient were recorded to send; signed ALLOCATEs of aioice 0.8.0 and of pion/turn;
# successes that coturn was recorded to answer
MARKED = [SAMPLE, *map(bytes.fromhex, (
    "0101003c2112a442b7e7a701bc34d686fa87dfae8022000b7465737420766563746f7220002000080001a147e112a643000800142b91"
    "f599fd9e90c38c7489f92af9ba53f06be7d780280004c07d4c96",
    "010100482112a442b7e7a701bc34d686fa87dfae8022000b7465737420766563746f7220002000140002a1470113a9faa5d3f179bc25"
    "f4b5bed2b9d900080014a382954e4be67bf11784c97c8292c275bfe3ed4180280004c8fb0b4c",
    "000300102112a4423bba0276e61448e031a83e09001900041100000080280004291a9942",
    "000300282112a442f92f6cc2c9e522de1c8000cd0019000411000000000d0004000003090018000100000000001700040100000080280004"
    "c4d9dc72",
    "000300582112a442dc6b35cdd89431eaf4a3aee3000d000400000258001900041100000000060004757365720015001061386666393238"
    "363531393163326263001400057265616c6d0000000008001451fd6a9a3986d4816a897f100bb9ff072f573f2180280004798fc509",
    "000300502112a442a0a38b51cb851fc56fb53deb00190004110000000006000475736572001400057265616c6d0000000015001037303930"
    "6438363265326161316436630008001465be3555d0f44a6cf97f9e8949a67bfdda564121802800046d9ff0a9",
    "010300582112a442dc6b35cdd89431eaf4a3aee3001600080001ef8e5e12a443002000080001b1555e12a443000d00040000025880220014"
    "436f7475726e2d342e362e312027476f7273742700080014bf2213d2a341d1c2d420fd5dcb02e98328f40a348028000418568a5c",
    "010300582112a442475f3865a964631e89cd1c63001600080001efc95e12a443002000080001b5655e12a443000d00040000030980220014"
    "436f7475726e2d342e362e312027476f7273742700080014d494b447e5044f6560e3b9712a0826dd0f05a789802800047de8b0f8",
))]
PION = MARKED[6]


def judgements():
    part("messages judged under the right password and another: by the last attribute, and by each algorithm")
    both, all_three = signed(INTEGRITY, INTEGRITY_SHA256), signed(*DIGESTS)
    short = message(BINDING, SMALL, [(INTEGRITY, bytes.fromhex("f6702465"))])
    assert judge(UNSIGNED, USER) == [missing(8), missing(8), missing(28), missing(0x3F12)]
    assert judge(short, USER) == [INVALID, INVALID, missing(28), missing(0x3F12)]
    ways = [signed(*kinds) for count in (1, 2) for kinds in itertools.combinations(DIGESTS, count)]
    for data in (*ways, all_three):
        judge(data, USER, True)
        judge(data, PAST, False)
    for at in (60, 99):
        judge(turned(both, at), USER, False)
    for at in (63, 99, 103, 167):
        judge(turned(all_three, at), USER, False)
    for kind, most in ((INTEGRITY_SHA256, 32), (INTEGRITY_SHA512, 64)):
        for size in range(most + 5):
            judge(with_front(kind, size), USER, size in range(16, most + 1, 4))
    for size in (0, 19, 21, 24):
        judge(message(BINDING, SMALL, [(INTEGRITY, bytes(size))]), USER, False)
    part("recorded messages and samples of RFC 5769, each under all credentials")
    for at, data in enumerate(MARKED):
        for credentials in (USER, PASSWORD, PAST):
            right = PASSWORD if at < 3 else USER
            judge(data, credentials, credentials == right and INTEGRITY in [it for _, it, _ in attributes_of(data)])
    turned_bytes()


def turned(data, at, bit=1):
    return data[:at] + bytes([data[at] ^ bit]) + data[at + 1 :]


def turned_bytes():
    part("a byte of the number, or of the value of a FINGERPRINT, is changed")
    for data in MARKED:
        for at in (*range(8, 20), *range(len(data) - 4, len(data))):
            assert judge(turned(data, at), USER) == [MISMATCH]
    part("a bit of each byte of a signed request is turned: none is accepted")
    for kind in DIGESTS:
        data = signed(kind)
        for at in range(len(data)):
            for bit in (1, 0x80):
                judge(turned(data, at, bit), USER, False)


def rows():
    """All of these."""
    message_types()
    headers()
    small()
    looks()
    judgements()
