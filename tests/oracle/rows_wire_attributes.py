"""Rows of attributes (RFC 8489, section 14; RFC 8656, section 18; RFC 6062, section 6.2; RFC 8445, section 16.1)."""

import hashlib
import hmac
import ipaddress
import struct
import zlib

from rows_wire_base import (
    COOKIE, FAILED, INVALID, NUMBER, Refused, SAMPLES, SMALL, WRONG, answer_of, into, part, row, too_large, too_long,
    too_small, truncated,
)
from traces_base import attribute, xored

# ---- attributes as they are made (RFC 8489, section 14; RFC 8656, section 18; RFC 6062, section 6.2)

# the greatest lengths of texts
TEXTS = {0x0006: 513, 0x0014: 763, 0x0015: 763, 0x8022: 763, 0x8003: 255}
TEXT_WORDS = {
    0x0006: "username", 0x0014: "realm", 0x0015: "nonce", 0x8022: "software", 0x8003: "alternate-domain",
}
ADDRESSES = {0x0020: "mapped", 0x0016: "relayed", 0x0012: "peer", 0x8023: "server", 0x0001: "mapped-plain"}
# those that are not xored
PLAIN = (0x0001, 0x8023)
# RFC 8445, section 16.1: the words of ICE's attributes that are a number, and the sizes of the numbers
ICE_NUMBERS = {0x0024: ("priority", 4), 0x8029: ("ice-controlled", 8), 0x802A: ("ice-controlling", 8)}
# the PRIORITY and the ICE-CONTROLLED of the request in RFC 5769, section 2.1
SAMPLE_PRIORITY, SAMPLE_TIE_BREAKER = bytes.fromhex("6e0001ff"), bytes.fromhex("932ff9b151263b36")
assert int.from_bytes(SAMPLE_PRIORITY, "big") == 1845494271
FAMILIES = {0x0017: "requested-family", 0x8000: "additional-family"}
REASONS = {
    300: "Try Alternate", 400: "Bad Request", 401: "Unauthorized", 403: "Forbidden", 420: "Unknown Attribute",
    437: "Allocation Mismatch", 438: "Stale Nonce", 440: "Address Family not Supported",
    441: "Wrong Credentials", 442: "Unsupported Transport Protocol", 443: "Peer Address Family Mismatch",
    446: "Connection Already Exists", 447: "Connection Timeout or Failure", 486: "Allocation Quota Reached",
    487: "Role Conflict", 500: "Server Error", 508: "Insufficient Capacity",
}
LONG_6 = "[2001:db8:1234:5678:11:2233:4455:6677]:32853"


def made(kind, value, again=None):
    """An attribute in bytes, as it is written into some room, and as it is read again."""
    whole = attribute(kind, value)
    size = len(whole)
    room = ["|", *into(whole, size + 1), "|", *into(whole, size - 1)]
    header = ["|", *into(whole[:4], 4), "|", *into(whole[:4], 3)]
    return [whole, *room, *header, "|", "read", whole if again is None else again]


def texts_made():
    part("texts: samples, at their greatest length and one byte over it")
    for kind, most in TEXTS.items():
        for word in ("user", "realm", "nonce", "desk", "a.b", "a*0", "x", "マトリ", f"a*{most}"):
            once, star, count = word.partition("*")
            value = (once * int(count) if star else once).encode()
            row(TEXT_WORDS[kind], word)(*made(kind, value))
        for over in (most + 1, 65536):
            row(TEXT_WORDS[kind], f"a*{over}")(too_large(most, over))
        # characters of two bytes
        row(TEXT_WORDS[kind], f"é*{most // 2}")(*made(kind, "é".encode() * (most // 2)))
        row(TEXT_WORDS[kind], f"é*{most // 2 + 1}")(too_large(most, most // 2 * 2 + 2))


def error_made(code, reason, kind=0x0009, family=0):
    """An ERROR-CODE, or with a family an ADDRESS-ERROR-CODE, whose value begins with it and is the same otherwise."""
    if not 300 <= code <= 699:
        return [f"The value {code} is outside the range from 300 to 699"]
    if len(reason) > 763:
        return [too_large(763, len(reason))]
    return made(kind, bytes([family, 0, code // 100, code % 100]) + reason.encode())


def errors_made():
    part("ERROR-CODE: with the reason that goes with the code, and with one of its own")
    for code in sorted({*REASONS, 299, 300, 301, 399, 499, 599, 699, 700, 0, 65535}):
        reason = REASONS.get(code, "Unknown")
        row("error-code", code)(*error_made(code, reason), reason)
    for code in (299, 300, 699, 700):
        for word, reason in (("odd", "odd"), ("a*0", ""), ("a*763", "a" * 763), ("a*764", "a" * 764)):
            answer = error_made(code, reason)
            row("error-reason", code, word)(*answer, *answer)


# addresses, the numbers under which they are xored, and what the values are, worked by hand or (with the number
# of RFC 5769) in sections 2.2 and 2.3
HIDDEN = [
    ("192.168.0.1:1000", NUMBER, "000122fae1baa443"),
    ("203.0.113.5:50000", NUMBER, "0001e242ea12d547"),
    ("203.0.113.5:50000", bytes(12), "0001e242ea12d547"),
    ("203.0.113.5:50000", b"\xff" * 12, "0001e242ea12d547"),
    ("10.0.0.1:0", NUMBER, "000121122b12a443"),
    ("[::1]:40000", NUMBER, "0002bd522112a442ade0b876903df1a0e56a5d41"),
    ("192.0.2.1:32853", SAMPLES, "0001a147e112a643"),
    (LONG_6, SAMPLES, "0002a1470113a9faa5d3f179bc25f4b5bed2b9d9"),
]


def bare(address):
    """The value of an address that is not xored."""
    host, port = address.rsplit(":", 1)
    raw = ipaddress.ip_address(host.strip("[]")).packed
    return struct.pack(">BBH", 0, 1 if len(raw) == 4 else 2, int(port)) + raw


def addresses_made():
    part("addresses, xored under a number, and ALTERNATE-SERVER and MAPPED-ADDRESS, which are not")
    others = [(it, SAMPLES, None) for it in ("0.0.0.0:0", "255.255.255.255:65535", "[::]:0")]
    for address, number, value in HIDDEN + others:
        hidden = xored(address, number)
        assert value is None or hidden.hex() == value
        for kind, word in ADDRESSES.items():
            value = bare(address) if kind in PLAIN else hidden
            row(word, address, number.hex())(*made(kind, value))


def numbers_made():
    part("numbers and families")
    for seconds in (0, 600, 1800, 2**32 - 1):
        row("lifetime", seconds)(*made(0x000D, struct.pack(">I", seconds)))
    for protocol in (0, 6, 17, 255):
        row("requested-transport", protocol)(*made(0x0019, bytes([protocol, 0, 0, 0])))
    for channel_number in (0, 0x3FFF, 0x4000, 0x7FFF, 0x8000, 0xFFFF):
        row("channel-number", channel_number)(*made(0x000C, struct.pack(">HH", channel_number, 0)))
    for connection in (0, 7, 2**32 - 1):
        row("connection-id", connection)(*made(0x002A, struct.pack(">I", connection)))
    for told in ((3, 1, 5), (0, 0, 0), (255, 255, 2**32 - 1), (11, 4, 1500)):
        row("icmp", *told)(*made(0x8004, struct.pack(">HBBI", 0, *told)))
    row("dont-fragment", "-")(*made(0x001A, b""))
    for kind, word in FAMILIES.items():
        for number, name in ((1, "IPV4"), (2, "IPV6")):
            row(word, name)(*made(kind, bytes([number, 0, 0, 0])))


def ice_made():
    part("ICE's attributes: numbers of 32 and of 64 bits, those of RFC 5769 among them, and one without a value")
    for kind, (word, size) in ICE_NUMBERS.items():
        sample = SAMPLE_PRIORITY if kind == 0x0024 else SAMPLE_TIE_BREAKER
        for value in (bytes(size), b"\xff" * size, sample, bytes(range(1, size + 1)), b"\x80" + bytes(size - 1)):
            row(word, int.from_bytes(value, "big"))(*made(kind, value))
    row("use-candidate", "-")(*made(0x0025, b""))


ALGORITHMS = {"MD5": (1, "Sha1"), "SHA256": (2, "Sha256"), "SHA512": (0xFF12, "Sha512")}
# the second sample of RFC 4231 has this HMAC-SHA256 and this HMAC-SHA512
HMAC, HMAC_512 = (hmac.new(b"Jefe", b"what do ya want for nothing?", it).digest() for it in ("sha256", "sha512"))
assert HMAC.hex() == "5bdcc146bf60754e6a042426089575c75a003f089d2739839dec58b964ec3843"
assert HMAC_512.hex() == (
    "164b7a7bfcf819e2e395fbe73b56e0a387bd64222e831fd610270cd7ea2505549758bf75c05a994a6d034f65f8f0e6fdcaeab1a34d4a6b4b"
    "636e070a38bce737"
)
# of RFC 8489, appendix B.1
USERHASH = "4a3cf38fef6992bda952c6780417da0f24819415569e60b205c46e41407f1704"
MATRIX = "マトリックス"


def algorithms_made():
    part("password algorithms: one, and lists of up to eight and of more; none are made and not read")
    for name, (number, integrity) in ALGORITHMS.items():
        row("password-algorithm", name)(name, integrity, *made(0x001D, struct.pack(">HH", number, 0)))
    lists = [["MD5"], ["SHA256"], ["SHA256", "MD5"], ["MD5", "SHA256"], ["MD5"] * 8, ["SHA256"] * 7, []]
    lists += [["SHA512"], ["MD5", "SHA256", "SHA512"], ["SHA512", "SHA256", "MD5"], ["SHA512"] * 8]
    for names in lists:
        value = b"".join(struct.pack(">HH", ALGORITHMS[it][0], 0) for it in names)
        again = None if names else truncated(4, 0)
        row("password-algorithms", *names)(*made(0x8002, value, again))
    for count in (9, 10):
        row("password-algorithms", *["MD5"] * count)(too_large(32, 4 * count))


def digests_made():
    part("USERHASH, the digests, FINGERPRINT, and DATA")
    for user, realm in (("user", "realm"), (MATRIX, "example.org"), ("a", "b")):
        value = hashlib.sha256(f"{user}:{realm}".encode()).digest()
        assert user != MATRIX or value.hex() == USERHASH
        row("userhash", user, realm)(*made(0x001E, value))
    for value in (b"\x11" * 20, bytes(range(20)), b"\xff" * 20):
        row("integrity", value)(*made(0x0008, value))
    for kind, word, whole in ((0x001C, "integrity-sha256", HMAC), (0x3F12, "integrity-sha512", HMAC_512)):
        most = len(whole)
        for size in range(most + 5):
            value = (whole + bytes(4))[:size]
            if size < 16:
                answer = [too_small(16, size)]
            elif size > most:
                answer = [too_large(most, size)]
            else:
                answer = [FAILED] if size % 4 else made(kind, value)
            row(word, value)(*answer)
    # the CRC-32 of `123456789` is that by which CRCs are told apart
    assert zlib.crc32(b"123456789") == 0xCBF43926
    for text in (b"", b"cccc", b"123456789", bytes(64), bytes(range(256)) * 2):
        value = struct.pack(">I", zlib.crc32(text) ^ 0x5354554E)
        row("fingerprint", text)(*made(0x8028, value))
    for value in (b"", b"h", b"hi", b"hij", b"\7" * 300, b"\7" * 65535):
        row("data", value)(*made(0x0013, value))


# RFC 8656, section 18.12, has the families of RFC 8489, section 14.1
FAMILY_NAMES = {1: "IPV4", 2: "IPV6"}
RESERVED = (bytes(8), bytes.fromhex("0123456789abcdef"), b"\xff" * 8)


def ports_made():
    part("EVEN-PORT, RESERVATION-TOKEN and ADDRESS-ERROR-CODE")
    row("even-port", "-")(*made(0x0018, b"\0"))
    row("even-port", "reserve")(*made(0x0018, b"\x80"))
    for token in RESERVED:
        row("reservation-token", token)(*made(0x0022, token))
    for family, name in FAMILY_NAMES.items():
        for code in (299, 300, 440, 508, 599, 699, 700):
            for word, reason in (("a*0", ""), ("é*2", "éé"), ("a*763", "a" * 763), ("a*764", "a" * 764)):
                row("address-error-code", name, code, word)(*error_made(code, reason, 0x8001, family))


def types(*kinds):
    return b"".join(struct.pack(">H", it) for it in kinds)


def unknown(kinds, added=()):
    """UNKNOWN-ATTRIBUTES of some types, to which others are added that are not there."""
    listed, answers = list(kinds), []
    has = set(listed)
    for kind in added:
        answers.append(kind in has)
        if kind not in has and 2 * len(listed) + 2 > 65535:
            answers.append(too_large(65535, 2 * len(listed) + 2))
        elif kind not in has:
            listed.append(kind)
            has.add(kind)
    answer = made(0x000A, types(*listed))
    row("unknown-attributes", types(*kinds), types(*added))(*answers, *answer)


def unknown_made():
    part("UNKNOWN-ATTRIBUTES: a type that is there is not added; up to 32,767 types")
    unknown([])
    unknown([0x0017])
    unknown([0x0017], [0x0017, 0x1700])
    unknown([0x0017, 0x0017], [0x1700, 0x0017, 0x1700, 0x0000, 0xFFFF])
    unknown([], [*range(100), *range(100)])
    unknown(range(40), [*range(20, 60), *range(10)])
    unknown([1] * 32766, [1, 2, 3])
    unknown([1] * 32767, [1, 2])
    for count in (32768, 40000):
        row("unknown-attributes", types(1) * count, b"")(too_large(65535, 2 * count))


# ---- attributes as they are read


def sized(value, least, most):
    """Refuses a value that is shorter or longer."""
    if len(value) < least:
        raise Refused(truncated(least, len(value)))
    if len(value) > most:
        raise Refused(too_long(most, len(value)))


def text_read(most):
    def read(value, _):
        sized(value, 0, most)
        return [attempt_text(value)]

    return read


def attempt_text(value):
    try:
        value.decode()
    except UnicodeDecodeError:
        raise Refused(INVALID) from None
    return value


def address_read(value, mask):
    if len(value) < 4:
        raise Refused(truncated(4, len(value)))
    if value[1] not in (1, 2):
        raise Refused(INVALID)
    size = 8 if value[1] == 1 else 20
    sized(value, size, size)
    return [b"\0" + value[1:]]


def address_of(value, mask):
    """The address in a value, xored by a mask."""
    port = int.from_bytes(value[2:4], "big") ^ int.from_bytes(mask[:2], "big")
    host = ipaddress.ip_address(bytes(a ^ b for a, b in zip(value[4:], mask)))
    return f"{host}:{port}" if host.version == 4 else f"[{host}]:{port}"


def peer_read(value, mask):
    return [*address_read(value, mask), address_of(value, mask)]


def plain_read(value, mask):
    return [*address_read(value, mask), address_of(value, bytes(16))]


def error_read(value, _):
    sized(value, 4, 767)
    if not 3 <= value[2] <= 6 or value[3] > 99:
        raise Refused(INVALID)
    return [b"\0\0" + value[2:4] + attempt_text(value[4:])]


def unknown_read(value, _):
    if len(value) % 2:
        raise Refused(INVALID)
    return [value]


def algorithms_read(most):
    def read(value, _):
        sized(value, 4, most)
        numbers = [value[at : at + 2] for at in range(0, len(value), 4)]
        if len(value) % 4 or any(it not in (b"\0\1", b"\0\2", b"\xff\x12") for it in numbers):
            raise Refused(INVALID)
        return [b"".join(it + b"\0\0" for it in numbers)]

    return read


def number_read(size, again, told):
    """A value of a size, what of it counts, and what it tells."""

    def read(value, _):
        sized(value, size, size)
        return [again(value), *told(value)]

    return read


def nothing(_):
    return []


def same(value):
    return value


def front_read(most):
    """A front of an HMAC: 16 bytes and more, by fours."""

    def read(value, _):
        sized(value, 16, most)
        if len(value) % 4:
            raise Refused(INVALID)
        return [value]

    return read


def family_read(value, _):
    sized(value, 4, 4)
    if value[0] not in (1, 2):
        raise Refused(INVALID)
    return [value[:1] + bytes(3), "IPV4" if value[0] == 1 else "IPV6"]


def even_port_read(value, _):
    """The top bit counts, and the others are not looked at."""
    sized(value, 1, 1)
    return [bytes([value[0] & 0x80]), value[0] & 0x80 != 0]


def address_error_read(value, _):
    """A family, a byte that is not looked at, and what an ERROR-CODE has behind its first two bytes."""
    sized(value, 4, 767)
    if value[0] not in FAMILY_NAMES:
        raise Refused(INVALID)
    error, = error_read(value, _)
    return [value[:1] + error[1:], FAMILY_NAMES[value[0]], 100 * error[2] + error[3], error[4:]]


def decimal(value):
    return [int.from_bytes(value, "big")]


READ = {
    **{kind: (name, text_read(TEXTS[kind])) for kind, name in (
        (0x0006, "Username"), (0x0014, "Realm"), (0x0015, "Nonce"), (0x8022, "Software"),
        (0x8003, "AlternateDomain"),
    )},
    0x0009: ("ErrorCode", error_read),
    0x000A: ("UnknownAttributes", unknown_read),
    0x8002: ("PasswordAlgorithms", algorithms_read(32)),
    0x001D: ("PasswordAlgorithm", algorithms_read(4)),
    0x000D: ("Lifetime", number_read(4, same, nothing)),
    0x0019: ("RequestedTransport", number_read(4, lambda it: it[:1] + bytes(3), nothing)),
    0x001A: ("DontFragment", number_read(0, same, nothing)),
    0x0020: ("XorMappedAddress", address_read),
    0x0016: ("XorRelayedAddress", address_read),
    0x8023: ("AlternateServer", address_read),
    0x0008: ("MessageIntegrity", number_read(20, same, nothing)),
    0x001C: ("MessageIntegritySha256", front_read(32)),
    0x3F12: ("MessageIntegritySha512", front_read(64)),
    0x001E: ("Userhash", number_read(32, same, nothing)),
    0x8028: ("Fingerprint", number_read(4, same, nothing)),
    0x0017: ("RequestedAddressFamily", family_read),
    0x8000: ("AdditionalAddressFamily", family_read),
    0x0018: ("EvenPort", even_port_read),
    0x0022: ("ReservationToken", number_read(8, same, lambda it: [it])),
    0x8001: ("AddressErrorCode", address_error_read),
    0x000C: ("ChannelNumber", number_read(4, lambda it: it[:2] + bytes(2), lambda it: decimal(it[:2]))),
    0x002A: ("ConnectionId", number_read(4, same, decimal)),
    0x0012: ("XorPeerAddress", peer_read),
    0x0013: ("Data", lambda value, _: [value, value]),
    0x8004: ("Icmp", number_read(
        8, lambda it: b"\0\0" + it[2:], lambda it: [it[2], it[3], int.from_bytes(it[4:], "big")],
    )),
    0x0001: ("MappedAddress", plain_read),
    0x0024: ("Priority", number_read(4, same, decimal)),
    0x0025: ("UseCandidate", number_read(0, same, nothing)),
    0x8029: ("IceControlled", number_read(8, same, decimal)),
    0x802A: ("IceControlling", number_read(8, same, decimal)),
}


def read(kind, value, number):
    """What a type and a value are read as: the attribute again in bytes, and what it tells."""
    again, *told = READ[kind][1](value, COOKIE + number)
    return [attribute(kind, again), *told]


def raw(data, number=SMALL):
    """What of some bytes is read as a raw attribute, and then as one of its type."""
    answers = []
    if len(data) < 4:
        answers += [truncated(4, len(data))] * 2
    else:
        kind, size = struct.unpack(">HH", data[:4])
        answers += [size, data[:4]]
        if len(data) < 4 + size:
            answers.append(truncated(4 + size, len(data)))
        else:
            value = data[4 : 4 + size]
            if kind in READ:
                answers += [READ[kind][0], *answer_of(read, kind, value, number)]
            whole = attribute(kind, value)
            answers += ["|", kind < 0x8000, value, len(whole) - 4, whole, whole, whole]
    row("raw", number.hex(), data)(*answers)


def fixed_values():
    """Values of types whose length is laid down: right, with all that is not looked at set, and, with a byte more
    and one less, of no lawful length."""
    for kind, *values in (
        (0x000D, "00000258", "ffffffff"), (0x0019, "11000000", "06ffffff", "110180ff"), (0x001A, ""),
        (0x0008, "5a" * 20), (0x001E, "00" * 32), (0x8028, "8b79af40", "5354554e"),
        (0x0017, "01000000", "02ffffff", "00000000", "03000000"),
        (0x8000, "02000000", "01ffffff", "00000000", "03000000"),
        (0x000C, "40000000", "1234ffff", "00000000"), (0x002A, "00000007", "ffffffff"),
        (0x8004, "0000030100000005", "ffff0b04000005dc"),
        (0x001D, "00010000", "0002ffff", "ff12ffff", "00000000", "00030000", "01020000", "00120000", "ff130000",
         "12ff0000"),
    ):
        yield from ((kind, bytes.fromhex(it)) for it in values)
        value = bytes.fromhex(values[0])
        yield kind, value + b"\0"
        if value:
            yield from ((kind, it) for it in (value[:-1], b""))


def ice_values():
    """Values of ICE's attributes: of the length that is laid down, shorter and longer."""
    for kind, (_, size) in ICE_NUMBERS.items():
        sample = SAMPLE_PRIORITY if kind == 0x0024 else SAMPLE_TIE_BREAKER
        for value in (sample, bytes(size), b"\xff" * size, sample[:-1], sample + b"\0", sample[:1], b"", sample * 2):
            yield kind, value
    yield from ((0x0025, value) for value in (b"", b"\0", bytes(4)))


def address_values():
    """Values of addresses: of either family, with the byte set that is not looked at, short, long, of none."""
    for kind in ADDRESSES:
        for value in ("000122fae1baa443", "0901e242ea12d547", "0002bd522112a442ade0b876903df1a0e56a5d41"):
            value = bytes.fromhex(value)
            yield from ((kind, it) for it in (value, value[:-1], value + b"\0"))
        others = "", "00", "0001", "000122", "000122fa", "0000000000000000", "000200000000000000", "0003" + "00" * 6
        yield from ((kind, bytes.fromhex(it)) for it in others)


def port_values():
    """Values of EVEN-PORT, of RESERVATION-TOKEN and of ADDRESS-ERROR-CODE: each bit alone that is not looked at, both
    families and others, codes at the ends of their range and outside it, no UTF-8, and lengths that are not lawful."""
    for bits in (0x80, 0x00, 0xFF, 0x7F, 0x40, 0x01, 0x81):
        yield 0x0018, bytes([bits])
    yield from ((0x0018, bytes.fromhex(it)) for it in ("", "8000", "0080", "80000000"))
    for token in RESERVED:
        yield from ((0x0022, it) for it in (token, token[:-1], token + b"\0"))
    yield from ((0x0022, it) for it in (b"", b"\1", bytes(16)))
    for value in ("", "01", "0100", "010004", "ff0004", "01000428", "02000508", "02ff0508", "00000428", "03000428",
                  "81000428", "ff000428", "01000300", "01000663", "01000664", "01000263", "01000700", "01000c28",
                  "02000508496e73756666696369656e74204361706163697479", "02000508e9", "03000508e9", "020002c3",
                  "01000428c3a9", "01000400" + "61" * 763, "01000400" + "61" * 764, "00000400" + "61" * 764):
        yield 0x8001, bytes.fromhex(value)


def other_values():
    """Values of texts, errors, lists, digests and data."""
    for kind, most in TEXTS.items():
        texts = b"", b"user", MATRIX.encode(), b"\xff", b"\xc3", b"us\xe9r", b"a" * most, b"a" * (most + 1)
        yield from ((kind, it) for it in texts)
    for value in ("", "000004", "00000403", "ffff0663", "00000300", "00000663", "00000664", "00000263", "00000700",
                  "00000c00", "00000403466f7262696464656e", "00000403e9", "00000400" + "61" * 763,
                  "00000400" + "61" * 764):
        yield 0x0009, bytes.fromhex(value)
    for value in ("", "17", "0017", "001700", "00177fff", "00170017"):
        yield 0x000A, bytes.fromhex(value)
    for value in ("", "000100", "00010000", "0002ffff", "0001000400010100", "0002000000010000", "0001000000",
                  "0001000000030000", "00010000" * 8, "00010000" * 9, "00010000" * 8 + "00",
                  "ff12000000020000000100ff", "00120000", "ff120000ff110000"):
        yield 0x8002, bytes.fromhex(value)
    for kind, whole in ((0x001C, HMAC), (0x3F12, HMAC_512)):
        for size in range(len(whole) + 6):
            yield kind, (whole + bytes(8))[:size]
    for size in (0, 1, 2, 3, 4, 5, 65535):
        yield 0x0013, b"\7" * size


def attributes_read():
    part("EVEN-PORT, RESERVATION-TOKEN and ADDRESS-ERROR-CODE, and why a value is none of one")
    for kind, value in port_values():
        raw(attribute(kind, value), NUMBER)
    part("raw attributes, each of which is of one type at most, and why it is not")
    for kind, value in (*fixed_values(), *address_values(), *other_values()):
        raw(attribute(kind, value), NUMBER)
    part("ICE's attributes, and why a value is none of one")
    for kind, value in ice_values():
        raw(attribute(kind, value), NUMBER)
    # the MAPPED-ADDRESS of a BINDING response that coturn 4.6.1 was recorded to send
    raw(bytes.fromhex("000100080001be087f000001"))
    part("types that nothing names; the last that has to be understood, and the first that has not")
    for kind in (0x0000, 0x0002, 0x0030, 0x7FFF, 0x8030, 0xFFFF):
        raw(attribute(kind, b"\1\2\3"))
    part("padding and what follows is not looked at; too few bytes")
    raw(bytes.fromhex("0013000107ffffff"))
    raw(bytes.fromhex("001d000400020000ffffff"))
    whole = bytes.fromhex("001d000400020000")
    for size in range(len(whole)):
        raw(whole[:size])
    raw(bytes.fromhex("0013ffff00"))


def checks():
    part("a type and the bounds of a length, of which the type is looked at first and the least length second")
    data = bytes.fromhex("001d000400020000")
    for kind in (0x001D, 0x0006):
        for least in ("-", "to=3", "to=4", "to=5", "but=3", "but=4", "but=5"):
            for most in ("-", "to=3", "to=4", "to=5", "but=3", "but=4", "but=5"):
                row("check", f"{kind:04x}", least, most, data)(held(kind, least, most))


def held(kind, least, most):
    """What a PASSWORD-ALGORITHM of four bytes is answered."""
    if kind != 0x001D:
        return WRONG
    least = 0 if least == "-" else int(least[-1]) + (least[0] == "b")
    most = 65535 if most == "-" else int(most[-1]) - (most[0] == "b")
    if 4 < least:
        return truncated(least, 4)
    return too_long(most, 4) if 4 > most else "fine"


def plain_addresses():
    part("plain addresses, of which the first byte is not looked at; and as they are under a number")
    for address, number in (
        ("10.0.0.2:2000", NUMBER), ("0.0.0.0:0", SAMPLES), ("203.0.113.5:50000", NUMBER), (LONG_6, SAMPLES),
        ("[::1]:40000", NUMBER), ("[::]:1", b"\xff" * 12),
    ):
        value = bare(address)
        mask = COOKIE + number
        hidden = address_of(value, mask)
        again = attribute(0x8023, value)
        for first in (b"\0", b"\x09"):
            data = attribute(0x8023, first + value[1:])
            row("plain", number.hex(), data)(address, hidden, address, again)
    for kind, value in address_values():
        if kind == 0x8023:
            data = attribute(kind, value)
            try:
                again, = address_read(value, COOKIE)
                address = address_of(again, bytes(16))
                hidden = address_of(again, COOKIE + NUMBER)
                row("plain", NUMBER.hex(), data)(address, hidden, address, attribute(kind, again))
            except Refused as why:
                row("plain", NUMBER.hex(), data)(str(why))


def rows():
    """All of these."""
    texts_made()
    errors_made()
    addresses_made()
    numbers_made()
    ice_made()
    algorithms_made()
    digests_made()
    ports_made()
    unknown_made()
    attributes_read()
    checks()
    plain_addresses()
