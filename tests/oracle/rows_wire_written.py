"""Rows of messages that are written, and of requests that are objected to (RFC 8489, sections 6 and 14)."""

import struct

from rows_wire_attributes import REASONS, types
from rows_wire_base import (
    ALLOCATE, BINDING, CHANNEL_BIND, CLASSES, FAILED, MARKED_TEXT, Refused, SIGNED_TEXT, SMALL, UNSIGNED, answer_of,
    exists, part, row, too_large, too_small,
)
from rows_wire_messages import (
    DIGESTS, FINGERPRINT, INTEGRITY, INTEGRITY_SHA256, INTEGRITY_SHA512, PASSWORD, PION, RANKS, SAMPLE, USER,
    attributes_of, crc, hmac_of, message_type, signed, type_told,
)
from traces_base import attribute, block, message, xored

# ---- messages that are written

ADDS = {
    "lifetime": (0x0D, struct.pack(">I", 600)), "transport": (0x19, b"\x11\0\0\0"), "algorithm": (0x1D, b"\0\2\0\0"),
    "software": (0x8022, b"test vector"),
}
TEXT_ADDS = {"user": 0x06, "realm": 0x14, "nonce": 0x15}


class Writer:
    """A message that is written, in a room or with none."""

    def __init__(self, kind, number, room):
        self.data, self.room = message(kind, number, []), room
        self.kinds = []

    def push(self, kind, size, value):
        """Adds an attribute whose value has so many bytes: that of a message which tells its length."""
        end = len(self.data) + 4 + size + -size % 4
        if end - 20 > 65535:
            raise Refused(too_large(65535, end - 20))
        if self.room is not None and self.room < end:
            raise Refused(too_small(end, self.room))
        text = self.data[:2] + struct.pack(">H", end - 20) + self.data[4:]
        self.data = text + attribute(kind, value(text))
        self.kinds.append(kind)

    def add(self, kind, value):
        if FINGERPRINT in self.kinds:
            raise Refused(MARKED_TEXT)
        if any(it in self.kinds for it in DIGESTS):
            raise Refused(SIGNED_TEXT)
        self.push(kind, len(value), lambda _: value)

    def sign(self, kind, credentials, made_for):
        if FINGERPRINT in self.kinds:
            raise Refused(MARKED_TEXT)
        if kind in self.kinds:
            raise Refused(exists(kind))
        if any(RANKS.get(it, 0) > RANKS[kind] for it in self.kinds):
            raise Refused(SIGNED_TEXT)
        if made_for != kind:
            raise Refused(FAILED)
        self.push(kind, max(DIGESTS[kind][3]), lambda text: hmac_of(credentials, kind, text))

    def mark(self):
        if FINGERPRINT in self.kinds:
            raise Refused(MARKED_TEXT)
        self.push(FINGERPRINT, 4, crc)

    def asked(self, word):
        """Does what a word of a row says."""
        named = {word: kind for kind, (_, word, *_) in DIGESTS.items()}
        kind, _, value = word.partition(" ")
        if kind == "fingerprint":
            self.mark()
        elif kind == "sign":
            self.sign(named[value], USER, named[value])
        elif kind == "sign-short":
            self.sign(INTEGRITY, ("-", "-", value), INTEGRITY)
        elif kind == "key":
            made_for, algorithm = value.split()
            self.sign(named[algorithm], USER, named[made_for])
        elif kind == "zeros":
            self.add(0x0022, bytes(int(value.partition("*")[2])))
        elif kind == "code":
            reason = REASONS.get(int(value), "Unknown").encode()
            self.add(0x09, struct.pack(">HBB", 0, int(value) // 100, int(value) % 100) + reason)
        elif kind == "mapped":
            self.add(0x20, xored(value, self.data[8:20]))
        else:
            self.add(*(ADDS[kind] if kind in ADDS else (TEXT_ADDS[kind], value.encode())))

    def told(self):
        """What the writer tells of what it has."""
        kind, is_response, method = type_told(self.data)
        most = [] if self.room is None else [self.room]
        answers = [kind == "request", method == b"\0\1", is_response, f"0x{self.data[8:20].hex()}", *most]
        firsts = [it for it in self.kinds if it in (0x06, 0x14, 0x0D)]
        return [*answers, 0x06 in self.kinds, *[struct.pack(">H", it) for it in firsts[:1]]]


def begun_writer(room, how, begun):
    """A message that is begun as a header tells, or as the response to a request."""
    kind = int.from_bytes(begun[:2], "big") | {"begin": 0, "success": 0x100, "error": 0x110}[how]
    return Writer(kind, begun[8:20], room)


def written(room, how, begun, adds, expected=None):
    """A row of a message that is begun and added to, and the sizes that it had."""
    writer = begun_writer(room, how, begun)
    answers, sizes = [], [20]
    for add in adds:
        answer = answer_of(writer.asked, add)
        answers += [len(writer.data), *(answer or ["fine"])]
        sizes.append(len(writer.data))
    behind = [] if room is None else [b"\xee" * (room - len(writer.data))]
    assert expected is None or writer.data == expected, writer.data.hex()
    answers += [*writer.told(), True, *([] if room is None else [room]), writer.data, *behind]
    row(*(["message"] if room is None else ["lent", room]), how, begun, *adds)(*answers)
    return sizes


def everywhere(title, how, begun, *adds, expected=None):
    """The same in memory of its own, in much room, and in rooms that are just enough for a part, and not."""
    part(title)
    sizes = written(None, how, begun, adds, expected)
    for room in sorted({65553, *sizes, *(it - 1 for it in sizes if it > 20)}):
        written(room, how, begun, adds)


HEAD = message(BINDING, SMALL, [])
ASKED = bytes.fromhex(
    "000300142112a442ade0b876903df1a0e56a5d40000d0004000007080019000411000000001a0000"
)
BY_NAME = ("user user", "realm realm")


def responses_written():
    everywhere("a request with one attribute", "begin", HEAD, "algorithm", expected=UNSIGNED)
    challenge = "code 401", "realm realm", "nonce obMatJos2QAAAgyiDbICXwPDaQ1ha"
    everywhere("the challenge that answers an ALLOCATE", "error", ASKED, *challenge, expected=bytes.fromhex(
        "011300442112a442ade0b876903df1a0e56a5d400009001000000401556e617574686f72697a6564001400057265616c6d0000000015"
        "001d6f624d61744a6f73325141414167796944624943587750446151316861000000"
    ))
    for title, request in (
        ("responses have number and method of their request: BINDING", HEAD), ("ALLOCATE", ASKED),
        ("CHANNEL_BIND", message(CHANNEL_BIND, bytes.fromhex("c800004b2ddc8654d8959222"), [])),
    ):
        everywhere(title, "success", request)
        everywhere(f"{title}: the error response", "error", request, "code 400")


def signed_messages_written():
    everywhere("the key of the other algorithm does not sign", "begin", HEAD, *BY_NAME, "key sha1 sha256",
               "key sha256 sha1")
    everywhere("HMAC-SHA1 under credentials, and no second one", "begin", HEAD, *BY_NAME, "sign sha1", "sign sha1",
               "realm realm", expected=signed(INTEGRITY))
    everywhere("HMAC-SHA1 under a key: that one is there is told before the key", "begin", HEAD, *BY_NAME,
               "key sha1 sha1", "key sha1 sha1", "key sha256 sha1", expected=signed(INTEGRITY))
    everywhere("HMAC-SHA256 under credentials, and none of either behind it", "begin", HEAD, *BY_NAME,
               "sign sha256", "sign sha256", "sign sha1", "realm realm", expected=signed(INTEGRITY_SHA256))
    everywhere("HMAC-SHA256 under a key", "begin", HEAD, *BY_NAME, "key sha256 sha256", "key sha1 sha256",
               "key sha1 sha1", expected=signed(INTEGRITY_SHA256))
    strongest_written()
    both = signed(INTEGRITY, INTEGRITY_SHA256)
    everywhere("both, under credentials", "begin", HEAD, *BY_NAME, "sign sha1", "sign sha256", expected=both)
    everywhere("both, under keys: that one is there is told before the order and before the key", "begin", HEAD,
               *BY_NAME, "key sha1 sha1", "key sha256 sha256", "key sha256 sha1", "key sha1 sha256", expected=both)
    everywhere("nothing comes behind a FINGERPRINT", "begin", HEAD, "lifetime", "fingerprint", "fingerprint",
               "realm realm", "sign sha256", "key sha256 sha256", "key sha1 sha256", expected=bytes.fromhex(
                   "000100102112a442000000000000000000007392000d00040000025880280004c792f497"))


def strongest_written():
    by_sha512 = signed(INTEGRITY_SHA512)
    everywhere("HMAC-SHA512 is not made by the keys of others, nor another by its key", "begin", HEAD, *BY_NAME,
               "key sha1 sha512", "key sha256 sha512", "key sha512 sha1", "key sha512 sha256")
    everywhere("HMAC-SHA512 under credentials: none behind it, and no ordinary attribute", "begin", HEAD, *BY_NAME,
               "sign sha512", "sign sha512", "sign sha256", "sign sha1", "realm realm", expected=by_sha512)
    everywhere("HMAC-SHA512 under a key: that one is there is told before the order and before the key", "begin",
               HEAD, *BY_NAME, "key sha512 sha512", "key sha1 sha512", "key sha256 sha256", "key sha512 sha1",
               expected=by_sha512)
    all_three = signed(*DIGESTS)
    everywhere("all three, under credentials", "begin", HEAD, *BY_NAME, "sign sha1", "sign sha256", "sign sha512",
               expected=all_three)
    everywhere("all three, under keys, and a FINGERPRINT behind them", "begin", HEAD, *BY_NAME, "key sha1 sha1",
               "key sha256 sha256", "key sha512 sha512", "key sha256 sha1", "fingerprint", "sign sha512")
    for first, weaker in ((INTEGRITY, "sha1"), (INTEGRITY_SHA256, "sha256")):
        everywhere(f"HMAC-SHA512 behind {weaker} alone", "begin", HEAD, *BY_NAME, f"sign {weaker}", "sign sha512",
                   f"sign {weaker}", expected=signed(first, INTEGRITY_SHA512))


def recorded_messages_written():
    everywhere("the ALLOCATE that pion/turn 2.1.0 was recorded to send", "begin", PION[:20], "transport", *BY_NAME,
               "nonce 7090d862e2aa1d6c", "sign sha1", "fingerprint", expected=PION)
    everywhere("the response of RFC 5769, section 2.2, with a zero as padding of SOFTWARE", "success", SAMPLE,
               "software", "mapped 192.0.2.1:32853", f"sign-short {PASSWORD[2]}", "fingerprint",
               expected=bytes.fromhex(
                   "0101003c2112a442b7e7a701bc34d686fa87dfae8022000b7465737420766563746f7200002000080001a147e112a6"
                   "43000800145d6b58bead94e07eef0dfc1282a2bd08431410288028000425167a15"))


def long_messages_written():
    everywhere("65,508 bytes behind the header leave the room for HMAC-SHA1, and not for HMAC-SHA256", "begin", HEAD,
               "zeros 00*65504", "sign sha256", "key sha256 sha256", "key sha1 sha1")
    everywhere("65,468 bytes leave the room for HMAC-SHA256, and by four bytes not for HMAC-SHA512", "begin", HEAD,
               "zeros 00*65464", "sign sha512", "key sha512 sha512", "key sha256 sha256")
    everywhere("65,532 bytes behind the header leave no room", "begin", HEAD, "zeros 00*65528", "zeros 00*0",
               "fingerprint", "sign sha1")
    part("lent bytes that are too few")
    for room, adds in (
        (20, ["lifetime", "fingerprint"]), (27, ["lifetime"]), (28, ["lifetime"]), (30, ["lifetime", "user user"]),
        (35, ["lifetime", "fingerprint"]), (36, ["lifetime", "fingerprint"]), (43, ["sign sha1", "sign sha256"]),
        (63, [*BY_NAME, "key sha1 sha1"]), (75, [*BY_NAME, "sign sha256", "sign sha1"]),
        (107, [*BY_NAME, "sign sha512", "sign sha1"]), (108, [*BY_NAME, "sign sha512"]),
    ):
        written(room, "begin", HEAD, adds)
    everywhere("the first of some types that is there", "begin", HEAD, "lifetime", "realm realm", "user user")


def drawn(seed, count):
    """Words of 32 bits of ChaCha20 under a key (RFC 8439, section 2.3)."""
    words = []
    for number in range(-(-count // 16)):
        words += block(number, struct.unpack("<8I", seed))
    return words[:count]


def draws():
    part("numbers that are drawn, three words each, the first of them highest")
    # RFC 8439, appendix A.1, test vector 1
    assert struct.pack("<2I", *drawn(bytes(32), 2)).hex() == "76b8e0ada0f13d90"
    for seed in (bytes(32), b"\7" * 32, bytes(range(32)), b"\xff" * 32):
        one, two, three = (struct.pack(">3I", *it) for it in zip(*[iter(drawn(seed, 9))] * 3))
        for method in (BINDING, ALLOCATE, 0xFFF):
            request, indication = (message(message_type(it, method), two, []) for it in CLASSES[:2])
            indication = indication[:8] + three
            row("draw", seed, f"{method:03x}")(f"0x{one.hex()}", request, indication)


# ---- requests that are objected to (RFC 8489, section 6.3.1)


def in_room(room, *sizes):
    """Whether there is room for a front of a message, and for all of it."""
    for size in sizes:
        if size - 20 > 65535:
            raise Refused(too_large(65535, size - 20))
        if room is not None and room < size:
            raise Refused(too_small(size, room))


def response(request, code, *attributes):
    kind = int.from_bytes(request[:2], "big") | 0x110
    value = struct.pack(">HBB", 0, code // 100, code % 100) + REASONS[code].encode()
    return message(kind, request[8:20], [(0x09, value), *attributes])


def unknown_reply(room, request, kinds):
    if 2 * len(kinds) > 65535:
        raise Refused(too_large(65535, 2 * len(kinds)))
    in_room(room, 48, 52 + 2 * len(kinds) + -2 * len(kinds) % 4)
    return [response(request, 420, (0x0A, types(*kinds)))]


def bad_reply(room, request):
    in_room(room, 40)
    return [response(request, 400)]


def check_reply(room, request, supported, required):
    listed = [kind for _, kind, _ in attributes_of(request)]
    foreign = [it for it in dict.fromkeys(listed) if it < 0x8000 and it not in supported]
    if foreign:
        return unknown_reply(room, request, foreign)
    if any(it not in listed for it in required):
        return bad_reply(room, request)
    return ["fine"]


def objected(room, request, how, *kinds):
    call = {"check": check_reply, "unknown": unknown_reply, "bad": bad_reply}[how]
    words = [room or 0, request, how, *[types(*it) for it in kinds]]
    row("object", *words)(*answer_of(call, room, request, *kinds))


# a request that shows the types 001D, 8022, 7FFF, 001D and 0006, with empty values
REPEATED = message(BINDING, SMALL, [(it, b"") for it in (0x1D, 0x8022, 0x7FFF, 0x1D, 0x06)])


def objections():
    part("requests that are objected to: types that are not known, then types that lack; in own memory and in lent")
    algorithm, user = [0x1D], [0x06]
    for room in (None, 20, 39, 40, 47, 48, 55, 56, 59, 60, 200):
        for supported, required in (([], []), ([], user), (algorithm, []), (algorithm, algorithm), (algorithm, user)):
            objected(room, UNSIGNED, "check", supported, required)
        for supported in (user, [0x1D, 0x7FFF], [0x7FFF, 0x06, 0x1D], [0x8022]):
            objected(room, REPEATED, "check", supported, user)
            objected(room, REPEATED, "check", supported, [0x8022, 0x0014])
        objected(room, UNSIGNED, "bad")
        objected(room, ASKED, "bad")
        for kinds in ([], user, [0x8022, 0x1D, 0x1D], [1, 2]):
            objected(room, UNSIGNED, "unknown", kinds)
            objected(room, ASKED, "unknown", kinds)
    assert response(UNSIGNED, 420, (0x0A, types(0x8022, 0x1D, 0x1D))).hex() == (
        "011100282112a4420000000000000000000073920009001500000414556e6b6e6f776e20417474726962757465000000000a0006"
        "8022001d001d0000"
    )
    part("attributes behind the shape are not objected to; types that are too many")
    objected(None, signed(INTEGRITY, attributes=[(0x06, b"user")]), "check", [0x06, 0x08], [0x06, 0x08])
    behind = message(BINDING, SMALL, [(INTEGRITY, bytes(20)), (0x7FFF, b""), (0x06, b"user")])
    objected(None, behind, "check", [INTEGRITY], [INTEGRITY])
    objected(None, behind, "check", [INTEGRITY], [0x06])
    for room in (None, 20, 65535):
        for count in (32750, 32751, 32767, 32768):
            objected(room, UNSIGNED, "unknown", [0x8022] * count)


def rows():
    """All of these."""
    responses_written()
    signed_messages_written()
    recorded_messages_written()
    long_messages_written()
    draws()
    objections()
