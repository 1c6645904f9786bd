"""Rows of streams, channel frames and indications (RFC 8656, sections 11 and 12)."""

import struct

from rows_wire_base import (
    COOKIE, DATA, NOT_STUN, NUMBER, Refused, SEND, UNSIGNED, answer_of, into, part, row, truncated,
)
from traces_base import message, xored

# ---- streams (RFC 8656, section 12.5)

# frames as they stand in a stream, and how many bytes of each are given: channel frames without their
# padding. The messages were recorded on loopback: aioice, coturn and libnice sent them
FRAMES = [(bytes.fromhex(it), size) for it, size in (
    ("000300102112a442aedd3a3fd9788d71494becb7000d0004000002580019000411000000", 36),
    ("400000050102030405000000", 9),
    ("0113004c2112a442aedd3a3fd9788d71494becb70009001000000401556e617574686f72697a65640015001061386666"
     "393238363531393163326263001400057265616c6d00000080220014436f7475726e2d342e362e312027476f7273742"
     "7", 96),
    ("7fff0000", 4),
    ("4001000411121314", 8),
    ("000300202112a442c800004b2ddc8654d89592228022000b6e6963652d636c69656e7420001900041100000000"
     "0d000400000258", 52),
    ("4567000105000000", 5),
)]
STREAM = b"".join(it for it, _ in FRAMES)


def front(data):
    """What stands at the front: what it is, how many bytes of it are given and how many it takes; None
    where it may yet become whole. Refused where it is neither a message nor a channel frame."""
    if data and data[0] >> 6 == 1:
        size = 4 + int.from_bytes(data[2:4], "big")
        whole = size + -size % 4
        return ("channel", size, whole) if 4 <= len(data) >= whole else None
    if data and data[0] >> 6 or not COOKIE.startswith(data[4:8]):
        raise Refused
    size = 20 + int.from_bytes(data[2:4], "big")
    return ("message", size, size) if 20 <= len(data) >= size else None


class Stream:
    """What a buffer keeps of a stream, and the words of a row."""

    def __init__(self):
        self.kept, self.dead, self.words, self.answers = b"", False, [], []

    def look(self):
        """The frame at the front is taken."""
        if self.dead:
            return None
        try:
            found = front(self.kept)
        except Refused:
            self.dead, self.kept = True, b""
            return None
        if found is None:
            return None
        kind, size, whole = found
        frame, self.kept = self.kept[:size], self.kept[whole:]
        return kind, frame

    def take(self, *pieces):
        for piece in pieces:
            stored = "stored-" if self.kept else ""
            self.kept += b"" if self.dead else piece
            found = self.look()
            self.words += ["take", piece]
            self.answers += [stored + found[0], found[1]] if found else ["none"]
        return self

    def poll(self):
        found = self.look()
        self.words.append("poll")
        self.answers += found or ["nothing"]
        return self

    def polls(self):
        self.words.append("polls")
        for _ in range(8):
            found = self.look()
            self.answers += found or ["nothing"]
            if found is None:
                break
        return self

    def front(self):
        """The frame at the front is shown, and stays."""
        kept, dead = self.kept, self.dead
        found = self.look()
        self.kept, self.dead = kept, dead
        self.words.append("front")
        self.answers.append(found[1] if found else "nothing")
        return self

    def drop(self):
        """The frame at the front goes, unseen."""
        self.look()
        self.words.append("drop")
        return self

    def empty(self):
        self.words.append("empty")
        self.answers.append(not self.kept)
        return self

    def row(self):
        row("stream", *self.words)(*self.answers, "left", self.kept)


def chunks(data, size):
    return [data[at : at + size] for at in range(0, len(data), size)]


def whole_frames(stream):
    """A stream gives all its frames, one by one."""
    told = [it for it in stream.answers if isinstance(it, bytes)]
    assert told == [it[:size] for it, size in FRAMES], told
    stream.row()


def streams():
    part("a stream of seven frames, cut in two anywhere: its frames do not depend on where")
    for cut in range(len(STREAM) + 1):
        whole_frames(Stream().take(STREAM[:cut]).polls().take(STREAM[cut:]).polls().empty())
    part("the same in pieces of a size; and told of whole before it is asked for frames")
    for size in (1, 2, 3, 7, 20, 100):
        stream = Stream()
        for piece in chunks(STREAM, size):
            stream.take(piece).polls()
        whole_frames(stream.empty())
        whole_frames(Stream().take(*chunks(STREAM, size)).polls().empty())
    part("frames that are shown before they go, cut in two anywhere; what is broken is shown as nothing, and ends it")
    for cut in range(len(STREAM) + 1):
        stream = Stream().take(STREAM[:cut]).front().front()
        for _ in range(len(FRAMES)):
            stream.drop().front()
        stream.take(STREAM[cut:])
        for _ in range(len(FRAMES)):
            stream.front().drop()
        stream.empty().front().row()
    for first in (b"\x80", b"\xc0", b"\0\0\0\0\x21\x13"):
        Stream().take(FRAMES[3][0] + first).front().drop().empty().take(UNSIGNED).front().drop().row()
        Stream().take(FRAMES[3][0] + UNSIGNED + first).front().drop().front().poll().front().drop().empty().row()
    Stream().front().drop().front().empty().row()
    part("two frames: in one piece, byte by byte, and by pieces of no bytes")
    both = FRAMES[1][0] + UNSIGNED
    Stream().take(both).empty().poll().poll().empty().row()
    Stream().take(*chunks(both, 1)).empty().row()
    Stream().take(both, b"", b"").empty().row()
    part("what follows a frame is kept until it is asked for")
    Stream().take(b"\x40\0\0\0\x80rest").empty().row()
    Stream().take(b"\x40\0\0\0\x80rest").poll().empty().take(UNSIGNED).row()
    Stream().take(b"\x40\0\0\0\x80rest", b"more").empty().take(UNSIGNED).row()
    Stream().poll().empty().row()
    dying_streams()


def dying_streams():
    part("a stream is dead where the top bits of a frame are 10 or 11, and where a byte of a cookie is wrong")
    for first in range(256):
        Stream().take(bytes([first])).empty().take(UNSIGNED).poll().empty().row()
    for at in range(1, 9):
        for wrong in sorted({UNSIGNED[at] ^ 1, UNSIGNED[at] ^ 0x80, 0xFF}):
            changed = UNSIGNED[:at] + bytes([wrong])
            Stream().take(changed).empty().take(UNSIGNED).poll().row()
            Stream().take(*chunks(changed, 1)).empty().take(UNSIGNED).poll().row()
            Stream().take(FRAMES[3][0] + changed).poll().empty().take(UNSIGNED).poll().row()
    Stream().take(b"\x40\0\0\x08").empty().take(b"\xff").empty().row()


# ---- channel frames and indications (RFC 8656, sections 11 and 12)

UDP_WAY, TCP_WAY = (f"{it} 192.168.0.1:1000 10.0.0.2:2000" for it in ("UDP", "TCP"))


def sent(data):
    """What is said of bytes that are to be sent."""
    return [len(data), not data, UDP_WAY, data, TCP_WAY, data]


def channel(number, data, *rooms):
    plain = struct.pack(">HH", number, len(data)) + data
    padded = plain + bytes(-len(data) % 4)
    for room in rooms or (len(plain) - 1, len(plain), len(padded), 16):
        row("channel", f"{number:04x}", room, data)(*sent(plain), *sent(padded), *into(plain, room))
    return plain


def frame_header(data):
    if len(data) < 4:
        raise Refused(truncated(4, len(data)))
    if data[0] >> 6 != 1:
        raise Refused(NOT_STUN)
    return data[:2], int.from_bytes(data[2:4], "big")


def frame_data(data):
    number, size = frame_header(data)
    if len(data) < 4 + size:
        raise Refused(truncated(4 + size, len(data)))
    return number, data[4 : 4 + size]


def frames():
    part("channel frames as they are sent and written")
    for size in range(10):
        channel(0x4000, bytes(range(1, size + 1)))
    for number, data in ((0x4567, b"\5" * 5), (0x5000, b"\xff" * 4), (0x7FFF, b""), (0x4000, b"")):
        channel(number, data)
    channel(0x4000, b"\7" * 65535, 0, 65538, 65539)
    part("channel frames as they are read, and refused")
    whole = bytes.fromhex("40010005010203040500ff")
    fronts = [whole[:size] for size in range(len(whole) + 1)]
    others = [bytes.fromhex(it) for it in (
        "80000000", "c0000000", "3fff0000", "00000000", "40000000", "7fffffff", "7fff000101ff", "4000ffff00",
    )]
    for data in [*fronts, *others, channel(0x4000, b"\7" * 65535, 65539)]:
        row("frame", data)(*answer_of(frame_header, data), *answer_of(frame_data, data))


def sends():
    part("indications as they are sent: SEND to a server, DATA to a client")
    expected = "001600182112a442ade0b876903df1a0e56a5d4000120008000121135e12a443001300050505050505000000"
    sizes = [0, 1, 2, 3, 4, 5, 65504]
    for peer in ("127.0.0.1:1", "203.0.113.5:50000", "[2001:db8:1234:5678:11:2233:4455:6677]:32853"):
        for number in (NUMBER, bytes(12), b"\xff" * 12):
            for size in sizes if number == NUMBER else [5]:
                for word, method in (("send", SEND), ("told", DATA)):
                    attributes = [(0x12, xored(peer, number)), (0x13, b"\5" * size)]
                    text = message(0x10 | method, number, attributes)
                    if (word, peer, number, size) == ("send", "127.0.0.1:1", NUMBER, 5):
                        assert text.hex() == expected
                    row(word, peer, number.hex(), b"\5" * size)(*sent(text))


def rows():
    """All of these."""
    streams()
    frames()
    sends()
