"""What the stored rows of a program are made of: lines that it is asked, and what it is to answer to each."""

import struct
import zlib

from traces_base import ALLOCATE, BINDING, CHANNEL_BIND, MAGIC
from traces_payloads import DATA_METHOD as DATA, SEND

COOKIE = struct.pack(">I", MAGIC)
CLASSES = ["request", "indication", "success", "error"]
# the number of most messages here, one of a recorded ALLOCATE, and that of the samples of RFC 5769
SMALL, NUMBER, SAMPLES = (bytes.fromhex(it.rjust(24, "0")) for it in (
    "7392", "ade0b876903df1a0e56a5d40", "b7e7a701bc34d686fa87dfae",
))
# a BINDING request that shows PASSWORD-ALGORITHM alone
UNSIGNED = bytes.fromhex("000100082112a442000000000000000000007392001d000400020000")

# of more bytes than these their number and their CRC-32 are printed
MOST_SHOWN = 256

NOT_STUN = "The provided data is not a STUN message"
MISMATCH = "The fingerprint does not match the data"
WRONG = "The attribute has another type than its implementation"
INVALID = "The attribute contains invalid data"
UNSIGNED_TEXT = "The integrity of the message does not hold"
MARKED_TEXT = "The message has a fingerprint already"
SIGNED_TEXT = "The message has an integrity attribute already"
FAILED = "The integrity could not be made"


def truncated(expected, actual):
    return f"Not enough data available to parse the packet, expected {expected}, actual {actual}"


def too_long(expected, actual):
    return f"Too much data to parse, expected {expected}, actual {actual}"


def missing(kind):
    return f"Missing attribute of type {kind}"


def exists(kind):
    return f"An attribute of type {kind} is already in the message"


def too_large(expected, actual):
    return f"Too much data, expected at most {expected}, actual {actual}"


def too_small(expected, actual):
    return f"Not enough space, expected {expected}, actual {actual}"


class Refused(Exception):
    """Why a call gives nothing, as it is printed."""


ROWS = []


def shown(value):
    """Bytes, truths, numbers and texts as the program prints them."""
    if isinstance(value, bytes):
        if len(value) > MOST_SHOWN:
            return f"{len(value)} {zlib.crc32(value):08x}"
        return value.hex() or "-"
    return str(value).lower() if isinstance(value, bool) else str(value)


def given(data):
    """Bytes as a word of a line: a front of one to four bytes that makes them all stands once."""
    for size in (1, 2, 3, 4):
        count = len(data) // size
        if count > 4 and data == data[:size] * count:
            return f"{data[:size].hex()}*{count}"
    return data.hex() or "-"


def part(title):
    """A remark before some rows."""
    ROWS.append((f"\n# {title}\n" if ROWS else f"# {title}\n", None))


def row(*words):
    """A row asks for this; what it is to be answered is told by a call of what it gives."""
    line = " ".join(given(it) if isinstance(it, bytes) else str(it) for it in words)

    def answered(*answers):
        ROWS.append((line, " ".join([str(words[0]), *map(shown, answers)])))

    return answered


def write(crate):
    """Writes what a program is asked, and what it is to answer, into its folder."""
    asked = "\n".join(line for line, _ in ROWS)
    (crate / "stdin").write_text(asked + "\n", encoding="utf-8")
    told = "".join(f"{answer}\n" for _, answer in ROWS if answer is not None)
    (crate / "stdout").write_text(told, encoding="utf-8")


def answer_of(call, *arguments):
    """What a call gives, or why it is refused."""
    try:
        return call(*arguments)
    except Refused as why:
        return [str(why)]


def into(data, room):
    """Writing bytes into so many of 09."""
    if room < len(data):
        return [too_small(len(data), room), b"\t" * room]
    return [len(data), data + b"\t" * (room - len(data))]
