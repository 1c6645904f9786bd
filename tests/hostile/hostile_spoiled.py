"""How a hostile network spoils what it carries: words of bytes that name an answer by pieces (`docs/TRACE.md`)."""

import hashlib
import struct

from hostile_messages import FINGERPRINT, attributes_of, crc_of, header, read
from traces_base import CHANNEL, attribute


KINDS = (
    0x0101, 0x0103, 0x0113, 0x0003, 0x0104, 0x0108, 0x0109, 0x010A, 0x010B, 0x0118, 0x0017, 0x000C, 0x8000, 0x4000,
)
ATTRIBUTE_KINDS = (
    0x0006, 0x0008, 0x0009, 0x000C, 0x000D, 0x0012, 0x0013, 0x0014, 0x0016, 0x001C, 0x002A, 0x3F12, 0x7FFF,
)


def part(k, a, b):
    return [f"@{k}:{a}:{b}"] if a < b else []


def parts_of(k, size, *changes):
    """The answer of an event, of this size, with other bytes at some places: each change has a place, how many bytes
    go there, and the hex that comes."""
    words, at = [], 0
    for place, gone, come in sorted(changes):
        words += part(k, at, place) + ([come] if come else [])
        at = place + gone
    return "+".join(words + part(k, at, size)) or "-"


def sized(size):
    """The change that makes a header tell so many bytes behind it."""
    return 2, 2, struct.pack(">H", size & 0xFFFF).hex()


def flipped(dice, k, data):
    at = dice.randrange(len(data))
    return parts_of(k, len(data), (at, 1, f"{data[at] ^ 1 << dice.randrange(8):02x}"))


def cut(dice, k, data):
    return parts_of(k, dice.randrange(1, len(data) + 1))


def cut_and_sized(dice, k, data):
    size = dice.randrange(5, len(data) + 1)
    return parts_of(k, size, sized(size - 20))


def lengthened(dice, k, data):
    more = bytes(dice.choice((0, 255, 1)) for _ in range(dice.choice((1, 3, 4, 8))))
    change = [sized(len(data) + len(more) - 20)] if dice.random() < 0.5 else []
    return parts_of(k, len(data), *change, (len(data), 0, more.hex()))


def spans(data):
    """Where each attribute that is shown begins and ends, or places of our own where it is no message."""
    shown = attributes_of(data) if header(data) else None
    return [(at, at + 4 + len(value) + -len(value) % 4) for at, _, value in shown or ()] or [(0, min(4, len(data)))]


def doubled(dice, k, data):
    a, b = dice.choice(spans(data))
    at = dice.choice([it for it, _ in spans(data)] + [len(data)])
    return parts_of(k, len(data), sized(len(data) + b - a - 20), (at, 0, f"@{k}:{a}:{b}"))


def removed(dice, k, data):
    a, b = dice.choice(spans(data))
    if a < 4:
        return parts_of(k, len(data), (a, b - a, ""))
    return parts_of(k, len(data), sized(len(data) - (b - a) - 20), (a, b - a, ""))


def reordered(dice, k, data):
    found = spans(data)
    if len(found) < 2:
        return flipped(dice, k, data)
    (a, b), (c, d) = sorted(dice.sample(found, 2))
    return parts_of(k, len(data), (a, b - a, f"@{k}:{c}:{d}"), (c, d - c, f"@{k}:{a}:{b}"))


def with_another_length(dice, k, data):
    """The header's length, or an attribute's, is another."""
    at, _ = dice.choice(spans(data))
    place = 2 if at < 4 or dice.random() < 0.5 else at + 2
    told = int.from_bytes(data[place : place + 2], "big")
    other = dice.choice((0, 1, 3, told + 1, told - 1, told + 4, told - 4, 0x7FFF, 0xFFFF)) & 0xFFFF
    return parts_of(k, len(data), (place, 2, f"{other:04x}"))


def with_another_type(dice, k, data):
    """The message's type, or an attribute's, is another."""
    at, _ = dice.choice(spans(data))
    place = 0 if at < 4 or dice.random() < 0.6 else at
    kind = dice.choice(KINDS if place == 0 else ATTRIBUTE_KINDS)
    return parts_of(k, len(data), (place, 2, f"{kind:04x}"))


def with_another_number(dice, k, data):
    at = dice.randrange(8, 20)
    return parts_of(k, len(data), (at, 1, f"{data[at] ^ 1:02x}"))


def with_another_cookie(dice, k, data):
    at = dice.randrange(4, 8)
    return parts_of(k, len(data), (at, 1, f"{data[at] ^ 0x80:02x}"))


def marked(dice, k, data):
    """A FINGERPRINT behind it, right or wrong."""
    size = len(data) + 8
    text = data[:2] + struct.pack(">H", size - 20) + data[4:]
    value = bytearray(crc_of(text, len(data)))
    value[0] ^= dice.choice((0, 0, 1))
    return parts_of(k, len(data), sized(size - 20), (len(data), 0, attribute(FINGERPRINT, bytes(value)).hex()))


def added_behind(dice, k, data):
    """Something that is no part of what is signed: an address, a channel, another signature."""
    more = dice.choice((
        attribute(0x0016, bytes.fromhex("0001e242ea12d546")),
        attribute(0x0012, bytes.fromhex("000121122b12a44b")),
        attribute(CHANNEL, bytes.fromhex("40010000")),
        attribute(0x001C, hashlib.sha256(data).digest()),
        attribute(0x3F12, hashlib.sha512(data).digest()),
        attribute(0x0008, hashlib.sha1(data).digest()),
        attribute(0x000D, bytes.fromhex("ffffffff")),
    ))
    return parts_of(k, len(data), sized(len(data) + len(more) - 20), (len(data), 0, more.hex()))


def shorter_signature(dice, k, data):
    """The last signature is cut to fewer bytes, and all lengths tell so."""
    message = read(data)
    found = message.integrity() if message else None
    if found is None:
        return added_behind(dice, k, data)
    at, _, value = found
    size = dice.choice((0, 4, 12, 16, 20, 24, 28, 32, 48, 60))
    if size >= len(value):
        return added_behind(dice, k, data)
    return parts_of(k, at + 4 + size, sized(at + 4 + size - 20), (at + 2, 2, f"{size:04x}"))


SPOILS = (
    flipped, flipped, flipped, cut, cut_and_sized, lengthened, doubled, removed, reordered, with_another_length,
    with_another_length, with_another_type, with_another_type, with_another_number, with_another_cookie, marked,
    added_behind, added_behind, shorter_signature,
)


def spoiled(dice, k, data):
    """The answer of an event, spoiled in one way; of few bytes, as it came."""
    if len(data) < 20:
        return f"@{k}" if len(data) < 2 or dice.random() < 0.5 else flipped(dice, k, data)
    return dice.choice(SPOILS)(dice, k, data)
