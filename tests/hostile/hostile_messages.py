"""Messages as the generator and the judge of hostile traces read, sign and spoil them.

By RFC 8489, sections 5, 6, 9.2, 14.2 and 14.5 to 14.7, and RFC 8656, sections 18.1 to 18.3. What a message shows
ends with the first attribute that may not stand behind those before it (section 14.5: what follows
MESSAGE-INTEGRITY is passed over, but for MESSAGE-INTEGRITY-SHA256, -SHA512 and FINGERPRINT).
"""

import hashlib
import hmac
import socket
import struct
import zlib
from typing import NamedTuple, Optional

from traces_base import INTEGRITY, INTEGRITY_SHA256, INTEGRITY_SHA512, MAGIC, USERHASH, USERNAME, attribute, block

REQUEST, INDICATION, SUCCESS, ERROR = range(4)
FINGERPRINT = 0x8028
RANKS = {INTEGRITY: 1, INTEGRITY_SHA256: 2, INTEGRITY_SHA512: 3, FINGERPRINT: 4}
# an integrity attribute's digest, that of a long-term key, and the lengths that are lawful
BY = {
    INTEGRITY: ("sha1", "md5", (20,)),
    INTEGRITY_SHA256: ("sha256", "sha256", range(16, 33, 4)),
    INTEGRITY_SHA512: ("sha512", "sha512", range(16, 65, 4)),
}


class Message(NamedTuple):
    """What bytes are a message of: `shown` has place, type and value of each attribute."""

    data: bytes
    method: int
    form: int
    number: bytes
    shown: list

    def first(self, kind) -> Optional[bytes]:
        return next((value for _, it, value in self.shown if it == kind), None)

    def last(self, kind) -> Optional[bytes]:
        return next((value for _, it, value in reversed(self.shown) if it == kind), None)

    def all(self, kind):
        return [value for _, it, value in self.shown if it == kind]

    def integrity(self):
        """Place, type and value of the last integrity attribute, or None."""
        return next((it for it in reversed(self.shown) if it[1] in BY), None)


def header(data):
    """Type, length and number, where bytes begin as a message does, else None."""
    if len(data) < 20:
        return None
    kind, size, cookie = struct.unpack(">HHI", data[:8])
    return None if kind >> 14 or cookie != MAGIC else (kind, size, data[8:20])


def crc_of(data, at):
    """The value of a FINGERPRINT at this place."""
    text = data[:2] + struct.pack(">H", at + 8 - 20) + data[4:at]
    return struct.pack(">I", zlib.crc32(text) ^ 0x5354554E)


def attributes_of(data):
    """Place, type and value of each attribute that is shown, or None where one isn't whole, or is a wrong
    FINGERPRINT."""
    at, rank, found = 20, 0, []
    while at < len(data):
        if len(data) - at < 4:
            return None
        kind, size = struct.unpack(">HH", data[at : at + 4])
        own = RANKS.get(kind, 0)
        if own < rank or 0 < own == rank:
            break
        end = at + 4 + size + -size % 4
        if end > len(data):
            return None
        value = data[at + 4 : at + 4 + size]
        if kind == FINGERPRINT and value != crc_of(data, at):
            return None
        rank = own
        found.append((at, kind, value))
        at = end
    return found


def read(data) -> Optional[Message]:
    """The message that bytes are, or None."""
    front = header(data)
    if front is None or front[1] != len(data) - 20:
        return None
    shown = attributes_of(data)
    if shown is None:
        return None
    kind = front[0]
    method = kind & 0xF | (kind >> 1) & 0x70 | (kind >> 2) & 0xF80
    return Message(data, method, (kind >> 4) & 1 | (kind >> 7) & 2, front[2], shown)


# ---- values


def text_of(host, port):
    return f"[{host}]:{port}" if ":" in host else f"{host}:{port}"


def address_in(value, number):
    """The address that an xored value tells, or None (RFC 8489, section 14.2)."""
    if value is None or len(value) < 8 or len(value) != {1: 8, 2: 20}.get(value[1]):
        return None
    mask = struct.pack(">I", MAGIC) + number
    raw = bytes(a ^ b for a, b in zip(value[4:], mask))
    host = socket.inet_ntop(socket.AF_INET if value[1] == 1 else socket.AF_INET6, raw)
    return text_of(host, struct.unpack(">H", value[2:4])[0] ^ (MAGIC >> 16))


def host_of(address):
    return address.rsplit(":", 1)[0].strip("[]")


def number_in(value, size=4):
    """The number that the first bytes of a value tell, where there are as many as is lawful."""
    return None if value is None or len(value) != 4 else int.from_bytes(value[:size], "big")


# ---- signatures


def key_of(kind, name, realm, password):
    return hashlib.new(BY[kind][1], f"{name}:{realm}:{password}".encode()).digest()


def hash_of(name, realm):
    return hashlib.sha256(f"{name}:{realm}".encode()).digest()


def covered(data, at, size):
    """The text that an integrity attribute of this size signs at its place."""
    return data[:2] + struct.pack(">H", at + 4 + size - 20) + data[4:at]


def is_signed(message, name, realm, password, kind=None):
    """Whether the last integrity attribute is right under the key of a user, and of this kind where one is told."""
    found = message.integrity()
    if found is None or kind not in (None, found[1]) or len(found[2]) not in BY[found[1]][2]:
        return False
    at, kind, value = found
    text = covered(message.data, at, len(value))
    key = key_of(kind, name, realm, password)
    return hmac.digest(key, text, BY[kind][0])[: len(value)] == value


def written(kind, number, attributes, signed=None, key=b""):
    """A message of a type, signed by an integrity attribute of a kind under a key where one is told."""
    body = b"".join(attribute(*it) for it in attributes)
    text = struct.pack(">HHI", kind, len(body), MAGIC) + number + body
    if signed is None:
        return text
    digest = BY[signed][0]
    size = hashlib.new(digest).digest_size
    return with_length(text, 4 + size) + attribute(signed, hmac.digest(key, covered(text, len(text), size), digest))


def with_length(data, more=0):
    """The same bytes, whose header tells as many as there are, and so many more."""
    return data[:2] + struct.pack(">H", len(data) - 20 + more & 0xFFFF) + data[4:]


def is_named(message, name, realm):
    """Whether a request names a user: by USERNAME, or by its hash."""
    told = message.last(USERNAME), message.last(USERHASH)
    return told in ((name.encode(), None), (None, hash_of(name, realm)))


# ---- numbers that a client draws


DRAWN = {}


def is_drawn(number, seed):
    """Whether a number is among the first 200 that a client of this seed draws: three words of ChaCha20 each
    (RFC 8439, section 2.3)."""
    words, known = DRAWN.setdefault(seed, ([], set()))
    while number not in known and len(words) < 600:
        words += block(len(words) // 16, [seed * 0x01010101] * 8)
        whole = len(words) // 3
        known.update(struct.pack(">III", *words[3 * k : 3 * k + 3]) for k in range(len(known), whole))
    return number in known
