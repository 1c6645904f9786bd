"""The requests that a client writes, with SOFTWARE and FINGERPRINT (RFC 8489, sections 14.14 and 14.7).

Nothing here knows the repository's code. SOFTWARE is behind what a request asks for and before what authenticates it,
and FINGERPRINT is last: behind the integrity attribute, which covers neither it nor a length that counts it.
"""

import struct
import zlib

from rows_wire_base import part, row
from traces_base import (
    ALGORITHMS, ALLOCATE, CREATE_PERMISSION, DONT_FRAGMENT, ERROR, NONCE, NONCES, PASSWORD_ALGORITHM,
    PASSWORD_ALGORITHMS, PEER, REALM, REFRESH, UDP, USERNAME, attribute, code, entries, hashed, lifetime, message,
    xored,
)

SOFTWARE, FINGERPRINT = 0x8022, 0x8028
# the number of the messages in RFC 5769, and the request of its section 2.1 before FINGERPRINT, and all of it
ID = bytes.fromhex("b7e7a701bc34d686fa87dfae")
SAMPLE = bytes.fromhex(
    "000100502112a442b7e7a701bc34d686fa87dfae802200105354554e207465737420636c69656e74002400046e0001ff80290008932f"
    "f9b151263b36000600096576746a3a68367659202020000800149aeaa70cbfd8cb56781ef2b5b2d3f249c1b571a2"
)
MARKED_SAMPLE = SAMPLE[:3] + b"\x58" + SAMPLE[4:] + bytes.fromhex("80280004e57a3bcf")


def ended(text):
    """A message with FINGERPRINT behind it."""
    text = text[:2] + struct.pack(">H", len(text) - 20 + 8) + text[4:]
    return text + attribute(FINGERPRINT, struct.pack(">I", zlib.crc32(text) ^ 0x5354554E))


assert ended(SAMPLE) == MARKED_SAMPLE


class Challenge:
    """A challenge, and what authenticates a request that answers it."""

    def __init__(self, algorithm="sha1", bits=None, listed=()):
        nonce = NONCES[bits] if bits else b"nonce"
        lists = [(PASSWORD_ALGORITHMS, entries(*listed))] if listed else []
        self.algorithm, (self.by, entry) = algorithm, ALGORITHMS[algorithm]
        self.bytes = message(ALLOCATE | ERROR, ID, [code(401), (REALM, b"realm"), (NONCE, nonce), *lists])
        hides = bits in (b"QAAA", b"wAAA")
        names = hashed(bits) if hides else [(USERNAME, b"user"), (REALM, b"realm"), (NONCE, nonce)]
        self.adds = [*names, *lists, *([(PASSWORD_ALGORITHM, entry)] if listed else [])]


PLAIN = Challenge()
CHALLENGES = [
    PLAIN,
    Challenge("sha1", b"QAAA"),
    Challenge("sha1", b"gAAA", ("sha1", "sha256")),
    Challenge("sha256", b"gAAA", ("sha1", "sha256")),
    Challenge("sha512", b"wAAA", ("sha512",)),
]
MOST_PEERS = 32  # of one request


def permission(*ips):
    """A CREATE_PERMISSION with an XOR-PEER-ADDRESS for each address, with port 0 (RFC 8656, section 10.1)."""
    peers = (f"[{it}]:0" if ":" in it else f"{it}:0" for it in ips)
    return f"permission {' '.join(ips)}", (CREATE_PERMISSION, [(PEER, xored(it, ID)) for it in peers])


SIGNED = {
    "allocate": (ALLOCATE, [UDP, lifetime(1800)]),
    "refresh 600": (REFRESH, [lifetime(600)]),
    "refresh 0": (REFRESH, [lifetime(0)]),
    **dict((
        permission("10.0.0.3"), permission("::1"),
        permission("10.0.0.3", "10.0.0.4"), permission("2001:db8::7", "::1"),
        permission(*(f"10.0.1.{k}" for k in range(MOST_PEERS))),
        permission(*(f"2001:db8::{k:x}" for k in range(1, MOST_PEERS + 1))),
    )),
}
FIRST = [lifetime(1800), UDP, (DONT_FRAGMENT, b"")]
# RFC 8656, sections 7.1, 18.6, 18.7, 18.10 and 18.11: a pair is the bit R, and no family stands beside a token
EVEN, TOKEN = 0x0018, 0x0022
PORTS = {"any": [], "even": [(EVEN, b"\0")], "pair": [(EVEN, b"\x80")]}
FAMILIES = {"v4": [], "v6": [(0x0017, b"\2\0\0\0")], "both": [(0x8000, b"\2\0\0\0")]}


def asks_for(seconds, port, families):
    """The attributes of the first ALLOCATE, and of a signed one, before what authenticates it."""
    if port.startswith("reserved "):
        addresses = [(TOKEN, struct.pack(">Q", int(port.split(" ")[1])))]
    else:
        addresses = [*PORTS[port], *FAMILIES[families]]
    return [lifetime(seconds), UDP, (DONT_FRAGMENT, b""), *addresses], [UDP, lifetime(seconds), *addresses]


def words(challenge, software, marks, algorithm, what):
    shown = challenge.bytes if challenge else b""
    return "request", shown.hex() or "-", software.hex() or "-", str(marks).lower(), int.from_bytes(ID), algorithm, what


def asked(challenge, software, marks, what):
    """A request that answers a challenge, or is sent before any."""
    described = [(SOFTWARE, software)] if software else []
    if challenge:
        kind, own = SIGNED[what]
        text = message(kind, ID, [*own, *described, *challenge.adds], challenge.by)
    else:
        text = message(ALLOCATE, ID, [*FIRST, *described])
    algorithm = challenge.algorithm if challenge else "sha1"
    row(*words(challenge, software, marks, algorithm, what))((ended(text) if marks else text).hex())


def allocates():
    part("ALLOCATEs for another lifetime, port and family")
    token = 0xFF00010203040506
    for seconds in (0, 600, 2**32 - 1):
        for port in ("any", "even", "pair", f"reserved {token}", "reserved 0"):
            for families in FAMILIES:
                first, signed = asks_for(seconds, port, families)
                what = f"{seconds} {port} {families}"
                for software, marks in ((b"", False), (b"test vector", True)):
                    described = [(SOFTWARE, software)] if software else []
                    text = message(ALLOCATE, ID, [*first, *described])
                    row(*words(None, software, marks, "sha1", f"first-for {what}"))(
                        (ended(text) if marks else text).hex())
                    text = message(ALLOCATE, ID, [*signed, *described, *PLAIN.adds], PLAIN.by)
                    row(*words(PLAIN, software, marks, "sha1", f"allocate-for {what}"))(
                        (ended(text) if marks else text).hex())
    part("words that mean no such ALLOCATE")
    for what in ("first-for", "first-for 1", "first-for 1 any", "first-for 1 odd v4", "first-for x any v4",
                 "allocate-for 1 any v5", "first-for 1 reserved v4", f"first-for {2**32} any v4"):
        row(*words(None, b"", True, "sha1", what))("bad line")


def requests():
    part("the first ALLOCATE, and what answers a challenge, with SOFTWARE, FINGERPRINT, both and neither")
    for challenge in (None, *CHALLENGES):
        for what in SIGNED if challenge else ("first",):
            for software in (b"", b"test vector"):
                for marks in (False, True):
                    asked(challenge, software, marks, what)
    part("SOFTWARE of each padding, of letters of more than one byte, and as long as it may be")
    for software in (b"a", b"ab", b"abc", b"abcd", "\u00e9\u20ac\U0001f600".encode(), b"x" * 763):
        asked(None, software, True, "first")
        asked(PLAIN, software, True, "refresh 600")
    part("without a challenge nothing is signed")
    for marks in (False, True):
        text = message(REFRESH, ID, [lifetime(600), (SOFTWARE, b"test vector")])
        row(*words(None, b"test vector", marks, "sha1", "refresh 600"))((ended(text) if marks else text).hex())
    part("SOFTWARE that is too long or is no UTF-8, and words that mean no such request")
    for software in (b"x" * 764, b"\xff"):
        row(*words(PLAIN, software, True, "sha1", "refresh 600"))("bad line")
    many = permission(*(f"10.0.1.{k}" for k in range(MOST_PEERS + 1)))[0]
    for algorithm, what in (("md5", "first"), ("sha1", "last"), ("sha1", "refresh"), ("sha1", "permission x"),
                            ("sha1", "permission"), ("sha1", "permission 10.0.0.3 x"), ("sha1", many)):
        row(*words(None, b"", True, algorithm, what))("bad line")
    row("request", "00", "-", "true", 1, "sha1", "first")("bad line")
    row("request", "-", "-", "yes", 1, "sha1", "first")("bad line")
    allocates()
