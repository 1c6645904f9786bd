"""What the traces of a client and a desk are made of: numbers, messages, and a trace that is written line by
line beside what its events are answered (`docs/TRACE.md`).

It knows nothing of the repository's code. Messages are written here by RFC 8489 and RFC 8656, signed by
HMAC, and numbered from ChaCha20 words of a seed of zeros, three a number, the first of them highest.
"""

import hashlib
import hmac
import socket
import struct
from pathlib import Path

TOP = Path(__file__).resolve().parents[2]
MAGIC = 0x2112A442
# the first nonces that a server draws from a seed of zeros, by its features: the first bit where it knows
# more than MD5, the second where it takes a hashed name
NONCES = {bits: b"obMatJos2" + bits + b"gyiDbICXwPDaQ1ha" for bits in (b"AAAA", b"QAAA", b"gAAA", b"wAAA")}
CLIENT, SERVER, RELAYED = "192.168.0.1:1000", "10.0.0.2:2000", "203.0.113.5:50000"
OTHER, SIXTH = "10.0.0.4:40000", "[::1]:40000"

BINDING, ALLOCATE, REFRESH, CREATE_PERMISSION, CHANNEL_BIND = 0x001, 0x003, 0x004, 0x008, 0x009
SUCCESS, ERROR, INDICATION = 0x100, 0x110, 0x010
USERNAME, INTEGRITY, ERROR_CODE, UNKNOWN, CHANNEL, LIFETIME, PEER = 0x06, 0x08, 0x09, 0x0A, 0x0C, 0x0D, 0x12
REALM, NONCE, RELAYED_KIND, FAMILY, TRANSPORT, DONT_FRAGMENT = 0x14, 0x15, 0x16, 0x17, 0x19, 0x1A
INTEGRITY_SHA256, PASSWORD_ALGORITHM, USERHASH, MAPPED = 0x1C, 0x1D, 0x1E, 0x20
INTEGRITY_SHA512, ADDITIONAL_FAMILY, PASSWORD_ALGORITHMS = 0x3F12, 0x8000, 0x8002

MS = 1_000_000
SECOND = 1000 * MS


# ---- ChaCha20 (RFC 8439, section 2.3)


def rotated(x, n):
    return ((x << n) | (x >> (32 - n))) & 0xFFFFFFFF


def quarter(w, a, b, c, d):
    for one, other, third, by in ((a, b, d, 16), (c, d, b, 12), (a, b, d, 8), (c, d, b, 7)):
        w[one] = (w[one] + w[other]) & 0xFFFFFFFF
        w[third] = rotated(w[third] ^ w[one], by)


def block(number, key=(0,) * 8):
    """The words of the block of a number, under a key of eight words: where none is told, zeros."""
    start = [0x61707865, 0x3320646E, 0x79622D32, 0x6B206574, *key, number, 0, 0, 0]
    w = start[:]
    for _ in range(10):
        for i in range(4):
            quarter(w, i, i + 4, i + 8, i + 12)
        for i in range(4):
            quarter(w, i, 4 + (i + 1) % 4, 8 + (i + 2) % 4, 12 + (i + 3) % 4)
    return [(a + b) & 0xFFFFFFFF for a, b in zip(w, start)]


WORDS = []


def number(k):
    while len(WORDS) < 3 * k + 3:
        WORDS.extend(block(len(WORDS) // 16))
    return struct.pack(">III", *WORDS[3 * k : 3 * k + 3])


# ---- messages


def attribute(kind, value):
    return struct.pack(">HH", kind, len(value)) + value + bytes(-len(value) % 4)


SHA1, SHA256 = (INTEGRITY, "sha1", "md5"), (INTEGRITY_SHA256, "sha256", "sha256")
SHA512 = INTEGRITY_SHA512, "sha512", "sha512"
# each algorithm by its name in a trace, the weaker first: how a message is signed by it, and its entry in a
# PASSWORD-ALGORITHMS
ALGORITHMS = {
    "sha1": (SHA1, b"\0\1\0\0"), "sha256": (SHA256, b"\0\2\0\0"), "sha512": (SHA512, b"\xff\x12\0\0"),
}


def entries(*names):
    """The value of the PASSWORD-ALGORITHMS that lists algorithms."""
    return b"".join(ALGORITHMS[it][1] for it in names)


def message(kind, transaction, attributes, signed=None, realm=b"realm"):
    """A message, signed by `SHA1`, `SHA256` or `SHA512` where it is, under the key of the user in a realm."""
    body = b"".join(attribute(*it) for it in attributes)
    if signed is None:
        return struct.pack(">HHI", kind, len(body), MAGIC) + transaction + body
    integrity, digest, key = signed
    size = hashlib.new(digest).digest_size
    text = struct.pack(">HHI", kind, len(body) + 4 + size, MAGIC) + transaction + body
    key = hashlib.new(key, b"user:" + realm + b":pass").digest()
    return text + attribute(integrity, hmac.new(key, text, digest).digest())


def xored(address, transaction):
    host, port = address.rsplit(":", 1)
    mask = struct.pack(">I", MAGIC) + transaction
    if host[0] == "[":
        family, raw = 2, socket.inet_pton(socket.AF_INET6, host[1:-1])
    else:
        family, raw = 1, socket.inet_pton(socket.AF_INET, host)
    hidden = bytes(a ^ b for a, b in zip(raw, mask))
    return bytes([0, family]) + struct.pack(">H", int(port) ^ (MAGIC >> 16)) + hidden


def relayed(address, k):
    return RELAYED_KIND, xored(address, number(k))


def lifetime(seconds):
    return LIFETIME, struct.pack(">I", seconds)


def code(value, reason=b""):
    return ERROR_CODE, struct.pack(">HBB", 0, value // 100, value % 100) + reason


UDP = (TRANSPORT, b"\x11\0\0\0")
V6 = b"\2\0\0\0"
NAMED = [(USERNAME, b"user"), (REALM, b"realm"), (NONCE, b"nonce")]
# a challenge of a server that is no desk of ours, and tells no features
REFUSED = [(REALM, b"realm"), (NONCE, b"nonce"), code(401)]
STALE = [code(438), (REALM, b"realm"), (NONCE, b"nonce")]


def hashed(bits):
    name = hashlib.sha256(b"user:realm").digest()
    return [(USERHASH, name), (REALM, b"realm"), (NONCE, NONCES[bits])]


# what a client tells under the first nonce of a desk that knows SHA-1
HASHED = hashed(b"QAAA")


def first(*families):
    return message(ALLOCATE, number(0), [lifetime(1800), UDP, (DONT_FRAGMENT, b""), *families])


def signed_allocate(k, credentials, *families, by=SHA1, realm=b"realm"):
    return message(ALLOCATE, number(k), [UDP, lifetime(1800), *families, *credentials], by, realm)


def refresh(k, seconds, credentials):
    return message(REFRESH, number(k), [lifetime(seconds), *credentials], SHA1)


def create_permission(k, ips, credentials=HASHED):
    """A request for one address, or for several, each in an XOR-PEER-ADDRESS of its own."""
    ips = [ips] if isinstance(ips, str) else ips
    peers = [(PEER, xored(f"[{ip}]:0" if ":" in ip else f"{ip}:0", number(k))) for ip in ips]
    return message(CREATE_PERMISSION, number(k), [*peers, *credentials], SHA1)


def channel_bind(k, channel, peer, credentials=HASHED, by=SHA1):
    told = [(CHANNEL, struct.pack(">HH", channel, 0)), (PEER, xored(peer, number(k)))]
    return message(CHANNEL_BIND, number(k), [*told, *credentials], by)


def challenge(k, bits=b"QAAA", lists=(), reason=code(401, b"Unauthorized"), method=ALLOCATE):
    """The desk's own."""
    return message(method | ERROR, number(k), [reason, (REALM, b"realm"), (NONCE, NONCES[bits]), *lists])


def stale(k, method=ALLOCATE):
    """As the desk's first challenge, but that it says so."""
    return challenge(k, reason=code(438, b"Stale Nonce"), method=method)


def grant(k, by=SHA1, addresses=(RELAYED,), seconds=600):
    """The desk's own."""
    told = [*(relayed(it, k) for it in addresses), lifetime(seconds), (MAPPED, xored(CLIENT, number(k)))]
    return message(ALLOCATE | SUCCESS, number(k), told, by)


def success(method, k, *attributes):
    return message(method | SUCCESS, number(k), attributes, SHA1)


def error(method, k, *attributes):
    return message(method | ERROR, number(k), attributes, SHA1)


def unsigned(kind, k, attributes):
    return message(kind, number(k), attributes)


# ---- traces


def setup(
    families="4", algorithms="sha1", anonymity="auto", desk="sha1 auto", rto="", hardened=False, short=False,
    attempts=None, indications=False,
):
    options = " indications" * indications + " hardened" * hardened + " short" * short + ("" if attempts is None else f" attempts {attempts}")
    return (
        f"desk realm {desk}\nuser user pass\n{rto}"
        f"client udp {CLIENT} {SERVER} udp {families} {algorithms} {anonymity} user pass 0{options}\n"
    )


class Trace:
    """Lines, and what each event line is answered."""

    def __init__(self, lines):
        self.lines, self.answers, self.events = lines, "", 0

    def say(self, line, answer):
        self.lines += line + "\n"
        self.answers += answer + "\n"
        self.events += 1
        return self.events

    def sees(self, line, answer):
        """The client is looked at: such a line isn't counted."""
        self.lines += line + "\n"
        self.answers += answer + "\n"

    def cause(self, what="none"):
        self.sees("cause", f"cause {what}")

    def rejected(self, value, reason=b"", how="signed"):
        """Why it happened was an error of this code and reason, and whether that was signed."""
        self.cause(f"rejected {value} {how} {reason.hex() or '-'}")

    def mapped(self, address="none"):
        self.sees("mapped", f"mapped {address}")

    def alternate(self, address="none", domain=b""):
        self.sees("alternate", f"alternate {address} {domain.hex() or '-'}")

    def draw(self, now, text):
        sent = "none" if text is None else f"transmit {CLIENT} {SERVER} {text.hex()}"
        return self.say(f"draw {now}", sent)

    def ask(self, now, what, decision, text, seed=0, source=CLIENT):
        reply = "none" if text is None else f"reply {text.hex()}"
        return self.say(f"todesk {now} {source} {what} {seed} {decision}", reply)

    def hear(self, now, what, answer="handled", source=SERVER, to=CLIENT):
        what = what if isinstance(what, str) else what.hex() or "-"
        return self.say(f"toclient {now} {source} {to} {what}", answer)

    def poll(self, now, answer):
        return self.say(f"poll {now}", "closed" if answer is None else f"wait {answer}")

    def event(self, what):
        return self.say("event", what if what == "none" else "event " + what)

    def shows(self, *addresses):
        return self.say("relayed", " ".join(["relayed", *(f"udp {it}" for it in addresses)]))

    def is_created(self, *addresses):
        for it in addresses:
            self.event(f"AllocationCreated udp {it}")
        return self.shows(*addresses)

    def fails(self, now, family="4"):
        """It is told that no address is allocated, and the client has ended."""
        self.event(f"AllocationCreateFailed {family}")
        self.poll(now, None)
        return self.shows()

    def permission(self, now, ip, answer="ok", transport="udp"):
        return self.say(f"permission {now} {transport} {ip}", answer)

    def permit(self, now, ips, answer="ok", transport="udp"):
        return self.say(f"permit {now} {transport} {','.join(ips)}", answer)

    def has(self, ip, answer="yes", transport="udp"):
        return self.say(f"have {transport} {ip}", answer)

    def permits(self, *peers, at=RELAYED, transport="udp"):
        return self.say(f"permissions {transport} {at}", " ".join(["permissions", *peers]))

    def is_permitted(self, ip, *others, at=RELAYED):
        """The client tells of a permission, and holds it behind others."""
        self.event(f"PermissionCreated udp {ip}")
        self.has(ip)
        return self.permits(*others, ip, at=at)

    def is_forbidden(self, ip, *others, at=RELAYED):
        """The client tells that there is no such permission, and holds others alone."""
        self.event(f"PermissionCreateFailed udp {ip}")
        self.has(ip, "no")
        return self.permits(*others, at=at)

    def asks(self, now, k, ip, credentials=HASHED):
        """A permission is asked for, and its request drawn as soon as may be behind a message of that moment."""
        self.permission(now, ip)
        return self.draw(now + 50 * MS, create_permission(k, ip, credentials))

    def bind(self, now, peer, answer="ok", transport="udp"):
        return self.say(f"bind {now} {transport} {peer}", answer)

    def binds(self, now, k, channel, peer, credentials=HASHED):
        """A channel is asked for, and its request drawn as soon as may be behind a message of that moment."""
        self.bind(now, peer)
        return self.draw(now + 50 * MS, channel_bind(k, channel, peer, credentials))

    def channels(self, *channels):
        """The client holds these channels, each a number and a peer."""
        return self.say("channels", " ".join(["channels", *(f"{channel} {peer}" for channel, peer in channels)]))

    # ---- with a desk

    def is_granted(self, now, k, credentials, by=SHA1):
        """The ALLOCATE that is signed, and granted, and the client is told."""
        drawn = self.draw(now, signed_allocate(k, credentials, by=by))
        line = self.ask(now, f"@{drawn}", f"allocate {RELAYED} 600", grant(k, by))
        self.hear(now, f"@{line}")
        self.is_created(RELAYED)

    def challenged(self):
        """The first ALLOCATE, and its challenge."""
        drawn = self.draw(0, first())
        return self.ask(0, f"@{drawn}", "refuse 400", challenge(0))

    def challenged_again(self):
        """The same, but the reply is lost, and the request goes out again."""
        self.challenged()
        self.poll(0, 500 * MS)
        self.draw(500 * MS - 1, None)
        drawn = self.draw(500 * MS, first())
        return self.ask(500 * MS, f"@{drawn}", "refuse 400", challenge(0))

    def granted(self, seconds=600):
        """The first challenge, and the ALLOCATE that is signed, and granted: the number of the reply's line."""
        self.hear(0, f"@{self.challenged()}")
        self.poll(0, 50 * MS)
        drawn = self.draw(50 * MS, signed_allocate(1, hashed(b"QAAA")))
        return self.ask(50 * MS, f"@{drawn}", f"allocate {RELAYED} {seconds}", grant(1, seconds=seconds))

    def held(self, seconds=600):
        """The same, and the client is told."""
        line = self.granted(seconds)
        self.hear(50 * MS, f"@{line}")
        self.is_created(RELAYED)
        return line

    def decides(self, now, drawn, decision, text):
        """The desk decides of what was drawn, and the client is told: the number of the reply's line."""
        line = self.ask(now, f"@{drawn}", decision, text)
        self.hear(now, f"@{line}")
        return line

    def permitted(self, now, k, ip, *others):
        """A permission is asked for, granted and held: the number of the reply's line."""
        drawn = self.asks(now, k, ip)
        line = self.decides(now + 50 * MS, drawn, "grant", success(CREATE_PERMISSION, k))
        self.is_permitted(ip, *others)
        return line

    # ---- with a server that is no desk of ours

    def refused(self, *families):
        """The first ALLOCATE is challenged, and the one that is signed goes out at 50 ms."""
        self.draw(0, first(*families))
        self.hear(0, unsigned(ALLOCATE | ERROR, 0, REFUSED))
        self.poll(0, 50 * MS)
        self.draw(50 * MS, signed_allocate(1, NAMED, *families))

    def allocated(self):
        """It is granted for 1000 seconds. The moment at which it is to be renewed, a minute before its end."""
        self.refused()
        self.hear(50 * MS, success(ALLOCATE, 1, relayed(OTHER, 1), lifetime(1000)))
        self.is_created(OTHER)
        self.poll(50 * MS, 940 * SECOND + 50 * MS)
        return 940 * SECOND + 50 * MS

    def renews(self):
        """The same, and the REFRESH goes out."""
        now = self.allocated()
        self.draw(now, refresh(2, 1800, NAMED))
        return now


# when an allocation ends that was granted at 50 ms for 1000 seconds
END = 1000 * SECOND + 50 * MS
