"""What samples.py makes its exchanges of: messages, their numbers, and steps as they are written in C (steps.h).

Messages are written here by RFC 8489, RFC 8656 and RFC 6062, with the digests of hashlib and hmac, and numbered by the
words of ChaCha20 under the seed of the client, three a number, the first of them highest. What is written as in
tests/oracle is taken from there.
"""

import hashlib
import hmac
import socket
import struct
import sys
from pathlib import Path

HERE = Path(__file__).resolve().parent
sys.path.insert(0, str(HERE.parent / "oracle"))

from traces_attempts import CONNECTION_ATTEMPT  # noqa: E402
from traces_base import (  # noqa: E402
    ADDITIONAL_FAMILY, ALLOCATE, CHANNEL, CHANNEL_BIND, CREATE_PERMISSION, DONT_FRAGMENT, ERROR, FAMILY, INDICATION,
    INTEGRITY, INTEGRITY_SHA256, INTEGRITY_SHA512, MAGIC, MAPPED, MS, NONCE, PASSWORD_ALGORITHM, PASSWORD_ALGORITHMS,
    PEER, REALM, REFRESH, RELAYED_KIND, SECOND, SUCCESS, TRANSPORT, USERHASH, USERNAME, V6, attribute, block, code,
    lifetime, xored,
)
from traces_connection_sockets import CONNECTION_BIND  # noqa: E402
from traces_connections import CONNECT, CONNECTION_ID  # noqa: E402
from traces_payloads import DATA, ICMP, SEND, SOFTWARE, TOLD, fingerprinted, frame  # noqa: E402

SEED = bytes(range(1, 33))
NAME, SECRET, DOMAIN = b"alice", b"secret", b"example.org"
# of the same user, for the next hour: the name tells when they expire
NEXT_NAME, NEXT_SECRET = b"1893456000:bob", b"next password"
OLD, NEXT = (NAME, SECRET), (NEXT_NAME, NEXT_SECRET)
OWN, SERVER, ELSEWHERE = "192.0.2.1:5000", "192.0.2.2:3478", "192.0.2.3:3478"
RELAYED, RELAYED_6 = "203.0.113.5:50000", "[2001:db8::5]:50001"
ONE, TWO, FOURTH, STRANGER = "198.51.100.1:9000", "198.51.100.2:9001", "198.51.100.4:9003", "198.51.100.9:9000"
SIX, NOBODY = "[2001:db8::7]:9000", ":0"
A, B = 0x4000, 0x4001
# how long a request is waited for over TCP (RFC 8489, section 6.2.2)
LONGEST = 39500 * MS
ORDINARY, OTHER, FEATURED = b"a nonce of ordinary text", b"another nonce", b"obMatJos2wAAA and more"
# the number of the server's indications
ANY = bytes(range(0xA0, 0xAC))
TWO_ALGORITHMS = PASSWORD_ALGORITHMS, b"\0\1\0\0\0\2\0\0"
ALL_ALGORITHMS = PASSWORD_ALGORITHMS, b"\0\1\0\0\0\2\0\0\xff\x12\0\0"


# ---- messages

KEY_WORDS = struct.unpack("<8I", SEED)


def number(k):
    """The kth number that the client draws."""
    words = [word for i in range(3 * k // 16, (3 * k + 2) // 16 + 1) for word in block(i, KEY_WORDS)]
    start = 3 * k % 16
    return struct.pack(">III", *words[start : start + 3])


# how a message is signed: the attribute, its digest, and the digest of which its key is
BY_SHA1, BY_SHA256 = (INTEGRITY, hashlib.sha1, hashlib.md5), (INTEGRITY_SHA256, hashlib.sha256, hashlib.sha256)
BY_SHA512 = (INTEGRITY_SHA512, hashlib.sha512, hashlib.sha512)


def message(kind, transaction, attributes, by=None, user=OLD):
    """A message, signed under the key of a user where `by` says how (RFC 8489, sections 9.2 and 14.5)."""
    body = b"".join(attribute(*it) for it in attributes)
    if by is None:
        return struct.pack(">HHI", kind, len(body), MAGIC) + transaction + body
    integrity, digest, key_digest = by
    size = len(body) + 4 + digest().digest_size
    text = struct.pack(">HHI", kind, size, MAGIC) + transaction + body
    name, secret = user
    key = key_digest(b":".join((name, DOMAIN, secret))).digest()
    return text + attribute(integrity, hmac.new(key, text, digest).digest())


def named(nonce=ORDINARY, user=OLD):
    """What a request says of its user under a nonce."""
    return [(USERNAME, user[0]), (REALM, DOMAIN), (NONCE, nonce)]


# under a nonce that tells of the features of RFC 8489, with two algorithms, of which the better one is chosen: the
# name in the open, and hidden; hidden, with all three, of which the best one is chosen
CHOSEN = [*named(FEATURED), TWO_ALGORITHMS, (PASSWORD_ALGORITHM, b"\0\2\0\0")]
HIDDEN = [(USERHASH, hashlib.sha256(NAME + b":" + DOMAIN).digest()), *CHOSEN[1:]]
STRONGEST = [*HIDDEN[:-2], ALL_ALGORITHMS, (PASSWORD_ALGORITHM, b"\xff\x12\0\0")]


def transport_of(protocol):
    return TRANSPORT, bytes((protocol, 0, 0, 0))


UDP, TCP = transport_of(17), transport_of(6)


def to(peer, transaction):
    return PEER, xored(peer, transaction)


def host(peer):
    """The address of a peer, with port 0."""
    return peer.rsplit(":", 1)[0] + ":0"


def first(transport=UDP, *more, k=0, seconds=1800):
    return message(ALLOCATE, number(k), [lifetime(seconds), transport, (DONT_FRAGMENT, b""), *more])


def allocate(transport=UDP, *more, told=named(), by=BY_SHA1, k=1, user=OLD, seconds=1800):
    return message(ALLOCATE, number(k), [transport, lifetime(seconds), *more, *told], by, user)


def permit(k, peer, told=named(), by=BY_SHA1, user=OLD):
    return message(CREATE_PERMISSION, number(k), [to(host(peer), number(k)), *told], by, user)


def permit_several(k, *peers, told=named()):
    """One request, with an XOR-PEER-ADDRESS for each (RFC 8656, section 10.1)."""
    return message(CREATE_PERMISSION, number(k), [*(to(host(it), number(k)) for it in peers), *told], BY_SHA1)


def bind(k, channel, peer, told=named()):
    asked = [(CHANNEL, struct.pack(">HH", channel, 0)), to(peer, number(k))]
    return message(CHANNEL_BIND, number(k), [*asked, *told], BY_SHA1)


def refresh(k, seconds, told=named(), by=BY_SHA1, user=OLD):
    return message(REFRESH, number(k), [lifetime(seconds), *told], by, user)


def connect(k, peer, told=named(), by=BY_SHA1):
    return message(CONNECT, number(k), [to(peer, number(k)), *told], by)


def identified(connection):
    return CONNECTION_ID, struct.pack(">I", connection)


def join(k, connection, told=named(), by=BY_SHA1):
    return message(CONNECTION_BIND, number(k), [identified(connection), *told], by)


def attempted(k, *told, kind=CONNECTION_ATTEMPT, by=BY_SHA1):
    """The server's kth request by which it tells that a peer began a connection; or, under its number, the answer."""
    return message(kind, bytes([k]) * 12, told, by)


def attempt(k, connection, peer, by=BY_SHA1):
    return attempted(k, identified(connection), to(peer, bytes([k]) * 12), by=by)


def announcement(k, connection, peer):
    """The same by an indication, which nobody signs."""
    told = identified(connection), to(peer, bytes([k]) * 12)
    return attempted(k, *told, kind=CONNECTION_ATTEMPT | INDICATION, by=None)


def indication(k, peer, value):
    return message(SEND | INDICATION, number(k), [to(peer, number(k)), (DATA, value)])


# ---- what the server sends

ALTERNATE_DOMAIN, ALTERNATE_SERVER = 0x8003, 0x8023


def plain(address):
    """An address as ALTERNATE-SERVER has it: as MAPPED-ADDRESS, so not hidden (RFC 8489, sections 14.1 and 14.15)."""
    ip, port = address.rsplit(":", 1)
    family = 2 if ip[0] == "[" else 1
    octets = socket.inet_pton(socket.AF_INET6 if family == 2 else socket.AF_INET, ip.strip("[]"))
    return struct.pack(">BBH", 0, family, int(port)) + octets


def rejection(method, k, number_of_code, reason, *more, by=BY_SHA1):
    """An error response to the kth request, signed unless `by` is none."""
    return message(method | ERROR, number(k), [code(number_of_code, reason), *more], by)


def elsewhere(address, domain):
    """The server that a response 300 names, and its domain (RFC 8489, section 10)."""
    return (ALTERNATE_SERVER, plain(address)), (ALTERNATE_DOMAIN, domain)


def challenge(k=0, method=ALLOCATE, reason=code(401, b"Unauthorized"), nonce=ORDINARY, *more):
    return message(method | ERROR, number(k), [reason, (REALM, DOMAIN), (NONCE, nonce), *more])


def success(method, k, *attributes, by=BY_SHA1, user=OLD):
    return message(method | SUCCESS, number(k), attributes, by, user)


def grant(*addresses, seconds=1800, by=BY_SHA1, user=OLD):
    told = [(RELAYED_KIND, xored(it, number(1))) for it in addresses]
    return success(ALLOCATE, 1, *told, lifetime(seconds), (MAPPED, xored(OWN, number(1))), by=by, user=user)


def data(peer, value):
    return message(TOLD, ANY, [to(peer, ANY), (DATA, value)])


# that a port can't be reached: its type, its code, and 5
REPORT = message(TOLD, ANY, [to(ONE, ANY), (ICMP, bytes((0, 0, 3, 3, 0, 0, 0, 5)))])
# where the data stands in an indication of a peer of IPv4
BEHIND_PEER = 20 + 12 + 4


def padded(channel, value):
    return frame(channel, value, bytes(-len(value) % 4))


# ---- as C

UNION = {"udp": "TURN_UDP", "tcp": "TURN_TCP", "none": "0"}


def peers_as_text(peers):
    """Peers as the bytes of a step: of each its family, and its octets."""
    text = b""
    for peer in peers:
        ip = peer.rsplit(":", 1)[0]
        kind, family = (socket.AF_INET6, 6) if ip[0] == "[" else (socket.AF_INET, 4)
        text += bytes((family,)) + socket.inet_pton(kind, ip.strip("[]"))
    return text


class Texts:
    """Bytes that are named once."""

    def __init__(self):
        self.names = {}

    def name(self, value):
        return self.names.setdefault(value, f"text_{len(self.names)}")

    def lines(self):
        for value, name in self.names.items():
            size = max(len(value), 1)
            yield f"static const uint8_t {name}[{size}] = {{{', '.join(map(str, value or b'0'))}}};"


TEXTS = Texts()


def c_address(text):
    ip, port = text.rsplit(":", 1)
    family, octets = 0, b"\0"
    if ip:
        family = 6 if ip[0] == "[" else 4
        octets = socket.inet_pton(socket.AF_INET6 if family == 6 else socket.AF_INET, ip.strip("[]"))
    return f"{{{{{', '.join(map(str, octets))}}}, {port}, {family}}}"


def c_value(key, value):
    """A field as it is written: an address and a transport by their texts."""
    if key in ("from", "to", "peer", "local", "server"):
        return c_address(value)
    if key in ("transport", "peers"):
        return UNION[value]
    if key == "name":
        return f'"{value}"'
    if isinstance(value, bool):
        return str(value).lower()
    return f"UINT64_C({value})" if isinstance(value, int) and value >= 2**63 else str(value)


def c_fields(fields):
    return ", ".join(f".{key} = {c_value(key, value)}" for key, value in fields.items())


def c_span(value):
    """Bytes with their number; of a number so many zeros."""
    return f"{{zeros, {value}}}" if isinstance(value, int) else f"{{{TEXTS.name(value)}, {len(value)}}}"


class Exchange:
    """The steps of one client. Each stands at the moment `now`, and is given and wants what its method says."""

    def __init__(self, name, by="udp", peers="udp", **settings):
        self.name, self.by, self.peers, self.now, self.parts = name, by, peers, 0, []
        self.settings = {"local": OWN, "server": SERVER, "transport": by, "peers": peers, **settings}

    def part(self, name):
        self.parts.append((f"{self.name}: {name}", []))

    def step(self, call, given, want, answer="TURN_OK", name=None, repeats=0):
        """One more. `given` and `want` may have `bytes`, by their value."""
        wanted = {"answer": answer, **want}
        shown = {"name": name} if name else {}
        shown |= {"call": f"CALL_{call.upper()}", "now": self.now, **given}
        shown |= {key: c_span(given[key]) for key in ("bytes", "password") if key in given}
        if "bytes" in want:
            wanted |= {"bytes": TEXTS.name(want["bytes"]), "size": len(want["bytes"])}
        if repeats:
            shown["repeats"] = repeats
        fields = c_fields(shown)
        self.parts[-1][1].append(f"{{{fields}, .want = {{{c_fields(wanted)}}}}}")

    # ---- calls that are given little

    def does(self, call, answer="TURN_OK", name=None, **given):
        """A call that tells no more than its answer."""
        self.step(call, given, {}, answer, name)

    def reaches(self, call, peer, answer="TURN_OK", transport=None, name=None, **given):
        """A call that speaks of a peer, over the allocation's transport unless another is said."""
        self.does(call, answer, name, transport=transport or self.peers, to=peer, **given)

    def reaches_several(self, peers, answer="TURN_OK", transport=None, name=None):
        """One call for permissions of several peers."""
        self.does("permit_several", answer, name, transport=transport or self.peers, bytes=peers_as_text(peers))

    def waits(self, until, name=None, repeats=0):
        self.step("poll", {}, {"until": until}, name=name, repeats=repeats)

    def ends(self):
        self.does("poll", "TURN_CLOSED")

    def tells(self, kind, peer, transport=None, name=None):
        """The event that waits, and that no other one does."""
        want = {"number": kind, "transport": transport or self.peers, "peer": peer}
        self.step("event", {}, want, name=name)

    def because(self, kind, code=None, is_signed=False, reason=b"", alternate=None, domain=b""):
        """Why the event happened that was taken last, and the server and its domain that a response 300 named."""
        want = {"number": kind} | ({"code": code, "is_signed": is_signed} if code else {})
        want |= ({"size": len(reason)} if reason else {}) | ({"peer": alternate} if alternate else {})
        self.step("cause", {}, want | ({"domain_size": len(domain)} if domain else {}))
        self.copies("reason", reason, is_there=code is not None)
        self.copies("domain", domain, is_there=bool(domain))

    def copies(self, call, text, is_there):
        """A text is copied into a buffer of just its size."""
        if is_there:
            self.step(call, {}, {"bytes": text})
        else:
            self.does(call, "TURN_NOTHING")

    def is_mapped(self, address):
        """The own address, as the server saw it."""
        self.step("mapped", {}, {"peer": address})

    def is_reserved(self, token):
        """The token of the port that the server reserved: a number of 64 bits."""
        self.step("reservation", {}, {"until": token})

    def has_expired(self, *addresses):
        """The allocations that went because their time was over, and were not told yet."""
        for it in addresses:
            self.step("expired", {}, {"transport": self.peers, "peer": it})
        self.does("expired", "TURN_NOTHING")

    def tells_no_more(self):
        self.does("event", "TURN_NOTHING")

    # ---- how the client introduces itself

    def sets_credentials(self, user):
        """Other credentials are set, for the next challenge."""
        name, secret = user
        self.does("credentials", bytes=name, password=secret)

    # ---- what goes

    def sent(self, text, sender=OWN):
        return {"bytes": text, "transport": self.by, "from": sender, "to": SERVER}

    def draws(self, text, sender=OWN, name=None):
        self.step("draw", {}, self.sent(text, sender), name=name)

    def draws_nothing(self, name=None, repeats=0):
        self.step("draw", {}, {}, "TURN_NOTHING", name, repeats)

    def sends(self, peer, value, text, sender=OWN, name=None, repeats=0):
        given = {"transport": self.peers, "to": peer, "bytes": value}
        self.step("send", given, self.sent(text, sender), name=name, repeats=repeats)

    def sends_not(self, peer, answer, value=b"hello", transport=None):
        self.reaches("send", peer, answer, transport, bytes=value)

    # ---- what comes

    def feeds(self, text, answer="TURN_OK", name=None, source=SERVER, local=OWN, repeats=0, **want):
        self.step("feed", {"from": source, "to": local, "bytes": text}, want, answer, name, repeats)

    def gives(self, text, peer, value, start, name=None, local=OWN, repeats=0):
        """What comes has data of a peer, which stands there."""
        self.feeds(text, "TURN_PAYLOAD", name, local=local, repeats=repeats, transport=self.peers, peer=peer,
                   bytes=value, start=start)

    def given_apart(self, peer, value):
        return {"transport": self.peers, "peer": peer, "is_joined": True, "size": len(value)}

    def gives_joined(self, text, peer, value, name=None):
        """It has data of a peer, of which a part came before, or which stands behind other things."""
        self.feeds(text, "TURN_PAYLOAD", name, **self.given_apart(peer, value))
        self.reads(value)

    def pulls(self, peer, value):
        self.step("pull", {}, self.given_apart(peer, value), "TURN_PAYLOAD")
        self.reads(value)

    def reads(self, value):
        """The joined bytes are read. Where there are none, none wait."""
        if value:
            self.step("read", {}, {"bytes": value}, name="the joined bytes")
        else:
            self.does("read", "TURN_NOTHING")

    def pulls_nothing(self):
        self.does("pull", "TURN_NOTHING")

    def feeds_cut(self, text, *places):
        """It comes in pieces, cut at these places, and is for the client."""
        for start, end in zip((0, *places), (*places, len(text))):
            self.feeds(text[start:end])
            self.pulls_nothing()

    # ---- what is held

    def holds(self, call, *elements, repeats=0, name=None, **given):
        """A getter shows these, each of its fields."""
        for k, element in enumerate(elements or ({},)):
            self.step(call, {"number": k, **given}, element, len(elements), name, repeats)

    def holds_relayed(self, *addresses, **how):
        self.holds("relayed", *({"transport": self.peers, "peer": it} for it in addresses), **how)

    def permits(self, *peers, **how):
        elements = ({"peer": host(it)} for it in peers)
        self.holds("permissions", *elements, transport=self.peers, to=RELAYED, **how)

    def is_permitted(self, peer, answer=1, transport=None, **how):
        self.step("is_permitted", {"transport": transport or self.peers, "to": peer}, {}, answer, **how)

    def holds_channels(self, *channels, **how):
        self.holds("channels", *({"number": it, "peer": peer} for it, peer in channels), **how)

    def holds_connections(self, *connections, **how):
        named = ("from", "peer", "number", "is_bound")
        self.holds("connections", *(dict(zip(named, it)) for it in connections), **how)

    # ---- several

    def at(self, milliseconds):
        self.now = milliseconds * MS

    def begins(self):
        self.part("the allocation")
        self.does("open")

    def challenged(self, transport=UDP):
        """The first ALLOCATE is drawn and challenged at the first moment."""
        self.draws(first(transport))
        self.feeds_cut(challenge())

    def granted(self, transport=UDP, *cuts):
        """The next one is drawn, and granted at 60 ms."""
        self.at(50)
        self.draws(allocate(transport))
        self.at(60)
        self.feeds_cut(grant(RELAYED), *cuts)
        self.tells("TURN_ALLOCATION_CREATED", RELAYED)
        self.tells_no_more()
        self.holds_relayed(RELAYED)

    def deleted(self, k, told=named(), by=BY_SHA1, *cuts, user=OLD):
        """The end is asked for, and granted."""
        self.does("delete")
        self.holds_relayed()
        self.draws(refresh(k, 0, told, by, user))
        self.feeds_cut(success(REFRESH, k, lifetime(0), by=by, user=user), *cuts)
        self.ends()
        self.tells_no_more()
        self.has_expired()
        self.draws_nothing()

    # ---- the file

    def lines(self, name):
        for i, (_, steps) in enumerate(self.parts):
            yield f"static const struct step {name}_{i}[] = {{"
            yield from (f"    {it}," for it in steps)
            yield "};"
        yield f"static const struct part {name}_parts[] = {{"
        for i, (title, steps) in enumerate(self.parts):
            yield f'    {{"{title}", {name}_{i}, {len(steps)}}},'
        yield "};"


# ---- sockets to the server, which connections to peers want

FIRST, SECOND_SOCKET = "192.0.2.1:5001", "192.0.2.1:5002"


def asks_socket(t, connection, peer):
    want = {"number": connection, "transport": "tcp", "from": OWN, "to": SERVER, "peer": peer}
    t.step("poll", {}, want, "TURN_OPEN_SOCKET")


def opens_socket(t, connection, peer, local, answer="TURN_OK"):
    t.reaches("socket", peer, answer, number=connection, **{"from": local})


def closes_socket(t, local):
    t.step("poll", {}, {"from": local, "to": SERVER}, "TURN_CLOSE_SOCKET")
