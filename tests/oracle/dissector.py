#!/usr/bin/env python3
"""Prints what stun-inspect is to print for the lines of standard input (docs/INSPECT.md), with --json as JSON.

It is written apart from the library, from the RFCs, over Python's hmac, hashlib, zlib, ipaddress and
unicodedata, and makes the stored output of crates/stun_inspect, which the gate holds against what the
program prints:

    tests/oracle/dissector.py <crates/stun_inspect/stdin >crates/stun_inspect/stdout
"""
import hashlib
import hmac
import ipaddress
import json
import re
import sys
import unicodedata
import zlib

COOKIE = bytes.fromhex("2112a442")
CLASSES = ["request", "indication", "success", "error"]
METHODS = {
    0x001: "BINDING", 0x003: "ALLOCATE", 0x004: "REFRESH", 0x006: "SEND", 0x007: "DATA",
    0x008: "CREATE_PERMISSION", 0x009: "CHANNEL_BIND", 0x00A: "CONNECT", 0x00B: "CONNECTION_BIND",
    0x00C: "CONNECTION_ATTEMPT",
}
NAMES = {
    0x0006: "USERNAME", 0x0008: "MESSAGE-INTEGRITY", 0x0009: "ERROR-CODE",
    0x000A: "UNKNOWN-ATTRIBUTES", 0x000C: "CHANNEL-NUMBER", 0x000D: "LIFETIME",
    0x0012: "XOR-PEER-ADDRESS", 0x0013: "DATA", 0x0014: "REALM", 0x0015: "NONCE",
    0x0016: "XOR-RELAYED-ADDRESS", 0x0017: "REQUESTED-ADDRESS-FAMILY", 0x0018: "EVEN-PORT",
    0x0019: "REQUESTED-TRANSPORT", 0x001A: "DONT-FRAGMENT", 0x001C: "MESSAGE-INTEGRITY-SHA256",
    0x001D: "PASSWORD-ALGORITHM", 0x001E: "USERHASH", 0x0020: "XOR-MAPPED-ADDRESS",
    0x0022: "RESERVATION-TOKEN", 0x002A: "CONNECTION-ID", 0x3F12: "MESSAGE-INTEGRITY-SHA512",
    0x8000: "ADDITIONAL-ADDRESS-FAMILY", 0x8001: "ADDRESS-ERROR-CODE", 0x8002: "PASSWORD-ALGORITHMS",
    0x8003: "ALTERNATE-DOMAIN", 0x8004: "ICMP", 0x8022: "SOFTWARE", 0x8023: "ALTERNATE-SERVER",
    0x8028: "FINGERPRINT",
    0x0001: "MAPPED-ADDRESS", 0x0024: "PRIORITY", 0x0025: "USE-CANDIDATE", 0x8029: "ICE-CONTROLLED",
    0x802A: "ICE-CONTROLLING",
}
TEXTS = {0x0006: 513, 0x0014: 763, 0x0015: 763, 0x8003: 255, 0x8022: 763}
ALGORITHMS = {1: "MD5", 2: "SHA256", 0xFF12: "SHA512"}
FAMILIES = {1: "IPv4", 2: "IPv6"}
# RFC 8656, section 12, goes up to 0x4FFF, RFC 5766 up to 0x7FFF; docs/MIGRATION.md says what holds.
CHANNELS = range(0x4000, 0x8000)
# Unicode's Other_Grapheme_Extend: what extends the character before it, beside marks of Mn and Me.
EXTENDING = {
    0x09BE, 0x09D7, 0x0B3E, 0x0B57, 0x0BBE, 0x0BD7, 0x0CC2, 0x0CD5, 0x0CD6, 0x0D3E, 0x0D57, 0x0DCF,
    0x0DDF, 0x1B35, 0x200C, 0x302E, 0x302F, 0xFF9E, 0xFF9F, 0x1133E, 0x11357, 0x114B0, 0x114BD,
    0x115AF, 0x11930, 0x1D165, *range(0x1D16E, 0x1D173), *range(0xE0020, 0xE0080),
}
ESCAPES = {'"': '\\"', "\\": "\\\\", "\0": "\\0", "\t": "\\t", "\n": "\\n", "\r": "\\r"}
# Of each integrity attribute: its algorithm, the digest of its HMAC and of its long-term key, and its lengths.
INTEGRITY = {
    0x0008: ("Sha1", hashlib.sha1, hashlib.md5, (20,)),
    0x001C: ("Sha256", hashlib.sha256, hashlib.sha256, range(16, 33, 4)),
    0x3F12: ("Sha512", hashlib.sha512, hashlib.sha512, range(16, 65, 4)),
}


class Refused(Exception):
    """Why bytes are not what they are asked for."""


def number(data):
    return int.from_bytes(data, "big")


def padded(size):
    return -(-size // 4) * 4


def in_hex(data):
    return data.hex() or "-"


def of_length(value, least, most):
    """Refuses a value that is shorter or longer."""
    if len(value) < least:
        raise Refused(f"Truncated expected {least} actual {len(value)}")
    if len(value) > most:
        raise Refused(f"TooLarge expected {most} actual {len(value)}")


def escaped(char):
    """A character as it stands in quotation marks: the number of one that does not print, and of one
    that extends the character before it."""
    if char in ESCAPES:
        return ESCAPES[char]
    extends = unicodedata.category(char) in ("Mn", "Me") or ord(char) in EXTENDING
    return char if char.isprintable() and not extends else f"\\u{{{ord(char):x}}}"


def text(value, most):
    of_length(value, 0, most)
    try:
        return '"' + "".join(map(escaped, value.decode())) + '"'
    except UnicodeDecodeError:
        raise Refused("InvalidAttributeData")


def ipv6(bare):
    """The text of RFC 5952: an address that maps one of IPv4 has that one's text in it (section 5)."""
    if bare[:12] == bytes(10) + b"\xff\xff":
        return f"::ffff:{ipaddress.IPv4Address(bare[12:])}"
    return str(ipaddress.IPv6Address(bare))


def address(value, mask):
    if len(value) < 4:
        raise Refused(f"Truncated expected 4 actual {len(value)}")
    if value[1] not in (1, 2):
        raise Refused("InvalidAttributeData")
    size = 8 if value[1] == 1 else 20
    of_length(value, size, size)
    port = number(value[2:4]) ^ number(mask[:2])
    bare = bytes(a ^ b for a, b in zip(value[4:], mask))
    if size == 8:
        return f"{ipaddress.IPv4Address(bare)}:{port}"
    return f"[{ipv6(bare)}]:{port}"


def algorithms(value):
    found = []
    for at in range(0, len(value), 4):
        told = number(value[at:at + 2])
        if told not in ALGORITHMS:
            raise Refused("InvalidAttributeData")
        found.append(ALGORITHMS[told])
    return " ".join(found)


def error(value):
    """The code and the reason of RFC 8489, section 14.8."""
    of_length(value, 4, 767)
    if not 3 <= value[2] <= 6 or value[3] > 99:
        raise Refused("InvalidAttributeData")
    return f"{100 * value[2] + value[3]} {text(value[4:], 763)}"


def family(value):
    if value[0] not in FAMILIES:
        raise Refused("InvalidAttributeData")
    return FAMILIES[value[0]]


def turn_in_words(kind, value, mask):
    """The values of RFC 8656, section 18, and RFC 6062, section 6.2; None of another type."""
    if kind in (0x0012, 0x0016):
        return address(value, mask)
    if kind == 0x0013:
        return in_hex(value)
    if kind == 0x8001:
        told = error(value)
        return f"{family(value)} {told}"
    sizes = {0x0018: 1, 0x001A: 0, 0x0022: 8, 0x8004: 8}
    sizes |= dict.fromkeys((0x000C, 0x000D, 0x0017, 0x0019, 0x002A, 0x8000), 4)
    if kind not in sizes:
        return None
    of_length(value, sizes[kind], sizes[kind])
    if kind == 0x000C:
        return f"0x{number(value[:2]):04x}"
    if kind in (0x000D, 0x002A):
        return str(number(value))
    if kind in (0x0017, 0x8000):
        return family(value)
    if kind == 0x0018:
        return "reserve" if value[0] & 0x80 else "no-reserve"
    if kind == 0x0019:
        return f"{value[0]} {({17: 'UDP', 6: 'TCP'}).get(value[0], 'unknown')}"
    if kind == 0x8004:
        return f"{value[2]} {value[3]} {number(value[4:])}"
    return in_hex(value)


def ice_in_words(kind, value):
    """The values of RFC 8445, section 16.1; None of another type."""
    sizes = {0x0024: 4, 0x0025: 0, 0x8029: 8, 0x802A: 8}
    if kind not in sizes:
        return None
    of_length(value, sizes[kind], sizes[kind])
    if kind == 0x0024:
        return str(number(value))
    return "0x" + value.hex() if value else "-"


def in_words(kind, value, mask):
    if kind in TEXTS:
        return text(value, TEXTS[kind])
    if kind == 0x0020:
        return address(value, mask)
    if kind in (0x0001, 0x8023):
        return address(value, bytes(16))
    if kind == 0x001D:
        of_length(value, 4, 4)
        return algorithms(value)
    if kind == 0x8002:
        of_length(value, 4, 32)
        if len(value) % 4:
            raise Refused("InvalidAttributeData")
        return algorithms(value)
    if kind == 0x0009:
        return error(value)
    if kind == 0x000A:
        if len(value) % 2:
            raise Refused("InvalidAttributeData")
        return " ".join(f"0x{number(value[i:i + 2]):04x}" for i in range(0, len(value), 2)) or "-"
    sizes = {0x0008: (20, 20), 0x001C: (16, 32), 0x001E: (32, 32), 0x3F12: (16, 64), 0x8028: (4, 4)}
    if kind in sizes:
        of_length(value, *sizes[kind])
        if len(value) % 4:
            raise Refused("InvalidAttributeData")
        return in_hex(value)
    return ice_in_words(kind, value) or turn_in_words(kind, value, mask) or in_hex(value)


def attribute(kind, value, mask):
    line = f"attribute 0x{kind:04x} {NAMES.get(kind, 'unknown')} "
    try:
        return line + in_words(kind, value, mask)
    except Refused as why:
        return f"{line}refused {why} of {in_hex(value)}"


def refusal(why):
    """A refusal as an object: its name and its numbers."""
    name, *rest = str(why).split(" ")
    if len(rest) == 1:
        return {"name": name, "type": int(rest[0], 16)}
    return {"name": name, **{word: int(size) for word, size in zip(rest[::2], rest[1::2])}}


def value_in_json(kind, value, mask):
    told = in_words(kind, value, mask)
    if kind in TEXTS:
        return value.decode()
    if kind in (0x0009, 0x8001):
        families = {"family": family(value)} if kind == 0x8001 else {}
        return {**families, "code": 100 * value[2] + value[3], "reason": value[4:].decode()}
    if kind == 0x000A:
        return [number(value[i:i + 2]) for i in range(0, len(value), 2)]
    if kind == 0x8002:
        return [ALGORITHMS[number(value[i:i + 2])] for i in range(0, len(value), 4)]
    if kind in (0x000D, 0x002A, 0x0024):
        return number(value)
    if kind == 0x000C:
        return number(value[:2])
    if kind == 0x0019:
        return {"protocol": value[0], "name": {17: "UDP", 6: "TCP"}.get(value[0], "unknown")}
    if kind == 0x8004:
        return {"type": value[2], "code": value[3], "data": number(value[4:])}
    if kind in (0x001A, 0x0025):
        return None
    return told if value else ""


def attribute_in_json(kind, value, mask):
    known = {"type": kind, "name": NAMES.get(kind, "unknown")}
    try:
        return {**known, "value": value_in_json(kind, value, mask)}
    except Refused as why:
        return {**known, "refused": refusal(why), "bytes": value.hex()}


def rank(kind):
    return {0x0008: 1, 0x001C: 2, 0x3F12: 3, 0x8028: 4}.get(kind, 0)


def covered(data, end):
    """The message before an offset, its length told as if the attribute there ended it."""
    size = padded(number(data[end + 2:end + 4])) + 4
    return data[:2] + (end + size - 20).to_bytes(2, "big") + data[4:end]


def crc(data, end):
    return zlib.crc32(covered(data, end)) ^ 0x5354554E


def may_begin(data):
    """Whether these bytes, or more behind them, begin a message (RFC 8489, section 5)."""
    return not (data[:1] and data[0] & 0xC0) and all(a == b for a, b in zip(data[4:8], COOKIE))


def parsed(data):
    """The attributes that a message shows, each with its offset, and where what it shows ends."""
    if not may_begin(data):
        raise Refused("NotStun")
    if len(data) < 20:
        raise Refused(f"Truncated expected 20 actual {len(data)}")
    of_length(data, 20 + number(data[2:4]), 20 + number(data[2:4]))
    shown, at, last = [], 20, 0
    while at < len(data):
        if len(data) - at < 4:
            raise Refused(f"Truncated expected 4 actual {len(data) - at}")
        kind, size = number(data[at:at + 2]), number(data[at + 2:at + 4])
        if not (rank(kind) > last or rank(kind) == last == 0):
            break
        if len(data) - at < 4 + padded(size):
            raise Refused(f"Truncated expected {4 + padded(size)} actual {len(data) - at}")
        value = data[at + 4:at + 4 + size]
        if kind == 0x8028 and value != crc(data, at).to_bytes(4, "big"):
            raise Refused("FingerprintMismatch")
        shown.append((at, kind, value))
        at, last = at + 4 + padded(size), rank(kind)
    return shown, at


def key_of(credentials, kind):
    if len(credentials) == 1:
        return credentials[0].encode()
    user, realm, password = credentials
    whole = f"{user}:{realm}:{password}".encode()
    return INTEGRITY[kind][2](whole).digest()


def verdict(data, at, kind, value, credentials):
    name, digest, _, lawful = INTEGRITY[kind]
    if len(value) not in lawful:
        return "refused InvalidAttributeData"
    made = hmac.new(key_of(credentials, kind), covered(data, at), digest).digest()
    return f"valid {name}" if made[:len(value)] == value else "refused IntegrityFailed"


def message(data, credentials):
    start = f"message {len(data)} bytes"
    try:
        shown, end = parsed(data)
    except Refused as why:
        return [start, f"refused {why}"]
    kind, mask = number(data[:2]), COOKIE + data[8:20]
    method = kind & 0xF | kind >> 1 & 0x70 | kind >> 2 & 0xF80
    lines = [
        start,
        f"class {CLASSES[kind >> 4 & 1 | kind >> 7 & 2]}",
        f"method 0x{method:03x} {METHODS.get(method, 'unknown')}",
        f"transaction 0x{data[8:20].hex()}",
        *[attribute(kind, value, mask) for _, kind, value in shown],
        f"behind {in_hex(data[end:])}",
    ]
    if credentials is None:
        lines.append("validation without credentials")
    else:
        last = "refused MissingAttribute 0x0008"
        for at, kind, value in shown:
            if kind in INTEGRITY:
                last = verdict(data, at, kind, value, credentials)
                lines.append(f"integrity {NAMES[kind]} {last}")
        lines.append(f"validation {last}")
    marked = any(kind == 0x8028 for _, kind, _ in shown)
    lines.append("fingerprint shown" if marked else "fingerprint none")
    return lines


def verdict_in_json(told):
    """A verdict as an object: what validated it, or the refusal."""
    word, _, rest = told.partition(" ")
    return {"valid": rest} if word == "valid" else {"refused": refusal(rest)}


def message_in_json(data, credentials):
    known = {"kind": "message", "size": len(data)}
    try:
        shown, end = parsed(data)
    except Refused as why:
        return {**known, "refused": refusal(why)}
    kind, mask = number(data[:2]), COOKIE + data[8:20]
    method = kind & 0xF | kind >> 1 & 0x70 | kind >> 2 & 0xF80
    known |= {
        "class": CLASSES[kind >> 4 & 1 | kind >> 7 & 2],
        "method": {"type": method, "name": METHODS.get(method, "unknown")},
        "transaction_id": "0x" + data[8:20].hex(),
        "attributes": [attribute_in_json(kind, value, mask) for _, kind, value in shown],
        "behind": data[end:].hex(),
        "fingerprint": any(kind == 0x8028 for _, kind, _ in shown),
        "validation": None,
    }
    if credentials is not None:
        last, known["integrity"] = "refused MissingAttribute 0x0008", []
        for at, kind, value in shown:
            if kind in INTEGRITY:
                last = verdict(data, at, kind, value, credentials)
                known["integrity"].append({"name": NAMES[kind], **verdict_in_json(last)})
        known["validation"] = verdict_in_json(last)
    return known


def raw(data):
    start = f"raw {len(data)} bytes"
    if len(data) < 4:
        return [start, f"refused Truncated expected 4 actual {len(data)}"]
    size = number(data[2:4])
    if len(data) < 4 + size:
        return [start, f"refused Truncated expected {4 + size} actual {len(data)}"]
    return [start, attribute(number(data[:2]), data[4:4 + size], COOKIE + bytes(12))]


def frame(data):
    """A channel frame (RFC 8656, section 12.4)."""
    start = f"frame {len(data)} bytes"
    if len(data) < 4:
        return [start, f"refused Truncated expected 4 actual {len(data)}"]
    channel, end = number(data[:2]), 4 + number(data[2:4])
    if channel not in CHANNELS:
        return [start, "refused NotStun"]
    if len(data) < end:
        return [start, f"refused Truncated expected {end} actual {len(data)}"]
    told = [f"channel 0x{channel:04x}", f"data {in_hex(data[4:end])}", f"behind {in_hex(data[end:])}"]
    return [start, *told]


def raw_in_json(data):
    known, told = {"kind": "raw", "size": len(data)}, raw(data)[1]
    if told.startswith("refused "):
        return {**known, "refused": refusal(told.removeprefix("refused "))}
    size = number(data[2:4])
    return {**known, "attribute": attribute_in_json(number(data[:2]), data[4:4 + size], COOKIE + bytes(12))}


def frame_in_json(data):
    known, told = {"kind": "frame", "size": len(data)}, frame(data)[1]
    if told.startswith("refused "):
        return {**known, "refused": refusal(told.removeprefix("refused "))}
    end = 4 + number(data[2:4])
    return {**known, "channel": number(data[:2]), "data": data[4:end].hex(), "behind": data[end:].hex()}


def parts(data):
    """The messages and the padded channel frames at the front of a stream (RFC 8656, section 12.5), each with
    whether it is a frame; then what is left, and whether nothing can begin there."""
    found, at = [], 0
    while True:
        rest = data[at:at + 8]
        is_frame = rest[:1] and rest[0] >> 6 == 1
        if not is_frame and not may_begin(rest):
            return found, data[at:], True
        size = 4 + padded(number(rest[2:4])) if is_frame else 20 + number(rest[2:4])
        if len(data) - at < max(size, 4 if is_frame else 20):
            return found, data[at:], False
        found.append((data[at:at + size], is_frame))
        at += size


def stream(data, credentials):
    found, left, is_broken = parts(data)
    lines = [f"stream {len(data)} bytes"]
    for whole, is_frame in found:
        lines += frame(whole) if is_frame else message(whole, credentials)
    return [*lines, f"{'broken' if is_broken else 'rest'} {in_hex(left)}"]


def stream_in_json(data, credentials):
    found, left, is_broken = parts(data)
    frames = [frame_in_json(whole) if is_frame else message_in_json(whole, credentials) for whole, is_frame in found]
    return {"kind": "stream", "size": len(data), "frames": frames, "broken" if is_broken else "rest": left.hex()}


def in_text(known):
    """An object on a line, as stun-inspect prints it: its members in the order of their names."""
    return json.dumps(known, sort_keys=True, separators=(",", ":"), ensure_ascii=False)


def described(word, data, credentials, is_json):
    """What is printed of bytes that are read as this word says."""
    if is_json:
        how = {"message": message_in_json, "raw": raw_in_json, "frame": frame_in_json, "stream": stream_in_json}
    else:
        how = {"message": message, "raw": raw, "frame": frame, "stream": stream}
    told = how[word](data, credentials) if word in ("message", "stream") else how[word](data)
    return in_text(told) if is_json else "\n".join(told)


def main():
    credentials, is_json = None, sys.argv[1:] == ["--json"]
    for at, line in enumerate(sys.stdin.buffer.read().split(b"\n"), 1):
        if not line or line.startswith(b"#"):
            continue
        words = line.decode().split(" ")
        data = None
        if words[0] in ("message", "raw", "frame", "stream") and len(words) == 2:
            is_hex = re.fullmatch("([0-9a-f]{2})+", words[1])
            data = b"" if words[1] == "-" else bytes.fromhex(words[1]) if is_hex else None
        if "" in words:
            data = None
        elif words[0] == "user" and len(words) == 4:
            credentials = words[1:]
            continue
        elif words[0] == "password" and len(words) == 2:
            credentials = words[1:]
            continue
        if data is None:
            print(in_text({"refused": {"name": "BadLine", "line": at}}) if is_json else f"bad trace: line {at}")
            return 1
        print(described(words[0], data, credentials, is_json))
    return 0


if __name__ == "__main__":
    sys.exit(main())
