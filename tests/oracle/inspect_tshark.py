#!/usr/bin/env python3
"""Compares what stun-inspect prints of messages and channel frames with what tshark reads in them.

They are those of crates/stun_inspect/stdin that stun-inspect doesn't refuse, and those that the replies
and the sends of examples/*.out are. Each goes as one UDP datagram to port 3478 into a file of pcap,
which tshark reads. Compared are class, method and transaction ID, the type of each attribute, and its
value where both read it; of a frame its channel and its data:

    tests/oracle/inspect_tshark.py [PROGRAM]

PROGRAM is by default crates/stun_inspect/out/stun_inspect, or `rt try` where that isn't built. Each
difference that KNOWN doesn't name is a line; the last line is `tshark: N messages, M attributes
compared, K differ`, and the exit status is 1 where K isn't 0. It is no part of the gate.
"""
import ipaddress
import re
import struct
import subprocess
import sys
import tempfile
import xml.etree.ElementTree as ElementTree
from collections import Counter
from pathlib import Path

TOP = Path(__file__).resolve().parents[2]
CRATE = TOP / "crates/stun_inspect"
CLASSES = {0x00: "request", 0x01: "indication", 0x10: "success", 0x11: "error"}
TEXTS = {
    0x0006: "stun.att.username", 0x0014: "stun.att.realm", 0x0015: "stun.att.nonce",
    0x8022: "stun.att.software",
}
ALGORITHMS = {"1": "MD5", "2": "SHA256", "65298": "SHA512"}
FAMILIES = {"0x01": "IPv4", "0x02": "IPv6"}
UNESCAPED = {'"': '"', "\\": "\\", "0": "\0", "t": "\t", "n": "\n", "r": "\r"}

# Shown by tshark as bytes alone: CONNECTION-ID, ADDITIONAL-ADDRESS-FAMILY, ADDRESS-ERROR-CODE.
UNREAD = (0x002A, 0x8000, 0x8001)

# Where they may differ, and why. How often they did is told.
KNOWN = {
    "type and code of an ICMP": "tshark takes the first two bytes of the value for them. Those are "
    "reserved; type and code are the third and the fourth (RFC 8656, section 18.13).",
    "attributes behind the last one that counts": "tshark lists those behind MESSAGE-INTEGRITY, "
    "-SHA256, -SHA512 and FINGERPRINT, too. A receiver ignores them (RFC 8489, sections 14.5 "
    "to 14.7), and stun-inspect prints them as bytes.",
    "the greatest method": "tshark takes a message of the method 0xFFF for none. Methods have twelve "
    "bits (RFC 8489, section 5).",
    "more than padding behind a frame": "tshark takes a datagram for no channel frame where more than "
    "padding stands behind the data. RFC 8656, section 12.6, discards one that is too short alone.",
}


# ---- what is compared


def rows():
    """Each message and each frame once, as a word and its bytes."""
    found = {}
    for line in (CRATE / "stdin").read_text().splitlines():
        word, _, told = line.partition(" ")
        if word in ("message", "frame") and re.fullmatch("([0-9a-f]{2})+", told):
            found[word, bytes.fromhex(told)] = None
    for path in sorted((TOP / "examples").glob("*.out")):
        for told in re.findall(r"^(?:reply|transmit \S+ \S+) ([0-9a-f]+)$", path.read_text(), re.M):
            data = bytes.fromhex(told)
            found["frame" if data[0] >> 6 else "message", data] = None
    return list(found)


def printed(program, given):
    """What stun-inspect prints of each row: its facts, without the first one."""
    lines = "".join(f"{word} {data.hex()}\n" for word, data in given)
    how = {"input": lines, "capture_output": True, "text": True, "check": True}
    command = [program] if program.exists() else ["rt", "try"]
    out = subprocess.run(command, cwd=CRATE, **how).stdout
    facts = re.split(r"^(?:message|frame) \d+ bytes\n", out, flags=re.M)[1:]
    if len(facts) != len(given):
        sys.exit(f"stun-inspect told of {len(facts)} rows, and not of {len(given)}")
    return [it.splitlines() for it in facts]


def capture(datagrams):
    """A file of pcap: each datagram as IPv4 without a link layer, each from another port."""
    out = [struct.pack("<IHHiIII", 0xA1B2C3D4, 2, 4, 0, 0, 0xFFFF, 101)]
    for at, data in enumerate(datagrams):
        udp = struct.pack(">4H", 10000 + at, 3478, 8 + len(data), 0) + data
        ends = bytes([192, 0, 2, 1, 192, 0, 2, 2])
        packet = struct.pack(">BBHHHBBH", 0x45, 0, 20 + len(udp), at, 0, 64, 17, 0) + ends + udp
        out.append(struct.pack("<4I", at, 0, len(packet), len(packet)) + packet)
    return b"".join(out)


def dissected(datagrams):
    """What tshark reads in each datagram: its packet in PDML."""
    with tempfile.NamedTemporaryFile(suffix=".pcap") as file:
        file.write(capture(datagrams))
        file.flush()
        command = ["tshark", "-n", "-r", file.name, "-T", "pdml"]
        out = subprocess.run(command, capture_output=True, check=True).stdout
    packets = ElementTree.fromstring(out).findall("packet")
    if len(packets) != len(datagrams):
        sys.exit(f"tshark told of {len(packets)} datagrams, and not of {len(datagrams)}")
    return packets


# ---- what tshark reads, in the words of docs/INSPECT.md


def shown(field, name):
    """What each field of this name under a field shows."""
    return [it.get("show") for it in field.iter("field") if it.get("name") == name]


def values(field, name):
    """The bytes of each field of this name under a field, in hex."""
    return [it.get("value") for it in field.iter("field") if it.get("name") == name]


def address(field):
    [port] = shown(field, "stun.att.port")
    if old := shown(field, "stun.att.ipv4"):
        return f"{old[0]}:{port}"
    bare = ipaddress.IPv6Address(shown(field, "stun.att.ipv6")[0])
    text = f"::ffff:{bare.ipv4_mapped}" if bare.ipv4_mapped else str(bare)
    return f"[{text}]:{port}"


def number(field, name):
    return str(int(shown(field, name)[0], 0))


def error(field):
    [hundreds], [rest] = shown(field, "stun.att.error.class"), shown(field, "stun.att.error")
    reason = "".join(values(field, "stun.att.error.reason"))
    return f"{100 * int(hundreds) + int(rest)} {reason}"


def value(kind, field):
    """The value of an attribute; None where tshark doesn't read it. A text is in hex."""
    if kind in TEXTS:
        return "".join(values(field, TEXTS[kind]))
    if kind in (0x0001, 0x0012, 0x0016, 0x0020, 0x8023):
        return address(field)
    if kind == 0x0024:
        return number(field, "stun.att.priority")
    if kind in (0x8029, 0x802A):
        return "".join(values(field, "stun.att.tie-breaker")) or None
    if kind == 0x0009:
        return error(field)
    if kind == 0x000A:
        return " ".join(shown(field, "stun.att.unknown")) or "-"
    if kind == 0x000C:
        return shown(field, "stun.att.channelnum")[0]
    if kind == 0x000D:
        return number(field, "stun.att.lifetime")
    if kind == 0x0017:
        return FAMILIES[shown(field, "stun.att.family")[0]]
    if kind == 0x0018:
        return "reserve" if shown(field, "stun.att.even-port.reserve-next")[0] == "1" else "no-reserve"
    if kind == 0x0019:
        return number(field, "stun.att.transp")
    if kind in (0x001D, 0x8002):
        return " ".join(ALGORITHMS[it] for it in shown(field, "stun.att.pw_alg")) or None
    if kind == 0x8004:
        return f"{number(field, 'stun.att.icmp.type')} {number(field, 'stun.att.icmp.code')}"
    if kind in UNREAD:
        return None
    names = {0x0008: "stun.att.hmac", 0x0022: "stun.att.token", 0x8028: "stun.att.crc32"}
    return "".join(values(field, names.get(kind, "stun.value"))) or None


# ---- what stun-inspect prints, in the same words


def unescaped(quoted):
    """The bytes of a text that is printed in quotation marks, in hex."""
    said = re.compile(r"\\(?:u\{([0-9a-f]+)\}|(.))")
    bare = said.sub(lambda it: chr(int(it[1], 16)) if it[1] else UNESCAPED[it[2]], quoted[1:-1])
    return bare.encode().hex()


def alike(kind, words):
    """A printed value, as `value` gives that of tshark."""
    if kind in TEXTS:
        return unescaped(words)
    if kind == 0x0009:
        code, _, reason = words.partition(" ")
        return f"{code} {unescaped(reason)}"
    if kind == 0x0019:
        return words.split(" ")[0]
    if kind in (0x8029, 0x802A):
        return words.removeprefix("0x")
    if kind == 0x8004:
        return " ".join(words.split(" ")[:2])
    return words


# ---- the comparison


class Comparison:
    """What was compared so far, and what differs."""

    def __init__(self):
        self.types, self.values, self.known, self.differs = 0, 0, Counter(), []

    def hold(self, what, told, read):
        if told != read:
            self.differs.append(f"{what}: stun-inspect has {told}, tshark {read}")

    def attribute(self, what, line, field):
        _, kind, name, words = line.split(" ", 3)
        read = field.get("show") if field.get("name") else f"0x{field.get('value')}"
        self.hold(f"{what}, type", kind, read)
        self.types += 1
        kind, what = int(kind, 16), f"{what}, {name}"
        read = None if words.startswith("refused ") else value(kind, field)
        if read is None:
            return
        self.values += 1
        if kind == 0x8004 and alike(kind, words) != read:
            first, second = bytes.fromhex(field.get("value"))[4:6]
            self.hold(what, f"{first} {second}", read)
            self.known["type and code of an ICMP"] += 1
        else:
            self.hold(what, alike(kind, words), read)

    def message(self, what, facts, packet):
        proto = packet.find("proto[@name='stun']")
        told = {it.split(" ")[0]: it.split(" ")[1] for it in facts}
        if proto is None and told["method"] == "0xfff":
            self.known["the greatest method"] += 1
            return
        if proto is None:
            self.hold(what, "a message", "none")
            return
        bits = int(shown(proto, "stun.type.method")[0], 16)
        method = bits & 0xF | bits >> 1 & 0x70 | bits >> 2 & 0xF80
        self.hold(f"{what}, class", told["class"], CLASSES[int(shown(proto, "stun.type.class")[0], 16)])
        self.hold(f"{what}, method", told["method"], f"0x{method:03x}")
        self.hold(f"{what}, transaction", told["transaction"][2:], values(proto, "stun.id")[0])
        lines = [it for it in facts if it.startswith("attribute ")]
        fields = list(proto.find("field[@name='stun.attributes']") or [])
        if told["behind"] != "-":
            ends = int(proto.get("size")) - len(told["behind"]) // 2
            starts = int(fields[len(lines)].get("pos")) - int(proto.get("pos"))
            self.hold(f"{what}, behind", ends, starts)
            self.known["attributes behind the last one that counts"] += 1
            del fields[len(lines):]
        self.hold(f"{what}, attributes", len(lines), len(fields))
        for line, field in zip(lines, fields):
            self.attribute(what, line, field)

    def frame(self, what, facts, packet):
        channel, data, behind = (it.split(" ")[1] for it in facts)
        read = shown(packet, "stun.channel")
        if not read and len(behind) > 6:
            self.known["more than padding behind a frame"] += 1
            return
        self.hold(f"{what}, channel", [channel], read)
        self.hold(f"{what}, data", data.replace("-", ""), "".join(values(packet, "data.data")))


def main():
    program = Path(sys.argv[1]).resolve() if sys.argv[1:] else CRATE / "out/stun_inspect"
    given = rows()
    told = zip(given, printed(program, given))
    lawful = [(word, data, facts) for (word, data), facts in told if not facts[0].startswith("refused ")]
    packets = dissected([data for _, data, _ in lawful])
    comparison = Comparison()
    for (word, data, facts), packet in zip(lawful, packets):
        compare = comparison.message if word == "message" else comparison.frame
        compare(f"{word} {data.hex()[:48]}", facts, packet)
    for line in comparison.differs:
        print(line)
    for name in KNOWN:
        print(f"known, {comparison.known[name]} times: {name}")
    count, types = len(comparison.differs), comparison.types
    print(f"of {types} attributes the types are compared, of {comparison.values} the values, too")
    print(f"tshark: {len(lawful)} messages, {types} attributes compared, {count} differ")
    return 1 if count else 0


if __name__ == "__main__":
    sys.exit(main())
