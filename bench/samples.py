#!/usr/bin/env python3
"""Writes samples.h: the messages that bench.c reads, made by Python's hmac, hashlib and zlib alone."""

import hmac
import struct
import zlib

KEY = b"0123456789abcdef"
COOKIE = bytes.fromhex("2112a442")
NUMBER = bytes.fromhex("00000000d0e0f0a1a2a3a4a5")
REQUEST, SUCCESS = 0x0003, 0x0103
SOFTWARE = b"pakhvizhe ok"


def attribute(kind, value):
    return struct.pack(">HH", kind, len(value)) + value + b"\0" * (-len(value) % 4)


def xored(octets, port):
    plain = struct.pack(">H", port) + bytes(octets)
    mask = COOKIE[:2] + COOKIE
    return b"\0\x01" + bytes(a ^ b for a, b in zip(plain, mask))


def message(kind, body):
    return struct.pack(">HH", kind, len(body)) + COOKIE + NUMBER + body


def signed(kind, body, atype, digest, size):
    text = struct.pack(">HH", kind, len(body) + 4 + size) + COOKIE + NUMBER + body
    return body + attribute(atype, hmac.new(KEY, text, digest).digest())


def marked(kind, body):
    text = struct.pack(">HH", kind, len(body) + 8) + COOKIE + NUMBER + body
    return body + attribute(0x8028, struct.pack(">I", zlib.crc32(text) ^ 0x5354554E))


RESPONSE = (
    attribute(0x0016, xored((203, 0, 113, 5), 50000))
    + attribute(0x000D, struct.pack(">I", 600))
    + attribute(0x0020, xored((192, 168, 0, 1), 1000))
    + attribute(0x8022, SOFTWARE)
)

ASKED = (
    attribute(0x0019, bytes((17, 0, 0, 0)))
    + attribute(0x000D, struct.pack(">I", 1800))
    + attribute(0x0006, b"user")
    + attribute(0x0014, b"realm")
    + attribute(0x0015, b"obMatJos2AAAA" + b"0123456789abcdef")
)


def each_way(kind, body):
    by_sha1 = signed(kind, body, 0x0008, "sha1", 20)
    by_sha256 = signed(kind, body, 0x001C, "sha256", 32)
    by_sha512 = signed(kind, body, 0x3F12, "sha512", 64)
    return by_sha1, by_sha256, by_sha512


def main():
    response_sha1, response_sha256, response_sha512 = each_way(SUCCESS, RESPONSE)
    request_sha1, request_sha256, request_sha512 = each_way(REQUEST, ASKED)
    samples = {
        "response_unsigned": message(SUCCESS, RESPONSE),
        "response_sha1": message(SUCCESS, response_sha1),
        "response_sha256": message(SUCCESS, response_sha256),
        "response_sha512": message(SUCCESS, response_sha512),
        "response_whole": message(SUCCESS, marked(SUCCESS, response_sha1)),
        "request_unsigned": message(REQUEST, ASKED),
        "request_sha1": message(REQUEST, request_sha1),
        "request_sha256": message(REQUEST, request_sha256),
        "request_sha512": message(REQUEST, request_sha512),
        "request_whole": message(REQUEST, marked(REQUEST, request_sha1)),
    }
    lines = ["// Made by samples.py. What each sample is stands there.", ""]
    for name, value in samples.items():
        lines.append(f"// {len(value)} bytes")
        lines.append(f"static const uint8_t {name}[] = {{")
        for start in range(0, len(value), 12):
            lines.append("    " + " ".join(f"0x{byte:02x}," for byte in value[start : start + 12]))
        lines.append("};")
        lines.append("")
    with open("samples.h", "w", encoding="ascii") as out:
        out.write("\n".join(lines))


if __name__ == "__main__":
    main()
