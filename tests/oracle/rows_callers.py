#!/usr/bin/env python3
"""Makes the rows of `test_callers`, which it answers behind what it prints of its callers: what it is asked, and what
it is to answer.

Nothing here knows the repository's code. Which peers are forbidden is worked out by the blocks of RFC 6890, RFC 5771,
RFC 4291, RFC 6052 and RFC 8656, and what a replay comes to by `docs/TRACE.md`.
"""

import sys
from ipaddress import IPv4Network, IPv6Network
from pathlib import Path

# what is imported leaves no folder of compiled files behind
sys.dont_write_bytecode = True

from rows_wire_base import ROWS, part, row

CRATE = Path(__file__).resolve().parents[2] / "crates/test_callers"


# ---- peers to which a relay relays nothing by default

# "this network", loopback, link local (RFC 6890, section 2.2.2), multicast (RFC 5771), reserved and broadcast
BLOCKS_4 = [IPv4Network(it) for it in (
    "0.0.0.0/8", "127.0.0.0/8", "169.254.0.0/16", "224.0.0.0/4", "240.0.0.0/4",
)]
# the unspecified address, loopback, link local (RFC 6890, section 2.2.3), multicast (RFC 4291, section 2.7), addresses
# mapped to IPv4, Teredo and 6to4 (RFC 8656, section 21.4)
BLOCKS_6 = [IPv6Network(it) for it in (
    "::/128", "::1/128", "fe80::/10", "ff00::/8", "::ffff:0:0/96", "2001::/32", "2002::/16",
)]
# what a NAT64 translates to an IPv4 address, its last 32 bits (RFC 6052, section 2.1)
NAT64 = IPv6Network("64:ff9b::/96")
# addresses of private networks (RFC 1918, RFC 4193), of documentation, and others that are near a block by their text
ALLOWED_4 = ("10.0.0.1", "172.16.0.1", "192.168.0.1", "203.0.113.5")
ALLOWED_6 = ("fc00::1", "fdff::1", "2001:db8::1", "::7f00:1", "64:ff9b::cb00:7105", "64:ff9b:1::7f00:1", "fec0::1")
# mapped to an IPv4 address that itself is allowed
MAPPED = "::ffff:cb00:7105"


def number_4(text):
    return int(IPv4Network(text).network_address)


def number_6(text):
    return int(IPv6Network(text).network_address)


def is_in(blocks, number):
    return any(int(it.network_address) <= number <= int(it.broadcast_address) for it in blocks)


def is_forbidden_6(number):
    return is_in(BLOCKS_6, number) or is_in([NAT64], number) and is_in(BLOCKS_4, number % 2**32)


def ends(blocks, most):
    """Of each block the first and the last address, and those before and behind it."""
    for it in blocks:
        first, last = int(it.network_address), int(it.broadcast_address)
        yield from (number for number in (first - 1, first, last, last + 1) if 0 <= number <= most)


def text_4(number):
    return ".".join(str(it) for it in number.to_bytes(4, "big"))


def text_6(number):
    return ":".join(f"{number >> at & 0xFFFF:x}" for at in range(112, -16, -16))


def peers():
    part("peers over IPv4: of each block that is forbidden both ends, and the addresses beside it")
    for number in dict.fromkeys([*ends(BLOCKS_4, 2**32 - 1), *map(number_4, ALLOWED_4)]):
        row("forbidden", text_4(number))(is_in(BLOCKS_4, number))
    part("the same over IPv6")
    for number in dict.fromkeys([*ends(BLOCKS_6, 2**128 - 1), *map(number_6, (*ALLOWED_6, MAPPED))]):
        row("forbidden", text_6(number))(is_forbidden_6(number))
    part("the same behind the prefix of a NAT64, and both ends of that")
    translated = [int(NAT64.network_address) + it for it in ends(BLOCKS_4, 2**32 - 1)]
    for number in dict.fromkeys([*translated, *ends([NAT64], 2**128 - 1)]):
        row("forbidden", text_6(number))(is_forbidden_6(number))
    assert not any(is_in(BLOCKS_4, number_4(it)) for it in ALLOWED_4)
    assert not any(is_forbidden_6(number_6(it)) for it in ALLOWED_6) and is_forbidden_6(number_6(MAPPED))


# ---- replays of a trace by readers and writers that fail

DONE, BAD, NO_MEMORY, FAULT = range(4)
READ_FAULT, MEMORY = (FAULT, "read fault\n"), (NO_MEMORY, "no memory\n")
FAILURES = {"fault": READ_FAULT, "memory": MEMORY}
MAX_INPUT = 16_777_216

TRACE = "desk realm sha1 auto\ntodesk 0 10.0.0.1:1 - 0 grant\ntodesk 0 10.0.0.1:1 - 0 grant\nhello"
# a desk answers nothing to no bytes, and `hello` is no line
PRINTED = "none\nnone\nbad trace: line 4\n"


def quoted(text):
    return '"' + text.replace("\n", "\\n") + '"'


def remarks():
    part("a reader of a remark of so many bytes that then fails")
    for left in (0, 1, 100_000):
        for fails, (status, text) in FAILURES.items():
            row("remark", left, fails)(status, left, quoted(text))
    part("the longest trace, one that is a byte too long, and one without end, of which a byte more is read")
    row("remark", MAX_INPUT, "none")(DONE, MAX_INPUT, quoted(""))
    for left in (MAX_INPUT + 1, 2**64 - 1):
        status, text = READ_FAULT
        row("remark", left, "none")(status, MAX_INPUT + 1, quoted(text))


def readers():
    part("a reader that fails once, before each read that is needed and behind them; one that is interrupted goes on")
    for size in (5, 86, 100):
        # the last read is that of the end
        needed = -(-len(TRACE) // size) + 1
        for reads in range(needed + 1):
            for fails in (*FAILURES, "interrupted"):
                is_read = reads >= needed or fails == "interrupted"
                status, text = (BAD, PRINTED) if is_read else FAILURES[fails]
                row("chunks", size, reads, fails)(status, quoted(text))


def writers():
    part("a writer that takes so many bytes a write and so many in all, and then fails; and one that isn't flushed")
    for size in (1, 3, 100):
        for room in range(len(PRINTED) + 2):
            for flushes in (True, False):
                is_done = room >= len(PRINTED) and flushes
                row("writer", size, room, str(flushes).lower())(BAD if is_done else FAULT, quoted(PRINTED[:room]))


def write():
    """Writes the rows, behind what is stored of the callers themselves."""
    given = "".join(f"{line}\n" for line, _ in ROWS)
    answers = [answer for _, answer in ROWS if answer is not None]
    stored = (CRATE / "stdout").read_text(encoding="utf-8").splitlines()
    first = next((at for at, it in enumerate(stored) if it.startswith("forbidden ")), len(stored))
    (CRATE / "stdin").write_text(given, encoding="utf-8")
    (CRATE / "stdout").write_text("".join(f"{it}\n" for it in stored[:first] + answers), encoding="utf-8")


if __name__ == "__main__":
    for made in (peers, remarks, readers, writers):
        made()
    write()
