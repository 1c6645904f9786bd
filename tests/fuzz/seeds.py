#!/usr/bin/env python3
"""seeds.py FOLDER: writes inputs for fuzz.c to begin with.

They walk each exchange of tests/c/samples.h to each fifth step, do each operation there, and walk on; and they hand in
each of its stored texts behind some steps. What the numbers mean is said in fuzz.c.
"""

import os
import re
import sys

EXCHANGES = [*range(19), 28, 129, 131]  # the first byte: exchanges, and the two that bench/c_calls.c times
STEPS = range(0, 126, 5)
WALK_SOME, FEED_ANY, OPERATIONS, FIRST_CALL, CALLS = 0, 5, 14, 32, 23
GIVEN, REFUSED = (1, 2, 3, 5, 8), (4, 1, 0, 0, 0)  # arguments; the first of the second is no transport
FROM_SERVER, OF_INPUT = 3, 3  # how feed_any takes addresses and bytes
LONGEST = 200  # texts beyond are long payloads, which fuzz.c fills by itself
SAMPLES = os.path.join(os.path.dirname(os.path.abspath(__file__)), "..", "c", "samples.h")


def walk(steps):
    """The operations that walk so many steps: 32 at most in one."""
    script = b""
    while steps > 0:
        script += bytes((WALK_SOME, min(steps, 32) - 1))
        steps -= 32
    return script


def texts():
    with open(SAMPLES, encoding="utf-8") as samples:
        for found in re.finditer(r"text_\d+\[\d+\] = \{([0-9, ]+)\}", samples.read()):
            text = bytes(map(int, found.group(1).split(",")))
            if len(text) <= LONGEST:
                yield text


def operations():
    """Each operation with its arguments; calls also with such as are refused."""
    asked = range(FIRST_CALL, FIRST_CALL + CALLS)
    for operation in (*range(OPERATIONS), *asked):
        yield bytes((operation, *GIVEN))
    for operation in asked:
        yield bytes((operation, *REFUSED))


def seeds():
    rest = walk(max(STEPS))
    for exchange in EXCHANGES:
        for steps in STEPS:
            for operation in operations():
                yield bytes((exchange,)) + walk(steps) + operation + rest
    for number, text in enumerate(texts()):
        for exchange in EXCHANGES[:3]:
            feed = bytes((FEED_ANY, FROM_SERVER, OF_INPUT, len(text))) + text
            yield bytes((exchange,)) + walk(8 * (number % 12)) + feed + rest


def main():
    os.makedirs(sys.argv[1], exist_ok=True)
    count = 0
    for count, seed in enumerate(seeds(), 1):
        with open(os.path.join(sys.argv[1], f"seed-{count}"), "wb") as out:
            out.write(seed)
    print(f"{count} seeds")


if __name__ == "__main__":
    sys.exit(main())
