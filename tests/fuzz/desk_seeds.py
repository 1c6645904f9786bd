#!/usr/bin/env python3
"""desk_seeds.py FOLDER: writes inputs for desk.c to begin with.

Each has one request: of each method, with each decision, and of each form, with well-formed attributes of each type; a
signed ALLOCATE before another signed request; and a signed request for each of the first allocations that fails. What
the numbers mean is said in desk.c.
"""

import os
import sys

METHODS, DECISIONS, FORMS, FAILING, NO_FAILURE = range(6), range(8), range(1, 4), range(64), 255
SIGNED, ALLOCATE, DECIDES_ONE = 2, 0, 4  # a form, a method, a decision to allocate one address
WELL_FORMED, SIZES = 0x80, (4, 4, 8, 20, 4, 4, 4)


def attributes():
    """One of each type, with a value of zeros."""
    return b"".join(bytes((WELL_FORMED | choice, *[0] * size)) for choice, size in enumerate(SIZES))


def datagram(source, choice, form, method):
    body = attributes()
    return bytes((source, choice, form + 4 * method, len(body))) + body


def seeds():
    for method in METHODS:
        for decision in DECISIONS:
            for form in FORMS:
                yield NO_FAILURE, datagram(0, decision, form, method)
            yield NO_FAILURE, datagram(1, DECIDES_ONE, SIGNED, ALLOCATE) + datagram(1, decision, SIGNED, method)
    for failing in FAILING:
        yield failing, datagram(0, DECIDES_ONE, SIGNED, ALLOCATE)


def main():
    folder = sys.argv[1]
    os.makedirs(folder, exist_ok=True)
    for number, (failing, datagrams) in enumerate(seeds()):
        with open(os.path.join(folder, f"{number:04}"), "wb") as seed:
            seed.write(bytes((failing,)) + datagrams)


if __name__ == "__main__":
    main()
