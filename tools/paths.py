#!/usr/bin/env python3
"""Counts the paths that `rt` walks: from each crate of `crates.txt` down to each library below it, where a
crate has one path, and those behind it, for each library of the repository that its line lists. It prints
the crates with the most of them and the sum, and ends with 1 where the sum is over 700,000."""

import functools
import sys
from pathlib import Path

TOP = Path(__file__).resolve().parent.parent
MOST = 700_000
PRINTED = 10


def lists(text):
    """Each crate's libraries of the repository."""
    lines = [line.split("#")[0].partition(":") for line in text.splitlines()]
    listed = {name.split()[0]: libraries.split() for name, colon, libraries in lines if colon}
    return {name: [it for it in of if it in listed] for name, of in listed.items()}


def counted(top=TOP):
    """Of each crate how many paths there are."""
    listed = lists((top / "crates.txt").read_text(encoding="utf-8"))

    @functools.cache
    def paths(name):
        return sum(1 + paths(it) for it in listed[name])

    return {name: paths(name) for name in listed}


def main():
    found = counted()
    for name in sorted(found, key=found.get, reverse=True)[:PRINTED]:
        print(f"{found[name]:8,} {name}")
    whole = sum(found.values())
    print(f"{whole:8,} in all, of {len(found)} crates")
    return 0 if whole <= MOST else 1


if __name__ == "__main__":
    sys.exit(main())
