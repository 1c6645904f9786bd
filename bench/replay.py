#!/usr/bin/env python3
"""Measures what `turn-replay` keeps for each line of a trace, and of answers.

    bench/replay.py [--results FILE] [--note TEXT]

It runs the program that `rt run` or `rt ci` built in `crates/turn_replay/out`, on traces of the longest
kinds: 1,000,000 `draw` lines, of which each but the first is answered `none`; and answers that no line
names, beside as many that a line names. What a process held at most is told by the system; what it holds
of as many bytes that are one remark is taken off. More than 40 bytes a line, or more than 40 bytes for an
answer that no line names, are a missed bound, and so is an answer that is named and takes nothing. It
ends with 1 where a bound is missed. --results writes a section of results/speed.md.
"""

import argparse
import subprocess
import sys
import tempfile
from pathlib import Path

TOP = Path(__file__).resolve().parent.parent
sys.dont_write_bytecode = True
sys.path.insert(0, str(TOP / "tools"))

import results  # noqa: E402

SECTION = "Memory of a replay"
PROGRAM = TOP / "crates/turn_replay/out/turn_replay"
SETUP = (
    "desk realm sha1 auto\n"
    "user user pass\n"
    "client udp 192.168.0.1:1000 10.0.0.2:2000 udp 4 sha1 auto user pass 0\n"
)
MOST = 40
LINES = 1_000_000
ANSWERS = 100_000


# Runs a program on a file, and prints its exit status and the most memory that it held, in kilobytes. That
# of a process counts from the one that started it, so it is started by a small one.
RUNNER = """
import os, sys
given = os.open(sys.argv[2], os.O_RDONLY)
nowhere = os.open(os.devnull, os.O_WRONLY)
moved = [(os.POSIX_SPAWN_DUP2, given, 0), (os.POSIX_SPAWN_DUP2, nowhere, 1)]
child = os.posix_spawn(sys.argv[1], sys.argv[1:2], {}, file_actions=moved)
_, ended, usage = os.wait4(child, 0)
print(os.waitstatus_to_exitcode(ended), usage.ru_maxrss)
"""


def held(trace):
    """How many bytes the program held at most on this trace, whose every line is done."""
    with tempfile.NamedTemporaryFile() as given:
        given.write(trace.encode())
        given.flush()
        small = [sys.executable, "-I", "-S", "-c", RUNNER, PROGRAM, given.name]
        told = subprocess.run(small, check=True, stdout=subprocess.PIPE, text=True).stdout
    status, kilobytes = map(int, told.split())
    if status != 0:
        sys.exit(f"the program ended with {status} where 0 was due")
    return kilobytes * 1024


def beside_a_remark(trace):
    """The same, beside what it holds of one remark of as many bytes."""
    setup = len(SETUP)
    return held(trace) - held(SETUP + "#" * (len(trace) - setup))


def measured():
    """What is measured: its name, how many bytes, what is wanted, and whether that is met."""
    each = beside_a_remark(SETUP + "draw 0\n" * LINES) / LINES
    yield "a `draw` line that is answered `none`", each, f"at most {MOST}", each <= MOST
    # A desk answers each request of no user with a challenge of some 100 bytes.
    ask = "todesk 0 192.168.0.1:1000 @1 0 refuse 400\n"
    asked = SETUP + "draw 0\n" + ask * ANSWERS
    unnamed = beside_a_remark(asked) / ANSWERS
    yield "an answer that no line names", unnamed, f"at most {MOST}", unnamed <= MOST
    words = "+".join(f"@{number}:0:1" for number in range(2, ANSWERS + 2))
    naming = f"toclient 0 10.0.0.2:2000 192.168.0.1:1000 {words}\n"
    named = (held(asked + naming) - held(asked + "#" * len(naming))) / ANSWERS
    yield "an answer that a later line names", named, "more than one that no line names", named > unnamed


def table(rows):
    """The table of what was measured, a row each."""
    lines = [(name, f"{each:.1f}", wanted, "" if is_met else "missed") for name, each, wanted, is_met in rows]
    return results.table(("for each", "bytes", "wanted", ""), lines)


def main():
    parser = argparse.ArgumentParser(description=__doc__, formatter_class=argparse.RawDescriptionHelpFormatter)
    results.add_options(parser)
    given = parser.parse_args()
    if not PROGRAM.exists():
        sys.exit(f"{PROGRAM} is not there: `rt run` in crates/turn_replay builds it")
    rows = []
    for name, each, wanted, is_met in measured():
        print(f"{name}: {each:.1f} bytes{'' if is_met else ', A MISSED BOUND'}", flush=True)
        rows.append((name, each, wanted, is_met))
    if given.results:
        results.write(given.results, "speed", SECTION, results.head(results.own_command(), given.note), table(rows))
    return 0 if all(is_met for *_, is_met in rows) else 1


if __name__ == "__main__":
    sys.exit(main())
