#!/usr/bin/env python3
"""Measures the calls of turn_client.h: builds c_calls.c and attempts.c over the library, and runs it (docs/SPEED.md).

    bench/c_calls.py [ROUNDS] [--runs N] [--results FILE] [--note TEXT]

It runs N times, once where no number is given, each with so many rounds, 40 where no number is given. The library is
that of dist/x86_64-linux-gnu; TURN_CLIENT_LIB names another folder, and CC another compiler than cc. --results writes a
section of results/speed.md, in which a figure is the median of the runs. It ends with 1 where an answer is wrong, or
an attempt takes longer than its bound in attempts.c.
"""

import argparse
import os
import re
import subprocess
import sys
import tempfile
from pathlib import Path

TOP = Path(__file__).resolve().parent.parent
sys.dont_write_bytecode = True
sys.path.insert(0, str(TOP / "tools"))

import released  # noqa: E402
import results  # noqa: E402

FILES = ("bench/c_calls.c", "bench/attempts.c", "bench/messages.c", "tests/c/steps.c", "tests/fuzz/sign.c")
SECTION = "Calls from C"
TIMED = re.compile(r"^  (\S.*?) +(-?\d+) ns +(\d+) allocations$")


def build(folder):
    """Builds the program: its path."""
    library = os.environ.get("TURN_CLIENT_LIB") or str(released.DIST)
    files = [str(TOP / it) for it in FILES]
    words = [os.environ.get("CC", "cc"), "-std=c11", "-O2", "-Wall", "-Wextra", f"-I{library}", *files]
    words += [f"{library}/libturn_client.a", "-Wl,--wrap=malloc,--wrap=realloc", "-o", f"{folder}/c_calls"]
    subprocess.run(words, check=True)
    return f"{folder}/c_calls"


def read(text):
    """The rows that a run printed: the exchange, the step, nanoseconds, allocations."""
    rows, exchange = [], ""
    for line in text.splitlines():
        found = TIMED.match(line)
        if found:
            rows.append((exchange, found[1], float(found[2]), int(found[3])))
        else:
            exchange = line.strip()
    return rows


def table(runs):
    """The table of some runs, each as `read` gives it."""
    rows = [
        (exchange, name, *results.spread([run[at][2] for run in runs], "{:.0f}"), taken)
        for at, (exchange, name, _, taken) in enumerate(runs[0])
    ]
    return results.table(("exchange", "call", "ns, median", "least", "greatest", "allocations"), rows)


def main():
    parser = argparse.ArgumentParser(description=__doc__, formatter_class=argparse.RawDescriptionHelpFormatter)
    parser.add_argument("rounds", nargs="?", type=int, default=40)
    parser.add_argument("--runs", type=int, default=1, metavar="N")
    results.add_options(parser)
    given, runs = parser.parse_args(), []
    with tempfile.TemporaryDirectory(prefix="c-calls-") as folder:
        program = build(folder)
        for _ in range(max(1, given.runs)):
            ran = subprocess.run([program, str(given.rounds)], stdout=subprocess.PIPE, text=True)
            print(ran.stdout, end="", flush=True)
            if ran.returncode:
                return 1
            runs.append(read(ran.stdout))
    if given.results:
        compiler = results.printed(os.environ.get("CC", "cc"), "--version").partition("\n")[0]
        top = results.head(results.own_command(), given.note, compiler=compiler)
        results.write(given.results, "speed", SECTION, top, table(runs))
    return 0


if __name__ == "__main__":
    sys.exit(main())
