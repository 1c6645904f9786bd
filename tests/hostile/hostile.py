#!/usr/bin/env python3
"""Makes hostile traces, runs them through `turn_replay`, and judges what they are answered.

    tests/hostile/hostile.py SEED COUNT [PROGRAM]   makes and judges COUNT traces of a seed
    tests/hostile/hostile.py store [PROGRAM]        writes 200 of the seed 0 to `hostile.traces`
    tests/hostile/hostile.py stored [PROGRAM]       judges those, and that the judge sees what is falsified

With --results FILE the first adds a row to the runs of results/hostile.md, and the last writes there how many of its
traces reach what. --note TEXT goes with it.

Traces are made by `hostile_courses.py` in rounds: a course is told what its lines were answered before it goes on.
Each trace that is whole runs twice more than was needed to make it; `hostile_judge.py` judges the first answers, and
the second ones are to be the same. What the program held at most is told by the system: more than is said below, or
more seconds, is a fault.

What is wrong is printed, a line each, and the trace is written to a file of the working folder. The last line is
`hostile: N right, M wrong`, and the exit status 0 where M is 0. Where no PROGRAM is named, it is the one that is to
be tested (`built` of tools/programs.py).
"""

import argparse
import re
import subprocess
import sys
import tempfile
import time
from pathlib import Path

TOP = Path(__file__).resolve().parents[2]
sys.dont_write_bytecode = True
sys.path += [str(TOP / "tools"), str(TOP / "tests/oracle")]

import programs  # noqa: E402
import released  # noqa: E402
import results  # noqa: E402
from hostile_courses import begun, dice_of, goes_further  # noqa: E402
from hostile_falsified import unseen  # noqa: E402
from hostile_judge import fault  # noqa: E402

STORED = TOP / "tests/hostile/hostile.traces"
STORED_COUNT = 200
ROUNDS = 12
BATCH = 200
SECONDS = 100
# what the program may hold: so many bytes, and so many for each byte of its input
HELD, HELD_EACH = 16_000_000, 8
OTHERS = 12
# how often a long run tells how far it is
TOLD = 10_000

# What answers show that a trace reaches.
REACHED = {
    "allocation created": r"event AllocationCreated .*",
    "permission created": r"event PermissionCreated .*",
    "channel created": r"event ChannelCreated .*",
    "TCP connection bound": r"event TcpConnected .*",
    "data of a peer": r"peer .*",
    "report of an ICMP error": r"icmp .*",
    "a peer's connection attempt answered": r"transmit \S+ \S+ 011c.*",
    "client closed": r"closed",
}
RUN_HEADS = ("date", "commit", "machine", "program", "seed", "traces", "wrong", "lines", "seconds", "note")

# Runs a program, and prints its exit status and the most memory that it held, in kilobytes. That of a process
# counts from the one that started it, so it is started by a small one.
RUNNER = """
import os, sys
files = [os.open(sys.argv[2], os.O_RDONLY), os.open(sys.argv[3], os.O_WRONLY)]
moved = [(os.POSIX_SPAWN_DUP2, it, at) for at, it in enumerate(files)]
child = os.posix_spawn(sys.argv[1], sys.argv[1:2], {}, file_actions=moved)
_, ended, usage = os.wait4(child, 0)
print(os.waitstatus_to_exitcode(ended), usage.ru_maxrss)
"""


class Broken(Exception):
    """Why a run of the program can't be judged."""


def run(program, traces):
    """The answers to each of some traces, and the status with which it ended."""
    with tempfile.TemporaryDirectory(prefix="hostile-") as room:
        given, printed = Path(room, "given"), Path(room, "printed")
        given.write_text("".join(f"%{it}" for it in traces))
        printed.touch()
        small = [sys.executable, "-I", "-S", "-c", RUNNER, program, given, printed]
        try:
            told = subprocess.run(small, stdout=subprocess.PIPE, text=True, timeout=SECONDS).stdout
        except subprocess.TimeoutExpired:
            raise Broken(f"it did not end in {SECONDS} seconds") from None
        lines, most = printed.read_text(errors="replace").split("\n"), HELD + HELD_EACH * given.stat().st_size
    status, kilobytes = map(int, told.split())
    answers = parted(lines)
    if status != 0 or len(answers) != len(traces):
        raise Broken(f"it ended with {status}, behind {len(answers)} of {len(traces)} traces")
    # a program that `rt try` built holds more, since each access is checked
    if kilobytes * 1024 > most and not programs.is_tried(program):
        raise Broken(f"it held {kilobytes} kilobytes")
    return answers


def parted(lines):
    """Of each trace the answers and the status, out of all lines that were printed."""
    answers, own = [], []
    for line in lines:
        if line.startswith("status "):
            answers.append((own, int(line[7:])))
            own = []
        else:
            own.append(line)
    return answers


def rounds(program, courses):
    """Takes courses to their end, in step: each is told what it was answered."""
    for at in range(ROUNDS):
        for course, (answers, _) in zip(courses, run(program, [it.text() for it in courses])):
            course.learn(answers)
        for course in courses:
            goes_further(course, at == ROUNDS - 1)
    return courses


def others_of(program, seed):
    """Messages of other runs: of clients of other seeds, which nothing disturbs."""
    courses = [begun(f"Another run, {it}", dice_of(seed, "other", it)) for it in range(OTHERS)]
    rounds(program, courses)
    return [data for it in courses for _, data, _ in sorted(it.asked + it.replied)]


def made(program, seed, first, count, others):
    """So many traces of a seed, from this one on."""
    name = f"Hostile, seed {seed}, number "
    courses = [begun(f"{name}{it}", dice_of(seed, it), others) for it in range(first, first + count)]
    return [it.text() for it in rounds(program, courses)]


def faults(program, traces):
    """What is wrong with each trace, or None."""
    answers, again = run(program, traces), run(program, traces)
    for trace, (told, status), second in zip(traces, answers, again):
        yield "other answers the second time" if (told, status) != second else fault(trace, told, status)


def kept(trace):
    """Writes a trace to a file: its name."""
    path = Path(f"hostile-{time.time_ns()}.trace")
    path.write_text(trace)
    return path


def tell(found, traces):
    """Prints what is wrong: how many are right, and how many wrong."""
    wrong = 0
    for why, trace in zip(found, traces):
        if why:
            wrong += 1
            remark = trace.split("\n")[0]
            print(f"failed: {remark[2:]}: {why}; kept in {kept(trace)}", flush=True)
    return len(traces) - wrong, wrong


def many(program, seed, count):
    """Makes and judges traces, a batch at a time: how many are right and wrong, and how many lines they had."""
    others, right, wrong, lines = others_of(program, seed), 0, 0, 0
    for first in range(0, count, BATCH):
        size = min(BATCH, count - first)
        try:
            traces = made(program, seed, first, size, others)
            good, bad = tell(faults(program, traces), traces)
        except Broken as why:
            print(f"failed: seed {seed}, numbers {first} to {first + size - 1}: {why}", flush=True)
            good, bad, traces = 0, size, []
        right, wrong, lines = right + good, wrong + bad, lines + sum(it.count("\n") for it in traces)
        if (first + size) % TOLD == 0:
            print(f"{first + size}: {wrong} wrong", flush=True)
    return right, wrong, lines


def how_built(program):
    """How a program was built, as a page says it."""
    if programs.is_tried(program):
        return "by `rt try`, not proved"
    return "released" if released.DIST in program.parents else "proved"


def parsed():
    parser = argparse.ArgumentParser(description=__doc__, formatter_class=argparse.RawDescriptionHelpFormatter)
    parser.add_argument("words", nargs="+", metavar="WORD", help="SEED COUNT, `store` or `stored`; then a PROGRAM")
    results.add_options(parser)
    given = parser.parse_args()
    is_long, count = given.words[0].isdigit(), len(given.words)
    if not (is_long and count in (2, 3) or given.words[0] in ("store", "stored") and count < 3):
        parser.error("give SEED COUNT, `store` or `stored`, and then at most a PROGRAM")
    return given, given.words.pop() if count == (3 if is_long else 2) else None


def main():
    given, named = parsed()
    program = Path(named).resolve() if named else programs.built("turn_replay")
    if not program.exists():
        print(f"failed: {program} is not there\nhostile: 0 right, 1 wrong")
        return 1
    if given.words == ["store"]:
        STORED.write_text("%".join(made(program, 0, 0, STORED_COUNT, others_of(program, 0))))
        return 0
    if given.words == ["stored"]:
        return stored(program, given)
    before, (seed, count) = time.time(), map(int, given.words)
    right, wrong, lines = many(program, seed, count)
    seconds = time.time() - before
    print(f"{lines} lines in {seconds:.0f} seconds")
    print(f"hostile: {right} right, {wrong} wrong")
    if given.results:
        where = (results.today(), results.commit(), results.machine())
        row = (*where, how_built(program), seed, f"{right + wrong:,}", wrong, f"{lines:,}", f"{seconds:.0f}")
        row = (*row, given.note)
        results.add_row(given.results, "hostile", "tests/hostile/hostile.py SEED COUNT", RUN_HEADS, row)
    return 1 if wrong else 0


def reached(answers):
    """How many traces reach what."""
    for name, form in REACHED.items():
        yield name, sum(any(re.fullmatch(form, it) for it in told) for told, _ in answers)


def write_reached(given, program, answers):
    facts = {"program": how_built(program), "traces": len(answers), "answers": f"{sum(len(it) for it, _ in answers):,}"}
    top = results.head(results.own_command(), given.note, **facts)
    rows = results.table(("reached", "traces"), reached(answers))
    results.write(given.results, "hostile", "What the stored traces reach", top, rows)


def stored(program, given):
    """Judges the stored traces, and the judge."""
    traces = STORED.read_text().split("%")
    right, wrong = 0, 1
    try:
        right, wrong = tell(faults(program, traces), traces)
        answers = run(program, traces)
        for why in unseen(traces, answers):
            print(f"failed: {why}")
            wrong += 1
        if given.results:
            write_reached(given, program, answers)
    except Broken as why:
        print(f"failed: {why}")
    print(f"hostile: {right} right, {wrong} wrong")
    return 1 if wrong else 0


if __name__ == "__main__":
    sys.exit(main())
