#!/usr/bin/env python3
"""Measures what calls of a client cost that holds many permissions and channels, and frames over a socket.

    bench/calls.py [--results FILE] [--note TEXT]

It runs the program that `rt run` or `rt ci` built in `crates/turn_replay/out`, on traces in which a client
is granted so many channels, each with its permission, and then on the same traces with many calls more at
the end. What these took is the difference, of processor time, the least of a few runs each. It takes in
that a line is read, and its answer printed. Binds are as many as there are channels, so the channels are
twice as many in the end. A bind with 1,000 channels that takes more than 100 microseconds is a missed
bound, and so is one with 4,000 that takes more than six times as long. A `poll` or a `draw` while nothing is due
costs the same whatever the client holds: more than three microseconds with 1,000 permissions and channels, or
half as long again with 4,000, is a missed bound. Over the socket of a connection that is to be bound frames
come that tell nothing, 1,000 or 4,000 in a chunk: that a frame of the latter takes more than twice as long is
a missed bound, too. It ends with 1 where a bound is missed. --results writes a section of results/speed.md.
"""

import argparse
import os
import sys
import tempfile
from pathlib import Path

TOP = Path(__file__).resolve().parent.parent
sys.dont_write_bytecode = True
sys.path.insert(0, str(TOP / "tools"))

import results  # noqa: E402

SECTION = "A client with many channels"
PROGRAM = TOP / "crates/turn_replay/out/turn_replay"
CLIENT, SERVER, RELAYED = "192.168.0.1:1000", "10.0.0.2:2000", "203.0.113.5:50000"
SOCKET, PEER = "192.168.0.1:1001", "10.0.0.3"
MS = 1_000_000
RUNS = 9
FEW, MANY = 1_000, 4_000
CALLS, FRAMES = 50_000, 80_000
BIND, POLL, GROWTH, SAME, OF_FRAMES = 100.0, 3.0, 6.0, 1.5, 2.0
# a BINDING indication
FRAME = f"00110000{0x2112A442:08x}{1:024x}"


class Lines:
    """The lines of a trace, which can name what earlier ones answered."""

    def __init__(self, transport="udp"):
        self.transport, self.lines = transport, []

    def say(self, line):
        self.lines.append(line)
        return len(self.lines)

    def exchange(self, now, decision):
        """What the client sends is decided by the desk, and the reply is handed to the client."""
        drawn = self.say(f"draw {now}")
        reply = self.say(f"todesk {now} {CLIENT} @{drawn} 0 {decision}")
        self.say(f"toclient {now} {SERVER} {CLIENT} @{reply}")

    def text(self):
        over = self.transport
        setup = (
            "desk realm sha1 auto",
            "user user pass",
            f"client {over} {CLIENT} {SERVER} {over} 4 sha1 auto user pass 0",
        )
        return "".join(f"{line}\n" for line in (*setup, *self.lines))

    def begins(self):
        """The client has an allocation, and no event waits: at this moment."""
        self.exchange(0, "refuse 400")
        self.exchange(50 * MS, f"allocate {RELAYED} 3600")
        self.say("event")
        return 50 * MS


def peer(i):
    """A host of its own for each."""
    return f"10.{1 + i // 65536}.{i // 256 % 256}.{i % 256}:9000"


def holding(channels):
    """A client that holds so many channels, each with a permission; and the moment behind the last grant."""
    t = Lines()
    now = t.begins()
    for i in range(channels):
        t.say(f"bind {now} udp {peer(i)}")
        now += 50 * MS
        t.exchange(now, "grant")
        t.say("event")
        t.say("event")
    return t, now


def joining():
    """A client over TCP that is asking for a connection to be bound, over its socket; and the moment of that."""
    t = Lines("tcp")
    now = t.begins()
    for line, decision in ((f"permission {now} tcp {PEER}", "grant"), (f"connect {now} {PEER}:9000", "connect 7")):
        t.say(line)
        now += 50 * MS
        t.exchange(now, decision)
        t.say("event")
    t.say(f"poll {now}")
    t.say(f"socket {now} 7 {PEER}:9000 {SOCKET}")
    return t, now


def seconds(trace):
    """The least processor time that the program took on this trace, whose every line is done."""
    with tempfile.NamedTemporaryFile() as given:
        given.write(trace.encode())
        given.flush()
        return min(once(given.name) for _ in range(RUNS))


def once(path):
    """The processor time of one run."""
    moved = [
        (os.POSIX_SPAWN_OPEN, 0, path, os.O_RDONLY, 0),
        (os.POSIX_SPAWN_OPEN, 1, os.devnull, os.O_WRONLY, 0),
    ]
    child = os.posix_spawn(PROGRAM, [PROGRAM], {}, file_actions=moved)
    _, ended, usage = os.wait4(child, 0)
    status = os.waitstatus_to_exitcode(ended)
    if status:
        sys.exit(f"the program ended with {status} where 0 was due")
    return usage.ru_utime + usage.ru_stime


def each(channels, calls, line):
    """Microseconds of a call, of so many more on a client that holds so many channels."""
    t, now = holding(channels)
    # as in a program's loop: what is due is known then
    t.say(f"poll {now}")
    before = seconds(t.text())
    for i in range(calls):
        t.say(line(now, i))
    return (seconds(t.text()) - before) / calls * 1e6


def each_frame(count):
    """Microseconds of a frame, of so many in each chunk over the socket of a connection that is to be bound."""
    t, now = joining()
    before = seconds(t.text())
    for _ in range(FRAMES // count):
        t.say(f"toclient {now} {SERVER} {SOCKET} {FRAME * count}")
    t.say("connections")
    return (seconds(t.text()) - before) / FRAMES * 1e6


def measured():
    """What is measured: its name, microseconds beside FEW and beside MANY, what the first may take, and how many times
    as long the second."""
    bind = lambda now, i: f"bind {now} udp {peer(100_000 + i)}"
    poll = lambda now, i: f"poll {now + 50 * MS}"
    draw = lambda now, i: f"draw {now + 50 * MS}"
    yield "bind, beside so many channels", *(each(n, n, bind) for n in (FEW, MANY)), BIND, GROWTH
    yield "poll, beside so many channels", *(each(n, CALLS, poll) for n in (FEW, MANY)), POLL, SAME
    draws = [each(n, CALLS, draw) for n in (FEW, MANY)]
    yield "draw with nothing to send, beside so many channels", *draws, POLL, SAME
    yield "a frame over a socket, of so many in a chunk", *(each_frame(n) for n in (FEW, MANY)), None, OF_FRAMES


def is_met(few, many, most, growth):
    return (most is None or few <= most) and many <= growth * few


def table(rows):
    """The table of what was measured, a row each."""
    lines = []
    for name, few, many, most, growth in rows:
        missed = "" if is_met(few, many, most, growth) else "missed"
        lines.append((name, f"{few:.2f}", most, f"{many:.2f}", f"{growth:g} times", missed))
    return results.table(("microseconds", f"{FEW:,}", "at most", f"{MANY:,}", "at most", ""), lines)


def main():
    parser = argparse.ArgumentParser(description=__doc__, formatter_class=argparse.RawDescriptionHelpFormatter)
    results.add_options(parser)
    given = parser.parse_args()
    if not os.access(PROGRAM, os.X_OK):
        sys.exit(f"{PROGRAM} is not there: `rt run` in crates/turn_replay builds it")
    rows = []
    for row in measured():
        name, few, many, *bounds = row
        rest = "" if is_met(few, many, *bounds) else ", A MISSED BOUND"
        print(f"{name}: {few:.2f} us of {FEW}, {many:.2f} of {MANY}{rest}", flush=True)
        rows.append(row)
    if given.results:
        results.write(given.results, "speed", SECTION, results.head(results.own_command(), given.note), table(rows))
    return 0 if all(is_met(*row[1:]) for row in rows) else 1


if __name__ == "__main__":
    sys.exit(main())
