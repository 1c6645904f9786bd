#!/usr/bin/env python3
"""Takes a client through whole courses, and refuses it each of its allocations in turn.

    tests/memory/refused_client.py

`tests/memory/check` runs it. The client is bindings/python/turn_client.py over a shared library of `libturn_client.a`
(that of dist/; TURN_CLIENT_LIB names another folder, CC another compiler), in which `tests/c/refuse.c` counts the
allocations. The courses stand in `refused_courses.py`, the server in
`refused_server.py`, how two runs are compared in `refused_walk.py`. No answer is stored: a run that is
refused memory is held against the one that isn't.

Of each refusal it is judged that

- each answer before it is that of the ample run;
- the call that is refused says NoMemory; or it is one of `recv`, `poll_recv` and `poll`, which note why events
  happen, and the rest of the run is that of the ample one, byte for byte;
- a call of the user's has changed nothing that the client holds, and behind it the same call answers what it
  does with ample memory, and so does the rest of the run;
- behind another call the client has failed: it holds nothing, sends nothing, gives nothing, tells the
  events that waited before that call and no others, and is closed;
- all memory is given back at the end.

A line for each course tells how many allocations it has. The last line is `client: N passed, M failed`, and
the exit status is 0 where M is 0.
"""

import ctypes
import importlib
import os
import subprocess
import sys
import tempfile
from pathlib import Path

TOP = Path(__file__).resolve().parents[2]
sys.dont_write_bytecode = True
sys.path += [str(TOP / "tests/oracle"), str(TOP / "tests/hostile")]

from refused_courses import A, B, COURSES  # noqa: E402
from refused_server import data, framed  # noqa: E402
from refused_walk import Failed, Fault, Walk, pair  # noqa: E402

FOLDER = Path(os.environ.get("TURN_CLIENT_LIB") or TOP / "dist/x86_64-linux-gnu")
UNPROVED = FOLDER / "libturn_client_unproved.a"
ARCHIVE = UNPROVED if UNPROVED.exists() else FOLDER / "libturn_client.a"
# what the library that bindings/c/try makes wants, and a name that it has for that
SANITIZER = ["-fsanitize=address"] * (ARCHIVE is UNPROVED)
OPTIONS = "__asan_default_options; " * (ARCHIVE is UNPROVED)
# more allocations than a course has
AMPLE = 1 << 30


class Library:
    """The client's module, and the counters of the library below it."""

    def __init__(self, room):
        path = f"{room}/libturn_client.so"
        names = Path(room, "names")
        names.write_text(f"{{ global: turn_client_*; refuse_*; {OPTIONS}local: *; }};\n")
        how = ["-shared", "-fPIC", "-O1", "-Wall", "-Wextra", "-Werror", "-Wl,-z,defs", *SANITIZER]
        how += [f"-Wl,--version-script={names}"]
        how += [f"-Wl,--wrap={it}" for it in ("malloc", "realloc", "free")]
        archive = ["-Wl,--whole-archive", ARCHIVE, "-Wl,--no-whole-archive"]
        given = [TOP / "tests/c/refuse.c", *archive]
        subprocess.run([os.environ.get("CC", "cc"), *how, "-o", path, *given], check=True)
        os.environ["TURN_CLIENT_LIB"] = room
        sys.path.append(str(TOP / "bindings/python"))
        self.turn = importlib.import_module("turn_client")
        counters = ctypes.CDLL(path)
        self.left, self.held = (ctypes.c_long.in_dll(counters, it) for it in ("refuse_left", "refuse_held"))

    def is_refused(self):
        """Whether the allocation that was to be refused has been."""
        return self.left.value < 0


# ---- what is judged


def judge_failed(walk, waiting):
    """Behind a call after which the client has failed, where these events waited before it."""
    client, turn, now = walk.client, walk.turn, walk.now
    judge_empty(walk)
    told = []
    while (answer := client.poll(now)) != turn.Closed():
        if answer != turn.WaitUntil(now):
            raise Fault(f"a client that has failed answers poll with {answer}")
        told.append(client.poll_event())
        if told[-1] is None:
            raise Fault("a client that has failed waits, and has no event")
    if tuple(told) != waiting or client.poll_event() is not None:
        raise Fault(f"a client that has failed tells {told}, and not {waiting}")
    for peer in map(pair, walk.course.known):
        judge_asked(walk, peer)
    judge_empty(walk)


def judge_asked(walk, peer):
    """It has no allocation for what is asked, and no permission for what is to be sent."""
    turn, now, by = walk.turn, walk.now, walk.turn.Transport(walk.course.peers)
    calls = (
        ("delete", (now,), turn.NoAllocation),
        ("create_permission", (by, peer[0], now), turn.NoAllocation),
        ("create_permissions", (by, [peer[0]], now), turn.NoAllocation),
        ("bind_channel", (by, peer, now), turn.NoAllocation),
        ("tcp_connect", (peer, now), turn.NoAllocation),
        ("send_to", (by, peer, b"hello", now), turn.NoPermission),
    )
    for name, given, wanted in calls:
        answer = walk.tried(name, given, {})
        if type(answer) is not wanted:
            raise Fault(f"a client that has failed answers {name} with {answer!r}")


def judge_empty(walk):
    """It holds nothing, sends nothing, and gives nothing of what comes."""
    client, turn, now = walk.client, walk.turn, walk.now
    relayed, permitted, has, channels, connections = walk.held()
    if any((relayed, *permitted, *has, channels, connections)):
        raise Fault(f"a client that has failed holds {walk.held()}")
    if (sent := client.poll_transmit(now)) is not None:
        raise Fault(f"a client that has failed sends {sent}")
    given = [client.recv(data(it, b"hello"), now) for it in walk.course.known]
    given += [client.recv(framed(channel, b"hello"), now) for channel in (A, B)]
    given.append(client.poll_recv(now))
    if any(isinstance(it, (turn.PeerData, turn.PeerIcmp)) for it in given):
        raise Fault(f"a client that has failed gives {given}")


def fault_with(library, course, ample, number):
    """Why a run is not good in which the allocation of this number is refused, or None; and whether one
    was."""
    walk = Walk(library, course, ample)
    library.left.value, library.held.value = number, 0
    try:
        course.way(walk)
        if len(walk.told) != len(ample):
            raise Fault(f"it ends, and the ample run went on: {ample[len(walk.told)].exact}")
        why = None
    except Failed:
        why = fault_of_failed(walk, ample[len(walk.told)].waiting)
    except Fault as fault:
        why = str(fault)
    was_refused = library.is_refused()
    walk.close()
    if why is None and library.held.value != 0:
        why = f"{library.held.value} blocks are left at the end"
    return why and f"{walk.refused or walk.lost}: {why}", was_refused


def fault_of_failed(walk, waiting):
    try:
        judge_failed(walk, waiting)
    except Fault as fault:
        return str(fault)
    return None


def ample_run(library, course):
    """What a course tells that is refused nothing. It is run twice: in the second run the events are taken
    as soon as they are told, so that it is known which of them wait before each call."""
    told = None
    for is_early in (False, True):
        walk = Walk(library, course, told, is_early)
        library.left.value = AMPLE
        course.way(walk)
        walk.close()
        told = walk.told
    return told


def judged(library, course):
    """How many refusals of a course are good, and what is not good."""
    good, faults, number = 0, [], 0
    try:
        ample = ample_run(library, course)
    except Fault as fault:
        return 0, [f"{course.name}, with ample memory: {fault}"]
    while True:
        why, was_refused = fault_with(library, course, ample, number)
        number += 1
        if why:
            faults.append(f"{course.name}, allocation {number}: {why}")
        elif was_refused:
            good += 1
        if not was_refused:
            return good, faults or [f"{course.name}: nothing is refused"] * (number == 1)


def main():
    if not ARCHIVE.exists():
        print(f"failed: {ARCHIVE} is not there\nclient: 0 passed, 1 failed")
        return 1
    passed, faults = 0, []
    with tempfile.TemporaryDirectory(prefix="refused-client-") as room:
        library = Library(room)
        for course in COURSES:
            good, found = judged(library, course)
            print(f"{course.name}: {good + len(found)} allocations")
            passed += good
            faults += found
    for it in faults:
        print(f"failed: {it}")
    print(f"client: {passed} passed, {len(faults)} failed")
    return 1 if faults else 0


if __name__ == "__main__":
    sys.exit(main())
