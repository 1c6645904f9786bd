"""Finds how much of the processors the processes below `rt ci` take, by samples of /proc.

`rt ci` starts the compiler anew for each check, build and must-fail edit of a crate, and an edit's in a folder of its
own. So a process that `rt` started is told apart by its words and its folder. Of each, with all processes below it, the
last sample counts: what it takes after that, half a second at most, is in no sum.
"""

import os
import re
import threading
from pathlib import Path

EACH = 0.5
TICKS = os.sysconf("SC_CLK_TCK")
CRATE = re.compile(rb"\0--crate-name\0(\w+)\0")
# where rt tries an edit
EDIT = re.compile(r"/rt-edits?-")


def processes(proc=Path("/proc")):
    """Of each process by its number: its parent's number, when it began, and its seconds: its own, and those of
    children that have ended."""
    found = {}
    for path in proc.iterdir():
        if not path.name.isdigit():
            continue
        try:
            fields = (path / "stat").read_text(errors="replace").rpartition(")")[2].split()
        except OSError:
            continue
        if len(fields) > 19:
            own, ended = (sum(map(int, fields[at : at + 2])) / TICKS for at in (11, 13))
            found[int(path.name)] = int(fields[1]), int(fields[19]), own, ended
    return found


def label(pid, proc=Path("/proc")):
    """The crate that a process checks or builds, and whether for an edit; None of any other process."""
    try:
        crate = CRATE.search((proc / str(pid) / "cmdline").read_bytes())
        return crate and (crate[1].decode(), bool(EDIT.search(os.readlink(proc / str(pid) / "cwd"))))
    except OSError:
        return None


class Sampler:
    """Samples what is below a process, from `with` to its end."""

    def __init__(self, pid, proc=Path("/proc")):
        self.pid, self.proc = pid, proc
        self.rt, self.spent, self.labels = 0.0, {}, {}
        self._ended = threading.Event()
        self._thread = threading.Thread(target=self._go_on, daemon=True)

    def __enter__(self):
        self._thread.start()
        return self

    def __exit__(self, *_):
        self._ended.set()
        self._thread.join()

    def _go_on(self):
        while not self._ended.wait(EACH):
            try:
                self.sample()
            except (OSError, ValueError):
                pass

    def sample(self):
        """Notes what each process that the sampled one started has taken until now."""
        known = processes(self.proc)
        if self.pid not in known:
            return
        self.rt, below = known[self.pid][2], {}
        for pid, (parent, *_) in known.items():
            below.setdefault(parent, []).append(pid)
        for child in below.get(self.pid, ()):
            key, whole, left = (child, known[child][1]), 0.0, [child]
            while left:
                pid = left.pop()
                left += below.get(pid, ())
                whole += known[pid][2] + known[pid][3]
                self.labels[key] = self.labels.get(key) or label(pid, self.proc)
            self.spent[key] = whole

    def crates(self):
        """Of each crate the seconds to prove and build it, and those of its edits."""
        found = {}
        for key, seconds in self.spent.items():
            if self.labels[key]:
                name, is_edit = self.labels[key]
                found.setdefault(name, [0.0, 0.0])[is_edit] += seconds
        return found
