"""Clocks that run faster, for a server and a program: an hour of their time passes in minutes.

libfaketime does that, preloaded as the command `faketime` does it, but by no process of its own, which would stand
between a run and what it ends. timeouts.c does the same with what libfaketime lacks, the timeouts of sockets.
"""

import glob
import os
import shutil
import subprocess

LIBRARIES = "/usr/lib/*/faketime/libfaketimeMT.so.1"  # Debian: libfaketime
SOURCE = os.path.join(os.path.dirname(os.path.abspath(__file__)), "timeouts.c")


class Clocks:
    """What sets the clock of processes, or why there is none that runs faster."""

    def __init__(self, folder):
        self.why = ""
        libraries, compiler = glob.glob(LIBRARIES), shutil.which(os.environ.get("CC") or "cc")
        self._preloaded = [*libraries[:1], os.path.join(folder, "timeouts.so")]
        if not libraries:
            self.why = "libfaketime isn't installed: apt-get install faketime"
        elif compiler is None or subprocess.run([compiler, "-std=c11", "-O1", "-Wall", "-Wextra", "-shared", "-fPIC",
                                                 SOURCE, "-o", self._preloaded[1]], check=False).returncode != 0:
            self.why = "timeouts.c isn't built"

    def environment(self, pace):
        """The variables of a process whose clock runs so many times as fast."""
        if pace == 1:
            return {}
        # a sanitizer that is a shared library wants to be the first one, unless it is told otherwise; one that gives
        # memory back reads the clock while it allocates, which libfaketime answers by allocating: both wait for ever
        return {"LD_PRELOAD": ":".join(self._preloaded), "FAKETIME": f"+0 x{pace}",
                "ASAN_OPTIONS": "verify_asan_link_order=0:allocator_release_to_os_interval_ms=-1"}
