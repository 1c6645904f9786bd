"""Runs a program of a crate on its stored input, as `rt ci` does: `stdin`, `stdout`, `args`, `status` and `data/`
beside its `src/`."""

import shutil
import subprocess
import tempfile

from released import TOP

SECONDS = 120


def stored(crate, name):
    """The bytes of a stored file, nothing where it isn't there."""
    path = TOP / "crates" / crate / name
    return path.read_bytes() if path.is_file() else b""


def fault(crate, program):
    """How a run differs from what is stored, or None."""
    words = [str(program), *stored(crate, "args").decode().splitlines()]
    wanted, status = stored(crate, "stdout"), int(stored(crate, "status") or 0)
    with tempfile.TemporaryDirectory(prefix="stored-run-") as room:
        if (TOP / "crates" / crate / "data").is_dir():
            shutil.copytree(TOP / "crates" / crate / "data", room, dirs_exist_ok=True)
        how = {"input": stored(crate, "stdin"), "stdout": subprocess.PIPE, "cwd": room, "timeout": SECONDS}
        try:
            ran = subprocess.run(words, **how)
        except subprocess.TimeoutExpired:
            return f"it had not ended after {SECONDS} seconds"
    if ran.returncode != status:
        return f"it ended with status {ran.returncode}, and not {status}"
    lines, stored_lines = ran.stdout.split(b"\n"), wanted.split(b"\n")
    differing = next((n for n, pair in enumerate(zip(lines, stored_lines), 1) if pair[0] != pair[1]), None)
    if differing or len(lines) != len(stored_lines):
        return f"what it printed differs from its file stdout at line {differing or min(len(lines), len(stored_lines))}"
    return None
