#!/usr/bin/env python3
"""Writes samples.rs: the exchanges of tests/c/samples.py, as tables of Rust (mod.rs).

    bindings/rust/tests/stored/samples.py

The messages are worked out there by the RFCs, and by nothing of this crate or its archive. Each step is a call of
turn_client.h with what it is given, and what is wanted of it.
"""

import sys
from pathlib import Path

sys.dont_write_bytecode = True

HERE = Path(__file__).resolve().parent
sys.path.insert(0, str(HERE.parents[3] / "tests" / "c"))

import samples  # noqa: E402
import samples_settings  # noqa: E402

HEAD = "// Written by samples.py: change that. It is included by mod.rs alone.\n"
ADDRESSES = "from", "to", "peer", "local", "server"
TEXTS = {}


def rust_bytes(value):
    """Bytes by the name of their constant; of a number so many zeros."""
    if isinstance(value, int):
        return f"&[0; {value}]"
    return TEXTS.setdefault(value, f"TEXT_{len(TEXTS)}")


def rust_value(key, value):
    if key in ("bytes", "password"):
        return rust_bytes(value)
    if key in ADDRESSES and value.startswith(":"):
        return '""'
    if isinstance(value, bool):
        return str(value).lower()
    if isinstance(value, int) and key != "answer":
        return str(value)
    return f'"{value}"'


def rust_fields(fields):
    """Fields as they are written. The kind of an event isn't a number, and no transport is an empty text."""
    for key, value in fields.items():
        if key == "number" and isinstance(value, str):
            key = "kind"
        if value == "none":
            value = ""
        yield f"{key}: {rust_value(key, value)}"


def rust_struct(kind, fields, others):
    return f"{kind} {{ {', '.join((*rust_fields(fields), '..' + others))} }}"


class Exchange(samples.Exchange):
    """One whose steps are written as Rust."""

    def step(self, call, given, want, answer="TURN_OK", name=None, repeats=0):
        wanted = {"answer": answer, **want}
        if "bytes" in want:
            wanted["size"] = len(want["bytes"])
        shown = {"name": name or "", "call": call, "now": self.now, **given}
        step = rust_struct("Step", shown, "STEP")
        self.parts[-1][1].append(step.replace("..STEP", f"want: {rust_struct('Told', wanted, 'TOLD')}, ..STEP"))

    def rust_lines(self):
        yield f"    {rust_struct('Exchange', {'name': self.name, **self.settings}, 'EXCHANGE')[:-len('..EXCHANGE }')]}"
        yield "        parts: &["
        for title, steps in self.parts:
            yield f'            ("{title}", &['
            yield from (f"                {step}," for step in steps)
            yield "            ]),"
        yield "        ],"
        yield "        ..EXCHANGE"
        yield "    },"


def main():
    samples.Exchange = samples_settings.Exchange = Exchange
    exchanges = [line for make in samples.EXCHANGES for line in make().rust_lines()]
    texts = [f"const {name}: &[u8] = &{list(value)};" for value, name in TEXTS.items()]
    constants = [
        f'pub const USER: &str = "{samples.NAME.decode()}";',
        f'pub const PASSWORD: &str = "{samples.SECRET.decode()}";',
        f"pub const SEED: [u8; 32] = {list(samples.SEED)};",
    ]
    lines = [HEAD, *constants, *texts, "pub const EXCHANGES: &[Exchange] = &[", *exchanges, "];"]
    (HERE / "samples.rs").write_text("\n".join(lines) + "\n")


if __name__ == "__main__":
    main()
