#!/usr/bin/env python3
"""Makes the stored run of `test_rows_proto`: its lines, and what each is answered.

It knows nothing of the repository's code. What an agent of requests answers is worked out in
`rows_proto_agent.py`; what digests, keys and nonces answer, in `rows_proto_values.py`; and what the
authenticators answer, in `rows_proto_auth.py`. What reaches these is in `rows_proto_parties.py`, of three
algorithms in `rows_proto_three_algorithms.py`, and of hardened clients in `rows_proto_hardened.py`. It writes
`stdin` and `stdout` of the crate.
"""

import sys
from pathlib import Path

# what is imported leaves no folder of compiled files behind
sys.dont_write_bytecode = True

import rows_proto_agent
import rows_proto_hardened
import rows_proto_parties
import rows_proto_three_algorithms
import rows_proto_values
from rows_proto_base import Section

TOP = Path(__file__).resolve().parents[2]


def bad_heads():
    """Sections whose head can't be read: of these the head alone is answered."""
    for head in (
        "",
        "nobody",
        "client x",
        "values=1",
        " agent",
        "agent transport=udp",
        "agent local=192.168.0.1",
        "agent local=",
        "agent remote=x",
        "agent initial=1 most=x",
        "agent times=4294967296",
        "server realm",
    ):
        rows = Section(head)
        rows.lines.append("draw now=0")
        rows.answers.append("bad line")
        yield rows


def sections():
    yield from rows_proto_agent.agents()
    yield from rows_proto_agent.values()
    yield from rows_proto_values.sections()
    yield from rows_proto_parties.clients()
    yield from rows_proto_parties.servers()
    yield from rows_proto_three_algorithms.sections()
    yield from rows_proto_hardened.sections()
    yield from bad_heads()


def main():
    made = list(sections())
    crate = TOP / "crates/test_rows_proto"
    given = "%".join("".join(f"{line}\n" for line in it.lines) for it in made)
    printed = "".join(f"{answer}\n" for it in made for answer in it.answers)
    (crate / "stdin").write_text(given, encoding="utf-8")
    (crate / "stdout").write_text(printed, encoding="utf-8")


if __name__ == "__main__":
    main()
