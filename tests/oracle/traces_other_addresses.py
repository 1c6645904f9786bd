"""The traces of strangers at the desk, beside a client (`docs/TRACE.md`). `traces.py` puts them behind its own.

A desk draws a nonce for each address, and a nonce stands for that address alone (RFC 8489, section 9.2.4).
"""

from rows_proto_keys import nonce_of, words
from traces_base import (
    ALLOCATE, ERROR, HASHED, MS, NONCE, REALM, RELAYED, Trace, code, grant, message, number, setup, signed_allocate,
)

STRANGER = "192.168.0.9:1"


def told_to_stranger(k, reason):
    """The desk's challenge to the stranger, whose nonce is drawn from a seed of ones."""
    nonce = NONCE, nonce_of((False, True), words(1)).encode()
    return message(ALLOCATE | ERROR, number(k), [reason, (REALM, b"realm"), nonce])


def in_between():
    t = Trace(setup())
    first = t.challenged()
    t.hear(0, f"@{first}")
    foreign = told_to_stranger(0, code(401, b"Unauthorized"))
    t.ask(10 * MS, "@1", "refuse 400", foreign, seed=1, source=STRANGER)
    t.poll(0, 50 * MS)
    t.is_granted(50 * MS, 1, HASHED)
    return "A stranger is challenged between the two requests of a client: the client is granted as without it", t


def from_its_address():
    t = Trace(setup())
    t.hear(0, f"@{t.challenged()}")
    drawn = t.draw(50 * MS, signed_allocate(1, HASHED))
    decision = f"allocate {RELAYED} 600"
    foreign = told_to_stranger(1, code(438, b"Stale Nonce"))
    line = t.ask(50 * MS, f"@{drawn}", decision, foreign, seed=1, source=STRANGER)
    t.hear(50 * MS, f"@{line}", "ignored", source=STRANGER)
    t.hear(50 * MS, f"@{t.ask(50 * MS, f'@{drawn}', decision, grant(1))}")
    t.is_created(RELAYED)
    return "The client's signed request comes from a stranger's address: its nonce doesn't stand for that", t


def stranger_traces():
    yield from (in_between(), from_its_address())
