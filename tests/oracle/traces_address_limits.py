"""The traces of a desk with a limit on addresses (`docs/TRACE.md`: `clients N`).

A desk stores a nonce for each address (RFC 8489, section 9.2.4). If it has one for as many as the limit says, a new
address makes room: what is stored for addresses whose last message was not valid is removed, and if more than half of
the limit is left, everything is. Whose nonce is removed is challenged again. `traces.py` puts them behind those of
strangers.
"""

from rows_proto_keys import nonce_of, words
from traces_base import (
    ALLOCATE, ERROR, HASHED, MS, NONCE, REALM, RELAYED, Trace, code, grant, message, number, setup, signed_allocate,
)

STRANGERS = "192.168.0.9:1", "192.168.0.9:2", "192.168.0.10:1"
DECISION = f"allocate {RELAYED} 600"


def nonce(seed):
    return NONCE, nonce_of((False, True), words(seed)).encode()


def told(k, seed, reason):
    """A challenge with the nonce from a seed."""
    return message(ALLOCATE | ERROR, number(k), [reason, (REALM, b"realm"), nonce(seed)])


def comes(t, now, k, source):
    """The first request comes from a stranger, and is challenged with the nonce from the seed `k`."""
    t.ask(now, "@1", "refuse 400", told(0, k, code(401, b"Unauthorized")), seed=k, source=source)


def limited(limit):
    return Trace(setup(desk=f"sha1 auto clients {limit}"))


def granted(limit):
    """The client is granted: the trace, and the line of its signed request."""
    t = limited(limit)
    t.hear(0, f"@{t.challenged()}")
    t.poll(0, 50 * MS)
    drawn = t.draw(50 * MS, signed_allocate(1, HASHED))
    t.hear(50 * MS, f"@{t.ask(50 * MS, f'@{drawn}', DECISION, grant(1))}")
    t.is_created(RELAYED)
    return t, drawn


def again(t, drawn, now, seed=0):
    """The client's signed request comes again: it is granted again, or challenged with the nonce from a seed."""
    stale = told(1, seed, code(438, b"Stale Nonce"))
    t.ask(now, f"@{drawn}", DECISION, stale if seed else grant(1), seed=seed)


def forgotten():
    t = limited(1)
    t.hear(0, f"@{t.challenged()}")
    comes(t, 10 * MS, 1, STRANGERS[0])
    t.poll(10 * MS, 50 * MS)
    drawn = t.draw(50 * MS, signed_allocate(1, HASHED))
    t.hear(50 * MS, f"@{t.ask(50 * MS, f'@{drawn}', DECISION, told(1, 2, code(438, b'Stale Nonce')), seed=2)}")
    t.poll(50 * MS, 100 * MS)
    t.is_granted(100 * MS, 2, [HASHED[0], HASHED[1], nonce(2)])
    return "A limit of one: a stranger's request takes the client's nonce, and the client is granted under its next", t


def kept():
    t, drawn = granted(2)
    comes(t, 60 * MS, 1, STRANGERS[0])
    comes(t, 70 * MS, 2, STRANGERS[1])
    again(t, drawn, 80 * MS)
    comes(t, 90 * MS, 3, STRANGERS[0])
    again(t, drawn, 100 * MS)
    return "A limit of two: strangers are challenged, and the nonce of a client that is granted stays", t


def removed():
    t, drawn = granted(1)
    comes(t, 60 * MS, 1, STRANGERS[0])
    again(t, drawn, 80 * MS, seed=2)
    return "A limit of one: a stranger is challenged, and the client that is granted is challenged again", t


def within():
    t, drawn = granted(3)
    comes(t, 60 * MS, 1, STRANGERS[0])
    comes(t, 70 * MS, 2, STRANGERS[1])
    # both nonces stand: another message from there draws none
    for k, source in enumerate(STRANGERS[:2], 1):
        t.ask(80 * MS, "@1", "refuse 400", told(0, k, code(401, b"Unauthorized")), seed=9, source=source)
    again(t, drawn, 90 * MS)
    comes(t, 100 * MS, 4, STRANGERS[2])
    comes(t, 110 * MS, 5, STRANGERS[0])
    again(t, drawn, 120 * MS)
    return "A limit of three: three nonces stand until a fourth address comes, and only the client's beside it", t


def greatest():
    t, drawn = granted(2**32 - 1)
    for k, source in enumerate(STRANGERS, 1):
        comes(t, 60 * MS, k, source)
    again(t, drawn, 80 * MS)
    return "The greatest limit: strangers are challenged, and each nonce stands", t


def address_traces():
    yield from (forgotten(), kept(), removed(), within(), greatest())
