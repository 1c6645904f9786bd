"""Traces of a hardened client, which `traces.py` puts behind those of a client that is never answered
(`docs/TRACE.md`). Most come in pairs: what happens, to a client without the word `hardened` and to one with it.

A hardened client ignores each response whose transaction ID it awaits no longer or never sent, whatever else it has.
A challenge whose nonce announces algorithms and that has no well-formed list of them can't be answered. While it
allocates, what isn't signed as it has to be is ignored, and the request goes on by its schedule. Its first request has
no key: an error from 300 to 499 other than 400 ends it, and every other answer that is no challenge is ignored.

Who doesn't see the requests knows no transaction ID of theirs: what he sends is called blind here.
"""

from traces_base import (
    ADDITIONAL_FAMILY, ALGORITHMS, ALLOCATE, CREATE_PERMISSION, ERROR, ERROR_CODE, HASHED, MS, NAMED, NONCE, NONCES,
    OTHER, PASSWORD_ALGORITHM, PASSWORD_ALGORITHMS, REALM, REFRESH, REFUSED, RELAYED, SECOND, SHA1, SHA256, STALE,
    SUCCESS, USERNAME, V6, Trace, challenge, code, create_permission, entries, first, grant, hashed, lifetime,
    message, number, refresh, relayed, setup, signed_allocate, stale, success, unsigned,
)
from traces_permissions import DUE, NAMED_ANEW, OTHER_NONCE, OVER, PEER_1, RENEWAL
from traces_tcp_base import LONGEST, over

# a transaction ID that no request here has
BLIND = bytes(range(0xA0, 0xAC))
REALM_OF_EVIL = [(REALM, b"evil"), (NONCE, b"n")]
EVIL = [code(401, b"Unauthorized"), *REALM_OF_EVIL]
STALE_EVIL = [code(438, b"Stale Nonce"), *REALM_OF_EVIL]
NAMED_EVIL = [(USERNAME, b"user"), *REALM_OF_EVIL]
# a challenge whose nonce announces algorithms, and what a client tells under it
LISTED = (PASSWORD_ALGORITHMS, entries("sha1", "sha256"))
UNDER = [(REALM, b"realm"), (NONCE, NONCES[b"gAAA"])]
NAMED_UNDER = [(USERNAME, b"user"), *UNDER]
NAMED_LISTED = [*NAMED_UNDER, LISTED, (PASSWORD_ALGORITHM, ALGORITHMS["sha256"][1])]
TWO = "sha1,sha256"
GRANTED = (relayed(OTHER, 1), lifetime(1000))


def blind(kind, attributes):
    return message(kind, BLIND, attributes)


def as_it_is(is_hardened):
    """What a client answers that a hardened one ignores."""
    return "ignored" if is_hardened else "handled"


# ---- a response of another transaction ID


def deaf(t, is_hardened, attributes=EVIL, is_stream=False):
    """A permission is asked for, and a blind challenge comes before the grant."""
    t.held()
    drawn = t.asks(50 * MS, 2, PEER_1)
    t.hear(100 * MS, blind(CREATE_PERMISSION | ERROR, attributes), "ignored")
    line = t.ask(100 * MS, f"@{drawn}", "grant", success(CREATE_PERMISSION, 2))
    t.hear(100 * MS, f"@{line}", "handled" if is_hardened else "ignored")
    until = 50 * MS + LONGEST
    if is_hardened:
        t.is_permitted(PEER_1)
        t.poll(100 * MS, DUE)
        t.draw(550 * MS, None)
    else:
        t.event("none")
        t.has(PEER_1, "no")
        t.permits()
        t.poll(100 * MS, until if is_stream else 550 * MS)
        t.draw(550 * MS, None if is_stream else create_permission(2, PEER_1))
    line = t.ask(550 * MS, f"@{drawn}", "grant", success(CREATE_PERMISSION, 2))
    t.hear(550 * MS, f"@{line}", "ignored")
    t.poll(until, DUE if is_hardened else until)
    t.event("none" if is_hardened else f"PermissionCreateFailed udp {PEER_1}")
    t.has(PEER_1, "yes" if is_hardened else "no")
    t.permits(*[PEER_1] * is_hardened)
    return t


def deaf_to_a_grant(is_hardened):
    return deaf(Trace(setup(hardened=is_hardened)), is_hardened)


def deaf_by_an_algorithm(is_hardened):
    told = [code(438), (REALM, b"realm"), (NONCE, b"obMatJos2gAAAevil"), LISTED]
    return deaf(Trace(setup(algorithms=TWO, hardened=is_hardened)), is_hardened, told)


def deaf_over_tcp(is_hardened):
    return deaf(over(hardened=is_hardened), is_hardened, is_stream=True)


def deaf_within_a_chunk(is_hardened):
    t = over(hardened=is_hardened)
    t.held()
    drawn = t.asks(50 * MS, 2, PEER_1)
    line = t.ask(100 * MS, f"@{drawn}", "grant", success(CREATE_PERMISSION, 2))
    t.hear(100 * MS, f"{blind(CREATE_PERMISSION | ERROR, EVIL).hex()}+@{line}", "ignored")
    if is_hardened:
        t.is_permitted(PEER_1)
    else:
        t.event("none")
        t.has(PEER_1, "no")
        t.permits()
    return t


def never_renewed(is_hardened):
    """A blind 438 comes behind each REFRESH. The client goes on to hold its allocation, or it ends."""
    t = Trace(setup(rto="rto 500 500 2 500\n", hardened=is_hardened))
    t.held()
    t.poll(50 * MS, RENEWAL)
    renewed = success(REFRESH, 2, lifetime(600))
    drawn = t.draw(RENEWAL, refresh(2, 1800, HASHED))
    t.hear(RENEWAL, blind(REFRESH | ERROR, STALE_EVIL), "ignored")
    line = t.ask(RENEWAL, f"@{drawn}", "refresh 600", renewed)
    t.hear(RENEWAL, f"@{line}", "handled" if is_hardened else "ignored")
    if is_hardened:
        again = RENEWAL + 540 * SECOND
        t.poll(OVER, again)
        t.shows(RELAYED)
        drawn = t.draw(again, refresh(3, 1800, HASHED))
        t.hear(again, blind(REFRESH | ERROR, STALE_EVIL), "ignored")
        line = t.ask(again, f"@{drawn}", "refresh 600", success(REFRESH, 3, lifetime(600)))
        t.hear(again, f"@{line}")
        t.poll(again + 60 * SECOND, again + 540 * SECOND)
        t.shows(RELAYED)
        return t
    t.poll(RENEWAL, RENEWAL + 500 * MS)
    t.draw(RENEWAL + 500 * MS, refresh(2, 1800, HASHED))
    t.hear(RENEWAL + 500 * MS, f"@{line}", "ignored")
    for k, now in (3, RENEWAL + SECOND), (5, RENEWAL + 2 * SECOND):
        # the one before is given up, and the next one is signed for the forged realm
        t.poll(now, now)
        drawn = t.draw(now, message(REFRESH, number(k), [lifetime(1800), *NAMED_EVIL], SHA1, b"evil"))
        line = t.ask(now, f"@{drawn}", "refresh 600", stale(k, REFRESH))
        t.hear(now, f"@{line}")
        t.poll(now, now + 50 * MS)
        drawn = t.draw(now + 50 * MS, refresh(k + 1, 1800, HASHED))
        t.hear(now + 50 * MS, blind(REFRESH | ERROR, STALE_EVIL), "ignored")
        line = t.ask(now + 50 * MS, f"@{drawn}", "refresh 600", success(REFRESH, k + 1, lifetime(600)))
        t.hear(now + 50 * MS, f"@{line}", "ignored")
        t.shows(RELAYED)
    t.poll(OVER, None)
    t.shows()
    return t


def blind_handshake(is_hardened):
    t = Trace(setup(hardened=is_hardened))
    line = t.challenged()
    t.hear(0, blind(ALLOCATE | ERROR, EVIL), "ignored")
    t.hear(0, f"@{line}")
    t.poll(0, 50 * MS)
    drawn = t.draw(50 * MS, signed_allocate(1, HASHED))
    t.hear(50 * MS, blind(ALLOCATE | ERROR, EVIL), "ignored")
    t.hear(50 * MS, blind(ALLOCATE | ERROR, [code(400)]), "ignored")
    t.hear(50 * MS, message(ALLOCATE | SUCCESS, BLIND, [*GRANTED], SHA1), "ignored")
    line = t.ask(50 * MS, f"@{drawn}", f"allocate {RELAYED} 600", grant(1))
    t.hear(50 * MS, f"@{line}")
    t.is_created(RELAYED)
    return t


def answered_already(is_hardened):
    """A forged challenge has the ID of the first ALLOCATE, which has its answer."""
    t = Trace(setup(hardened=is_hardened))
    line = t.granted()
    t.hear(50 * MS, unsigned(ALLOCATE | ERROR, 0, EVIL), "ignored")
    t.hear(50 * MS, f"@{line}")
    if is_hardened:
        t.is_created(RELAYED)
    else:
        t.fails(50 * MS)
    return t


def old_nonce(is_hardened):
    """An old challenge comes again, late. The next request has its nonce, or that of the last one."""
    t = Trace(setup(hardened=is_hardened))
    now = t.renews()
    t.hear(now, unsigned(REFRESH | ERROR, 2, OTHER_NONCE))
    now += 50 * MS
    t.draw(now, refresh(3, 1800, NAMED_ANEW))
    t.hear(now, success(REFRESH, 3, lifetime(1000)))
    t.hear(now, unsigned(ALLOCATE | ERROR, 0, REFUSED), "ignored")
    t.permission(now, PEER_1)
    t.draw(now + 50 * MS, create_permission(4, PEER_1, NAMED_ANEW if is_hardened else NAMED))
    return t


def tenth_is_blind(is_hardened):
    t = Trace(setup(hardened=is_hardened))
    now = t.renews()
    for k in range(2, 11):
        t.hear(now, unsigned(REFRESH | ERROR, k, STALE))
        now += 50 * MS
        t.draw(now, refresh(k + 1, 1800, NAMED))
    t.hear(now, blind(REFRESH | ERROR, STALE), as_it_is(is_hardened))
    t.event("none" if is_hardened else "AllocationCreateFailed 4")
    t.hear(now, success(REFRESH, 11, lifetime(1000)), "handled" if is_hardened else "ignored")
    t.poll(now, now + 940 * SECOND if is_hardened else None)
    return t


# ---- a list that is cut out


def bid_down(is_hardened):
    """The desk lists its algorithms, and somebody on the way cuts the list out."""
    t = Trace(setup(algorithms=TWO, desk=f"{TWO} auto", hardened=is_hardened))
    drawn = t.draw(0, first())
    text = challenge(0, b"wAAA", [LISTED])
    line = t.ask(0, f"@{drawn}", "refuse 400", text)
    left = len(text) - 12
    t.hear(0, f"0113{left - 20:04x}+@{line}:4:{left}")
    if is_hardened:
        t.fails(0)
        return t
    t.poll(0, 50 * MS)
    t.draw(50 * MS, signed_allocate(1, hashed(b"wAAA")))
    t.hear(50 * MS, success(ALLOCATE, 1, *GRANTED))
    t.is_created(OTHER)
    return t


def unlisted(*more, nonce=NONCES[b"gAAA"], ends=True):
    """A challenge has this nonce, and this or nothing behind it: SHA-1 is taken, or a hardened client ends."""

    def course(is_hardened):
        t = Trace(setup(algorithms=TWO, hardened=is_hardened))
        t.draw(0, first())
        t.hear(0, unsigned(ALLOCATE | ERROR, 0, [code(401), (REALM, b"realm"), (NONCE, nonce), *more]))
        if is_hardened and ends:
            t.fails(0)
            return t
        t.poll(0, 50 * MS)
        t.draw(50 * MS, signed_allocate(1, [(USERNAME, b"user"), (REALM, b"realm"), (NONCE, nonce)]))
        t.hear(50 * MS, success(ALLOCATE, 1, *GRANTED))
        t.is_created(OTHER)
        return t

    return course


def passed_over(is_hardened):
    """Of a list an algorithm is unknown: SHA-1 is taken, or a hardened client passes over it and returns the list."""
    listed = PASSWORD_ALGORITHMS, b"\0\2\0\0\0\3\0\4\0\1\0\0"
    returned = [*NAMED_UNDER, listed, (PASSWORD_ALGORITHM, ALGORITHMS["sha256"][1])] if is_hardened else NAMED_UNDER
    by = SHA256 if is_hardened else SHA1
    t = Trace(setup(algorithms=TWO, hardened=is_hardened))
    t.draw(0, first())
    t.hear(0, unsigned(ALLOCATE | ERROR, 0, [code(401), *UNDER, listed]))
    t.poll(0, 50 * MS)
    t.draw(50 * MS, signed_allocate(1, returned, by=by))
    t.hear(50 * MS, message(ALLOCATE | SUCCESS, number(1), [*GRANTED], by))
    t.is_created(OTHER)
    return t


def by_sha256(is_hardened):
    """A client that has chosen SHA-256 of a list, and signs its ALLOCATE by that."""
    t = Trace(setup(algorithms=TWO, hardened=is_hardened))
    t.draw(0, first())
    t.hear(0, unsigned(ALLOCATE | ERROR, 0, [code(401), *UNDER, LISTED]))
    t.poll(0, 50 * MS)
    t.draw(50 * MS, signed_allocate(1, NAMED_LISTED, by=SHA256))
    return t


def bid_down_again(is_hardened):
    t = by_sha256(is_hardened)
    t.hear(50 * MS, unsigned(ALLOCATE | ERROR, 1, [code(438), *UNDER]), as_it_is(is_hardened))
    if is_hardened:
        t.poll(50 * MS, 500 * MS)
        t.draw(500 * MS, signed_allocate(1, NAMED_LISTED, by=SHA256))
        t.hear(500 * MS, message(ALLOCATE | SUCCESS, number(1), [*GRANTED], SHA256))
    else:
        t.poll(50 * MS, 100 * MS)
        t.draw(100 * MS, signed_allocate(2, NAMED_UNDER))
        t.hear(100 * MS, success(ALLOCATE, 2, relayed(OTHER, 2), lifetime(1000)))
    t.is_created(OTHER)
    return t


def bid_down_at_renewal(is_hardened):
    t = by_sha256(is_hardened)
    t.hear(50 * MS, message(ALLOCATE | SUCCESS, number(1), [*GRANTED], SHA256))
    t.is_created(OTHER)
    now = 940 * SECOND + 50 * MS
    t.poll(50 * MS, now)
    again = message(REFRESH, number(2), [lifetime(1800), *NAMED_LISTED], SHA256)
    t.draw(now, again)
    t.hear(now, unsigned(REFRESH | ERROR, 2, [code(438), *UNDER]), as_it_is(is_hardened))
    if is_hardened:
        t.poll(now, now + 500 * MS)
        now += 500 * MS
        t.draw(now, again)
        t.hear(now, message(REFRESH | SUCCESS, number(2), [lifetime(1000)], SHA256))
    else:
        t.poll(now, now + 50 * MS)
        now += 50 * MS
        t.draw(now, refresh(3, 1800, NAMED_UNDER))
        t.hear(now, success(REFRESH, 3, lifetime(1000)))
    t.poll(now + 61 * SECOND, now + 940 * SECOND)
    t.shows(OTHER)
    return t


# ---- what isn't signed while it allocates


def changed_grant(is_hardened):
    """A byte of the relayed address is changed on the way, and behind that the grant comes whole."""
    t = Trace(setup(hardened=is_hardened))
    line = t.granted()
    size = len(grant(1))
    t.hear(50 * MS, f"@{line}:0:27+43+@{line}:28:{size}", as_it_is(is_hardened))
    ends_or_goes_on(t, is_hardened, f"@{line}", RELAYED, signed_allocate(1, HASHED))
    return t


def ends_or_goes_on(t, is_hardened, genuine, address, request):
    """The client has ended, or sends its request again, and the genuine success counts."""
    if is_hardened:
        t.shows()
        t.event("none")
        t.poll(50 * MS, 500 * MS)
        t.draw(500 * MS - 1, None)
        t.draw(500 * MS, request)
        t.hear(500 * MS, genuine)
        t.is_created(address)
    else:
        t.fails(50 * MS)
        t.hear(50 * MS, genuine, "ignored")


def changed_grant_over_tcp(is_hardened):
    t = over(hardened=is_hardened)
    line = t.granted()
    size = len(grant(1))
    t.hear(50 * MS, f"@{line}:0:27+43+@{line}:28:{size}", as_it_is(is_hardened))
    if not is_hardened:
        t.fails(50 * MS)
    t.hear(50 * MS, f"@{line}", "handled" if is_hardened else "ignored")
    if is_hardened:
        t.is_created(RELAYED)
    return t


def wrongly_signed(text):
    """This answers the signed ALLOCATE before the genuine success does."""

    def course(is_hardened):
        t = Trace(setup(hardened=is_hardened))
        t.refused()
        t.hear(50 * MS, text, as_it_is(is_hardened))
        genuine = success(ALLOCATE, 1, *GRANTED)
        ends_or_goes_on(t, is_hardened, genuine, OTHER, signed_allocate(1, NAMED))
        return t

    return course


def first_answered(kind, attributes, ends, signed=None):
    """This answers the first ALLOCATE before its challenge does."""

    def course(is_hardened):
        t = Trace(setup(hardened=is_hardened))
        t.draw(0, first())
        text = message(kind, number(0), attributes, signed)
        if not is_hardened or ends:
            t.hear(0, text)
            t.fails(0)
            t.hear(0, unsigned(ALLOCATE | ERROR, 0, REFUSED), "ignored")
            return t
        t.hear(0, text, "ignored")
        t.event("none")
        t.poll(0, 500 * MS)
        t.draw(500 * MS - 1, None)
        t.draw(500 * MS, first())
        t.hear(500 * MS, unsigned(ALLOCATE | ERROR, 0, REFUSED))
        t.poll(500 * MS, 550 * MS)
        t.draw(550 * MS, signed_allocate(1, NAMED))
        t.hear(550 * MS, success(ALLOCATE, 1, *GRANTED))
        t.is_created(OTHER)
        return t

    return course


def first_answers():
    """What answers the first ALLOCATE, and whether a hardened client ends by it."""
    coded = {
        300: True, 399: True, 400: False, 403: True, 420: True, 437: True, 440: True, 499: True, 500: False,
        508: False, 599: False, 600: False, 699: False,
    }
    for value, ends in coded.items():
        yield f"an error {value}", (ALLOCATE | ERROR, [code(value)], ends)
    yield "a 401 without a nonce", (ALLOCATE | ERROR, [code(401), (REALM, b"realm")], True)
    yield "a 438 without a realm", (ALLOCATE | ERROR, [code(438), (NONCE, b"nonce")], True)
    yield "an error 400 with realm and nonce", (ALLOCATE | ERROR, [code(400), *UNDER], False)
    yield "an error of realm and nonce without a code", (ALLOCATE | ERROR, UNDER, False)
    for value in (b"\0\0\2\x63", b"\0\0\7\0", b"\0\0\4\x64", b"\0\0\4"):
        yield f"an error with the code {value.hex()}, which is none", (ALLOCATE | ERROR, [(ERROR_CODE, value)], False)
    yield "an error 403, then 500", (ALLOCATE | ERROR, [code(403), code(500)], False)
    yield "an error 500, then 403", (ALLOCATE | ERROR, [code(500), code(403)], True)
    yield "a success of nothing", (ALLOCATE | SUCCESS, [], False)
    yield "a success with an address", (ALLOCATE | SUCCESS, [relayed(OTHER, 0), lifetime(1000)], False)
    yield "a success with the code 403", (ALLOCATE | SUCCESS, [code(403)], False)
    signed = [relayed(OTHER, 0), lifetime(1000)]
    yield "a success that the user's key signs", (ALLOCATE | SUCCESS, signed, False, SHA1)
    yield "an error 403 that the user's key signs", (ALLOCATE | ERROR, [code(403)], True, SHA1)
    yield "an error 500 that the user's key signs", (ALLOCATE | ERROR, [code(500)], False, SHA1)


def signed_answers():
    """What answers the signed ALLOCATE, and has a wrong HMAC."""
    right, wrong = success(ALLOCATE, 1, *GRANTED), message(ALLOCATE | SUCCESS, number(1), GRANTED, SHA1, b"evil")
    yield "a success, signed for another realm", wrong
    yield "an error 403, signed for another realm", message(ALLOCATE | ERROR, number(1), [code(403)], SHA1, b"evil")
    yield "an error 437, signed for another realm", message(ALLOCATE | ERROR, number(1), [code(437)], SHA1, b"evil")
    yield "a success, whose last byte is changed", right[:-1] + bytes([right[-1] ^ 1])
    yield "a success by an algorithm that isn't the chosen one", message(ALLOCATE | SUCCESS, number(1), GRANTED, SHA256)
    yield "a success of a signature of no bytes", message(ALLOCATE | SUCCESS, number(1), [*GRANTED, (0x08, b"")])


def all_before_the_challenge():
    """To the first ALLOCATE of a hardened client come all that it ignores, one behind the other."""
    t = Trace(setup(families="4,6", hardened=True))
    both = (ADDITIONAL_FAMILY, V6)
    t.draw(0, first(both))
    ignored = [(told[0], told[1], told[3:]) for _, told in first_answers() if not told[2]]
    for kind, attributes, signed in ignored:
        t.hear(0, message(kind, number(0), attributes, *signed), "ignored")
    t.event("none")
    for now, until in ((500, 1500), (1500, 3500)):
        t.draw(now * MS, first(both))
        t.poll(now * MS, until * MS)
    t.hear(1500 * MS, unsigned(ALLOCATE | ERROR, 0, REFUSED))
    t.poll(1500 * MS, 1550 * MS)
    t.draw(1550 * MS, signed_allocate(1, NAMED, both))
    for _, text in signed_answers():
        t.hear(1550 * MS, text, "ignored")
    t.poll(1550 * MS, 2000 * MS)
    t.hear(1550 * MS, success(ALLOCATE, 1, *GRANTED))
    t.is_created(OTHER)
    return t


def never_genuine():
    """A hardened client gets nothing but errors that it ignores: it is as if nobody answered."""
    t = Trace(setup(rto="rto 600 1000 3 3000\n", hardened=True))
    for now, until in ((0, 600), (600, 1600), (1600, 4600)):
        t.draw(now * MS, first())
        t.hear(now * MS, unsigned(ALLOCATE | ERROR, 0, [code(500)]), "ignored")
        t.poll(now * MS, until * MS)
    t.poll(4600 * MS, None)
    t.fails(4600 * MS)
    t.hear(4600 * MS, unsigned(ALLOCATE | ERROR, 0, REFUSED), "ignored")
    return t


# ---- all of them


def pairs():
    """A remark, and a course."""
    yield "A blind 401 of another realm before the grant of a permission", deaf_to_a_grant
    yield "A blind 438 with another algorithm before the grant of a permission", deaf_by_an_algorithm
    yield "Over TCP a blind 401 of another realm before the grant of a permission", deaf_over_tcp
    yield "Over TCP a blind 401 and the grant of a permission in one chunk", deaf_within_a_chunk
    yield "A blind 438 of another realm behind each REFRESH", never_renewed
    yield "Blind answers to each ALLOCATE before the genuine ones, which count", blind_handshake
    yield "A challenge of another realm to the first ALLOCATE, whose answer came before", answered_already
    yield "An old challenge comes again, late, and another request is made", old_nonce
    yield "Nine challenges of a REFRESH, and a blind one", tenth_is_blind
    yield "The list of algorithms is cut out of a challenge", bid_down
    bits = NONCES[b"gAAA"]
    yield "A challenge announces algorithms, and lists none", unlisted()
    for name, value in (
        ("of three bytes", b"\0\2\0"), ("of no bytes", b""), ("of six bytes", b"\0\2\0\0\0\1"),
        ("whose last parameters are cut off", b"\0\2\0\0\0\3\0\4"),
        ("of an algorithm that nobody knows", b"\0\3\0\4\0\2\0\0"),
    ):
        yield f"A challenge announces algorithms, and has a list {name}", unlisted((PASSWORD_ALGORITHMS, value))
    yield "A challenge announces algorithms, and has one that nobody knows behind SHA-256", passed_over
    twice = (PASSWORD_ALGORITHMS, entries("sha256")), (PASSWORD_ALGORITHMS, b"\0\2\0")
    yield "A challenge announces algorithms, and has a list and then a bad one", unlisted(*twice)
    yield "A challenge announces no algorithms, and lists some", unlisted(LISTED, nonce=NONCES[b"AAAA"], ends=False)
    yield "A challenge of a nonce without a cookie lists algorithms", unlisted(LISTED, nonce=bits[1:], ends=False)
    yield "The list is cut out of the challenge of an ALLOCATE that is signed by SHA-256", bid_down_again
    yield "The list is cut out of the challenge of a REFRESH that is signed by SHA-256", bid_down_at_renewal
    yield "A grant is changed on the way, and comes again whole", changed_grant
    yield "Over TCP a grant is changed on the way, and comes again whole", changed_grant_over_tcp
    for name, text in signed_answers():
        yield f"The signed ALLOCATE is answered by {name}", wrongly_signed(text)
    for name, told in first_answers():
        yield f"The first ALLOCATE is answered by {name}", first_answered(*told)


def with_the_word(made):
    """A trace in which nothing is forged: a hardened client is answered as any other."""
    name, t = made
    head, seed, rest = t.lines.partition(" user pass 0\n")
    t.lines = f"{head} user pass 0 hardened\n{rest}" if seed else t.lines
    return f"Hardened: {name}", t


def hardened_traces(honest):
    """The pairs, what a hardened client alone is shown by, and honest traces with the word."""
    for name, course in pairs():
        yield f"{name}: a client", course(False)
        yield f"{name}: a hardened client", course(True)
    yield "Hardened: all that is ignored comes, and the genuine challenge and grant count", all_before_the_challenge()
    yield "Hardened: the first ALLOCATE gets errors 500 alone, and ends in its time", never_genuine()
    yield from map(with_the_word, honest)


def examples_of_hardened():
    remark = "A forged 401 with a transaction ID of its own makes a client deaf to the grant of a permission"
    yield "deaf", (remark, deaf_to_a_grant(False))
    yield "hardened", ("The same to a hardened client: the permission is granted", deaf_to_a_grant(True))
