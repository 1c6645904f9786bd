"""Challenges to hardened clients, in the rows of `test_rows_proto`.

A nonce may announce password algorithms. A client isn't to retry after a challenge whose nonce does, and which has no
PASSWORD-ALGORITHMS (RFC 8489, section 9.2.5): somebody on the way may have taken the list out (section 9.2.1). Here
only a hardened client obeys that. The results in the tables below are worked out by hand, and the model in
`rows_proto_auth.py` has to agree with each.
"""

from rows_proto_auth import (
    BOTH,
    FIRST_LIST,
    LIST,
    NAMES,
    PLAIN,
    Client,
    Server,
    Short,
    challenge,
    chosen,
    code,
    listed,
    reply,
)
from rows_proto_base import ALLOCATE, ERROR, INDICATION, REQUEST, SUCCESS, message
from rows_proto_keys import ALL, NONCE, NUMBER, REALM, SHA1, SHA256, SHA512, entries, key_of, signed
from rows_proto_parties import more
from rows_proto_three_algorithms import KEYS, THREE_LIST

STALE = code(438, "Stale Nonce")
# of the challenges that a client can't answer
REFUSED = None
# Malformed lists: of a length that is no multiple of four, of none and of nine algorithms, and with an entry whose
# parameters aren't all there.
MALFORMED = [
    *(THREE_LIST[:size] for size in (1, 2, 3, 5, 6, 7, 9, 10, 11)),
    THREE_LIST + b"\0",
    b"",
    3 * THREE_LIST,
    b"\0\7\0\1",
    b"\0\7\0\4\0\2\0",
    b"\0\7\0\5" + entries([SHA256]),
    THREE_LIST + b"\0\7\xff\xff",
]
UNKNOWN, TWO = b"\0\7\0\0", entries([SHA256])
# Lists that have algorithms without a name here, and the strongest of the others: each entry is as long as its
# parameters and their padding, in which no other entry is looked for, and padding isn't looked at. An algorithm that is
# known has no parameters.
WITH_UNKNOWN = [
    (UNKNOWN, REFUSED),
    (b"\0\0\0\0", REFUSED),
    (b"\xff\xff\0\0", REFUSED),
    (8 * UNKNOWN, REFUSED),
    (b"\0\7\0\4" + TWO, REFUSED),
    (b"\0\7\0\1" + TWO, REFUSED),
    (b"\0\7\0\5" + TWO + b"x\1\2\3", REFUSED),
    (b"\0\7\0\x1c" + 7 * TWO, REFUSED),
    (b"\0\7\0\4" + TWO + entries([SHA1]), SHA1),
    (b"\0\7\0\4" + TWO + TWO, SHA256),
    (b"\0\7\0\5" + TWO + b"x\1\2\3" + TWO, SHA256),
    (UNKNOWN + TWO, SHA256),
    (TWO + UNKNOWN, SHA256),
    (UNKNOWN + THREE_LIST, SHA512),
    (THREE_LIST + b"\0\3\0\0", SHA512),
]
# of three algorithms, and of fewer
WELL_FORMED = [(THREE_LIST, SHA512), (FIRST_LIST, SHA256), (entries([SHA256, SHA1]), SHA256), (entries([SHA1]), SHA1)]
TAIL = "gyiDbICXwPDaQ1ha"
# Nonces that announce a list: the first of 24 bits is set, whatever the others are and whatever comes after them.
ANNOUNCING = ["obMatJos2gAAA", f"obMatJos2gAAB{TAIL}", f"obMatJos2h///{TAIL}", f"obMatJos2////{TAIL}", "obMatJos2wAAA="]
# Nonces that announce none: the first bit isn't set, there are not four characters of base64, or there is no cookie.
SILENT = [
    PLAIN,
    NAMES,
    f"obMatJos2f///{TAIL}",
    f"obMatJos2IAAA{TAIL}",
    "obMatJos2gAA",
    "obMatJos2gAA=",
    f"obMatJos2gA-A{TAIL}",
    f"ObMatJos2gAAA{TAIL}",
    f"obMatJos3gAAA{TAIL}",
    f"xobMatJos2gAAA{TAIL}",
    "gAAA",
    "nonce",
    "",
]


def hears(client, data, wanted):
    """A challenge, which is answered by an algorithm or refused."""
    client.hear(data)
    heard = client.answers[-2]
    assert heard == (f"ResendRequest({wanted})" if wanted else "UnsupportedFeature"), (data.hex(), heard, wanted)


def both(what, rows, **settings):
    """Challenges in order, each with the results of a hardened client and of one that isn't, and the requests then."""
    for is_hardened in (True, False):
        c = Client(f"{what}: {'hardened' if is_hardened else 'not hardened'}", **{"algorithms": ALL, **settings})
        if is_hardened:
            c.harden()
        c.tell()
        for data, of_hardened, of_other in rows:
            hears(c, data, of_hardened if is_hardened else of_other)
            c.signs("request")
        yield c


def announced():
    """A list is announced, and is there or not."""
    yield from both(
        "a list is announced and there",
        [(challenge(nonce, listed(value)), by, by) for nonce in (LIST, BOTH) for value, by in WELL_FORMED],
    )
    yield from both(
        "a list is announced and absent",
        [
            (challenge(nonce, *others, reason=reason), REFUSED, SHA1)
            for nonce in (LIST, BOTH, *ANNOUNCING)
            for reason in (code(401, "Unauthorized"), STALE)
            for others in ((), (chosen(SHA256),))
        ],
    )
    yield from both(
        "a list is announced and malformed",
        [(challenge(BOTH, listed(it)), REFUSED, SHA1) for it in MALFORMED],
    )
    yield from both(
        "a list has algorithms that are unknown here",
        [(challenge(nonce, listed(it)), by, SHA1) for nonce in (LIST, BOTH) for it, by in WITH_UNKNOWN],
    )
    yield from both(
        "a known algorithm has parameters",
        [
            (challenge(BOTH, listed(b"\0\2\0\4" + entries([SHA1]))), REFUSED, SHA256),
            (challenge(BOTH, listed(b"\0\2\0\4" + 2 * entries([SHA1]))), SHA1, SHA256),
            (challenge(BOTH, listed(b"\0\2\0\4" + UNKNOWN)), REFUSED, SHA1),
        ],
    )
    two = [listed(THREE_LIST), listed(THREE_LIST[:-1])]
    yield from both(
        "of two lists the last one counts",
        [(challenge(BOTH, *two), REFUSED, SHA1), (challenge(BOTH, *reversed(two)), SHA512, SHA512)],
    )
    # a challenge isn't validated, and no attribute is visible after its integrity attribute
    head = [code(401), (REALM, "realm"), (NONCE, BOTH)]
    yield from both(
        "signed challenges",
        [
            (signed(ALLOCATE | ERROR, head, KEYS[SHA1]), REFUSED, SHA1),
            (signed(ALLOCATE | ERROR, head, KEYS[SHA512], SHA512), REFUSED, SHA1),
            (more(signed(ALLOCATE | ERROR, head, KEYS[SHA1]), listed(THREE_LIST)), REFUSED, SHA1),
            (signed(ALLOCATE | ERROR, [*head, listed(THREE_LIST)], KEYS[SHA1]), SHA512, SHA512),
            (signed(ALLOCATE | ERROR, [*head, listed(THREE_LIST)], b"x"), SHA512, SHA512),
        ],
    )


def silent():
    """No list is announced: the server has SHA-1, whether or not there is a list."""
    lists = [(), (listed(THREE_LIST),), (listed(THREE_LIST[:-1]),), (listed(b"\0\7\0\0"),)]
    yield from both(
        "no list is announced",
        [(challenge(nonce, *others), SHA1, SHA1) for nonce in SILENT for others in lists],
    )
    yield from both(
        "no list is announced, and the client has no SHA-1",
        [(challenge(nonce, *others), REFUSED, REFUSED) for nonce in (PLAIN, NAMES, "nonce") for others in lists],
        algorithms=(SHA256, SHA512),
    )


def anonymous():
    """A hash of the name is required: that the nonce doesn't announce it is refused, too."""
    three, two, bad = listed(THREE_LIST), listed(FIRST_LIST), listed(THREE_LIST[:-1])
    yield from both(
        "anonymity is required",
        [
            # neither is announced: the hash is missing, whatever of a list
            (challenge(PLAIN), REFUSED, REFUSED),
            (challenge(PLAIN, three), REFUSED, REFUSED),
            (challenge("nonce"), REFUSED, REFUSED),
            # the list is absent, and the hash is announced
            (challenge(BOTH), REFUSED, SHA1),
            (challenge(BOTH, bad), REFUSED, SHA1),
            # the list is there, and the hash isn't announced
            (challenge(LIST, three), REFUSED, REFUSED),
            # the list is absent, and the hash isn't announced
            (challenge(LIST), REFUSED, REFUSED),
            (challenge(LIST, bad), REFUSED, REFUSED),
            # nothing is missing
            (challenge(NAMES), SHA1, SHA1),
            (challenge(NAMES, three), SHA1, SHA1),
            (challenge(BOTH, three), SHA512, SHA512),
            # and each refusal again, with a challenge that is stored
            (challenge(BOTH, realm="other"), REFUSED, SHA1),
            (challenge(LIST, two, realm="other"), REFUSED, REFUSED),
            (challenge(LIST, realm="other"), REFUSED, REFUSED),
            (challenge(BOTH, two), SHA256, SHA256),
        ],
        anonymity="Required",
    )
    # beside these, there is no common algorithm
    yield from both(
        "anonymity is required, and the client has HMAC-SHA512 alone",
        [
            (challenge(BOTH, two), REFUSED, REFUSED),
            (challenge(BOTH), REFUSED, REFUSED),
            (challenge(NAMES), REFUSED, REFUSED),
            (challenge(LIST, three), REFUSED, REFUSED),
            (challenge(BOTH, three), SHA512, SHA512),
        ],
        anonymity="Required",
        algorithms=(SHA512,),
    )


def each_setting():
    """Each setting of a client under each kind of challenge, first hardened and then not."""
    lists = [(), (listed(THREE_LIST),), (listed(entries([SHA1])),), (listed(b"\0\7\0\0"),)]
    for algorithms in ((SHA1,), (SHA512,), (SHA1, SHA256)):
        for anonymity in ("Auto", "Required", "Disabled"):
            c = Client("hardened, then not, for each challenge", algorithms=algorithms, anonymity=anonymity)
            for nonce in (PLAIN, NAMES, LIST, BOTH):
                for others in lists:
                    c.harden()
                    c.hear(challenge(nonce, *others))
                    c.soften()
                    c.hear(challenge(nonce, *others))
            yield c


LACKING = [
    challenge(LIST, realm="other"),
    challenge(BOTH, realm="other", reason=STALE),
    challenge(BOTH, listed(THREE_LIST[:-1]), realm="other"),
    challenge(LIST, listed(b"\0\7\0\0"), realm="other"),
]


def refuses(client):
    """Challenges that lack their list: what is stored stays, and what is signed and validated stays the same."""
    for data in LACKING:
        hears(client, data, REFUSED)
    client.signs()
    for by in ALL:
        client.hear(reply(by))
        client.hear(reply(by, realm="other"))


def unchanged():
    """A refusal changes nothing, and neither does hardening change what is stored."""
    c = Client("a refused challenge changes nothing", algorithms=ALL)
    c.harden()
    refuses(c)
    hears(c, challenge(BOTH, listed(THREE_LIST)), SHA512)
    refuses(c)
    # also after a message that isn't signed, which leaves no algorithm
    c.hear(message(ALLOCATE | SUCCESS, NUMBER))
    hears(c, LACKING[0], REFUSED)
    c.hear(reply(SHA512))
    hears(c, challenge(PLAIN), SHA1)
    refuses(c)
    # the next challenge that can be answered replaces the stored one
    hears(c, challenge(LIST, listed(FIRST_LIST), realm="other"), SHA256)
    c.signs()
    c.hear(reply(SHA256, realm="other"))
    yield c
    c = Client("a challenge that was stored before stays, and its list isn't looked for again", algorithms=ALL)
    hears(c, challenge(LIST), SHA1)
    c.harden()
    c.tell()
    c.signs()
    c.hear(reply())
    hears(c, challenge(LIST), REFUSED)
    c.signs()
    c.hear(reply())
    c.soften()
    hears(c, LACKING[0], SHA1)
    c.hear(reply(realm="other"))
    yield c
    c = Client("other settings leave it hardened, and it leaves them", account=None)
    c.harden()
    c.tell()
    hears(c, challenge(LIST), REFUSED)
    hears(c, challenge(NAMES), SHA1)
    c.credentials("user", "pass")
    for change, *given in (
        (c.adds, SHA256),
        (c.names, "Disabled"),
        (c.harden,),
        (c.sets, SHA512),
        (c.soften,),
        (c.soften,),
    ):
        change(*given)
        c.tell()
        c.signs("request")
    c.harden()
    c.credentials("other", "word")
    c.tell()
    hears(c, challenge(BOTH), REFUSED)
    hears(c, challenge(BOTH, listed(THREE_LIST)), SHA512)
    c.signs()
    yield c


def no_challenges():
    """What is no challenge is judged as by any other client, whatever of a list."""
    key = key_of(SHA1, "pass", "user", "realm")
    for is_hardened in (True, False):
        c = Client("no challenges, to a client that is " + "not " * (not is_hardened) + "hardened")
        hears(c, challenge(PLAIN), SHA1)
        if is_hardened:
            c.harden()
        for kind in (REQUEST, INDICATION, SUCCESS):
            c.hear(signed(ALLOCATE | kind, [code(401), (REALM, "realm"), (NONCE, LIST)]))
            c.hear(signed(ALLOCATE | kind, [code(401), (REALM, "realm"), (NONCE, LIST)], key))
        for attributes in (
            [code(400), (REALM, "realm"), (NONCE, LIST)],
            [code(401), (NONCE, LIST)],
            [code(438), (REALM, "realm"), listed(THREE_LIST)],
        ):
            c.hear(signed(ALLOCATE | ERROR, attributes))
            c.hear(signed(ALLOCATE | ERROR, attributes, key))
            c.hear(signed(ALLOCATE | ERROR, attributes, b"x"))
        yield c


def bad_lines():
    for party, words in (
        (Client("lines that harden nothing"), ()),
        (Short("only a client of long-term credentials is hardened"), ("harden", "soften")),
        (Server("a server isn't hardened"), ("harden", "soften")),
    ):
        for line in ("Harden", "hardened", "harden true", "soften it", *words):
            party.say(line, "bad line")
            party.tell()
        yield party


def sections():
    for make in (announced, silent, anonymous, each_setting, unchanged, no_challenges, bad_lines):
        yield from make()
