"""What reaches agents and authenticators that know three algorithms, in the rows of `test_rows_proto`."""

import struct

from rows_proto_agent import THERE, Agent, binding
from rows_proto_auth import (
    BOTH,
    FIRST_LIST,
    FROM,
    LIST,
    NEXT,
    PLAIN,
    Client,
    Server,
    Short,
    challenge,
    chosen,
    listed,
    reply,
    request,
)
from rows_proto_base import ALLOCATE, BINDING, ERROR, SUCCESS, message
from rows_proto_keys import (
    ALL,
    BY,
    NUMBER,
    PASSWORD_ALGORITHM,
    REALM,
    SHA1,
    SHA256,
    SHA512,
    USERNAME,
    attribute,
    entries,
    hmac_of,
    key_of,
    signed,
    with_length,
)
from rows_proto_parties import asked, hashed, more, named

THREE_LIST = entries(ALL)
KEYS = {by: key_of(by, "pass", "user", "realm") for by in ALL}
SIZES = (12, 15, 16, 18, 19, *range(20, 69, 4))


def behind(data, by, value):
    """A message with the integrity attribute of an algorithm at its end, of this value."""
    return more(data, (BY[by][0], value))


def in_turn(kind, attributes, *signers):
    """A message that is signed by several algorithms, one behind another, each with its key."""
    data = signed(kind, attributes)
    for by, key in signers:
        size = max(BY[by][4])
        data = behind(data, by, hmac_of(by, key, with_length(data, len(data) - 20 + 4 + size)))
    return data


def fronted(size, kind=ALLOCATE | SUCCESS, attributes=(), key=KEYS[SHA512]):
    """A message with a front of its HMAC-SHA512, or with more behind it, of so many bytes in all."""
    data = signed(kind, attributes)
    text = with_length(data, len(data) - 20 + 4 + size + -size % 4)
    return text + attribute(BY[SHA512][0], (hmac_of(SHA512, key, text) + bytes(size))[:size])


# ---- an agent


def agents():
    user = [(USERNAME, "user"), (REALM, "realm")]
    for what, data in (
        ("by HMAC-SHA512", signed(BINDING, user, KEYS[SHA512], SHA512)),
        ("by HMAC-SHA1, and then by HMAC-SHA512", in_turn(BINDING, user, (SHA1, KEYS[SHA1]), (SHA512, KEYS[SHA512]))),
        ("by each algorithm, the weaker first", in_turn(BINDING, user, *KEYS.items())),
    ):
        a = Agent(f"it is told by which algorithm a request is signed: {what}")
        a.request(0, data, THERE)
        a.known(NUMBER)
        a.hold(NUMBER, binding(NUMBER, SUCCESS))
        a.known(NUMBER)
        yield a


# ---- a client


# what is shown, the algorithms of the client, and the list of the server
LISTS = [
    ("the strongest of three", ALL, ALL),
    ("whatever the order of the list", ALL, (SHA512, SHA1, SHA256)),
    ("and whatever that of the client", (SHA256, SHA512, SHA1), ALL),
    ("the client has the two weaker ones", (SHA1, SHA256), ALL),
    ("the server has the two weaker ones", ALL, (SHA1, SHA256)),
    ("the one in the middle is missing with the client", (SHA1, SHA512), ALL),
    ("the one in the middle is missing with the server", ALL, (SHA1, SHA512)),
    ("the one in the middle is what they have in common", (SHA256, SHA512), (SHA1, SHA256)),
    ("the weakest one is what they have in common", (SHA512, SHA1), (SHA256, SHA1)),
    ("the strongest one alone, with the client", (SHA512,), ALL),
    ("the strongest one alone, with the server", ALL, (SHA512,)),
    ("nothing in common", (SHA512,), (SHA1, SHA256)),
    ("nothing in common, the other way round", (SHA1, SHA256), (SHA512,)),
]


def challenged():
    """Challenges, what is signed then, and replies."""
    for what, algorithms, theirs in LISTS:
        c = Client(what, algorithms=algorithms)
        c.hear(challenge(BOTH, listed(entries(theirs))))
        c.signs()
        for by in ALL:
            c.hear(reply(by))
            c.hear(reply(by, "word"))
        yield c
    c = Client("lists that are read, and such as are none", algorithms=ALL)
    for value in (
        b"\xff\x12\0\0",
        b"\xff\x12\0\1",
        b"\xff\x13\0\0",
        b"\0\x12\0\0",
        b"\xff\1\0\0",
        b"\xff\2\0\0",
        b"\0\1\0\0\xff\x12\0\0\0\7\0\0",
        THREE_LIST[:-1],
        2 * THREE_LIST + entries([SHA1, SHA512]),
        3 * THREE_LIST,
    ):
        c.hear(challenge(BOTH, listed(value)))
        c.signs("request")
    # no list
    c.hear(challenge(PLAIN, listed(THREE_LIST)))
    c.hear(challenge(LIST))
    c.sets(SHA512)
    c.hear(challenge(PLAIN))
    yield c


def replies():
    """Replies under a challenge, by each algorithm."""
    for choice in ALL:
        c = Client("replies", algorithms=(choice,))
        c.hear(challenge(BOTH, listed(THREE_LIST)))
        for data in (
            *(reply(by) for by in ALL),
            reply(choice, realm="other"),
            reply(choice, kind=ERROR),
            # the last signature counts
            in_turn(ALLOCATE | SUCCESS, [], *KEYS.items()),
            *(in_turn(ALLOCATE | SUCCESS, [], *({**KEYS, by: b"x"}).items()) for by in ALL),
            in_turn(ALLOCATE | SUCCESS, [], (SHA1, KEYS[SHA1]), (SHA512, KEYS[SHA512])),
            # none is shown behind a stronger one, nor behind itself
            in_turn(ALLOCATE | SUCCESS, [], (SHA512, KEYS[SHA512]), (SHA256, KEYS[SHA256])),
            in_turn(ALLOCATE | SUCCESS, [], (SHA512, KEYS[SHA512]), (SHA1, KEYS[SHA1])),
            in_turn(ALLOCATE | SUCCESS, [], (SHA512, KEYS[SHA512]), (SHA512, b"x")),
            in_turn(ALLOCATE | SUCCESS, [], (SHA512, b"x"), (SHA512, KEYS[SHA512])),
            # under the key of each algorithm
            *(signed(ALLOCATE | SUCCESS, [], key, SHA512) for key in KEYS.values()),
            *(signed(ALLOCATE | SUCCESS, [], KEYS[SHA512], by) for by in ALL),
            # what stands behind it is not covered
            more(reply(SHA512), (REALM, "realm")),
            *(fronted(size) for size in SIZES),
        ):
            c.hear(data)
        yield c


def shorts():
    """Short-term credentials."""
    a = Short("with credentials by HMAC-SHA512")
    a.credentials("pass", SHA512)
    a.signs()
    for key in (b"pass", b"word", KEYS[SHA512]):
        for by in ALL:
            a.hear(signed(ALLOCATE | SUCCESS, [], key, by))
    a.hear(message(ALLOCATE | SUCCESS, NUMBER))
    a.hear(in_turn(ALLOCATE, [], *((by, b"pass") for by in ALL)))
    a.hear(in_turn(ALLOCATE, [], (SHA1, b"pass"), (SHA256, b"pass"), (SHA512, b"x")))
    a.hear(in_turn(ALLOCATE, [], (SHA1, b"x"), (SHA256, b"x"), (SHA512, b"pass")))
    for size in SIZES:
        a.hear(fronted(size, key=b"pass"))
    for by in (SHA256, SHA1, SHA512):
        a.credentials("word", by)
        a.signs()
    yield a


# ---- a server


TAKES_ALL, ONLY_SHA512 = [(Server.adds, SHA256), (Server.adds, SHA512)], [(Server.sets, SHA512)]
OTHERS = [(Server.sets, SHA512), (Server.adds, SHA1)]
LAST = entries([SHA512])
OTHER_LIST = entries([SHA512, SHA1])

REQUESTS = [
    *((f"a list of three, and {by} chosen", TAKES_ALL, asked(THREE_LIST, by, by)) for by in ALL),
    *((f"signed by {by}, and neither attribute", TAKES_ALL, asked(None, None, by)) for by in ALL),
    *((f"{by} chosen, and signed by HMAC-SHA512", TAKES_ALL, asked(THREE_LIST, by, SHA512)) for by in ALL),
    *((f"HMAC-SHA512 chosen, and signed by {by}", TAKES_ALL, asked(THREE_LIST, SHA512, by)) for by in ALL),
    ("a list and no choice", TAKES_ALL, asked(THREE_LIST, None, SHA512)),
    ("a choice and no list", TAKES_ALL, asked(None, SHA512, SHA512)),
    ("a list without the strongest one", TAKES_ALL, asked(FIRST_LIST, SHA256, SHA256)),
    ("a list in another order", TAKES_ALL, asked(entries([SHA512, SHA256, SHA1]), SHA512, SHA512)),
    ("a list with one twice", TAKES_ALL, asked(THREE_LIST + LAST, SHA512, SHA512)),
    ("a choice of another number", TAKES_ALL, request(*named(listed(THREE_LIST), nonce=BOTH), by=SHA512)),
    (
        "a choice of the number 12 in hex",
        TAKES_ALL,
        request(*named(listed(THREE_LIST), (PASSWORD_ALGORITHM, b"\0\x12\0\0"), nonce=BOTH), by=SHA512),
    ),
    ("signed under another password", TAKES_ALL, asked(THREE_LIST, SHA512, SHA512, password="Pass")),
    ("the strongest one alone is supported", ONLY_SHA512, asked(LAST, SHA512, SHA512)),
    ("and where nothing is shown", ONLY_SHA512, asked(None, None, SHA512)),
    ("and no other one is taken", ONLY_SHA512, asked(THREE_LIST, SHA256, SHA256)),
    ("two of three, in their order", OTHERS, asked(OTHER_LIST, SHA512, SHA512)),
    ("and the weaker one of these", OTHERS, asked(OTHER_LIST, SHA1, SHA1)),
    ("and the one that is not among them", OTHERS, asked(OTHER_LIST, SHA256, SHA256)),
    (
        "signed by each, of which the last counts",
        TAKES_ALL,
        in_turn(
            ALLOCATE,
            named(listed(THREE_LIST), chosen(SHA512), nonce=BOTH),
            (SHA1, b"x"),
            (SHA256, b"x"),
            (SHA512, KEYS[SHA512]),
        ),
    ),
    (
        "by the hash of the name",
        TAKES_ALL,
        request(*hashed(listed(THREE_LIST), chosen(SHA512), nonce=BOTH), by=SHA512),
    ),
]


def requests():
    """Requests to a server of several algorithms."""
    for what, settings, data in REQUESTS:
        s = Server(what, *settings)
        s.tell()
        s.hear(data)
        yield s
    shown = named(listed(THREE_LIST), chosen(SHA512), nonce=BOTH)
    for size in SIZES:
        s = Server(f"a front of {size} bytes", *TAKES_ALL)
        s.hear(fronted(size, ALLOCATE, shown))
        yield s


def answers():
    """What a server of several algorithms signs."""
    for what, settings, data in (
        ("nothing is signed, and the list is shown", TAKES_ALL, asked(None, None, None)),
        ("the list of another order", OTHERS, asked(None, None, None)),
        ("the list of one", ONLY_SHA512, asked(None, None, None)),
        *((f"signed by {by}", TAKES_ALL, asked(THREE_LIST, by, by)) for by in ALL),
    ):
        s = Server(f"what is signed: {what}", *settings)
        s.hear(data)
        s.signs(FROM, NEXT)
        # the user gets another password, and then other keys
        s.user("user", "word")
        s.signs(FROM)
        yield s


def settings():
    for party in (Client("settings of three", account=None), Server("settings of three")):
        for it in (SHA512, SHA1, SHA256, SHA512, SHA256):
            party.adds(it)
            party.tell()
        party.sets(SHA512)
        party.tell()
        for it in (SHA256, SHA512, SHA1, SHA256):
            party.adds(it)
            party.tell()
        yield party


def sections():
    for make in (agents, challenged, replies, shorts, requests, answers, settings):
        yield from make()


assert struct.unpack(">6H", THREE_LIST) == (1, 0, 2, 0, 0xFF12, 0)
