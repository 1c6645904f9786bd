"""What reaches the authenticators in the rows of `test_rows_proto`: challenges, replies and requests."""

from rows_proto_auth import (
    BOTH,
    FIRST_LIST,
    FROM,
    LIST,
    NAMES,
    NEXT,
    OTHER_LIST,
    PLAIN,
    SIXTH,
    Client,
    Server,
    Short,
    challenge,
    chosen,
    code,
    listed,
    reply,
    request,
)
from rows_proto_base import (
    ALLOCATE,
    BINDING,
    ERROR,
    GREATEST,
    INDICATION,
    LONGEST,
    REQUEST,
    SECOND,
    SUCCESS,
    Section,
    message,
)
from rows_proto_keys import (
    ERROR_CODE,
    INTEGRITY,
    INTEGRITY_SHA256,
    NONCE,
    NUMBER,
    PASSWORD_ALGORITHM,
    REALM,
    SHA1,
    SHA256,
    USERHASH,
    USERNAME,
    attribute,
    entries,
    hash_of,
    hmac_of,
    joined,
    key_of,
    signed,
    with_length,
)
from rows_proto_values import SAMPLE_PASSWORD, SAMPLE_REPLY, SAMPLE_REPLY_6, SAMPLE_REQUEST

OK_SHA1, OK_SHA256 = reply(SHA1), reply(SHA256)
REPLIES = [OK_SHA1, OK_SHA256, reply(SHA1, "word"), reply(SHA256, "word"), message(ALLOCATE | SUCCESS, NUMBER)]


def fronted(size, kind=ALLOCATE | SUCCESS, attributes=(), key=None):
    """A message with a front of its HMAC-SHA256, or with more behind it, of so many bytes in all."""
    key = key or key_of(SHA256, "pass", "user", "realm")
    data = message(kind, NUMBER, joined(attributes))
    text = with_length(data, len(data) - 20 + 4 + size + -size % 4)
    value = (hmac_of(SHA256, key, text) + bytes(size))[:size]
    return text + attribute(INTEGRITY_SHA256, value)


def twice_signed(kind, attributes, first_key, second_key):
    """A message that is signed by HMAC-SHA1, and then by HMAC-SHA256."""
    front = joined(attributes)
    by_sha1 = signed(kind, attributes, first_key, SHA1)
    text = with_length(by_sha1, len(front) + 24 + 36)
    return text + attribute(INTEGRITY_SHA256, hmac_of(SHA256, second_key, text))


def more(data, *attributes):
    """A message with more behind its end."""
    behind = joined(attributes)
    return with_length(data + behind, len(data) + len(behind) - 20)


# ---- a client


# what is shown, the algorithms of the client and whether it hides the name, and what it hears
BOTH_BY = (SHA1, SHA256)
CHALLENGES = [
    ("no list: HMAC-SHA1, and USERNAME where the nonce offers no more", BOTH_BY, "Auto", challenge(PLAIN)),
    ("a list: the strongest common algorithm", BOTH_BY, "Disabled", challenge(BOTH, listed(FIRST_LIST))),
    ("whatever its order", BOTH_BY, "Disabled", challenge(BOTH, listed(OTHER_LIST))),
    ("and whatever that of the client", (SHA256, SHA1), "Disabled", challenge(BOTH, listed(FIRST_LIST))),
    ("the client has the weaker one alone", (SHA1,), "Disabled", challenge(BOTH, listed(FIRST_LIST))),
    ("or the stronger one", (SHA256,), "Disabled", challenge(BOTH, listed(FIRST_LIST))),
    ("a list counts where the nonce says that there is one", BOTH_BY, "Auto", challenge(PLAIN, listed(FIRST_LIST))),
    ("a hash of the name where the nonce offers it", BOTH_BY, "Auto", challenge(BOTH, listed(FIRST_LIST))),
    ("and where it is required", (SHA1,), "Required", challenge(NAMES)),
    ("a nonce without the cookie offers nothing", BOTH_BY, "Auto", challenge("plain", listed(FIRST_LIST))),
    (
        "a stale nonce is a challenge too; its realm is another",
        BOTH_BY,
        "Auto",
        challenge(PLAIN, realm="elsewhere", reason=code(438, "Stale Nonce")),
    ),
    ("nothing in common", (SHA256,), "Auto", challenge(BOTH, listed(entries([SHA1])))),
    ("no list, and the client has the stronger one alone", (SHA256,), "Auto", challenge(NAMES)),
    ("the hash is required and not offered", BOTH_BY, "Required", challenge(LIST, listed(FIRST_LIST))),
    ("a success that is not signed", BOTH_BY, "Auto", message(ALLOCATE | SUCCESS, NUMBER)),
    ("an error response with 400", BOTH_BY, "Auto", challenge(PLAIN, reason=code(400, "Bad Request"))),
]


def challenged():
    """Challenges, what is signed then, and replies."""
    for what, algorithms, anonymity, data in CHALLENGES:
        c = Client(what, algorithms=algorithms, anonymity=anonymity)
        c.hear(data)
        c.signs()
        for realm in ("realm", "elsewhere"):
            for by in (SHA1, SHA256):
                c.hear(reply(by, realm=realm))
                c.hear(reply(by, "word", realm=realm))
        c.hear(message(ALLOCATE | SUCCESS, NUMBER))
        yield c


LISTS = [entries([SHA1]), entries([SHA256]), FIRST_LIST, OTHER_LIST, b"\0\7\0\0", b"\0\1\0\0\0\7\0\0"]


def choices():
    """Each setting of a client under each kind of challenge."""
    for algorithms in ((SHA1,), (SHA256,), (SHA1, SHA256)):
        for anonymity in ("Auto", "Required", "Disabled"):
            c = Client("each kind of challenge", algorithms=algorithms, anonymity=anonymity)
            for nonce in (PLAIN, NAMES, LIST, BOTH, "nonce"):
                c.hear(challenge(nonce))
                for value in LISTS:
                    c.hear(challenge(nonce, listed(value)))
            yield c


def told_twice(kind, front, back):
    return [(kind, front), (kind, back)]


NAMED = [(REALM, "realm"), (NONCE, PLAIN)]

# what an error response shows
SHOWN = [
    [(REALM, "realm"), (NONCE, PLAIN)],
    [code(401), (REALM, "realm")],
    [code(401), (NONCE, PLAIN)],
    [code(401)],
    [],
    # any order, and with more
    [(NONCE, PLAIN), (REALM, "realm"), (USERNAME, "user"), code(401)],
    # no code: too short, and numbers that are none
    [(ERROR_CODE, b"\0\0\4"), *NAMED],
    [(ERROR_CODE, b"\0\0\4\x64"), *NAMED],
    [(ERROR_CODE, b"\0\0\2\1"), *NAMED],
    [(ERROR_CODE, b"\0\0\4\1\xff"), *NAMED],
    # the first two bytes are not looked at
    [(ERROR_CODE, b"\xff\xff\4\1"), *NAMED],
    # the last one decides, and where it is malformed there is none
    [*told_twice(ERROR_CODE, b"\0\0\4\0", b"\0\0\4\1"), *NAMED],
    [*told_twice(ERROR_CODE, b"\0\0\4\1", b"\0\0\4\0"), *NAMED],
    [*told_twice(ERROR_CODE, b"\0\0\4\1", b"\0\0"), *NAMED],
    [code(401), *told_twice(REALM, "first", "second"), (NONCE, PLAIN)],
    [code(401), *told_twice(REALM, "first", b"\xff"), (NONCE, PLAIN)],
    [code(401), (REALM, "realm"), *told_twice(NONCE, "first", "second")],
    [code(401), (REALM, "realm"), *told_twice(NONCE, "first", b"\xff")],
    # the longest texts, and longer ones
    [code(401), (REALM, "r" * 763), (NONCE, PLAIN)],
    [code(401), (REALM, "r" * 764), (NONCE, PLAIN)],
    [code(401), (REALM, "realm"), (NONCE, "n" * 763)],
    [code(401), (REALM, "realm"), (NONCE, "n" * 764)],
    [code(401, "r" * 763), *NAMED],
    [code(401, "r" * 764), *NAMED],
    [code(401), (REALM, ""), (NONCE, "")],
]


def no_challenges():
    """What is a challenge, and what is none."""
    c = Client("what is a challenge, and what is none")
    for kind in (REQUEST, INDICATION, SUCCESS, ERROR):
        c.hear(signed(ALLOCATE | kind, [code(401), *NAMED]))
        c.hear(signed(BINDING | kind, [code(438), *NAMED], number=1))
    c.hear(challenge(PLAIN, realm="r"))
    for value in (300, 400, 402, 437, 439, 441, 600):
        c.hear(challenge(PLAIN, reason=code(value)))
    for attributes in SHOWN:
        c.hear(signed(ALLOCATE | ERROR, attributes))
    # it is a challenge also where it is signed, and whatever the signature; what stands behind it is not shown
    key = key_of(SHA1, "pass", "user", "realm")
    c.hear(signed(ALLOCATE | ERROR, [code(401), *NAMED], key))
    c.hear(signed(ALLOCATE | ERROR, [code(401), *NAMED], b"x"))
    c.hear(more(signed(ALLOCATE | ERROR, [code(401), (REALM, "realm")], key), (NONCE, PLAIN)))
    c.hear(more(signed(ALLOCATE | ERROR, [code(400), *NAMED], key), code(401)))
    return c


def replies():
    """Replies under a challenge, by each algorithm."""
    for choice in (SHA1, SHA256):
        c = Client("replies", algorithms=(choice,))
        c.hear(challenge(BOTH, listed(FIRST_LIST)))
        weak, strong = (key_of(by, "pass", "user", "realm") for by in (SHA1, SHA256))
        for data in (
            *REPLIES,
            reply(choice, realm="other"),
            reply(choice, name="User"),
            # of any class, and an error that is no challenge
            reply(choice, kind=ERROR, attributes=[code(400)]),
            reply(choice, kind=REQUEST),
            reply(choice, kind=INDICATION),
            # the last signature counts
            twice_signed(ALLOCATE | SUCCESS, [], weak, strong),
            twice_signed(ALLOCATE | SUCCESS, [], weak, b"x"),
            twice_signed(ALLOCATE | SUCCESS, [], b"x", strong),
            # and is of the right key for its algorithm
            signed(ALLOCATE | SUCCESS, [], strong, SHA1),
            signed(ALLOCATE | SUCCESS, [], weak, SHA256),
            # what stands behind it is not covered
            more(reply(choice), (REALM, "realm")),
            more(reply(SHA256), (INTEGRITY, bytes(20))),
            # of a wrong length
            signed(ALLOCATE | SUCCESS, [(INTEGRITY, bytes(4))]),
            *(fronted(size) for size in (12, 15, 16, 18, 20, 24, 28, 32, 36)),
        ):
            c.hear(data)
        yield c


def without_credentials():
    c = Client("without credentials it is as if no challenge were kept", account=None)
    c.tell()
    c.signs()
    c.hear(OK_SHA1)
    c.hear(challenge(NAMES))
    c.signs()
    c.hear(OK_SHA1)
    # the challenge counts once they are set, and goes on to count for others
    c.credentials("user", "pass")
    c.tell()
    c.signs()
    c.hear(OK_SHA1)
    c.credentials("other", "word")
    c.tell()
    c.signs("request", "success")
    c.hear(OK_SHA1)
    c.hear(reply(SHA1, "word", "other"))
    return c


def offered(party):
    """Algorithms are added one by one, some of them twice; then they are set, and one more is added."""
    party.tell()
    for it in (SHA1, SHA256, SHA256, SHA1):
        party.adds(it)
        party.tell()
    party.sets(SHA256)
    party.adds(SHA1)


def settings_of_clients():
    c = Client("settings, and what stays of the choice where they change")
    offered(c)
    c.tell()
    for it in ("Required", "Disabled", "Auto"):
        c.names(it)
        c.tell()
    c.hear(OK_SHA1)
    c.hear(challenge(BOTH, listed(FIRST_LIST)))
    c.sets(SHA1)
    c.names("Disabled")
    c.tell()
    c.signs("request")
    c.hear(OK_SHA256)
    # a challenge that is refused changes nothing
    c.sets(SHA256)
    c.hear(challenge(PLAIN, realm="other"))
    c.signs("request")
    c.hear(OK_SHA256)
    # one that is taken takes the place of the other
    c.adds(SHA1)
    c.hear(challenge(PLAIN, realm="other"))
    c.signs("request")
    c.hear(OK_SHA256)
    c.hear(reply(realm="other"))
    return c


def long_names():
    """The longest name that a USERNAME has room for, and a longer one, which a hash stands for."""
    for size in (513, 514):
        c = Client("a name of that length", account=("u" * size, "pass"))
        for nonce in (PLAIN, NAMES):
            c.hear(challenge(nonce))
            c.signs("request", "success")
        yield c
    # the limit is one of bytes
    c = Client("a name of 257 letters and 514 bytes", account=("\u00e9" * 257, "pass"))
    c.hear(challenge(PLAIN))
    c.signs("request", "success")
    yield c


def bad_client_lines():
    c = Client("lines that can't be read")
    for line in (
        "credentials user",
        "set algorithm=md5",
        "set algorithm=",
        "names anonymity=never",
        "sign class=refusal",
        "hear bytes=00",
        "hear bytes=0",
        "hear",
        "draw now=0",
        "tell me",
    ):
        c.say(line, "bad line")
    c.tell()
    return c


def shorts():
    """Short-term credentials."""
    a = Short("nothing is signed or validated without credentials")
    a.tell()
    a.signs()
    for data in (OK_SHA1, SAMPLE_REQUEST, message(ALLOCATE, NUMBER)):
        a.hear(data)
    for line in ("credentials algorithm=md5", "sign class=reply", "hear bytes=00", "hear", "names anonymity=auto"):
        a.say(line, "bad line")
    yield a
    keys = {by: key_of(by, "pass") for by in (SHA1, SHA256)}
    for by in (SHA1, SHA256):
        a = Short("with credentials by their algorithm alone")
        a.credentials("pass", by)
        a.signs()
        for key in (b"pass", b"word", key_of(SHA1, "pass", "user", "realm")):
            for kind in (ALLOCATE, ALLOCATE | SUCCESS, ALLOCATE | ERROR, ALLOCATE | INDICATION, BINDING):
                a.hear(signed(kind, [], key, SHA1))
                a.hear(signed(kind, [], key, SHA256))
        for data in (
            message(ALLOCATE, NUMBER),
            twice_signed(ALLOCATE, [], keys[SHA1], keys[SHA256]),
            twice_signed(ALLOCATE, [], keys[SHA1], b"x"),
            twice_signed(ALLOCATE, [], b"x", keys[SHA256]),
            more(signed(ALLOCATE, [], b"pass", by), (USERNAME, "user")),
            signed(ALLOCATE, [(INTEGRITY, bytes(4))]),
            *(fronted(size, ALLOCATE, key=b"pass") for size in (12, 16, 18, 20, 24, 28, 32, 36)),
        ):
            a.hear(data)
        a.credentials("word", SHA1)
        a.signs()
        yield a
    a = Short("the messages of RFC 5769, sections 2.1 to 2.3")
    for by in (SHA1, SHA256):
        a.credentials(SAMPLE_PASSWORD, by)
        for data in (SAMPLE_REQUEST, SAMPLE_REPLY, SAMPLE_REPLY_6):
            a.hear(data)
    yield a


# ---- a server


UNSIGNED = [(USERNAME, "user"), (REALM, "realm"), (NONCE, NAMES)]


def named(*others, name="user", realm="realm", nonce=NAMES):
    """What a request shows of its user."""
    return [(USERNAME, name), (REALM, realm), (NONCE, nonce), *others]


def hashed(*others, name="user", nonce=NAMES, in_realm="realm", realm="realm"):
    """The same with the hash of a name."""
    return [(USERHASH, hash_of(name, in_realm)), (REALM, realm), (NONCE, nonce), *others]


def shows(*attributes, password="pass", name="user"):
    """A request that shows these of its user, in the realm and with the nonce, signed by HMAC-SHA1."""
    return request(*attributes, *named()[1:], by=SHA1, password=password, name=name)


FIRST = request(*named(), by=SHA1)
BARE = request(*named())

MESSAGES = [
    ("signed by HMAC-SHA1", FIRST),
    ("an indication in place of a request", request(*named(), by=SHA1, kind=ALLOCATE | INDICATION)),
    ("not signed", BARE),
    ("no USERNAME", shows()),
    ("no USERNAME, and a USERHASH of nobody", shows((USERHASH, b"h" * 32))),
    ("no REALM", request((USERNAME, "user"), (NONCE, NAMES), by=SHA1)),
    ("no NONCE", request((USERNAME, "user"), (REALM, "realm"), by=SHA1)),
    ("a NONCE with another last character", request(*named(nonce=NAMES[:-1] + "b"), by=SHA1)),
    ("a NONCE that is a front of the right one", request(*named(nonce=NAMES[:-1]), by=SHA1)),
    ("a longer NONCE", request(*named(nonce=NAMES + "a"), by=SHA1)),
    ("another user", request(*named(name="User"), by=SHA1)),
    ("signed under another password", request(*named(), by=SHA1, password="Pass")),
    ("another REALM, which doesn't count", request(*named(realm="other"), by=SHA1)),
    ("signed in another realm", request(*named(realm="other"), by=SHA1, realm="other")),
    ("a MESSAGE-INTEGRITY of four bytes", request(*named((INTEGRITY, b"\1\2\3\4")))),
    ("signed before the user is named", more(request(by=SHA1), *named())),
    # of two the last decides, and where it is malformed there is none
    ("two names, the last one right", request((USERNAME, "nobody"), *named(), by=SHA1)),
    ("two names, the first one right", request(*named((USERNAME, "nobody")), by=SHA1)),
    ("a name that is no UTF-8 behind the right one", request(*named((USERNAME, b"\xff")), by=SHA1)),
    ("two nonces, the last one right", request((NONCE, "nonce"), *named(), by=SHA1)),
    ("two nonces, the first one right", request(*named((NONCE, "nonce")), by=SHA1)),
    ("two realms", request(*named((REALM, "other")), by=SHA1)),
    ("a realm that is no UTF-8 behind the right one", request(*named((REALM, b"\xff")), by=SHA1)),
    ("a name of 514 bytes behind the right one", request(*named((USERNAME, "u" * 514)), by=SHA1)),
]


def requests():
    """Requests to a server that knows `user` alone."""
    for what, data in MESSAGES:
        s = Server(what)
        s.hear(data)
        yield s


# the settings of a server
ONLY_SHA1, TAKES_BOTH, ONLY_SHA256 = [], [(Server.adds, SHA256)], [(Server.sets, SHA256)]
OTHER_ORDER = [(Server.sets, SHA256), (Server.adds, SHA1)]
NO_HASHES, OWN_HASHES = [(Server.names, "Disabled")], [(Server.names, "Required")]
WITHOUT_USER, NEW_PASSWORD = [(Server.removes, "user")], [(Server.user, "user", "new")]
USERS = [("user", "pass"), ("User", "Pass"), ("other", "word")]
ONLY_SECOND = entries([SHA256])


def asked(value, choice, by, nonce=BOTH, password="pass"):
    """A request that shows a list and a choice, each where there is one, and is signed by an algorithm."""
    others = [*([listed(value)] if value else []), *([chosen(choice)] if choice else [])]
    return request(*named(*others, nonce=nonce), by=by, password=password)


ALGORITHMS = [
    ("a list in the order of the settings, the stronger one chosen", TAKES_BOTH, asked(FIRST_LIST, SHA256, SHA256)),
    ("the weaker one chosen", TAKES_BOTH, asked(FIRST_LIST, SHA1, SHA1)),
    ("neither attribute", TAKES_BOTH, asked(None, None, SHA1)),
    ("neither, signed by the stronger one", TAKES_BOTH, asked(None, None, SHA256)),
    ("a list in another order", TAKES_BOTH, asked(OTHER_LIST, SHA256, SHA256)),
    ("a list without the weaker one", TAKES_BOTH, asked(ONLY_SECOND, SHA256, SHA256)),
    ("a list and no choice", TAKES_BOTH, asked(FIRST_LIST, None, SHA1)),
    ("a choice and no list", TAKES_BOTH, asked(None, SHA256, SHA256)),
    ("a choice of the weaker one and no list", TAKES_BOTH, asked(None, SHA1, SHA1)),
    ("one chosen, and signed by the other", TAKES_BOTH, asked(FIRST_LIST, SHA1, SHA256)),
    ("and the other way round", TAKES_BOTH, asked(FIRST_LIST, SHA256, SHA1)),
    ("a list of no algorithm that is known is as if there were none", TAKES_BOTH, asked(b"\0\7\0\0", None, SHA1)),
    ("and so is one that lists such a one too", TAKES_BOTH, asked(FIRST_LIST + b"\0\7\0\0", SHA1, SHA1)),
    ("a list with parameters", TAKES_BOTH, asked(b"\0\1\0\0\0\2\0\1", SHA1, SHA1)),
    ("signed under another password", TAKES_BOTH, asked(FIRST_LIST, SHA256, SHA256, password="Pass")),
    ("the list of the other order, by a server of that order", OTHER_ORDER, asked(OTHER_LIST, SHA256, SHA256)),
    ("and the first one", OTHER_ORDER, asked(FIRST_LIST, SHA256, SHA256)),
    ("the stronger one alone is supported", ONLY_SHA256, asked(ONLY_SECOND, SHA256, SHA256)),
    ("and the weaker one is not taken", ONLY_SHA256, asked(None, None, SHA1)),
    ("nor where it is chosen", ONLY_SHA256, asked(FIRST_LIST, SHA1, SHA1)),
    ("the weaker one alone is supported", ONLY_SHA1, asked(entries([SHA1]), SHA1, SHA1, NAMES)),
    ("and a list with the stronger one is another's", ONLY_SHA1, asked(FIRST_LIST, SHA256, SHA256, NAMES)),
    (
        "signed by both, of which the last counts",
        TAKES_BOTH,
        twice_signed(
            ALLOCATE,
            named(listed(FIRST_LIST), chosen(SHA256), nonce=BOTH),
            b"x",
            key_of(SHA256, "pass", "user", "realm"),
        ),
    ),
    (
        "a choice of no algorithm that is known is as if there were none",
        TAKES_BOTH,
        request(*named((PASSWORD_ALGORITHM, b"\0\7\0\0"), nonce=BOTH), by=SHA1),
    ),
    (
        "two choices, of which the last counts",
        TAKES_BOTH,
        request(*named(listed(FIRST_LIST), chosen(SHA1), chosen(SHA256), nonce=BOTH), by=SHA256),
    ),
]


def fronts():
    """Requests with a front of an HMAC-SHA256."""
    attributes = named(listed(FIRST_LIST), chosen(SHA256), nonce=BOTH)
    for size in (12, 15, 16, 18, 20, 24, 28, 32, 36):
        yield f"a front of {size} bytes", TAKES_BOTH, fronted(size, ALLOCATE, attributes)


NOBODY = shows((USERHASH, hash_of("nobody")))
HASH, OTHER_HASH = (USERHASH, hash_of("user")), (USERHASH, hash_of("other"))

HASHES = [
    ("the hash of each user's name", ONLY_SHA1, request(*hashed(), by=SHA1)),
    ("of the second", ONLY_SHA1, request(*hashed(name="User"), by=SHA1, password="Pass", name="User")),
    ("of the third", ONLY_SHA1, request(*hashed(name="other"), by=SHA1, password="word", name="other")),
    (
        "either algorithm, where both are supported",
        TAKES_BOTH,
        request(
            *hashed(listed(FIRST_LIST), chosen(SHA256), name="other", nonce=BOTH),
            by=SHA256,
            password="word",
            name="other",
        ),
    ),
    (
        "the weaker one",
        TAKES_BOTH,
        request(
            *hashed(listed(FIRST_LIST), chosen(SHA1), name="other", nonce=BOTH), by=SHA1, password="word", name="other"
        ),
    ),
    ("by a server that doesn't take it", NO_HASHES, request(*hashed(nonce=PLAIN), by=SHA1)),
    ("and under a nonce that is not its own", NO_HASHES, request(*hashed(nonce="n"), by=SHA1)),
    ("such a server takes a name", NO_HASHES, request(*named(nonce=PLAIN), by=SHA1)),
    ("also beside the hash", NO_HASHES, request(*named(HASH, nonce=PLAIN), by=SHA1)),
    ("and wants an integrity attribute first", NO_HASHES, request(*hashed(nonce=PLAIN))),
    ("by one that wants nothing else, a name", OWN_HASHES, FIRST),
    ("and the hash", OWN_HASHES, request(*hashed(), by=SHA1)),
    ("the server's realm counts, whatever REALM is shown", ONLY_SHA1, request(*hashed(realm="other"), by=SHA1)),
    ("the hash in another realm", ONLY_SHA1, request(*hashed(in_realm="other"), by=SHA1)),
    ("the hash of nobody", ONLY_SHA1, NOBODY),
    ("signed under another user's key", ONLY_SHA1, request(*hashed(), by=SHA1, password="word", name="other")),
    (
        "the same by the stronger one",
        TAKES_BOTH,
        request(*hashed(listed(FIRST_LIST), chosen(SHA256), name="other", nonce=BOTH), by=SHA256),
    ),
    # a USERNAME decides, and a USERHASH beside it isn't looked at
    ("a name, and the hash of another behind it", ONLY_SHA1, shows((USERNAME, "user"), OTHER_HASH)),
    ("and before it", ONLY_SHA1, request(OTHER_HASH, *named(), by=SHA1)),
    (
        "signed by whom the hash names",
        ONLY_SHA1,
        shows((USERNAME, "user"), OTHER_HASH, password="word", name="other"),
    ),
    ("the name of nobody, and the hash of a user", ONLY_SHA1, shows((USERNAME, "nobody"), HASH)),
    ("neither of them", ONLY_SHA1, shows()),
    ("a USERHASH of 31 bytes", ONLY_SHA1, shows((USERHASH, HASH[1][:31]))),
    ("and of 33", ONLY_SHA1, shows((USERHASH, HASH[1] + b"\0"))),
    ("of two the last decides", ONLY_SHA1, shows((USERHASH, hash_of("nobody")), HASH)),
    ("whatever the first", ONLY_SHA1, shows(HASH, (USERHASH, hash_of("nobody")))),
    ("a name that is no UTF-8 is as if there were none", ONLY_SHA1, shows(HASH, (USERNAME, b"\xff"))),
    ("`user` was removed", WITHOUT_USER, request(*hashed(), by=SHA1)),
    ("but not the other", WITHOUT_USER, request(*hashed(name="other"), by=SHA1, password="word", name="other")),
    ("`user` got the password `new`, and signs under the old one", NEW_PASSWORD, request(*hashed(), by=SHA1)),
    ("and under the new one", NEW_PASSWORD, request(*hashed(), by=SHA1, password="new")),
]


def users():
    """Requests to a server that knows several users, of other settings."""
    for what, settings, data in [*ALGORITHMS, *fronts(), *HASHES]:
        s = Server(what, *settings, users=USERS)
        s.tell()
        s.hear(data)
        yield s


def outcomes():
    """What a server keeps of a message: a response changes nothing; what is refused else forgets the user."""
    response = signed(ALLOCATE | SUCCESS, named(), key_of(SHA1, "pass", "user", "realm"))
    failure = signed(ALLOCATE | ERROR, [], key_of(SHA1, "pass", "user", "realm"))
    s = Server("a response changes nothing, and draws no nonce")
    for data in (response, failure):
        s.hear(data)
    s.kept(FROM)
    for data in (FIRST, response, failure):
        s.hear(data)
    yield s
    for data in (BARE, shows(), request(*named(nonce="n"), by=SHA1), NOBODY):
        s = Server("what is refused forgets the user")
        for it in (FIRST, data, FIRST):
            s.hear(it)
        yield s
    s = Server("it ceases to support HMAC-SHA1: the nonce stays")
    s.hear(FIRST)
    s.sets(SHA256)
    s.hear(FIRST)
    s.adds(SHA1)
    s.hear(FIRST)
    yield s
    s = Server("hashes are taken no more: the nonce stays, and a name is wanted")
    own_hash = request(*hashed(), by=SHA1)
    s.hear(own_hash)
    s.names("Disabled")
    s.hear(own_hash)
    s.hear(FIRST)
    s.names("Auto")
    s.hear(own_hash)
    yield s
    s = Server("two addresses at most: a third one makes room")
    s.limits(2)
    for at, address in enumerate((FROM, NEXT, SIXTH)):
        s.refresh(address, 0, at)
    s.kept(FROM, NEXT, SIXTH)
    yield s
    s = Server("one whose message was validated stays")
    s.limits(2)
    s.hear(FIRST, FROM)
    s.refresh(NEXT, 0, 1)
    s.refresh(SIXTH, 0, 2)
    s.kept(FROM, NEXT, SIXTH)
    yield s
    s = Server("more than half were validated: all go")
    s.limits(2)
    s.hear(FIRST, FROM)
    s.hear(FIRST, NEXT)
    s.refresh(SIXTH, 0, 2)
    s.kept(FROM, NEXT, SIXTH)
    yield s
    s = Server("an address for which something is stored makes no room")
    s.limits(2)
    s.refresh(FROM, 0, 0)
    s.refresh(NEXT, 3600 * SECOND, 1)
    s.refresh(FROM, 3600 * SECOND, 2)
    s.kept(FROM, NEXT)
    yield s
    s = Server("without a limit none makes room")
    many = [f"10.0.{it // 250}.{it % 250}:7" for it in range(1000)]
    for address in many:
        s.refresh(address, 0, 0)
    s.kept(*many)
    yield s
    s = Server("each address has its own nonce and outcome")
    for address in (FROM, NEXT, SIXTH):
        s.hear(FIRST, address, 0, 0 if address != NEXT else 1)
    s.kept(FROM, NEXT, SIXTH)
    s.forgets(FROM)
    s.forgets(FROM)
    s.kept(FROM, NEXT, SIXTH)
    s.hear(FIRST, FROM, 0, 1)
    s.signs(FROM, SIXTH)
    yield s


MINUTE = 60 * SECOND


def expiries():
    """How long nonces stand."""
    s = Server("nonces stand until they expire", (Server.expires, 60 * SECOND))
    addresses = FROM, NEXT, SIXTH
    s.kept(*addresses)
    for address, now, seed, anonymity in (
        (FROM, 0, 0, "Auto"),
        (FROM, MINUTE - 1, 1, "Auto"),
        (FROM, MINUTE, 1, "Auto"),
        (NEXT, MINUTE, 0, "Auto"),
        (SIXTH, 0, 0, "Disabled"),
    ):
        s.names(anonymity)
        s.tell()
        s.refresh(address, now, seed)
        s.kept(*addresses)
    s.forgets(FROM)
    s.kept(*addresses)
    yield s
    s = Server("a nonce that has expired is drawn anew, also by a message, and its user is forgotten")
    s.hear(FIRST, FROM, 0)
    s.hear(FIRST, FROM, 3600 * SECOND - 1, 7)
    s.hear(FIRST, FROM, 3600 * SECOND, 7)
    s.hear(FIRST, FROM, 3600 * SECOND, 0)
    # how long it stands counts for those that are kept too, the shortest time being half a minute
    for time in (0, 29 * SECOND, 30 * SECOND - 1, 30 * SECOND, 31 * SECOND):
        s.expires(time)
    s.refresh(FROM, 3600 * SECOND + 31 * SECOND - 1, 0)
    s.refresh(FROM, 3600 * SECOND + 31 * SECOND, 0)
    s.hear(FIRST, FROM, 3600 * SECOND + 31 * SECOND)
    yield s
    s = Server("at the last moments of all a nonce stands no longer")
    for now, seed in ((GREATEST - 1, 1), (GREATEST - 1, 2), (GREATEST, 3), (GREATEST, 4)):
        s.refresh(FROM, now, seed)
    s.expires(LONGEST)
    s.refresh(FROM, GREATEST, 5)
    s.refresh(NEXT, 0, 5)
    s.refresh(NEXT, GREATEST - 1, 6)
    s.refresh(NEXT, GREATEST, 7)
    yield s


def before(what):
    """A server to whose client something happened."""
    s = Server(f"what is signed: {what}")
    if what == "a server of both algorithms":
        s.adds(SHA256)
    if what not in ("nothing", "the first message was refused"):
        s.hear(FIRST)
    if what == "the user got another password":
        s.user("user", "word")
    if what == "another user was removed":
        s.removes("other")
    if what == "the user was removed":
        s.removes("user")
    if what == "the user was removed, and is back":
        s.removes("user")
        s.user("user", "new")
    if what == "the algorithm is supported no more":
        s.sets(SHA256)
    if what == "the nonce was drawn anew":
        s.refresh(FROM, 3600 * SECOND, 3)
    if what == "hashed names are taken no more":
        s.names("Disabled")
    if what in ("the first message was refused", "a later message was refused", "a server of both algorithms"):
        s.hear(BARE)
    return s


def signings():
    """What a server signs, to its client and to another address."""
    for what in (
        "nothing",
        "the message was validated",
        "the user got another password",
        "another user was removed",
        "the user was removed",
        "the user was removed, and is back",
        "the algorithm is supported no more",
        "the nonce was drawn anew",
        "hashed names are taken no more",
        "the first message was refused",
        "a later message was refused",
        "a server of both algorithms",
    ):
        s = before(what)
        s.signs(FROM, NEXT)
        yield s
    # a list that changes behind a nonce that tells of one
    s = Server("the list is that of the present settings", (Server.adds, SHA256))
    s.hear(BARE)
    for settings in ((SHA256, SHA1), (SHA256,), (SHA1,)):
        s.sets(*settings)
        s.sign("error", FROM)
    yield s
    s = Server("signed by HMAC-SHA256", (Server.adds, SHA256))
    s.hear(asked(FIRST_LIST, SHA256, SHA256))
    s.signs(FROM)
    yield s


def long_texts():
    """Texts at their limits."""
    for size in (513, 514):
        name = "u" * size
        s = Server("a name of that length, by its hash and by itself", users=((name, "pass"),))
        s.hear(request(*hashed(name=name), by=SHA1, name=name))
        s.signs(FROM)
        s.hear(request(*named(name=name), by=SHA1, name=name))
        yield s
    realm = "r" * 763
    s = Server("the longest realm", realm=realm)
    s.tell()
    s.hear(request(*named(realm=realm), by=SHA1, realm=realm))
    s.signs(FROM)
    yield s
    s = Section("server realm=" + "r" * 764)
    s.lines.append("tell")
    s.answers.append("bad line")
    yield s
    s = Server("a realm that is not ASCII", realm="\u00e9\u30c8")
    s.tell()
    s.hear(request(*named(realm="\u00e9\u30c8"), by=SHA1, realm="\u00e9\u30c8"))
    s.signs(FROM)
    yield s


def settings_of_servers():
    s = Server("settings")
    offered(s)
    s.adds(SHA256)
    s.tell()
    for it in ("Required", "Disabled", "Auto"):
        s.names(it)
        s.tell()
        s.refresh(FROM, 0)
        s.forgets(FROM)
    s.sets(SHA1)
    s.refresh(FROM, 0, 255)
    for line in (
        "user user",
        "forget from=192.168.0.1",
        "expiry",
        "expiry behind=x",
        "set algorithm=md5",
        "names anonymity=never",
        "refresh from=192.168.0.1:1000 seed=256",
        "hear from=192.168.0.1:1000 bytes=00",
        "hear from=192.168.0.1:1000 bytes=0",
        "sign class=refusal to=192.168.0.1:1000",
        "draw now=0",
        "kept from=x",
    ):
        s.say(line, "bad line")
    s.kept(FROM)
    return s


def servers():
    yield from requests()
    yield from users()
    yield from outcomes()
    yield from expiries()
    yield from signings()
    yield from long_texts()
    yield settings_of_servers()


def clients():
    yield from challenged()
    yield from choices()
    yield no_challenges()
    yield from replies()
    yield without_credentials()
    yield settings_of_clients()
    yield from long_names()
    yield bad_client_lines()
    yield from shorts()
