"""The rows of `test_rows_proto` for the authenticators of a client and of a server.

What they answer, keep and sign is worked out by RFC 8489, sections 9.1 and 9.2, and by what their calls are
documented to do.
"""

from rows_proto_base import ALLOCATE, ERROR, INDICATION, REQUEST, SECOND, SUCCESS, Section, duration
from rows_proto_keys import (
    ALL,
    BY,
    ERROR_CODE,
    MOST_NAME,
    MOST_TEXT,
    NONCE,
    PASSWORD_ALGORITHM,
    PASSWORD_ALGORITHMS,
    REALM,
    SHA1,
    SHA256,
    TRANSPORT,
    USERHASH,
    USERNAME,
    WORDS,
    claim_of,
    entries,
    entries_in,
    hash_of,
    is_signed,
    judged,
    key_of,
    nonce_of,
    numbers_in,
    offered,
    rust_text,
    signed,
    some,
    told,
    words,
)

CLASSES = {"request": REQUEST, "indication": INDICATION, "success": SUCCESS, "error": ERROR}
# the first nonces of a seed of zeros, by what they tell; and one that tells nothing of its own
ZERO = {features: nonce_of(features, words(0)) for features in ((a, b) for a in (False, True) for b in (False, True))}
PLAIN, NAMES, LIST, BOTH = ZERO[False, False], ZERO[False, True], ZERO[True, False], ZERO[True, True]
FIRST_LIST, OTHER_LIST = entries([SHA1, SHA256]), entries([SHA256, SHA1])


class TooLong(Exception):
    """A text that is over its limit."""

    def __init__(self, most, size):
        super().__init__(f"TooLarge {{ expected: {most}, actual: {size} }}")


def part(kind, text, most):
    """An attribute that is added, whose text has at most so many bytes."""
    size = len(text.encode())
    if size > most:
        raise TooLong(most, size)
    return kind, text


def made(what, parts):
    """A message of a class with what is added to it, and how many bytes these are; or why it is refused."""
    try:
        attributes, key, algorithm = parts()
    except TooLong as refused:
        return str(refused), 0
    data = signed(ALLOCATE | CLASSES[what], attributes, key, algorithm)
    return f"{data.hex()} {data.hex()}", len(data) - 20


def is_validated(data, algorithm, key):
    """Whether the last integrity attribute of a message is of an algorithm, and right."""
    return claim_of(data).integrity == algorithm and is_signed(data, algorithm, key)


class Short(Section):
    """Lines for the short-term authenticator of a client."""

    def __init__(self, what):
        super().__init__("short")
        self.remark(what)
        self.account = None

    def credentials(self, password, algorithm):
        self.account = password, algorithm
        self.ask("ok", "credentials", password=password, algorithm=WORDS[algorithm])
        self.tell()

    def parts(self):
        if self.account is None:
            return [], None, SHA1
        password, algorithm = self.account
        return [], key_of(algorithm, password), algorithm

    def tell(self):
        size = made("request", self.parts)[1]
        if self.account is None:
            return self.ask(f"None None {size}", "tell")
        password, algorithm = self.account
        return self.ask(f'Some(("{password}", {algorithm})) Some({algorithm}) {size}', "tell")

    def signs(self):
        for what in CLASSES:
            self.ask(made(what, self.parts)[0], "sign", class_=what)

    def hear(self, data):
        if self.account is None:
            answer = "Ok(None)"
        else:
            password, algorithm = self.account
            is_right = is_validated(data, algorithm, key_of(algorithm, password))
            answer = f"Ok(Some({algorithm}))" if is_right else "Err(IntegrityFailed)"
        self.ask(answer, "hear", bytes=data.hex())


class Client(Section):
    """Lines for the long-term authenticator of a client."""

    def __init__(self, what, account=("user", "pass"), algorithms=(SHA1,), anonymity="Auto"):
        super().__init__("client")
        self.remark(what)
        self.account, self.algorithms, self.anonymity = None, [SHA1], "Auto"
        self.is_hardened = False
        self.kept = self.integrity = None
        if account:
            self.credentials(*account)
        if list(algorithms) != [SHA1]:
            self.sets(*algorithms)
        if anonymity != "Auto":
            self.names(anonymity)

    def credentials(self, name, password):
        self.account = name, password
        self.ask("ok", "credentials", name=name, password=password)

    def adds(self, algorithm):
        if algorithm not in self.algorithms:
            self.algorithms.append(algorithm)
        self.ask("ok", "add", algorithm=WORDS[algorithm])

    def sets(self, first, *others):
        self.algorithms = [first]
        self.ask("ok", "set", algorithm=WORDS[first])
        for it in others:
            self.adds(it)

    def names(self, anonymity):
        self.anonymity = anonymity
        self.ask("ok", "names", anonymity=anonymity.lower())

    def harden(self):
        self.is_hardened = True
        self.ask("ok", "harden")

    def soften(self):
        self.is_hardened = False
        self.ask("ok", "soften")

    def standing(self):
        return self.kept if self.account else None

    def parts(self, what):
        if self.standing() is None or what == "indication":
            return [], None, SHA1
        realm, nonce, listed, choice = self.kept
        name, password = self.account
        key = key_of(choice, password, name, realm)
        if what != "request":
            return [], key, choice
        if told(nonce)[1] and self.anonymity != "Disabled":
            named = (USERHASH, hash_of(name, realm))
        else:
            named = part(USERNAME, name, MOST_NAME)
        attributes = [named, part(REALM, realm, MOST_TEXT), part(NONCE, nonce, MOST_TEXT)]
        if listed is not None:
            attributes += [(PASSWORD_ALGORITHMS, listed), (PASSWORD_ALGORITHM, entries([choice]))]
        return attributes, key, choice

    def tell(self):
        account = 'Some(("{}", "{}"))'.format(*self.account) if self.account else "None"
        realm, nonce, _, _ = self.standing() or (None, None, None, None)
        size = made("request", lambda: self.parts("request"))[1]
        kept = f"{rust_text(realm)} {rust_text(nonce)} {some(self.integrity)} {size}" + " hardened" * self.is_hardened
        self.ask(f"({account}, [{', '.join(self.algorithms)}], {self.anonymity}) {kept}", "tell")

    def signs(self, *classes):
        for what in classes or CLASSES:
            self.ask(made(what, lambda what=what: self.parts(what))[0], "sign", class_=what)

    def taken(self, claim):
        """What is made of a challenge. A hardened client wants the list that the nonce announces (RFC 8489, section
        9.2.5: it must not retry where the bit is set and no PASSWORD-ALGORITHMS is there), and passes over unknown
        entries."""
        has = claim.algorithms is not None
        if self.is_hardened:
            has = entries_in(claim.listed) is not None
            if told(claim.nonce)[0] and not has:
                return "UnsupportedFeature"
        listed = claim.listed if has and told(claim.nonce)[0] else None
        if listed is None:
            theirs = [SHA1]
        elif self.is_hardened:
            theirs = [it for it in ALL if (BY[it][3], b"") in entries_in(listed)]
        else:
            theirs = [it for it in ALL if BY[it][3] in numbers_in(listed)]
        common = [it for it in reversed(ALL) if it in self.algorithms and it in theirs]
        if not common or (self.anonymity == "Required" and not told(claim.nonce)[1]):
            return "UnsupportedFeature"
        self.kept = claim.realm, claim.nonce, listed, common[0]
        self.integrity = common[0]
        return f"ResendRequest({common[0]})"

    def answer(self, data):
        claim = claim_of(data)
        is_error = int.from_bytes(data[:2], "big") & 0x110 == ERROR
        if is_error and claim.code in (401, 438) and claim.realm is not None and claim.nonce is not None:
            return self.taken(claim)
        if claim.integrity is None or self.standing() is None:
            self.integrity = None
            return "Unauthorized"
        realm, _, _, choice = self.kept
        name, password = self.account
        self.integrity = choice
        if is_validated(data, choice, key_of(choice, password, name, realm)):
            return f"Validated({choice})"
        return f"IntegrityFailed({claim.integrity})"

    def hear(self, data):
        self.ask(self.answer(data), "hear", bytes=data.hex())
        self.tell()


FROM, NEXT, SIXTH = "192.168.0.1:1000", "192.168.0.1:1001", "[2001:db8::1]:1000"


class Server(Section):
    """Lines for the authenticator of a server, which knows `user` by the password `pass`."""

    def __init__(self, what, *settings, realm="realm", users=(("user", "pass"),)):
        super().__init__(f"server realm={realm}")
        self.remark(what)
        self.realm, self.users, self.clients = realm, {}, {}
        self.limit = None
        self.expiry, self.algorithms, self.anonymity = 3600 * SECOND, [SHA1], "Auto"
        for user in users:
            self.user(*user)
        for call, *given in settings:
            call(self, *given)

    def user(self, name, password):
        self.users[name] = password
        self.ask("ok", "user", name=name, password=password)

    def removes(self, name):
        self.users.pop(name, None)
        self.ask("ok", "remove-user", name=name)

    def forgets(self, address):
        self.clients.pop(address, None)
        self.ask("ok", "forget", from_=address)

    adds, sets, names = Client.adds, Client.sets, Client.names

    def limits(self, most):
        self.limit = most
        self.ask("ok", "limit", length=most)

    def expires(self, nanos):
        if nanos >= 30 * SECOND:
            self.expiry = nanos
        self.ask("ok" if nanos >= 30 * SECOND else "bad line", "expiry", behind=duration(nanos))

    def tell(self):
        self.ask(f"{self.realm} [{', '.join(self.algorithms)}] {self.anonymity}", "tell")

    def kept_for(self, address):
        nonce, _, user = self.clients.get(address) or (None, None, None)
        return f"{rust_text(nonce)} " + ("{} {}".format(*user) if user else "-")

    def kept(self, *addresses):
        for it in addresses:
            self.ask(self.kept_for(it), "kept", from_=it)

    def drawn(self, address, now, seed):
        """A nonce is drawn for an address where none stands."""
        kept = self.clients.get(address)
        if kept is None and self.limit is not None and len(self.clients) >= self.limit:
            self.clients = {it: stored for it, stored in self.clients.items() if stored[2] is not None}
            if 2 * len(self.clients) > self.limit:
                self.clients = {}
        if kept is None or now >= min(kept[1] + self.expiry, 2**64 - 1):
            nonce = nonce_of(offered(self.algorithms, self.anonymity), words(seed))
            self.clients[address] = nonce, now, None

    def refresh(self, address=FROM, now=0, seed=0):
        self.drawn(address, now, seed)
        self.ask(self.kept_for(address), "refresh", from_=address, now=now, seed=seed)

    def user_named(self, claim):
        """The present user whom a message names, by name or by the hash of it."""
        if claim.username is not None:
            name = claim.username
        else:
            hashes = [it for it in sorted(self.users) if hash_of(it, self.realm) == claim.user_hash]
            name = hashes[0] if hashes else None
        return (name, self.users[name]) if name in self.users else None

    def answer(self, data, address, now, seed):
        if int.from_bytes(data[:2], "big") & 0x100:
            return "BadRequest"
        self.drawn(address, now, seed)
        nonce, drawn, _ = self.clients[address]
        user = self.user_named(claim_of(data))
        taken, refused = judged(data, self.realm, self.algorithms, nonce, user, self.anonymity != "Disabled")
        self.clients[address] = nonce, drawn, taken
        return refused or f"Validated({taken[1]})"

    def hear(self, data, address=FROM, now=0, seed=0):
        answer = self.answer(data, address, now, seed)
        given = {"from_": address, "now": now, "seed": seed, "bytes": data.hex()}
        self.ask(f"{answer} {self.kept_for(address)}", "hear", **given)

    def parts(self, what, address):
        """What is added to a message of a class, or None where it is refused."""
        nonce, _, user = self.clients.get(address) or (None, None, None)
        if nonce is None or (user is None and what != "error") or (user and user[0] not in self.users):
            return None
        challenge = [part(REALM, self.realm, MOST_TEXT), part(NONCE, nonce, MOST_TEXT)]
        if user is None:
            listed = [(PASSWORD_ALGORITHMS, entries(self.algorithms))] if told(nonce)[0] else []
            return [*challenge, *listed], None, SHA1
        name, algorithm = user
        key = key_of(algorithm, self.users[name], name, self.realm)
        if what == "indication":
            return [], None, SHA1
        if what == "request":
            return [part(USERNAME, name, MOST_NAME), *challenge], key, algorithm
        return [], key, algorithm

    def size(self, is_request, address):
        what = "request" if is_request else "error"
        try:
            parts = self.parts(what, address)
        except TooLong:
            return 0
        return 0 if parts is None else made(what, lambda: parts)[1]

    def sign(self, what, address):
        try:
            parts = self.parts(what, address)
            answer = "IntegrityFailed" if parts is None else made(what, lambda: parts)[0]
        except TooLong as refused:
            answer = str(refused)
        self.ask(f"{self.size(what == 'request', address)} {answer}", "sign", class_=what, to=address)

    def signs(self, *addresses):
        for address in addresses:
            for what in CLASSES:
                self.sign(what, address)


# ---- messages


def request(*attributes, by=None, password="pass", name="user", realm="realm", kind=ALLOCATE):
    """A request of a user, with REQUESTED-TRANSPORT."""
    key = None if by is None else key_of(by, password, name, realm)
    udp = [(TRANSPORT, b"\x11\0\0\0")] if kind == ALLOCATE else []
    return signed(kind, [*udp, *attributes], key, by or SHA1)


def reply(by=SHA1, password="pass", name="user", realm="realm", kind=SUCCESS, attributes=()):
    return signed(ALLOCATE | kind, attributes, key_of(by, password, name, realm), by)


def code(value, reason=""):
    return ERROR_CODE, bytes([0, 0, value // 100, value % 100]) + reason.encode()


def challenge(nonce, *others, realm="realm", reason=code(401, "Unauthorized")):
    return signed(ALLOCATE | ERROR, [reason, (REALM, realm), (NONCE, nonce), *others])


def listed(value):
    return PASSWORD_ALGORITHMS, value


def chosen(algorithm):
    return PASSWORD_ALGORITHM, entries([algorithm])
