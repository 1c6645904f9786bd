"""Judges what a trace's events were answered (`docs/TRACE.md`), by messages alone: it knows nothing of a client.

- Each answer has a form that is lawful for its line.
- What the client shows, tells and gives was granted before by the desk: in a signed success whose bytes stand in the
  desk's answers, under the number of a request that the client has sent, and which has come to the client. A payload
  is of a peer so granted, and its bytes are among those that came. Nothing is told as created more often than it was
  granted.
- The client's requests have the numbers of its seed, each of one text, and are signed under its key. Of what `poll`
  told to wait for nothing is sent before; a moment that has passed it tells where something is due.
- The desk grants what a user has signed, as the decision says, and signs that under the same key.
- A rejection that is a cause came, with this code and reason, and where it is said to be signed it is. The address that
  the server saw is of a granted ALLOCATE, and another server is of a 300 that came.
- What a hardened client never does is in `hostile_hardened.py`.
"""

import re

from hostile_errors import Errors
from hostile_grants import CONNECTION_ATTEMPT, CONNECTION_ID, Grant, Grants, payload_in
from hostile_hardened import Hardened
from hostile_messages import (
    ERROR, INDICATION, REQUEST, SUCCESS, address_in, host_of, is_drawn, is_named, is_signed, number_in, read,
)
from traces_base import ERROR_CODE, LIFETIME, PEER, REALM, RELAYED_KIND, SECOND

SERVED = (0x003, 0x004, 0x008, 0x009, 0x00A, 0x00B)
CLIENT_END = 2**62
LONGEST_WAIT = 9999 * SECOND
BAD = "# The last line is bad"
REFUSED = {
    "delete": "NoAllocation",
    "permission": "NoAllocation|AlreadyExists",
    "permit": "InvalidAddresses|NoAllocation|AlreadyExists",
    "bind": r"NoAllocation|AlreadyExists|ExpiredChannelExists \d+|NoChannel",
    "send": "NoPermission|NoTcpSocket|TooLarge",
    "connect": "NoAllocation|NoPermission|AlreadyExists",
    "socket": "NoAllocation|AlreadyExists",
}
FORMS = {
    **{word: f"ok|refused ({names})" for word, names in REFUSED.items()},
    "send": rf"transmit \S+ \S+ \S+|refused ({REFUSED['send']})",
    "todesk": r"reply [0-9a-f]+|none",
    "toclient": r"handled|ignored|peer (udp|tcp) \S+ \S+|icmp (udp|tcp) \S+ \d+ \d+ \d+",
    "recv": r"peer (udp|tcp) \S+ \S+|none",
    "draw": r"transmit \S+ \S+ [0-9a-f]+|none",
    "poll": r"wait \d+|closed|socket \d+ \S+ \S+ \S+|close \S+ \S+",
    "event": r"event (Allocation|Permission|Channel)(Created|CreateFailed) .*|event TcpConnect(ed|Failed) \S+|none",
    "have": "yes|no",
    "closed": "ok",
    "error": "ok",
    "permissions": r"permissions( \S+)*",
    "channels": r"channels( \d+ \S+)*",
    "connections": r"connections( \S+ \S+ \d+ (bound|waiting))*",
    "relayed": r"relayed( (udp|tcp) \S+)*",
    "cause": r"cause (rejected [3-6]\d\d (signed|unsigned) (-|([0-9a-f]{2})+)|unanswered|integrity|no-algorithm"
    r"|other-family|unusable|expired|deleted|socket-closed|none)",
    "mapped": r"mapped \S+",
    "alternate": r"alternate \S+ (-|([0-9a-f]{2})+)",
}
FORMS = {word: re.compile(form) for word, form in FORMS.items()}
GETTERS = ("have", "permissions", "channels", "connections", "relayed", "event", "todesk")
# the lines that look at the client: they aren't counted
LOOKS = ("cause", "mapped", "alternate")


class Wrong(Exception):
    """What is wrong with an answer."""


def check(holds, why):
    if not holds:
        raise Wrong(why)


def moment_of(words):
    """The moment of a client's line; those without one act at 0."""
    return 0 if words[0] in GETTERS or words[0] == "error" else int(words[1])


def grouped(words, size):
    return [tuple(words[i : i + size]) for i in range(0, len(words), size)]


class Judge:
    """A trace under way: its setup, the bytes that events were answered, and what follows from them."""

    def __init__(self, lines):
        self.users, self.bytes, self.sent = {}, [], {}
        self.told, self.sockets, self.is_closed, self.was_ended = {}, set(), False, False
        self.quiet = self.due = None
        for words in (line.split(" ") for line in lines):
            if words[0] == "desk":
                self.realm = words[1]
            if words[0] == "user":
                self.users[words[1]] = words[2]
            if words[0] == "client":
                _, self.own, self.local, self.remote, self.transport, *_ = words
                self.name, self.password, self.seed = words[8], words[9], int(words[10])
                is_hardened = words[11:12] == ["hardened"]
        self.grants = Grants((self.name, self.realm, self.password), self.own == "tcp")
        self.hardened = Hardened(self.name, self.password, self.own == "tcp") if is_hardened else None
        self.errors = Errors(self.name, self.password)

    def bytes_of(self, word):
        """What a word of bytes spells."""
        if word == "-":
            return b""
        parts = (it[1:].split(":") if it[0] == "@" else it for it in word.split("+"))
        return b"".join(bytes.fromhex(it) if isinstance(it, str) else self.piece(*map(int, it)) for it in parts)

    def piece(self, event, start=0, end=None):
        return self.bytes[event - 1][start:end]

    def take(self, words, answer):
        """One event, and its answer."""
        word, told = words[0], answer.split(" ")
        if word in LOOKS:
            check(FORMS[word].fullmatch(answer), "an answer of no lawful form")
            getattr(self, f"on_{word}")(told)
            return
        if word != "todesk" and moment_of(words) > CLIENT_END:
            check(answer == "out of range", "not out of range")
            self.bytes.append(b"")
            return
        check(FORMS[word].fullmatch(answer), "an answer of no lawful form")
        given = told[-1] if told[0] in ("reply", "transmit", "peer") else "-"
        value = b"" if given == "-" else bytes.fromhex(given)
        if word not in GETTERS + ("draw", "poll"):
            self.quiet = self.due = None
        getattr(self, f"on_{word}")(words, told, value)
        self.bytes.append(value)

    # ---- the desk

    def on_todesk(self, words, told, value):
        request = read(self.bytes_of(words[3]))
        is_asked = request is not None and request.form == REQUEST and request.method in SERVED
        check(is_asked == (told[0] == "reply"), "the desk answers requests alone, and each")
        if not is_asked:
            return
        reply = read(value)
        check(reply is not None and reply.form in (SUCCESS, ERROR), "a reply that is no response")
        check((reply.method, reply.number) == (request.method, request.number), "a reply to another request")
        if reply.form == ERROR:
            code = reply.first(ERROR_CODE)
            refusal = [int(words[6])] if words[5] == "refuse" else []
            check(code[2] * 100 + code[3] in (400, 401, 438, 500, *refusal), "a code that nobody decided")
            return
        kind = request.integrity()[1] if request.integrity() else None
        names = [it for it in self.users if is_named(request, it, self.realm)]
        signers = [it for it in names if is_signed(request, it, self.realm, self.users[it])]
        check(signers and request.last(REALM) == self.realm.encode(), "a grant of what no user has signed")
        signed = [is_signed(reply, it, self.realm, self.users[it], kind) for it in signers]
        check(any(signed), "a success that is not signed by its request's key")
        self.check_decided(reply, words[5:])
        if request.number in self.sent:
            asked, source = self.sent[request.number]
            self.grants.add(Grant(asked, source, reply, self.transport))

    def check_decided(self, reply, decision):
        """Whether a success tells what was decided."""
        words = ["grant"]
        lifetime, number = number_in(reply.first(LIFETIME)), number_in(reply.first(CONNECTION_ID))
        if reply.method == 0x003:
            relayed = [address_in(it, reply.number) for it in reply.all(RELAYED_KIND)]
            words = ["allocate", ",".join(relayed), str(lifetime)]
        if reply.method == 0x004:
            words = ["refresh", str(lifetime)]
        if reply.method == 0x00A:
            words = ["connect", str(number)]
        check(words == decision, "a success of what was not decided")

    # ---- what the client sends

    def on_draw(self, words, told, value):
        now = int(words[1])
        check(told[0] != "none" or self.due is None or now < self.due, "nothing is sent, though poll told so")
        if told[0] == "none":
            return
        self.due = None
        check(self.quiet is None or not self.quiet[0] <= now < self.quiet[1], "sent before what poll told")
        self.quiet = None
        check(told[1] == self.local or told[1] in self.sockets, "sent from an address that is not the client's")
        check(told[2] == self.remote, "sent to another address than the server's")
        message = read(value)
        check(message is not None, "what is sent is no message")
        if message.form in (SUCCESS, ERROR):
            answered = message.method == CONNECTION_ATTEMPT and self.grants.has("attempt", message.number)
            check(answered, "a response to nothing that came")
            return
        check(message.form == REQUEST and message.method in SERVED, "sent is no request of TURN")
        check(is_drawn(message.number, self.seed), "a number that the seed doesn't draw")
        known = self.sent.setdefault(message.number, (message, told[1]))
        check(known[0].data == value and known[1] == told[1], "two requests of one number")
        if message.integrity():
            realm = (message.last(REALM) or b"").decode()
            signed = is_named(message, self.name, realm) and is_signed(message, self.name, realm, self.password)
            check(signed, "not signed under the client's key")
            why = self.hardened and self.hardened.sends(message, self.sent)
            check(not why, why)

    def on_send(self, words, told, value):
        if told[0] == "refused":
            return
        peer, data = words[3], self.bytes_of(words[4])
        check(told[2] == self.remote, "sent to another address than the server's")
        if told[1] in self.sockets and self.is_bound_to(told[1], peer) and value == data:
            return
        check(told[1] == self.local, "sent from an address that is not the client's")
        if 0x40 <= value[0] < 0x80:
            size = len(data) + (-len(data) % 4 if self.own == "tcp" else 0)
            frame = value[:2] + len(data).to_bytes(2, "big") + data
            check(value == frame + bytes(4 + size - len(frame)), "a frame of other bytes")
            check(self.grants.has("channel", (int.from_bytes(value[:2], "big"), peer)), "a channel that is not granted")
            return
        message = read(value)
        check(message is not None and (message.form, message.method) == (INDICATION, 6), "no SEND indication")
        told = address_in(message.first(PEER), message.number), message.first(0x13)
        check(told == (peer, data), "an indication for another peer, or of other bytes")
        check(self.grants.has("permission", (words[2], host_of(peer))), "a permission that is not granted")

    def is_bound_to(self, local, peer):
        return any(self.grants.is_bound(local, peer, number) for it, number in self.grants.all("bind") if it == local)

    # ---- what comes

    def on_toclient(self, words, told, value):
        _, _, source, to, word = words
        data = self.bytes_of(word)
        is_servers = source == self.remote and (self.own == "tcp" or to == self.local)
        if self.own == "udp" and not is_servers:
            check(told == ["ignored"], "taken from or for another address")
        if is_servers:
            self.grants.hear(to, data)
            self.errors.hear(self.grants.came[to], len(data))
            why = self.hardened and self.hardened.hear(to, data, " ".join(told), self.sent)
            check(not why, why)
        if told[0] in ("peer", "icmp"):
            self.check_given(told, value)
        if told[0] == "peer" and self.own == "udp":
            named, whole = payload_in(data) or (None, None)
            check(whole == value, "other bytes than came")
            granted = named == told[2] if isinstance(named, str) else self.grants.has("channel", (named, told[2]))
            check(granted, "of another peer than the bytes name")

    def on_recv(self, words, told, value):
        if told[0] == "peer":
            self.check_given(told, value)

    def check_given(self, told, value):
        """A payload, or a report, names a peer that was granted, and its bytes came."""
        check(self.grants.names(told[1], told[2]), "of a peer that was not granted")
        check(any(value in it for it in self.grants.came.values()), "bytes that did not come")

    # ---- what the client tells

    def on_poll(self, words, told, value):
        now = int(words[1])
        self.quiet = self.due = None
        if told[0] == "wait":
            until = int(told[1])
            check(until <= now + LONGEST_WAIT, "a moment that is too late")
            self.quiet, self.due = (now, until), now if until < now else None
        if told[0] == "socket":
            check(told[2:4] == [self.local, self.remote], "a socket beside another connection than the client's")
            check(self.grants.has("connect", (int(told[1]), told[4])), "a socket for what was not granted")
        if told[0] == "close":
            check(told[1] in self.sockets and told[2] == self.remote, "a socket that was never told")
        self.is_closed = self.is_closed or told[0] == "closed" and not self.was_ended

    def on_event(self, words, told, value):
        if told[0] == "none":
            return
        what, values = told[1], tuple(told[2:])
        kinds = {"AllocationCreated": "relayed", "PermissionCreated": "permission"}
        if what in kinds:
            limit = self.grants.count(kinds[what], values)
        elif what == "ChannelCreated":
            limit = sum(self.grants.count("channel", it) for it in self.grants.all("channel") if it[1] == values[1])
        elif what == "TcpConnected":
            numbers = {number for number, peer in self.grants.all("connect") if peer == values[0]}
            bound = [it for it in self.grants.all("bind") if it[1] in numbers]
            limit = sum(self.grants.count("bind", it) for it in bound)
        else:
            return
        self.told[what, values] = self.told.get((what, values), 0) + 1
        check(self.told[what, values] <= limit, "told more often than it was granted")

    def shown(self, kind, told):
        """Each of what is shown was granted, none is shown twice, and a client that has closed shows none."""
        check(not (told and self.is_closed), "shown by a client that has closed")
        check(len(set(told)) == len(told), "shown twice")
        for it in told:
            check(self.grants.has(kind, it), "shown, and not granted")

    def on_relayed(self, words, told, value):
        self.shown("relayed", grouped(told[1:], 2))

    def on_permissions(self, words, told, value):
        check(len(told) == 1 or self.grants.has("relayed", (words[1], words[2])), "of an address that is not granted")
        self.shown("permission", [(words[1], it) for it in told[1:]])

    def on_have(self, words, told, value):
        if told[0] == "yes":
            self.shown("permission", [(words[1], words[2])])

    def on_channels(self, words, told, value):
        channels = [(int(number), peer) for number, peer in grouped(told[1:], 2)]
        self.shown("channel", channels)
        check(len({number for number, _ in channels}) == len(channels), "two channels of one number")

    def on_connections(self, words, told, value):
        for local, peer, number, how in grouped(told[1:], 4):
            check(local in self.sockets, "a socket that was never told")
            check(self.grants.has("connect", (int(number), peer)), "a connection that is not granted")
            check(how == "waiting" or self.grants.is_bound(local, peer, int(number)), "bound, and not granted")

    def on_cause(self, told):
        if told[1] == "rejected":
            check(self.errors.has(*told[2:]), "a cause that no response had")

    def on_mapped(self, told):
        check(told[1] == "none" or self.grants.has("mapped", told[1]), "an address that no grant says")

    def on_alternate(self, told):
        check(told[1] == "none" or told[1] in self.errors.servers, "a server that no 300 names")

    def on_socket(self, words, told, value):
        if told[0] == "ok":
            check(self.grants.has("connect", (int(words[2]), words[3])), "a socket for what was not granted")
            self.sockets.add(words[4])

    def on_error(self, words, told, value):
        """A client that is ended from above closes, and goes on to show what it held (`CALLING.md`)."""
        self.was_ended = True

    def nothing(self, words, told, value):
        """Any answer of a lawful form will do."""

    on_permission = on_permit = on_bind = on_connect = on_delete = on_closed = nothing


def fault(trace, answers, status):
    """What is wrong with the answers to a trace, or None."""
    lines = trace.split("\n")
    events = [(at, it.split(" ")) for at, it in enumerate(lines, 1) if it and it[0] != "#"]
    events = [(at, it) for at, it in events if it[0] not in ("desk", "user", "rto", "client")]
    is_bad = any(it.startswith(BAD) for it in lines[:2])
    if is_bad:
        last, _ = events.pop()
        if answers[-1:] != [f"bad trace: line {last}"] or status != 1:
            return f"line {last} is not refused"
        answers = answers[:-1]
    elif status != 0:
        return f"it ended with {status}: {answers[-1:]}"
    if len(answers) != len(events):
        return f"{len(answers)} answers to {len(events)} events"
    judge = Judge(lines)
    for (at, words), answer in zip(events, answers):
        try:
            judge.take(words, answer)
        except Wrong as why:
            return f"line {at}: {why}: {answer[:80]}"
    return None
