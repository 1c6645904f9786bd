"""Makes hostile traces, some lines at a time: the honest course of a run, and what a hostile network does to it.

A course is told what its lines were answered before it makes further ones, so a line names only answers that have
bytes. It knows no client: what it asks for, and when, is drawn by lot.

What it signs under the user's key never grants anything to the client's own requests: it has numbers that the client
doesn't draw, or is an error. Messages of other runs come from clients of other seeds.

Some clients are hardened. Those that aren't have the traces that they would have if there were no others: a lot of its
own decides, and only a hardened one gets the moves of `BLIND`.
"""

import random

from hostile_judge import BAD, CLIENT_END, LOOKS
from hostile_messages import BY, REQUEST, hash_of, key_of, read, written
from hostile_spoiled import spoiled
from traces_base import (
    CHANNEL, ERROR, ERROR_CODE, INTEGRITY, INTEGRITY_SHA256, INTEGRITY_SHA512, LIFETIME, MS, NONCE,
    PASSWORD_ALGORITHMS, PEER, REALM, RELAYED_KIND, SECOND, SUCCESS, UNKNOWN, USERHASH, xored,
)

LOCAL, REMOTE, STRANGER = "192.168.0.1:1000", "10.0.0.2:2000", "192.168.0.9:1"
RELAYED = {"4": "203.0.113.5:50000", "6": "[2001:db8::5]:50000"}
HOSTS = ("10.0.0.1", "10.0.0.3", "10.0.0.9", "2001:db8::1")
PEERS = ("10.0.0.1:9000", "10.0.0.1:5", "10.0.0.3:9000", "10.0.0.9:9000", "[2001:db8::1]:9000")
SOCKETS = tuple(f"192.168.0.1:{port}" for port in (1001, 1002, 1003))
EVIL = "198.51.100.66:6666"
WAITS = ("600 1000 3 3000", "0 0 1 0", "100 50 4 10", "1 1000000 12 1", "20000000 20000000 2 5000")
# what a side supports
ALGORITHMS = (
    "sha1", "sha256", "sha512", "sha1,sha256", "sha256,sha1", "sha256,sha512", "sha1,sha256,sha512",
    "sha512,sha1,sha256",
)
# what a client is led to, by the transport of what it allocates
AIMS = {"udp": ("permission", "channel", "channel", "nothing"), "tcp": ("connection", "connection", "permission")}
# how much of a course is hostile; the seeds of clients, and those of other runs
SHARES = (0.2, 0.35, 0.35, 0.5, 0.8)
# how many courses have a hardened client, and how many of those begin with a handshake that nothing disturbs
HARDENED, UNDISTURBED = 0.3, {False: 0.85, True: 0.5}
SEEDS = {False: (0, 127), True: (128, 255)}
BAD_LINES = ("draw", "poll -1", "toclient 0 x y -", "send 0 udp 10.0.0.1:5 @0", "evil 0", "draw 0 0")
SERVED = (0x003, 0x004, 0x008, 0x009, 0x00A, 0x00B)
CODES = (300, 400, 401, 401, 403, 420, 437, 438, 438, 440, 441, 442, 443, 446, 447, 486, 508, 500, 699)
AWAY = (0, MS, 49 * MS, 50 * MS, 50 * MS, 100 * MS, 500 * MS, SECOND, 8 * SECOND)
LEAPS = (39 * SECOND + 500 * MS, 60 * SECOND, 240 * SECOND, 300 * SECOND, 540 * SECOND, 600 * SECOND, 3600 * SECOND)
LAST = (CLIENT_END - 1, CLIENT_END, CLIENT_END + 1, 2**63, 2**64 - 1)


class Course:
    """A trace under way: its lines, and what is known of their answers. `asked` has what the client sent, each with
    its event's number, its bytes and where it went from; `replied` the desk's replies, each with where it has to go;
    `fresh` those of either that have not been handed on."""

    def __init__(self, name, dice, others=None):
        self.dice, self.others, self.now = dice, others, 0
        self.share = 0 if others is None else dice.choice(SHARES)
        self.lines, self.events, self.known = [f"# {name}"], [], 0
        self.asked, self.replied, self.handed, self.delivered = [], [], 0, 0
        self.wanted, self.closing, self.until, self.steps, self.replies = [], [], None, 0, set()
        self.hardened = others is not None and dice_of(name, "hardened").random() < HARDENED
        self.set_up(dice.randint(*SEEDS[others is None]))

    def set_up(self, seed):
        dice = self.dice
        self.own = dice.choice(("udp", "tcp"))
        self.transport = "udp" if self.own == "udp" else dice.choice(("udp", "tcp", "tcp"))
        self.families = dice.choice(("4", "4", "4", "6", "4,6", "6,4"))
        algorithms, offered = (dice.choice(ALGORITHMS) for _ in range(2))
        anonymity, hidden = (dice.choice(("auto", "auto", "required", "disabled")) for _ in range(2))
        if dice.random() < 0.8:
            algorithms, hidden = offered, "auto"
        password = "pass" if dice.random() < 0.95 else "past"
        self.lines += [f"desk realm {offered} {anonymity}", "user other secret", f"user user {password}"]
        if dice.random() < 0.3:
            self.lines.append(f"rto {dice.choice(WAITS)}")
        setting = f"{self.transport} {self.families} {algorithms} {hidden} user pass {seed}"
        self.lines.append(f"client {self.own} {LOCAL} {REMOTE} {setting}{' hardened' * self.hardened}")
        common = set(algorithms.split(",")) & set(offered.split(","))
        self.meets = bool(common) and (hidden, anonymity) != ("required", "disabled")
        self.aim = dice.choice(AIMS[self.transport])
        self.peer = dice.choice([it for it in PEERS if ("6" if it[0] == "[" else "4") in self.families])

    # ---- lines, and what they are answered

    def say(self, line):
        self.lines.append(line)
        self.events.append(line.split(" "))
        return len(self.events)

    def learn(self, answers):
        """Takes up what the lines since the last time were answered."""
        answers = [it for it in answers if it.split(" ")[0] not in LOOKS]
        for k, answer in enumerate(answers[self.known :], self.known + 1):
            words, told = self.events[k - 1], answer.split(" ")
            if told[0] == "transmit" and words[0] == "draw":
                self.asked.append((k, bytes.fromhex(told[3]), told[1]))
            elif told[0] == "reply":
                self.replied.append((k, bytes.fromhex(told[1]), words[2]))
            elif told[0] == "socket":
                self.wanted.append((told[1], told[4]))
            elif told[0] == "close":
                self.closing.append((told[1], told[2]))
            elif told[0] == "wait":
                self.until = int(told[1])
        self.known = len(answers)

    def text(self):
        return "\n".join(self.lines) + "\n"

    # ---- moments

    def moment(self):
        """Mostly the one that is; at times one before, or another."""
        lot = self.dice.random()
        if lot < 0.94:
            return self.now
        if lot < 0.97:
            return self.dice.randrange(self.now + 1)
        return self.now + self.dice.choice(AWAY + LEAPS) if lot < 0.995 else self.dice.choice(LAST)

    def goes_on(self):
        self.now += self.dice.choice(AWAY)

    def leaps(self):
        self.now = self.until if self.until and self.dice.random() < 0.5 else self.now + self.dice.choice(LEAPS)
        self.now = min(self.now, CLIENT_END)

    # ---- the honest course

    def starts(self):
        """The handshake, where nothing disturbs it: each line's answer has bytes."""
        decision = f"allocate {self.relayed()} {self.dice.choice((600, 600, 3600, 60, 1))}"
        drawn = self.say("draw 0")
        line = self.say(f"todesk 0 {LOCAL} @{drawn} 0 refuse 400")
        self.say(f"toclient 0 {REMOTE} {LOCAL} @{line}")
        self.now = 50 * MS
        drawn = self.say(f"draw {self.now}")
        line = self.say(f"todesk {self.now} {LOCAL} @{drawn} 0 {decision}")
        self.say(f"toclient {self.now} {REMOTE} {LOCAL} @{line}")
        self.say("event")
        self.handed, self.delivered = 2, 2

    def relayed(self):
        return ",".join(RELAYED[it] for it in self.families.split(","))

    def hears(self, what, to, source=REMOTE):
        return self.say(f"toclient {self.moment()} {source} {to} {what}")

    def draws(self):
        self.now += 50 * MS
        self.say(f"draw {self.now}")

    def polls(self):
        self.say(f"poll {self.moment()}")

    def follows(self):
        for _ in range(self.dice.randint(1, 3)):
            self.say("event")
            self.lines.append("cause")

    def serves(self):
        """What the client sent goes to the desk, which mostly decides as fits, and the reply to the client: some are
        lost, and some come late."""
        while self.handed < len(self.asked):
            k, data, source = self.asked[self.handed]
            self.handed += 1
            lot = self.dice.random()
            if lot < 0.93:
                line = self.asks(f"@{k}", source, self.fitting(data))
                if lot < 0.86 and read(data).form == REQUEST:
                    self.replies.add(line)
                    more = f"+{self.value().hex()}" if source in SOCKETS and lot < 0.3 else ""
                    self.hears(f"@{line}{more}".rstrip("+"), source)

    def aims(self):
        """What the client is led to: the next call for that."""
        t, peer, now = self.transport, self.peer, self.now
        host = peer.rsplit(":", 1)[0].strip("[]")
        if self.aim in ("permission", "connection") and self.steps % 4 == 0:
            others = self.dice.sample(HOSTS, 2) if self.dice.random() < 0.4 else []
            same = [it for it in others if (":" in it) == (":" in host)]
            self.say(f"permit {now} {t} {','.join([host, *same])}" if others else f"permission {now} {t} {host}")
        elif self.aim == "channel" and self.steps % 4 == 0:
            self.say(f"bind {now} {t} {peer}")
        elif self.aim == "connection":
            self.say(f"connect {now} {peer}")
        else:
            self.say(f"send {now} {t} {peer} {self.value().hex() or '-'}")
        self.steps += 1

    def value(self):
        return bytes(self.dice.randrange(256) for _ in range(self.dice.choice((0, 1, 2, 5))))

    def renews(self):
        """The moment comes that the client awaits."""
        if self.until is not None and self.until < 2**50:
            self.now = max(self.now, self.until)
        self.polls()
        self.draws()

    def asks(self, what, source, decision):
        nonce = self.dice.choice((0, 0, 0, 1, 2))
        return self.say(f"todesk {min(self.moment(), 2**64 - 1)} {source} {what} {nonce} {decision}")

    def fitting(self, data):
        """A decision of a request, which mostly fits."""
        lot, message = self.dice.random(), read(data)
        method = message.method if message and lot < 0.85 else self.dice.choice(SERVED)
        if 0.8 < lot < 0.88:
            return f"refuse {self.dice.choice(CODES)}"
        if method == 0x003:
            return f"allocate {self.relayed()} {self.dice.choice((600, 600, 3600, 60, 0, 4294967295))}"
        if method == 0x004:
            asked = message.first(LIFETIME) if message else None
            return "refresh 0" if asked == bytes(4) else f"refresh {self.dice.choice((600, 600, 3600, 599))}"
        return f"connect {self.dice.randint(1, 9)}" if method == 0x00A else "grant"

    def delivers(self):
        """A reply that the client hasn't got goes to it, late: over TCP at times in pieces."""
        while self.delivered < len(self.replied) and self.replied[self.delivered][0] in self.replies:
            self.delivered += 1
        if self.delivered >= len(self.replied):
            return self.draws()
        k, data, to = self.replied[self.delivered]
        self.delivered += 1
        if self.own == "udp" or self.dice.random() < 0.6:
            return self.hears(f"@{k}", to)
        places = sorted({0, len(data), *(self.dice.randrange(1, len(data)) for _ in range(self.dice.randint(1, 3)))})
        for a, b in zip(places, places[1:]):
            self.hears(f"@{k}:{a}:{b}", to)
        return self.say(f"recv {self.moment()}")

    def calls(self):
        """Something is asked of the client."""
        dice, now, t = self.dice, self.moment(), self.transport
        t = t if dice.random() < 0.97 else "udp"
        word = dice.choice(("permission", "bind", "connect", "send", "send", "other"))
        peer = self.peer if dice.random() < 0.5 else dice.choice(PEERS)
        if word == "permission" and dice.random() < 0.5:
            hosts = dice.choices(HOSTS, k=dice.choice((1, 2, 2, 3, 33)))
            self.say(f"permit {now} {t} {','.join(hosts)}")
        elif word == "permission":
            self.say(f"permission {now} {t} {dice.choice(HOSTS)}")
        elif word == "bind":
            self.say(f"bind {now} {t} {peer}")
        elif word == "connect" and t == "tcp":
            self.say(f"connect {now} {peer}")
        elif word == "send":
            self.say(f"send {now} {t} {peer} {dice.choice(('-', '6869', '00', '0102030405'))}")
        else:
            self.rare_call(now)

    def rare(self):
        self.rare_call(self.moment())

    def rare_call(self, now):
        dice = self.dice
        lot = dice.random()
        local = dice.choice((*SOCKETS, LOCAL, "none"))
        if lot < 0.35:
            self.say(f"socket {now} {dice.randint(0, 9)} {dice.choice(PEERS)} {local}")
        elif lot < 0.6:
            self.say(f"closed {now} {dice.choice(SOCKETS + (LOCAL,))} {REMOTE}")
        elif lot < 0.8:
            self.say(f"recv {now}")
        elif lot < 0.86:
            self.say(f"delete {now}")
        elif lot < 0.88:
            self.say("error")
        else:
            self.looks()

    def opens(self):
        """A socket is told that was asked for, or is closed that was to be."""
        if self.closing:
            local, remote = self.closing.pop()
            self.say(f"closed {self.moment()} {local} {remote}")
        elif self.wanted:
            number, peer = self.wanted.pop(0)
            local = self.dice.choice((*SOCKETS, *SOCKETS, *SOCKETS, LOCAL, "none"))
            self.say(f"socket {self.moment()} {number} {peer} {local}")
            self.draws()
        else:
            self.polls()

    def looks(self):
        """Something that the client shows."""
        dice, t = self.dice, self.transport
        self.say(dice.choice((
            "relayed", "channels", "connections", f"have {t} {dice.choice(HOSTS)}",
            f"permissions {t} {dice.choice([*RELAYED.values()])}",
        )))

    def ends(self):
        """All that the client shows, and what it still tells."""
        for it in RELAYED.values():
            self.say(f"permissions {self.transport} {it}")
        for line in ("relayed", "channels", "connections"):
            self.say(line)
        for line in ("event", "event", f"poll {self.now}", f"draw {self.now + 50 * MS}", f"recv {self.now}", "relayed"):
            self.say(line)
        self.lines += LOOKS
        if self.dice.random() < 0.02:
            self.lines[:1] = [self.lines[0], BAD]
            self.say(self.dice.choice(BAD_LINES))

    # ---- peers, and who knows the user's password

    def peer_sends(self):
        """Bytes as of a peer: an indication, a frame, a report, or bytes of a connection. Nobody signs them."""
        dice, number, value = self.dice, self.foreign_number(), self.value()
        lot = dice.random()
        if lot < 0.4:
            peer = PEER, xored(self.peer if dice.random() < 0.6 else dice.choice(PEERS), number)
            what = (0x0013, value) if dice.random() < 0.8 else (0x8004, bytes.fromhex("0000030100000005"))
            told = ([peer, what], [peer, what], [what, peer], [peer], [what], [peer, what, what])
            return written(0x0017, number, dice.choice(told))
        if lot < 0.85:
            channel = dice.choice((0x4000, 0x4000, 0x4000, 0x4001, 0x4002, 0x7FFF))
            frame = channel.to_bytes(2, "big") + len(value).to_bytes(2, "big") + value
            return frame + bytes(-len(frame) % 4 if self.own == "tcp" else 0)
        return value or b"\x80"

    def foreign_number(self):
        return bytes(self.dice.randrange(256) for _ in range(12))

    def peer_comes(self):
        to = LOCAL if self.own == "udp" or self.dice.random() < 0.5 else self.dice.choice(SOCKETS)
        self.hears(self.peer_sends().hex(), to)
        if self.own == "tcp" and self.dice.random() < 0.5:
            self.say(f"recv {self.moment()}")

    def key(self):
        kind = self.dice.choice(tuple(BY))
        return kind, key_of(kind, "user", "realm", "pass")

    def tries(self):
        """A CONNECTION_ATTEMPT, which the user's key signs."""
        number = self.foreign_number()
        told = [(0x002A, self.dice.randint(1, 9).to_bytes(4, "big")), (PEER, xored(self.dice.choice(PEERS), number))]
        self.hears(written(0x000C, number, told, *self.key()).hex(), LOCAL)

    def signs(self):
        """A success that the user's key signs, under a number that the client never drew: to the client, or a request
        to the desk."""
        number = self.foreign_number()
        told = [(RELAYED_KIND, xored(EVIL, number)), (LIFETIME, b"\0\0\2\x58"), (PEER, xored(EVIL, number))]
        if self.dice.random() < 0.6:
            kind = self.dice.choice(SERVED) | SUCCESS
            return self.hears(written(kind, number, told, *self.key()).hex(), LOCAL)
        nonce = next((it for it in (read(data).first(NONCE) for _, data, _ in self.replied) if it), b"nonce")
        named = [(USERHASH, hash_of("user", "realm")), (REALM, b"realm"), (NONCE, nonce), (CHANNEL, b"\x40\1\0\0")]
        asked = written(self.dice.choice(SERVED), number, told + named, *self.key()).hex()
        return self.asks(asked, self.dice.choice((LOCAL, STRANGER)), self.fitting(b""))

    # ---- the hostile network

    def newest(self):
        """What the client sent, one of the last, as a message, and where that went from; or nothing."""
        if not self.asked:
            return None, LOCAL
        _, data, source = self.dice.choice(self.asked[-3:])
        return read(data), source

    def forges(self):
        """The same to one of the last requests, that may have been answered."""
        asked, source = self.newest()
        return self.draws() if asked is None else self.forges_to(asked, source)

    def forges_first(self):
        """A forged response comes before the desk's own, which may be to a request that still waits."""
        if self.handed < len(self.asked):
            _, data, source = self.asked[-1]
            self.forges_to(read(data), source)

    def forges_to(self, asked, source):
        """A challenge, another error or a success, to a request of the client: not signed, or under a wrong key. An
        error may be signed by the right one."""
        dice = self.dice
        code = dice.choice(CODES)
        told = [(ERROR_CODE, bytes((0, 0, code // 100, code % 100)))]
        if dice.random() < 0.7:
            nonce = dice.choice((b"n", b"nonce", b"obMatJos2wAAAevil"))
            told += [(REALM, dice.choice((b"realm", b"realm", b"evil", b""))), (NONCE, nonce)]
        lists = [(PASSWORD_ALGORITHMS, it) for it in (b"\0\1\0\0\0\2\0\0", b"\0\1\0\0\xff\x12\0\0")]
        told += dice.choice(([], [], [dice.choice(lists)], [(UNKNOWN, b"\0\x17")]))
        signed = dice.choice(((), (), (), self.key()))
        kind = asked.method | ERROR
        if dice.random() < 0.3:
            kind = asked.method | SUCCESS
            told = [(RELAYED_KIND, xored(EVIL, asked.number)), (LIFETIME, b"\0\0\2\x58"), (0x002A, b"\0\0\0\7")]
            md5 = key_of(INTEGRITY, "user", "realm", "pass")
            signed = dice.choice(((), (INTEGRITY, b"wrong"), (INTEGRITY_SHA256, md5), (INTEGRITY_SHA512, md5)))
        return self.hears(written(kind, asked.number, told, *signed).hex(), source)

    def forges_blindly(self):
        """What answers one of the last requests, but with a number that no request has: a challenge, mostly."""
        asked, source = self.newest()
        if asked is None:
            return self.draws()
        return self.forges_to(asked._replace(number=self.foreign_number()), source)

    def cuts_list(self):
        """A challenge whose nonce announces algorithms, without a list or with a bad one, to one of the last
        requests."""
        dice, (asked, source) = self.dice, self.newest()
        if asked is None:
            return self.draws()
        nonces = [it for it in (read(data).first(NONCE) for _, data, _ in self.replied) if it]
        told = [(ERROR_CODE, dice.choice((b"\0\0\4\1", b"\0\0\4\x26"))), (REALM, b"realm")]
        told.append((NONCE, dice.choice([*nonces[-1:], b"obMatJos2gAAAevil", b"obMatJos2wAAAevil"])))
        told += dice.choice(([], [], [(PASSWORD_ALGORITHMS, b"\0\2\0")], [(PASSWORD_ALGORITHMS, b"\0\3\0\0")]))
        return self.hears(written(asked.method | ERROR, asked.number, told).hex(), source)

    def answer(self):
        """The number and the bytes of an answer that has some: mostly one of the last."""
        known = self.asked + self.replied
        return self.dice.choice(sorted(known)[-6:] if self.dice.random() < 0.7 else known) if known else None

    def goes(self, what, to=None):
        """Some bytes go to the client, or to the desk."""
        dice = self.dice
        if dice.random() < 0.6:
            place = to if to and dice.random() < 0.8 else dice.choice((LOCAL, LOCAL, *SOCKETS))
            self.hears(what, place, REMOTE if dice.random() < 0.95 else STRANGER)
        else:
            source = to if to and dice.random() < 0.8 else dice.choice((LOCAL, STRANGER, *SOCKETS))
            self.asks(what, source, self.fitting(b""))

    def spoils(self):
        if it := self.answer():
            self.goes(spoiled(self.dice, *it[:2]), it[2])

    def repeats(self):
        """An answer comes again, or for the first time, late, or to who made it."""
        if it := self.answer():
            self.goes(f"@{it[0]}", it[2])

    def joins(self):
        """Two answers in one, whole or in pieces."""
        first, second = self.answer(), self.answer()
        if first:
            a, b = self.dice.randrange(len(first[1])), self.dice.randint(1, len(second[1]))
            front, behind = f"@{second[0]}:0:{b}", f"@{first[0]}:{a}:{len(first[1])}"
            ways = (f"@{first[0]}+@{second[0]}", f"{behind}+{front}", front)
            self.goes(self.dice.choice(ways), first[2])

    def borrows(self):
        """A message of another run, whole or with a bit that isn't its own."""
        if self.others:
            data = bytearray(self.dice.choice(self.others))
            if self.dice.random() < 0.3:
                data[self.dice.randrange(len(data))] ^= 1 << self.dice.randrange(8)
            self.goes(data.hex(), LOCAL)

    def babbles(self):
        """Bytes of no sense, or none."""
        dice = self.dice
        size = dice.choice((0, 1, 3, 4, 19, 20, 28, 64))
        data = bytes(dice.randrange(256) for _ in range(size))
        if size == 0 and self.own == "tcp" and dice.random() < 0.7:
            data = b"\0"
        self.goes(data.hex() or "-")


HONEST = (
    (Course.draws, 6), (Course.delivers, 4), (Course.polls, 6), (Course.follows, 4), (Course.calls, 8),
    (Course.opens, 5), (Course.looks, 3), (Course.goes_on, 2), (Course.peer_comes, 8), (Course.renews, 3),
)
HOSTILE = (
    (Course.spoils, 8), (Course.repeats, 6), (Course.joins, 3), (Course.borrows, 3), (Course.babbles, 2),
    (Course.forges, 4), (Course.signs, 2), (Course.tries, 2), (Course.leaps, 2), (Course.rare, 2),
)


BLIND = ((Course.forges_blindly, 6), (Course.cuts_list, 3))


def moves_of(table):
    return [move for move, times in table for _ in range(times)]


# by whether they are hostile, and whether the client is hardened
MOVES = {
    (False, False): moves_of(HONEST), (False, True): moves_of(HONEST),
    (True, False): moves_of(HOSTILE), (True, True): moves_of(HOSTILE + BLIND),
}


def begun(name, dice, others=None):
    """A course whose first lines stand; with messages of other runs a hostile one, else one of these."""
    course = Course(name, dice, others)
    if course.meets and dice.random() < UNDISTURBED[course.hardened]:
        course.starts()
    else:
        course.draws()
    return course


def goes_further(course, is_last):
    """Some lines more, of which the course's share is hostile; behind the last ones all is shown."""
    dice = course.dice
    if dice.random() < course.share:
        course.forges_first()
    course.serves()
    if dice.random() < 0.85:
        course.opens()
    for _ in range(dice.randint(1, 4)):
        dice.choice(MOVES[dice.random() < course.share, course.hardened])(course)
    if dice.random() < 0.7:
        course.aims()
        course.draws()
    if is_last:
        course.ends()


def dice_of(*what):
    return random.Random("/".join(map(str, what)))
