"""The rows of `test_rows_proto` for an agent of requests, and for the moments and waits that it goes by.

What an agent answers is worked out by RFC 8489, section 6.2, and by what its calls are documented to do.
"""

import struct

from rows_proto_base import (
    ALLOCATE,
    BINDING,
    DEFAULT,
    ELSEWHERE,
    ERROR,
    GREATEST,
    HERE,
    HOUR,
    INDICATION,
    LONGEST,
    MS,
    REQUEST,
    SECOND,
    SIXTH,
    SUCCESS,
    THERE,
    Section,
    Waits,
    class_in,
    duration,
    in_hex,
    line_of,
    message,
    number_in,
    parse_refusal,
)

MOST_TURNS = 64


# ---- moments and waits


def moments(rows):
    """Moments, and sums and differences of them."""
    rows.remark("a moment and a duration")
    durations = [0, 1, 2, SECOND, GREATEST - 1, GREATEST, GREATEST + 1, LONGEST - 1, LONGEST]
    for start in (0, 1, 2, SECOND, GREATEST - SECOND, GREATEST - 1, GREATEST):
        for added in durations:
            reached = min(start + added, GREATEST)
            found = f"sum {reached}" if start + added <= GREATEST else "no sum"
            answer = f"{found} reached {reached} since {reached - start} before 0"
            rows.ask(answer, "moment", now=start, initial=duration(added))


HALF = 2**63
FULL = 2**32 - 1

# when a request is sent, and its waits
ENDS = [
    # the default, and the same with a greatest wait
    (0, DEFAULT),
    (0, Waits(500 * MS, 2 * SECOND, 7, 8 * SECOND)),
    # no wait is doubled, and no greatest wait lets none be
    (0, Waits(0, None, 7, 0)),
    (10, Waits(0, 5, 7, 3)),
    (7, Waits(1, 0, 4, 5)),
    (7, Waits(HALF, 0, 4, 5)),
    # once, also where it is not at all
    (7, Waits(1, None, 0, 5)),
    (7, Waits(1, None, 1, 5)),
    (7, Waits(1, None, 2, 5)),
    (0, Waits(1, None, 3, 0)),
    # a greatest wait that is the first one, one less, or reached between
    (0, Waits(1, 1, 4, 2)),
    (0, Waits(10, 3, 3, 1)),
    (100, Waits(3, 10, 5, 1)),
    # the longest waits: their sum is the greatest moment, one less, or past it
    (0, Waits(HALF, None, 2, 0)),
    (0, Waits(HALF, None, 3, 1)),
    (0, Waits(HALF, HALF, 3, 1)),
    (0, Waits(HALF - 1, None, 2, HALF - 1)),
    (0, Waits(HALF - 1, HALF - 1, 3, 0)),
    (0, Waits(HALF - 1, HALF, 3, 1)),
    (1, Waits(GREATEST, None, 2, GREATEST)),
    (1, Waits(0, None, 1, GREATEST - 1)),
    (0, Waits(0, None, 1, GREATEST)),
    # many transmissions: 63 and 64 waits that double, and 4294967294 waits
    (0, Waits(1, None, 64, 1)),
    (0, Waits(1, None, 65, 0)),
    (1, Waits(1, None, 65, 0)),
    (0, Waits(1, None, FULL, 0)),
    (5, Waits(0, None, FULL, 9)),
    (0, Waits(1, 1, FULL, 0)),
    (0, Waits(1, 4, FULL, 1)),
    (0, Waits(FULL + 2, FULL + 2, FULL, 0)),
    (0, Waits(FULL + 3, FULL + 3, FULL, 0)),
    (0, Waits(FULL + 4, FULL + 4, FULL, 0)),
    # near the greatest moment
    (GREATEST - 20, Waits(1, None, 3, 4)),
    (GREATEST - 2, Waits(1, None, 7, 1)),
    (GREATEST - 2, Waits(1, 1, 2, 1)),
    (GREATEST - 2, Waits(1, 1, 2, 0)),
    (GREATEST, DEFAULT),
]

# durations that are longer than any moment
LONG = [
    (0, Waits(LONGEST, None, FULL, 0)),
    (0, Waits(LONGEST, LONGEST, FULL, 0)),
    (0, Waits(LONGEST, 0, FULL, 0)),
    (0, Waits(0, LONGEST, FULL, 0)),
    (0, Waits(0, None, FULL, LONGEST)),
    (0, Waits(1, LONGEST, FULL, 0)),
    (0, Waits(GREATEST + 1, None, 2, 0)),
    (0, Waits(GREATEST + 1, GREATEST, 2, 0)),
    (0, Waits(0, None, 1, GREATEST + 1)),
    (1, Waits(LONGEST, GREATEST - 1, 2, 1)),
]


def small_waits():
    """Each setting of some small waits."""
    for initial in (0, 1, 2, 3, 10):
        for most in (None, 0, 1, 2, 3, 19, 20, 21):
            for transmissions in (0, 1, 2, 3, 4, 8):
                yield 100, Waits(initial, most, transmissions, 7)


def waits(rows):
    """How long is waited for a response."""
    rows.remark("when a request is sent, and its waits")
    for sent, it in [*ENDS, *LONG, *small_waits()]:
        slots = [it.slot(sent, place) for place in (0, 1, 2, 3, 6, 63, 64, FULL)]
        ends = f"end {it.end(sent)} {it.end(sent)} sent {it.times(False)} {it.times(True)}"
        rows.ask(f"at {' '.join(map(str, slots))} {ends}", "waits", now=sent, **it.words())


# ---- an agent


class Request:
    """A request that is outstanding."""

    def __init__(self, data, to, sent, waits):
        self.data, self.to, self.sent, self.waits = data, to, sent, waits
        self.used, self.is_silent, self.is_over = 1, False, False

    def has_left(self, is_tcp):
        return not self.is_silent and self.used < self.waits.times(is_tcp)

    def is_due(self, is_tcp, now):
        return self.has_left(is_tcp) and self.waits.slot(self.sent, self.used) <= now

    def is_ended(self, now):
        return self.is_over or self.waits.end(self.sent) <= now

    def next_moment(self, is_tcp):
        if self.has_left(is_tcp):
            return self.waits.slot(self.sent, self.used)
        return self.waits.end(self.sent)

    def integrity(self):
        """The algorithm of the last integrity attribute that it shows. Its bytes end in one, or show none."""
        for size, kind, name in ((68, 0x3F12, "Sha512"), (36, 0x1C, "Sha256"), (24, 0x08, "Sha1")):
            if self.data[-size:][:4] == struct.pack(">HH", kind, size - 4) and len(self.data) > size:
                return f"Some({name})"
        return "None"


def text_of(number):
    return f"0x{number:024x}"


class Agent(Section):
    """Lines for an agent of a transport, with its own waits where they are given."""

    def __init__(self, what, transport="UDP", waits=DEFAULT, is_own=False, remote=None, local=HERE):
        own = waits.words() if is_own else {}
        super().__init__(line_of("agent", transport=transport, local=local, remote=remote, **own))
        self.remark(what)
        self.transport, self.waits, self.remote, self.local = transport, waits, remote, local
        self.is_tcp = transport == "TCP"
        self.outstanding, self.validated = {}, set()

    def show(self):
        remote = f"Some({self.remote})" if self.remote else "None"
        self.ask(f"{self.transport} {self.local} {remote}", "show")

    def sent(self, data, to):
        return f"sends {self.transport} {self.local} {to} {in_hex(data)}"

    def request(self, now, data, to=THERE):
        refused = parse_refusal(data)
        if refused:
            answer = f"ParseError({refused})"
        elif class_in(data) != REQUEST:
            answer = "ProtocolViolation"
        elif number_in(data) in self.outstanding:
            answer = "AlreadyInProgress"
        else:
            self.outstanding[number_in(data)] = Request(data, to, now, self.waits)
            answer = self.sent(data, to)
        self.ask(answer, "request", now=now, to=to, bytes=in_hex(data))

    def send(self, now, data, to=THERE):
        refused = parse_refusal(data)
        if refused:
            answer = f"ParseError({refused})"
        elif class_in(data) == REQUEST:
            answer = "ProtocolViolation"
        else:
            answer = self.sent(data, to)
        self.ask(answer, "send", now=now, to=to, bytes=in_hex(data))

    def send_data(self, data, to=THERE):
        self.ask(self.sent(data, to), "data", to=to, bytes=in_hex(data))

    def drawn(self, now):
        for _, it in sorted(self.outstanding.items()):
            if it.is_due(self.is_tcp, now):
                it.used += 1
                return self.sent(it.data, it.to)
        return None

    def draw(self, now):
        self.ask(self.drawn(now) or "nothing", "draw", now=now)

    def polled(self, now):
        """What is answered, and the moment until which nothing is to be done, where nothing has ended."""
        for number, it in sorted(self.outstanding.items()):
            if it.is_ended(now):
                del self.outstanding[number]
                return f"{'cancelled' if it.is_over else 'timed out'} {text_of(number)}", None
        moments = [it.next_moment(self.is_tcp) for it in self.outstanding.values()]
        until = max(now, min([now + HOUR, GREATEST, *moments]))
        return f"waits {until}", until

    def poll(self, now):
        self.ask(self.polled(now)[0], "poll", now=now)

    def drive(self, start, last):
        """It is driven from a moment on, until it tells to wait past the last one."""
        now, turns = start, []
        for _ in range(MOST_TURNS):
            told, until = self.drawn(now), None
            if told is None:
                told, until = self.polled(now)
            turns.append(f"{now} {told}")
            now = now if until is None else until
            if now > last:
                break
        else:
            turns.append("")
        self.ask("\n".join(turns), "drive", now=start, last=last)

    def heard(self, data, source):
        if class_in(data) in (REQUEST, INDICATION):
            return "true"
        if number_in(data) not in self.outstanding:
            return "false"
        del self.outstanding[number_in(data)]
        self.validated.add(source)
        return "true"

    def hear(self, data, source=THERE, now=None):
        self.ask(self.heard(data, source), "hear", from_=source, now=now, bytes=in_hex(data))

    def validate(self, address):
        self.validated.add(address)
        self.ask("ok", "validate", from_=address)

    def asks(self, *addresses):
        for address in addresses:
            self.ask(str(address in self.validated).lower(), "is", from_=address)

    def known(self, number):
        it = self.outstanding.get(number)
        told = f"Some(({it.to}, {it.integrity()}, {self.local}))" if it else "None"
        self.ask(f"{told} {told}", "known", number=number)

    def change(self, number, change, how, **given):
        it = self.outstanding.get(number)
        if it:
            change(it)
        self.ask("ok" if it else "no request", how, number=number, **given)

    def cancel(self, number):
        def change(it):
            it.is_silent = it.is_over = True

        self.change(number, change, "cancel")

    def send_no_more(self, number):
        def change(it):
            it.is_silent = True

        self.change(number, change, "send-no-more")

    def wait(self, number, waits):
        def change(it):
            it.waits = waits

        self.change(number, change, "wait", **waits.words())

    def hold(self, number, data, source=THERE):
        """A message comes while a request is held, which is changed in each way then. It is asked at the
        first moment what there is to say."""
        given = {"number": number, "from_": source, "bytes": in_hex(data)}
        it = self.outstanding.get(number)
        if it is None:
            return self.ask("no request", "hold", **given)
        integrity = it.integrity()
        answer = self.heard(data, source)
        it.is_silent = it.is_over = True
        it.waits = Waits(0, 0, 1, 0)
        return self.ask(f"{answer} {it.to} {integrity} {self.polled(0)[0]}", "hold", **given)


def binding(number, kind=REQUEST):
    return message(BINDING | kind, number)


AGAIN, END = 500 * MS, 39_500 * MS


def sending(transport):
    """What is sent, and what is refused."""
    a = Agent("messages are sent or refused", transport)
    for kind in (REQUEST, INDICATION, SUCCESS, ERROR):
        a.send(0, binding(1, kind))
    a.send_data(bytes(3))
    a.send_data(b"", ELSEWHERE)
    a.poll(0)
    # bytes that are no message, in either call
    good = binding(1)
    longer = message(BINDING, 1, bytes(8))
    for data in (
        b"",
        bytes(3),
        good[:19],
        b"\x80" + good[1:],
        b"\x40" + good[1:4],
        good[:7] + b"\0" + good[8:],
        good[:4] + b"\x22",
        good + bytes(4),
        longer[:24],
        longer + b"\0",
    ):
        a.send(0, data)
        a.request(0, data)
    for kind in (SUCCESS, ERROR, INDICATION, REQUEST, REQUEST):
        a.request(0, binding(1, kind))
    # the number counts, not the bytes; and where they go makes no difference
    a.request(0, message(ALLOCATE, 1))
    a.request(0, binding(1), ELSEWHERE)
    a.request(0, binding(2))
    # the numbers at the ends
    a.request(0, binding(0), SIXTH)
    a.request(0, binding(2**96 - 1), SIXTH)
    a.known(2**96 - 1)
    # of a greater one the low 96 bits count
    a.say(f"known number={2**96}", f"Some(({SIXTH}, None, {HERE})) Some(({SIXTH}, None, {HERE}))")
    a.poll(0)
    return a


def shown():
    """What an agent is made of."""
    for transport in ("UDP", "TCP"):
        for remote, local in ((None, HERE), (THERE, HERE), (SIXTH, "[::1]:65535")):
            a = Agent("it tells what it was made of", transport, remote=remote, local=local)
            a.show()
            a.asks(local, remote or THERE)
            a.poll(0)
            yield a


EVERY, OWN, ALONE = "those of every agent", "those of this agent", "those of the request alone"

# whose waits they are, the transport, the waits, and when the request is sent
SCHEDULES = [
    (EVERY, "UDP", DEFAULT, 0),
    (EVERY, "TCP", DEFAULT, 0),
    (ALONE, "UDP", DEFAULT, 0),
    # a greatest wait
    (ALONE, "UDP", Waits(SECOND, 2 * SECOND, 4, 10 * SECOND), 0),
    (ALONE, "TCP", Waits(SECOND, 2 * SECOND, 4, 10 * SECOND), 0),
    (OWN, "UDP", Waits(SECOND, 2 * SECOND, 4, 10 * SECOND), 0),
    (OWN, "TCP", Waits(SECOND, 2 * SECOND, 4, 10 * SECOND), 0),
    (OWN, "UDP", Waits(500 * MS, MS, 3, 8 * SECOND), 0),
    # once
    (ALONE, "UDP", Waits(500 * MS, None, 1, 8 * SECOND), 100 * MS),
    (ALONE, "UDP", Waits(500 * MS, None, 0, 8 * SECOND), 100 * MS),
    (OWN, "UDP", Waits(500 * MS, SECOND, 0, 8 * SECOND), 100 * MS),
    # no waits but the last
    (ALONE, "UDP", Waits(0, None, 3, MS), 5 * MS),
    (OWN, "UDP", Waits(500 * MS, 0, 3, MS), 5 * MS),
    # past an hour
    (ALONE, "UDP", Waits(5000 * SECOND, None, 3, 5000 * SECOND), 0),
    (ALONE, "TCP", Waits(5000 * SECOND, None, 3, 5000 * SECOND), 0),
    # single nanoseconds, and the last moments of all
    (ALONE, "UDP", Waits(1, None, 4, 1), 0),
    (OWN, "UDP", Waits(1, 1, 4, 2), 0),
    (ALONE, "UDP", Waits(1, None, 3, 4), GREATEST - 20),
    # the third transmission would be past them: the request ends in its moment
    (ALONE, "UDP", Waits(1, None, 7, 1), GREATEST - 2),
]


def scheduled(whose, transport, waits, sent):
    """A request is sent again, and given up."""
    own = waits if whose == OWN else DEFAULT
    a = Agent(f"a request is sent again and given up, by waits that are {whose}", transport, own, whose == OWN)
    a.request(sent, binding(1))
    if whose == ALONE:
        a.wait(1, waits)
    end = waits.end(sent)
    a.drive(sent, end - 1)
    for now in (end - 1, end, end):
        a.poll(now)
    return a


def keeps_to(sent, waits):
    """A request is due at each of its moments, and no earlier."""
    a = Agent("a request keeps to its waits")
    a.request(sent, binding(1))
    a.wait(1, waits)
    for place in (1, 2, 3):
        slot = waits.slot(sent, place)
        if slot > waits.slot(sent, place - 1):
            a.draw(slot - 1)
        a.draw(slot)
    end = waits.end(sent)
    if sent < end:
        a.poll(end - 1)
    a.poll(end)
    return a


def changed_waits():
    """New waits count from the sending, and so do the transmissions that were made."""
    for initial, transmissions in ((100, 4), (300, 3), (300, 2), (300, 1), (300, 0), (500, 2), (250, 3), (250, 4)):
        a = Agent("new waits count from the sending")
        a.request(0, binding(1))
        a.draw(AGAIN)
        a.wait(1, Waits(initial * MS, None, transmissions, SECOND))
        a.draw(AGAIN)
        a.poll(AGAIN)
        a.draw(AGAIN)
        yield a


# what another program signed: a BINDING request with USERNAME `user` and REALM `realm`, by HMAC-SHA1, by
# HMAC-SHA256, and by both in this order, with the credentials `user`, `realm`, `pass`
UNSIGNED = "000100082112a442000000000000000000007392001d000400020000"
SIGNED_BY_SHA1 = (
    "0001002c2112a4420000000000000000000073920006000475736572001400057265616c6d00000000080014"
    "31682f230d2c995af16fc42b93a4d12c1cdddb45"
)
SIGNED_BY_SHA256 = (
    "000100382112a4420000000000000000000073920006000475736572001400057265616c6d000000001c0020"
    "30f9a51f5a7c2cc316faa3d6acf7d3e83ca9814193e8d93f071a35379c73013d"
)
SIGNED_BY_BOTH = (
    "000100502112a4420000000000000000000073920006000475736572001400057265616c6d00000000080014"
    "31682f230d2c995af16fc42b93a4d12c1cdddb45001c0020"
    "1ef6be0a8b52b7c8596e40884e62786cb158b4cb892b1c90a128d65d125f27f5"
)


def telling():
    """What is told of a request that is outstanding."""
    for text, to in (
        (UNSIGNED, THERE),
        (SIGNED_BY_SHA1, THERE),
        (SIGNED_BY_SHA256, ELSEWHERE),
        (SIGNED_BY_BOTH, SIXTH),
    ):
        a = Agent("it is told where a request goes, and by which algorithm it is signed")
        data = bytes.fromhex(text)
        a.request(0, data, to)
        a.known(0x7392)
        a.known(0x7393)
        a.hold(0x7392, message(BINDING | SUCCESS, 0x7392))
        a.known(0x7392)
        yield a
    for kind, number in ((SUCCESS, 1), (ERROR, 1), (SUCCESS, 2), (REQUEST, 1), (INDICATION, 1)):
        a = Agent("a message comes while a request is held: where it ends the request, nothing changes it")
        a.request(0, binding(1))
        a.hold(2, binding(number, kind))
        a.hold(1, binding(number, kind), ELSEWHERE)
        a.asks(THERE, ELSEWHERE)
        a.known(1)
        a.poll(0)
        yield a


# ---- requests step by step


def named_in_order():
    a = Agent("cancelled requests are named in order")
    a.request(0, binding(2))
    a.request(0, binding(1))
    a.cancel(2)
    a.cancel(1)
    a.draw(AGAIN)
    for _ in range(3):
        a.poll(AGAIN)
    return a


def outstanding_until_named():
    a = Agent("they are outstanding until they are named, as cancelled also past their end")
    a.request(0, binding(1))
    a.cancel(1)
    a.request(0, binding(1))
    a.known(1)
    a.poll(END)
    a.request(END, binding(1))
    a.poll(END)
    return a


def silent_to_the_end():
    a = Agent("a request that is not sent again ends as else")
    a.request(0, binding(1))
    a.send_no_more(1)
    a.drive(0, END - 1)
    a.draw(END - 1)
    for now in (END - 1, END, END):
        a.poll(now)
    return a


def cancelled_both_ways():
    for first in (Agent.cancel, Agent.send_no_more):
        a = Agent("it is cancelled as a whole, and before or behind that only not to be sent again")
        a.request(0, binding(1))
        for call in (first, Agent.cancel, Agent.send_no_more):
            call(a, 1)
        a.draw(AGAIN)
        a.poll(0)
        a.cancel(1)
        a.send_no_more(1)
        a.wait(1, DEFAULT)
        a.poll(0)
        yield a


def responses_to_cancelled():
    for call in (Agent.cancel, Agent.send_no_more):
        a = Agent("a response ends a cancelled request, and one that is not sent again")
        a.request(0, binding(1))
        call(a, 1)
        a.hear(binding(1, SUCCESS))
        a.poll(0)
        yield a


def two_ends():
    a = Agent("requests that ended are named: each is sent six times again")
    a.request(0, binding(2))
    a.request(MS, binding(1))
    a.drive(0, END - 1)
    a.poll(END)
    a.poll(END)
    a.poll(END + MS)
    a.poll(END + MS)
    return a


def ends_at_once():
    a = Agent("those that end at once are named by number")
    for number in (3, 2, 1):
        a.request(0, binding(number))
    a.cancel(2)
    for _ in range(4):
        a.poll(END)
    return a


def by_number():
    a = Agent("requests are sent again by number")
    a.request(0, binding(2))
    a.request(0, binding(1))
    a.poll(0)
    a.draw(AGAIN - 1)
    for _ in range(3):
        a.draw(AGAIN)
    a.poll(AGAIN)
    return a


def what_is_due_waits():
    a = Agent("where a transmission is due that was not asked for, it is waited until now")
    a.request(0, binding(1))
    a.request(MS, binding(2))
    a.poll(AGAIN)
    a.poll(AGAIN + MS)
    a.poll(3 * AGAIN)
    for _ in range(5):
        a.draw(3 * AGAIN)
    a.poll(3 * AGAIN)
    return a


def responses_end(kind, now):
    """A response ends a request, and nothing else does; by the call that takes a moment, where one is given."""
    a = Agent("a response ends a request, and nothing else does")
    a.request(0, binding(1))
    for of, number in ((kind, 2), (REQUEST, 1), (REQUEST, 2), (INDICATION, 1), (kind, 1), (kind, 1)):
        a.hear(binding(number, of), ELSEWHERE, now)
        a.asks(ELSEWHERE)
        a.known(1)
    # where the request went is no validated address
    a.asks(THERE, HERE)
    a.draw(AGAIN)
    a.poll(AGAIN)
    return a


def methods_and_addresses():
    a = Agent("a response of another method ends a request, from any address")
    for number in (1, 2, 3):
        a.request(0, binding(number))
    a.hear(message(ALLOCATE | SUCCESS, 2), SIXTH)
    a.hear(message(ALLOCATE | ERROR, 3, b"\0\x09\0\4\0\0\4\0"), "[2001:db8::1]:1001")
    a.asks(SIXTH, "[2001:db8::1]:1001", "[2001:db8::1]:1002", THERE)
    a.known(2)
    a.poll(0)
    a.poll(AGAIN)
    return a


def validated_by_hand():
    a = Agent("an address is made a validated one")
    a.request(0, binding(1))
    a.validate(THERE)
    a.validate(THERE)
    a.asks(THERE, HERE, ELSEWHERE)
    return a


def other_numbers():
    a = Agent("another number is unknown")
    a.request(0, binding(1))
    for number in (0, 1, 2, 2**96 - 1):
        a.known(number)
    a.cancel(2)
    a.send_no_more(2)
    a.wait(2, DEFAULT)
    a.known(1)
    return a


def over_tcp():
    a = Agent("over TCP a request is sent once, and ends as over UDP", "TCP")
    a.request(0, binding(1))
    a.draw(AGAIN)
    a.poll(AGAIN)
    a.wait(1, Waits(SECOND, 2 * SECOND, 4, 10 * SECOND))
    a.draw(HOUR)
    a.poll(15 * SECOND - 1)
    a.poll(15 * SECOND)
    return a


def an_hour_at_most():
    a = Agent("it is waited for an hour at most, and not past the last moment")
    a.poll(0)
    a.request(0, binding(1))
    a.wait(1, Waits(HOUR + 1, None, 2, 0))
    for now in (0, 1, 2, HOUR):
        a.poll(now)
    a.draw(HOUR)
    a.draw(HOUR + 1)
    a.poll(HOUR + 1)
    for now in (GREATEST - HOUR, GREATEST - HOUR + 1, GREATEST):
        a.poll(now)
    return a


def drawn(seed):
    """Calls of an agent that numbers draw from which a seed of them follows."""
    a = Agent("calls one behind another", ("UDP", "TCP")[seed % 4 == 3])
    now, state = 0, seed

    def pick(*of):
        nonlocal state
        state = (state * 6364136223846793005 + 1442695040888963407) % 2**64
        return of[(state >> 33) % len(of)]

    def number():
        return pick(0, 1, 2, 3, 7)

    def some_waits():
        most = pick(None, None, 0, 300 * MS, SECOND)
        return Waits(pick(0, 1, 100, 250, 500) * MS, most, pick(0, 1, 2, 3, 7), pick(0, 1, 1000) * MS)

    calls = [
        *[lambda: a.request(now, binding(number()), pick(THERE, ELSEWHERE))] * 4,
        *[lambda: a.draw(now)] * 6,
        *[lambda: a.poll(now)] * 5,
        lambda: a.drive(now, now + SECOND),
        lambda: a.hear(binding(number(), pick(SUCCESS, ERROR, REQUEST)), pick(THERE, SIXTH)),
        lambda: a.cancel(number()),
        lambda: a.send_no_more(number()),
        *[lambda: a.wait(number(), some_waits())] * 2,
        lambda: a.known(number()),
        lambda: a.hold(number(), binding(number(), pick(SUCCESS, REQUEST))),
        lambda: a.asks(THERE, SIXTH),
    ]
    for _ in range(80):
        now += pick(0, 0, 1, 50, 100, 250, 500, 1000) * MS
        pick(*calls)()
    return a


def bad_lines():
    """What can't be read is answered so, and does nothing."""
    a = Agent("lines that can't be read")
    a.request(0, binding(1))
    for line in (
        "draw now",
        "draw now=",
        "draw now=-1",
        f"draw now={GREATEST + 1}",
        "draw then=0",
        "draw 0",
        "draw  now=0",
        "is from=192.168.0.1",
        "known number=x",
        f"known number={2**128}",
        "request to=192.168.0.2:3478 bytes=0",
        "request to=192.168.0.2:3478 bytes=AA",
        "hear from=192.168.0.2:3478 bytes=00",
        "hold number=1 bytes=00",
        "poll now=\u00e9",
        "nothing number=1",
        "wait number=1 initial=x",
        "wait number=1 initial=1.x",
        "wait number=1 initial=1.1.1",
        "wait number=1 times=4294967296",
        "show transport=udp",
    ):
        a.say(line, "bad line")
    a.known(1)
    a.poll(0)
    return a


def agents():
    """The sections of agents."""
    yield from shown()
    yield from (sending(it) for it in ("UDP", "TCP"))
    yield from (scheduled(*it) for it in SCHEDULES)
    yield from (keeps_to(*it) for it in ENDS)
    yield from changed_waits()
    yield from telling()
    yield named_in_order()
    yield outstanding_until_named()
    yield silent_to_the_end()
    yield from cancelled_both_ways()
    yield from responses_to_cancelled()
    yield two_ends()
    yield ends_at_once()
    yield by_number()
    yield what_is_due_waits()
    yield from (responses_end(kind, now) for kind in (SUCCESS, ERROR) for now in (None, 1, HOUR))
    yield methods_and_addresses()
    yield validated_by_hand()
    yield other_numbers()
    yield over_tcp()
    yield an_hour_at_most()
    yield from (drawn(seed) for seed in range(1, 13))
    yield bad_lines()


def values():
    """The sections of moments and waits."""
    rows = Section("values")
    moments(rows)
    waits(rows)
    yield rows
