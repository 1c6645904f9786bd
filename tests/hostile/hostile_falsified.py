"""Falsified answers to hostile traces, each of which their judge has to see.

A falsification is looked for a trace in which it can be made; where none has a place for it, that is a fault, too.
"""

import re

from hostile_hardened import ends_the_first, is_challenge, is_cut
from hostile_judge import Judge, fault
from hostile_messages import ERROR, SUCCESS, is_signed, key_of, read, written
from traces_base import INTEGRITY, NONCE, PASSWORD_ALGORITHM, PASSWORD_ALGORITHMS, REALM

# what is falsified: the event, its answer, and what that is turned into
CHANGED = {
    "an address is shown that nobody granted": (r"relayed", r"relayed.*", r"\g<0> udp 198.51.100.66:6666"),
    "an address is shown twice": (r"relayed", r"relayed( \S+ \S+)", r"relayed\1\1"),
    "a permission is shown that nobody granted": (r"permissions .*", r"permissions \S+.*", r"\g<0> 198.51.100.66"),
    "a channel has another number than was granted": (r"channels", r"channels \d+(.*)", r"channels 20000\1"),
    "a connection has a number that nobody granted": (
        r"connections", r"(connections \S+ \S+) \d+(.*)", r"\1 4294967295\2",
    ),
    "a payload is of another peer": (r"(toclient|recv) .*", r"peer (\S+) \S+ (.*)", r"peer \1 198.51.100.66:5 \2"),
    "a payload has other bytes": (r"(toclient|recv) .*", r"(peer \S+ \S+) \S+", r"\1 feedfacefeedface"),
    "a request is signed otherwise": (r"draw .*", r"(transmit \S+ \S+ 000.{200,}).{8}", r"\g<1>00000000"),
    "a request has a number that the seed doesn't draw": (
        r"draw .*", r"(transmit \S+ \S+ .{16}).{24}(.*)", rf"\g<1>{'e' * 24}\2",
    ),
    "the desk grants what was refused": (r"todesk .* refuse \d+", r"reply 01(.)(.*)", r"reply 010\2"),
    "a reply has another number": (r"todesk .*", r"(reply .{16}).{24}(.*)", rf"\g<1>{'e' * 24}\2"),
    "the desk's success is signed otherwise": (r"todesk .*", r"(reply 010.*)(.{8})", r"\g<1>00000000"),
    "poll waits for ever": (r"poll .*", r"wait \d+", "wait 99999999999999999999"),
    "a socket is asked for a connection that nobody granted": (r"poll .*", r"socket \d+ (.*)", r"socket 4294967295 \1"),
    "a cause is an error that nobody sent": (r"cause", r"cause .*", "cause rejected 599 unsigned -"),
    "the server saw an address that nobody granted": (r"mapped", r"mapped .*", "mapped 198.51.100.66:6666"),
    "the client is sent to a server that nobody named": (
        r"alternate", r"alternate .*", "alternate 198.51.100.66:6666 -",
    ),
    "an answer has a form of its own": (r"toclient .*", r"handled", "taken"),
}


def changed(event, answer, turned, events, answers):
    """Answers of which one is turned into another, for each that can be."""
    for at, (asked, told) in enumerate(zip(events, answers)):
        if re.fullmatch(event, asked) and re.fullmatch(answer, told):
            yield answers[:at] + [re.sub(answer, turned, told, count=1)] + answers[at + 1 :]


def told_twice(events, answers):
    """What is told as created is told again."""
    for at, told in enumerate(answers):
        if told.startswith("event AllocationCreated "):
            for behind in range(at + 1, len(answers)):
                if events[behind] == "event" and answers[behind] == "none":
                    yield answers[:behind] + [told] + answers[behind + 1 :]


def sent_early(events, answers):
    """What is sent is sent once more, before the moment that poll has told."""
    for at in range(1, len(answers) - 1):
        wait = re.fullmatch(r"wait (\d+)", answers[at])
        drawn = re.fullmatch(r"draw (\d+)", events[at + 1])
        sent = [it for it in answers[:at] if it.startswith("transmit ")]
        if wait and drawn and sent and answers[at + 1] == "none" and int(drawn[1]) < int(wait[1]):
            if int(drawn[1]) >= int(events[at].split(" ")[1]):
                yield answers[: at + 1] + sent[-1:] + answers[at + 2 :]


def bound_early(events, answers):
    """A connection that has a socket is bound, where the desk has bound none."""
    told = [it.split(" ") for it, answer in zip(events, answers) if it.startswith("socket ") and answer == "ok"]
    if told and not any(it.startswith("reply 010b") for it in answers):
        _, _, number, peer, local = told[0]
        shown = f"connections {local} {peer} {number} bound"
        yield from changed("connections", r"connections.*", shown, events, answers)


def judged(trace, answers):
    """Of each event its index, its words, and the judge before it."""
    judge = Judge(trace.split("\n"))
    for at, (event, told) in enumerate(zip(events_of(trace), answers)):
        words = event.split(" ")
        yield at, words, judge
        judge.take(words, told)


def taken(trace, answers, form):
    """A response that the client ignores is taken, one that is of this form for its judge."""
    for at, words, judge in judged(trace, answers):
        if words[0] == "toclient" and answers[at] == "ignored" and words[2:4] == [judge.remote, judge.local]:
            message = read(judge.bytes_of(words[4]))
            if message and message.form in (SUCCESS, ERROR) and form(message, judge):
                yield answers[:at] + ["handled"] + answers[at + 1 :]


def is_blind(message, judge):
    return message.number not in judge.sent


def was_answered(message, judge):
    return message.number in judge.hardened.taken


def is_wrongly_signed(message, judge):
    """It is no challenge, and answers a request that was signed, with an HMAC that no key of the user has made."""
    if message.number not in judge.sent or is_challenge(message) or message.integrity() is None:
        return False
    signed = any(is_signed(message, judge.name, it, judge.password) for it in ("realm", "evil", ""))
    return judge.sent[message.number][0].integrity() is not None and not signed


def ends_nothing(message, judge):
    """It answers the first request, and is neither a challenge nor an error that ends a client."""
    if message.number not in judge.sent or is_challenge(message) or ends_the_first(message):
        return False
    return judge.sent[message.number][0].integrity() is None


def is_cut_out(message, judge):
    """It is a challenge of a signed request, without the list that its nonce announces."""
    if message.number not in judge.sent or not is_challenge(message):
        return False
    return is_cut(message) and judge.sent[message.number][0].integrity() is not None


def signed_otherwise(trace, answers, change):
    """A request that is signed, the first of its number, has changed attributes, by SHA-1 under the same user's key."""
    for at, words, judge in judged(trace, answers):
        if words[0] != "draw" or not answers[at].startswith("transmit "):
            continue
        head, text = answers[at].rsplit(" ", 1)
        request = read(bytes.fromhex(text))
        if request is None or request.integrity() is None or request.number in judge.sent:
            continue
        found = [(kind, value) for place, kind, value in request.shown if place < request.integrity()[0]]
        left = change([it for it in found if it[0] != INTEGRITY])
        if left:
            key = key_of(INTEGRITY, judge.name, request.last(REALM).decode(), judge.password)
            kind = int.from_bytes(request.data[:2], "big")
            other = written(kind, request.number, left, INTEGRITY, key)
            yield answers[:at] + [f"{head} {other.hex()}"] + answers[at + 1 :]


def of_another_nonce(attributes):
    return [(kind, b"obMatJos2AAAAevil" if kind == NONCE else value) for kind, value in attributes]


def of_no_algorithms(attributes):
    left = [it for it in attributes if it[0] not in (PASSWORD_ALGORITHM, PASSWORD_ALGORITHMS)]
    return left if len(left) < len(attributes) else None


# what a hardened client never does: a word of its setting, and how it is falsified
HARDENED = {
    "it takes a response to what it never sent": ("udp", lambda *it: taken(*it, is_blind)),
    "it takes a response to what was answered": ("udp", lambda *it: taken(*it, was_answered)),
    "it takes a response that is wrongly signed": ("udp", lambda *it: taken(*it, is_wrongly_signed)),
    "it takes to its first request what ends nothing": ("udp", lambda *it: taken(*it, ends_nothing)),
    "it takes a challenge whose list is cut out": ("udp", lambda *it: taken(*it, is_cut_out)),
    "it signs for what challenged nothing": ("udp", lambda *it: signed_otherwise(*it, of_another_nonce)),
    "over TCP it signs for what challenged nothing": ("tcp", lambda *it: signed_otherwise(*it, of_another_nonce)),
    "it signs for a list that is cut out": ("udp", lambda *it: signed_otherwise(*it, of_no_algorithms)),
    "over TCP it signs for a list that is cut out": ("tcp", lambda *it: signed_otherwise(*it, of_no_algorithms)),
}


def one_less(events, answers):
    """The last answer is not there."""
    yield answers[:-1]


def ways():
    """What is falsified, of a trace and its answers, and how."""
    for name, how in CHANGED.items():
        yield name, lambda trace, answers, how=how: changed(*how, events_of(trace), answers)
    yield "a connection is bound that only waits", lambda trace, answers: bound_early(events_of(trace), answers)
    yield "what is created is told twice", lambda trace, answers: told_twice(events_of(trace), answers)
    yield "something is sent before poll's moment", lambda trace, answers: sent_early(events_of(trace), answers)
    yield "an answer is missing", lambda trace, answers: one_less(events_of(trace), answers)
    for name, how in HARDENED.items():
        yield f"a hardened client: {name}", of_hardened(*how)


def of_hardened(transport, how):
    """The same, of the traces of a hardened client over a transport."""
    line = re.compile(rf"^client {transport} .* hardened$", re.M)
    return lambda trace, answers: how(trace, answers) if line.search(trace) else ()


def events_of(trace):
    lines = [it for it in trace.split("\n") if it and it[0] != "#"]
    return [it for it in lines if it.split(" ")[0] not in ("desk", "user", "rto", "client")]


def unseen(traces, answers):
    """What the judge does not see, each in a line: of each falsification the first ten places."""
    whole = [(trace, *it) for trace, it in zip(traces, answers) if it[1] == 0 and fault(trace, *it) is None]
    for name, falsified in ways():
        places = ((trace, it) for trace, told, _ in whole for it in falsified(trace, told))
        seen = [fault(trace, it, 0) is not None for (trace, it), _ in zip(places, range(10))]
        if not seen or not all(seen):
            yield f"the judge does not see, in {seen.count(False)} of {len(seen)} places, that {name}"
