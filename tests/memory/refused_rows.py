"""Rows of `test_rows_wire` that write, and what such a row may print where it is refused memory.

Chosen are the shortest rows of each kind that writes an attribute, a message or a frame: of messages, in a
vector and in a slice, one with each way to begin and each add. Of a row that is refused memory it is said
(`fault`) that one of these holds:

- an add says `no memory` behind the size that the message had, and all else is answered as where the row
  lacks that add;
- another call says `no memory` in place of what it gives, and all else is as with ample memory;
- the program could not keep a word: the row is answered as one without that word, or as a bad line; or what
  was signed is signed without the user, the realm or the password;
- the program could not keep a piece of the answer, and the rest is as with ample memory.
"""

import hashlib
import hmac
import re

from hostile_messages import BY, FINGERPRINT, covered, read, with_length, written
from traces_base import attribute
from traces_payloads import fingerprinted

ONLY_READ = (
    "stream", "judge", "raw", "check", "plain", "look", "header", "frame", "number", "transport", "family",
    "causes", "outlive",
)
# rows of messages, and which of their words is the first add
MESSAGES = {"message": 3, "lent": 4, "change": 6, "change-lent": 6}
# how many words an add has behind its name
ONE = ("user", "realm", "nonce", "code", "mapped", "zeros", "sign", "sign-short")
MORE = {"key": 2, **dict.fromkeys(ONE, 1)}
HEADER = 20
NO_MEMORY = " no memory"
# the credentials of the program, and without one of their words
WHOLE, LOST = b"user:realm:pass", (b":realm:pass", b"user::pass", b"user:realm:")


# ---- the rows


def adds_of(words):
    """Where the adds of a message's words begin and end."""
    at, found = MESSAGES[words[0]], []
    while at < len(words):
        end = at + 1 + MORE.get(words[at], 0)
        found.append((at, end))
        at = end
    return found


def features(words, answer):
    """What a row shows: of messages how it begins and what is added, of others which of its words are none.
    Where zeros fill a message, the others don't count: its bytes are not printed."""
    if words[0] not in MESSAGES:
        return [(words[0], *(it for it in words[-3:] if it in ("-", "bad", "check", "unknown")))]
    how = words[MESSAGES[words[0]] - 2]
    were_fine = [it == "fine" for it in re.findall(r" \d+ (fine|[A-Z])", answer)]
    adds = [words[a:b] if words[a] in ("sign", "key") else [words[a]] for a, b in adds_of(words)]
    fine = [it for it, was_fine in zip(adds, were_fine) if was_fine]
    return [(words[0], how), *((words[0], *it) for it in fine if it == ["zeros"] or ["zeros"] not in adds)]


def chosen(stored, answers):
    """The shortest rows that show each of these, and what is stored that they are answered."""
    rows = [it for it in stored.splitlines() if it and it[0] != "#"]
    shortest = {}
    for row, answer in sorted(zip(rows, answers.splitlines()), key=lambda it: len(it[0])):
        words = row.split(" ")
        for it in features(words, answer) if words[0] not in ONLY_READ else ():
            shortest.setdefault(it, (row, answer))
    return list(dict.fromkeys(shortest.values()))


def lesser(row):
    """The same row with a word less, with none in its place or a shorter one, and with an add less."""
    words = row.split(" ")
    rows = []
    for at in range(1, len(words)):
        rows += [" ".join((*words[:at], *it, *words[at + 1 :])) for it in ((), ("-",), ("a*0",))]
        rows += [" ".join((*words[:at], words[at][:-4], *words[at + 1 :]))]
    if words[0] in MESSAGES:
        rows += [" ".join(words[:a] + words[b:]) for a, b in adds_of(words)]
    return rows


# ---- what may be printed


def signed_without(data):
    """A message as it is signed where one of its signatures is made without a word of the credentials:
    each."""
    found = read(data)
    signers = [it for _, it, _ in found.shown if it in BY]
    plain = [(kind, value) for _, kind, value in found.shown if kind not in (*BY, FINGERPRINT)]
    is_marked = any(it == FINGERPRINT for _, it, _ in found.shown)
    for which in signers:
        for key in (*(hashlib.new(BY[which][1], it).digest() for it in LOST), b""):
            text = written(int.from_bytes(data[:2], "big"), found.number, plain)
            for it in signers:
                text = signed(text, it, key if it == which else hashlib.new(BY[it][1], WHOLE).digest())
            yield fingerprinted(text) if is_marked else text


def signed(text, kind, key):
    """A message with an integrity attribute of a kind behind it, under a key."""
    digest = BY[kind][0]
    size = hashlib.new(digest).digest_size
    value = hmac.digest(key, covered(text, len(text), size), digest)
    return with_length(text, 4 + size) + attribute(kind, value)


def is_signed_without(ample, printed):
    """Whether the message of an answer is signed without a word of the credentials, and all else is as it
    was."""
    for word in ample.split(" "):
        if re.fullmatch("([0-9a-f]{2}){21,}", word) and read(bytes.fromhex(word)):
            others = signed_without(bytes.fromhex(word))
            return printed in (ample.replace(word, it.hex()) for it in others)
    return False


def is_without_a_piece(ample, printed, piece=""):
    """Whether a piece of an answer is missing, or has another in its place."""
    unlike = (k for k, (a, b) in enumerate(zip(ample, printed)) if a != b)
    at = printed.find(piece) if piece else next(unlike, min(len(ample), len(printed)))
    front, behind = printed[:at], printed[at + len(piece) :]
    is_shorter = len(front) + len(behind) <= len(ample)
    return at >= 0 and is_shorter and ample.startswith(front) and ample.endswith(behind)


def is_add_refused(printed, others):
    """Whether an add says that it is refused memory, and all else is one of some answers. Of a message the
    size is told before, of a list of types that it has no such yet."""
    refused = re.search(r" (\d+|false) no memory", printed)
    if not refused:
        return False
    front = printed[: refused.start()]
    sizes = re.findall(r" (\d+) (?=fine|[A-Z])", front)
    is_size = refused[1] in ("false", sizes[-1] if sizes else str(HEADER))
    return is_size and front + printed[refused.end() :] in others


def fault(row, ample, printed, others):
    """Why what a row prints is not good, or None. `others` are the answers of its lesser rows."""
    kind = row.split(" ")[0]
    if printed in ("bad line", f"{kind} bad line", *others) or is_signed_without(ample, printed):
        return None
    if NO_MEMORY not in printed:
        is_good = is_without_a_piece(ample, printed)
    else:
        is_good = is_add_refused(printed, others)
        is_good = is_good or kind not in MESSAGES and is_without_a_piece(ample, printed, NO_MEMORY)
    return None if is_good else f"it printed: {printed}"
