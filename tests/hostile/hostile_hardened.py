"""What a hardened client never does (`docs/TRACE.md`), judged by messages alone.

- Over UDP it takes a response only to a request that it has sent, and one of each number. To its first request, which
  nothing signs, that is a challenge, or an error from 300 to 499 other than 400; to another one a challenge, or what is
  signed under the user's key for a realm that it was challenged for.
- Each request that it signs is for realm and nonce of a challenge that has the number of a request that it has sent.
  Over UDP it has taken that challenge.
- It takes no challenge whose nonce announces algorithms and that has no well-formed list of them, and so no request
  under such a nonce is without.
"""

import base64
import binascii

from hostile_messages import ERROR, SUCCESS, is_signed, read
from traces_base import (
    ERROR_CODE, MAGIC, NONCE, PASSWORD_ALGORITHM, PASSWORD_ALGORITHMS, REALM,
)

COOKIE, FEATURES = MAGIC.to_bytes(4, "big"), b"obMatJos2"
KNOWN = (0x0001, 0x0002, 0xFF12)
LONGEST_LIST = 32
# more bytes than a message here has
LONGEST_MESSAGE = 2000


def code_of(message):
    """The code of an error, or None."""
    value = message.last(ERROR_CODE)
    if value is None or len(value) < 4 or value[2] not in range(3, 7) or value[3] > 99:
        return None
    return value[2] * 100 + value[3]


def is_challenge(message):
    told = (message.last(REALM), message.last(NONCE))
    return message.form == ERROR and code_of(message) in (401, 438) and None not in told


def ends_the_first(message):
    code = code_of(message) if message.form == ERROR else None
    return code in range(300, 500) and code != 400


def announces(nonce):
    """Whether a nonce says that algorithms are listed (RFC 8489, section 9.2)."""
    if not nonce.startswith(FEATURES):
        return False
    try:
        bits = base64.b64decode(nonce[9:13], validate=True)
    except binascii.Error:
        return False
    return len(bits) == 3 and bits[0] >= 0x80


def is_listed(message):
    """Whether a message has a list of complete entries, whose algorithms may be unknown (RFC 8489, section 14.11)."""
    value = message.last(PASSWORD_ALGORITHMS)
    if value is None or not 4 <= len(value) <= LONGEST_LIST:
        return False
    while len(value) >= 4:
        size = 4 + -(-int.from_bytes(value[2:4], "big") // 4) * 4
        if size > len(value):
            return False
        value = value[size:]
    return not value


def is_cut(message):
    """Whether a challenge lacks the list that its nonce announces."""
    return announces(message.last(NONCE)) and not is_listed(message)


class Hardened:
    """What has come to a hardened client: challenges by number, realm and nonce, and the numbers of what was taken."""

    def __init__(self, name, password, is_stream):
        self.name, self.password, self.is_stream = name, password, is_stream
        self.challenges, self.taken, self.came = [], set(), {}

    def told(self, message):
        self.challenges.append((message.number, message.last(REALM), message.last(NONCE)))

    def hear(self, to, data, answer, sent):
        """What is wrong with the answer to bytes from the server's address, or None."""
        if self.is_stream:
            return self.look(to, data)
        message = read(data)
        if answer != "handled" or message is None or message.form not in (SUCCESS, ERROR):
            return None
        if message.number not in sent:
            return "a response is taken to what was not sent"
        if message.number in self.taken:
            return "a response is taken to what was answered"
        self.taken.add(message.number)
        is_first = sent[message.number][0].integrity() is None
        if is_challenge(message):
            if is_cut(message):
                return None if is_first else "a challenge is taken whose list is cut out"
            return self.told(message)
        if is_first:
            return None if ends_the_first(message) else "the first request is ended by what doesn't end it"
        realms = {realm.decode(errors="replace") for _, realm, _ in self.challenges}
        if any(is_signed(message, self.name, it, self.password) for it in realms):
            return None
        return "a response is taken that nobody signed"

    def look(self, to, data):
        """The challenges that stand in a stream, at any place."""
        known = self.came.get(to, b"")
        self.came[to] = whole = known[-LONGEST_MESSAGE:] + data
        at = whole.find(COOKIE, 4)
        while at >= 0:
            size = int.from_bytes(whole[at - 2 : at], "big")
            message = read(whole[at - 4 : at + 16 + size])
            if message and is_challenge(message) and not is_cut(message):
                self.told(message)
            at = whole.find(COOKIE, at + 1)

    def sends(self, request, sent):
        """What is wrong with a request that is signed, or None."""
        under = request.last(REALM), request.last(NONCE)
        if not any(number in sent and told == under for number, *pair in self.challenges for told in [tuple(pair)]):
            return "signed for what challenged no request"
        if announces(under[1]) and not (is_listed(request) and request.last(PASSWORD_ALGORITHM)):
            return "algorithms are announced, and none is named"
        return None
