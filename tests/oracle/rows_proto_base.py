"""What the rows of `test_rows_proto` are made of: sections of lines and answers, messages, and waits."""

import struct
from typing import NamedTuple, Optional

from traces_base import ALLOCATE, BINDING, ERROR, INDICATION, MAGIC, MS, SECOND, SUCCESS

REQUEST = 0x000
GREATEST = 2**64 - 1
HOUR = 3600 * SECOND
# of a duration
LONGEST = 2**64 * SECOND - 1
HERE, THERE, ELSEWHERE = "192.168.0.1:1000", "192.168.0.2:3478", "192.168.0.3:3478"
SIXTH = "[2001:db8::1]:1000"


class Section:
    """A line that tells what the others are about, and these, with what each is answered."""

    def __init__(self, head):
        self.lines, self.answers = [head], []

    def remark(self, text):
        self.lines.append(f"# {text}")

    def say(self, line, answer):
        self.lines.append(line)
        self.answers.append(answer)

    def ask(self, answer, what, **given):
        """A line that says what is done, and with what, and what it is answered."""
        self.say(line_of(what, **given), answer)


def line_of(what, **given):
    """What is done, and with what: of each word that is there its name, `=`, and what it stands for."""
    return " ".join([what, *(f"{name.rstrip('_')}={it}" for name, it in given.items() if it is not None)])


def in_hex(data):
    return data.hex() or "-"


def message(kind, number, attributes=b""):
    """A message of a type and a number."""
    return struct.pack(">HHIQI", kind, len(attributes), MAGIC, number >> 32, number & 0xFFFFFFFF) + attributes


def number_in(data):
    return int.from_bytes(data[8:20], "big")


def class_in(data):
    return int.from_bytes(data[:2], "big") & 0x110


def parse_refusal(data):
    """Why bytes are no message, where their header or their length tells it."""
    cookie = struct.pack(">I", MAGIC)
    if data[:1] >= b"\x40" or not cookie.startswith(data[4:8]):
        return "NotStun"
    if len(data) < 20:
        return f"Truncated {{ expected: 20, actual: {len(data)} }}"
    size = 20 + int.from_bytes(data[2:4], "big")
    if len(data) < size:
        return f"Truncated {{ expected: {size}, actual: {len(data)} }}"
    if len(data) > size:
        return f"TooLarge {{ expected: {size}, actual: {len(data)} }}"
    return None


class Waits(NamedTuple):
    """How long is waited behind the first transmission and at most, how often is transmitted, and how long is
    waited behind the last transmission."""

    initial: int
    most: Optional[int]
    transmissions: int
    last: int

    def waited(self, count):
        """How long is waited behind the first transmissions, so many."""
        total, wait = 0, self.initial
        for place in range(count):
            if wait == 0 or total > GREATEST:
                return total
            if self.most is not None and wait >= self.most:
                return total + (count - place) * self.most
            total, wait = total + wait, 2 * wait
        return total

    def slot(self, sent, place):
        return min(sent + self.waited(place), GREATEST)

    def times(self, is_tcp):
        return 1 if is_tcp else max(1, self.transmissions)

    def end(self, sent):
        return min(self.slot(sent, self.times(False) - 1) + self.last, GREATEST)

    def words(self):
        """What a line names of them."""
        most = None if self.most is None else duration(self.most)
        times = self.transmissions
        return {"initial": duration(self.initial), "most": most, "times": times, "behind": duration(self.last)}


DEFAULT = Waits(500 * MS, None, 7, 8 * SECOND)


def duration(nanos):
    return str(nanos) if nanos <= GREATEST else f"{nanos // SECOND}.{nanos % SECOND}"
