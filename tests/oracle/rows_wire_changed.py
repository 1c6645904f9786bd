"""Rows of bytes that outlive a message, are changed in place or moved, and of names that are added to those of RFC 8489."""

from rows_wire_base import BINDING, SMALL, answer_of, part, row
from rows_wire_messages import FINGERPRINT, INTEGRITY
from rows_wire_written import ASKED, HEAD, begun_writer
from traces_base import CLIENT, SERVER, attribute, message

REALM, SOFTWARE, UNNAMED = 0x0014, 0x8022, 0x0030


def outliving(kind, attributes, visible):
    """A message of attributes, of which so many are visible: the first of a type, where each begins, and no more."""
    first = next((attribute(*it) for it in attributes[:visible] if it[0] == kind), "none")
    starts = [len(message(BINDING, SMALL, attributes[:at])) for at in range(visible)]
    row("outlive", f"{kind:04x}", message(BINDING, SMALL, attributes))(first, *starts, False, False)


def outlives():
    part("the first attribute of a type outlives its message; the list of attributes ends, and stays at its end")
    outliving(REALM, [(REALM, b"r")], 1)
    outliving(SOFTWARE, [(REALM, b"r")], 1)
    outliving(REALM, [], 0)
    outliving(REALM, [(SOFTWARE, b"test vector"), (REALM, b""), (UNNAMED, b"12345"), (REALM, b"other")], 4)
    # behind the integrity only FINGERPRINT is visible, and another REALM is not
    outliving(REALM, [(SOFTWARE, b""), (INTEGRITY, bytes(20)), (REALM, b"r")], 2)
    part("bytes that are no message")
    row("outlive", "0014", HEAD[:19])("Not enough data available to parse the packet, expected 20, actual 19")
    row("outlive", "0014", b"\x40" + HEAD[1:])("The provided data is not a STUN message")


def changing(room, at, value, how, begun, *adds, is_lent):
    """A row of a message of which a byte is set in place, in memory of its own or in bytes that are lent."""
    writer = begun_writer(room if is_lent else None, how, begun)
    answers = []
    for add in adds:
        answer = answer_of(writer.asked, add)
        answers += [len(writer.data), *(answer or ["fine"])]
    whole = bytearray(writer.data)
    if is_lent:
        whole += b"\xee" * (room - len(whole))
    if at < len(whole):
        whole[at] = value
    word = "change-lent" if is_lent else "change"
    row(word, room, at, value, how, begun, *adds)(*answers, *writer.told(), len(whole), bytes(whole))
    return bytes(whole)


def changes():
    request = message(BINDING, SMALL, [(REALM, b"r")])
    part("a byte is set in place: of the header, of a value, of the last padding, and none behind; for any capacity")
    for at in (0, 2, 19, 20, 24, 27, 28, 29, 2**64 - 1):
        for room in (0, 1, 28, 100):
            whole = changing(room, at, 0x72, "begin", HEAD, "realm q", is_lent=False)
            assert at != 24 or whole == request
    part("the same in lent bytes, where it may be one behind the message")
    for at in (0, 2, 19, 20, 24, 27, 28, 29, 30, 2**64 - 1):
        for room in (28, 30):
            whole = changing(room, at, 0x72, "begin", HEAD, "realm q", is_lent=True)
            assert at != 24 or whole == request + b"\xee" * (room - 28)
    part("the same in a response, and where an attribute did not find room")
    for is_lent in (False, True):
        changing(60, 47, 0, "error", ASKED, "code 401", "realm realm", is_lent=is_lent)
        changing(40, 39, 255, "error", ASKED, "code 401", "realm realm", is_lent=is_lent)


KNOWN = {("method", 0x001): "BINDING", ("type", REALM): "REALM", ("type", FINGERPRINT): "FINGERPRINT"}


def naming(*steps):
    """A row of names that are added, in order, and looked up by `?`: that which was added last counts."""
    words, answers, names = [], [], dict(KNOWN)
    for kind, number, name in steps:
        words += [kind, f"{number:04x}", name]
        if name == "?":
            answers.append(names.get((kind, number), "unknown"))
        else:
            names[kind, number] = name
    row("names", *words)(*answers)


def names():
    part("names: that which was added last; a method's is not that of the type with its number")
    looked_up = [("method", 0x001, "?"), ("method", 0x003, "?"), ("type", UNNAMED, "?")]
    naming(*looked_up)
    naming(("type", 0x003, "OTHER"), *looked_up, ("method", 0x003, "ALLOC"), ("method", 0x003, "ALLOCATE"),
           ("type", UNNAMED, "OWN"), *looked_up, ("type", 0x003, "?"))
    naming(("method", UNNAMED, "OTHER"), *looked_up, ("method", UNNAMED, "?"))
    part("a name in the place of one of RFC 8489")
    for kind, number in KNOWN:
        naming((kind, number, "?"), (kind, number, "OWN"), (kind, number, "?"), (kind, number, "OTHER"),
               (kind, number, "?"))


def moves():
    part("bytes change hands: a borrowed value never equals an owned one, and owned bytes stay the same")
    for data in (b"abc", b"", b"\0" * 5, bytes(range(256))):
        for transport, start, end in (("TCP", CLIENT, SERVER), ("UDP", "[2001:db8::1]:3478", "0.0.0.0:0")):
            slices = [data, data, data, True, data]
            values = [True, False, True, data, True]
            row("moved", transport, start, end, data)(
                *slices, *values, True, False, data, transport, start, end
            )


def rows():
    """All of these."""
    outlives()
    changes()
    names()
    moves()
