"""What the traces of a client over TCP are made with: a stream, and what becomes of it.

What comes is a stream in pieces, and its frames are messages and channel frames, these with bytes behind them up to
a multiple of four. A piece is answered by what the first frame gives that is whole then. Where that gives nothing of
a peer, frames are taken until one gives data; what waits on is taken by `recv`, or when the next piece comes. A
request goes out once, and is waited for as long as over UDP.
"""

from itertools import accumulate

from rows_wire_base import Refused
from rows_wire_frames import front
from traces_base import MS, SERVER, TRANSPORT, Trace, block, setup
from traces_channels import A, ONE, bound
from traces_payloads import AT_1, HI, OTHER_REPORT, REPORT, data, fingerprinted, frame, of, shown, told
from traces_permissions import PEER_1

# when a request of the first moment is given up
LONGEST = 39500 * MS
OVER_TCP = (TRANSPORT, b"\6\0\0\0")
# what a frame is that doesn't parse
GARBLED = "garbled"
DATA_OF_1, REPORT_OF_1 = told(of(AT_1), data(HI)), told(of(AT_1), REPORT)
# messages that don't parse: the last attribute has more bytes than there are; the fingerprint is another's; the
# length is no multiple of four
BROKEN = DATA_OF_1[:-8] + b"\0\x13\0\x05" + DATA_OF_1[-4:]
MARKED = fingerprinted(DATA_OF_1, wrong=1)
ODD = DATA_OF_1[:3] + bytes([DATA_OF_1[3] + 1]) + DATA_OF_1[4:] + b"\0"


def padded(channel, value, behind=0):
    """A frame as it stands in a stream."""
    return frame(channel, value, bytes([behind]) * (-len(value) % 4))


def peer_gives(peer, value, transport="udp"):
    return f"peer {transport} {peer} {shown(value)}"


def places_within(size, seed):
    """Where so many bytes are cut, by the words of a block: into pieces of up to thirty bytes."""
    places = list(accumulate(1 + word % 30 for word in block(seed)))
    return [at for at in places if at < size]


def spans(size, places):
    """Where the pieces of so many bytes begin and end that are cut at these places."""
    return zip((0, *places), (*places, size))


class Pieces:
    """What takes pieces of a stream one by one: `takes` has what one is answered that has bytes, and `hear` notes it.

    Until `is_over` a piece of no bytes ends the stream.
    """

    def taken(self, piece):
        """What a piece of the server's is answered."""
        if self.is_over:
            return "ignored"
        if not piece:
            self.is_over = True
            return "handled"
        return self.takes(piece)

    def piece(self, now, piece, what=None):
        """A piece comes: what it is answered."""
        answer = self.taken(piece)
        self.hear(now, piece if what is None else what, answer)
        return answer

    def pieces(self, now, *pieces):
        """They come one behind another, and nothing of them is asked for: what each is answered."""
        return [self.piece(now, it) for it in pieces]

    def cut(self, now, line, text, *places):
        """The answer of a line comes cut at these places."""
        return [self.piece(now, text[a:b], f"@{line}:{a}:{b}") for a, b in spans(len(text), places)]


class Piped(Pieces, Trace):
    """Of a client over TCP: what is kept of the stream to it, and what its frames give.

    `peers` has the peers of the channels that stand, and `means` what messages are answered, the last answer of each
    again and again. Another message is for nobody. `sockets` has those of its connections to peers.
    """

    def __init__(self, lines):
        super().__init__(lines)
        self.kept, self.is_dead, self.is_over = b"", False, False
        self.peers, self.sockets = {}, []
        self.means = {it: [GARBLED] for it in (BROKEN, MARKED, ODD)}

    def look(self):
        """The first frame, where it is whole, is taken: what it gives."""
        if self.is_dead or self.is_over:
            return None
        try:
            found = front(self.kept)
        except Refused:
            self.is_dead = True
            return None
        if found is None:
            return None
        kind, size, whole = found
        text, self.kept = self.kept[:size], self.kept[whole:]
        if kind == "channel":
            peer = self.peers.get(int.from_bytes(text[:2], "big"))
            return peer_gives(peer, text[4:]) if peer else "ignored"
        answers = self.means.get(text, ["ignored"])
        return answers.pop(0) if len(answers) > 1 else answers[0]

    def pulled(self):
        """Frames are taken until one gives data."""
        while given := self.look():
            if given.startswith("peer "):
                return given
        return None

    def takes(self, piece):
        self.kept += piece
        given = self.look()
        if given in (None, GARBLED):
            return "handled"
        if given in ("handled", "ignored"):
            return self.pulled() or given
        return given

    def recv(self, now):
        """What waits is asked for: what is answered. Bytes that came over a socket are given first."""
        answer = next(filter(None, (it.given() for it in self.sockets)), None) or self.pulled() or "none"
        self.say(f"recv {now}", answer)
        return answer

    def rest(self, now):
        """All that waits: what is given of peers."""
        given = []
        while (answer := self.recv(now)) != "none":
            given.append(answer)
        return given

    def is_handled_once(self, text):
        self.means[text] = ["handled", "ignored"]
        return text

    def comes(self, now, line, text, *places):
        """The answer of a line, which the client handles, comes cut at these places."""
        return self.cut(now, line, self.is_handled_once(text), *places)

    def lets(self, *peers, transport="udp"):
        """These have permissions from now on."""
        for peer in peers:
            self.means[told(of(peer), data(HI))] = [peer_gives(peer, HI, transport)]
            self.means[told(of(peer), REPORT)] = [f"icmp {transport} {peer} 3 1 5"]
            self.means[told(of(peer), OTHER_REPORT)] = [f"icmp {transport} {peer} 1 2 3"]


def over(transport="udp", kind=Piped, **how):
    """A client over TCP that asks for an allocation over a transport."""
    made = setup(**how).replace("client udp", "client tcp")
    return kind(made.replace(f"{SERVER} udp", f"{SERVER} {transport}"))


def holding(*peers):
    """A client that is granted, with permissions for these addresses of peers."""
    t = over()
    t.held()
    for i, ip in enumerate(peers):
        t.permitted(50 * MS * (i + 1), i + 2, ip, *peers[:i])
        t.lets(f"{ip}:5")
    return t


def carrying():
    """A client that is granted, with a permission for a peer and a channel to another. It is 150 ms late."""
    t = holding(PEER_1)
    bound(t, 100 * MS, 3, A, ONE)
    t.peers[A] = ONE
    return t


# where the moments of what is `carrying` begin, and its numbers
NOW, NEXT = 150 * MS, 4
