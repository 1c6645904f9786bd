"""What the traces of bound connections are made with: the socket of a connection to a peer, and what becomes of what
comes over it (RFC 6062, sections 4.3 and 4.5).

Until the connection is bound, what comes is a stream of frames. Those that are whole are taken up one by one, and a
piece is answered by what the first of them is. What stands behind the frame that binds it is bytes of the peer, and so
is all that comes from then on.
"""

from rows_wire_frames import Stream
from traces_base import CLIENT, ERROR, MS, SERVER, success, unsigned
from traces_connection_sockets import (
    CONNECTION_BIND, ONE, THREE, TWO, all_three, bind, closed, closes, draws_from, opened,
)
from traces_connections import AT, NEXT_TO, THIRD
from traces_payloads import fingerprinted, send, shown
from traces_permissions import OTHER_NONCE
from traces_tcp_base import GARBLED, LONGEST, Pieces, peer_gives

# it is asked at this moment that the connection be bound, where there is one
NOW = 200 * MS
# the same of the last one of three, and when all of them have waited too long
THEN, LATE = 400 * MS, LONGEST + 250 * MS
BOUND = "bound"
# another peer, whose permission is asked for
FOURTH = "10.0.0.4"


class Socket(Pieces):
    """The socket of a connection to a peer, with an own address: what is kept of what came over it.

    `k` is the number of its newest CONNECTION_BIND. `means` has what is an answer to that: what binds the connection,
    and challenges, each with the number of the CONNECTION_BIND that is made then. By another message of that method the
    connection fails. A socket with the client's own address is one of the client's own connection, and never bound.
    """

    def __init__(self, t, here, peer, k):
        self.t, self.here, self.peer = t, here, peer
        self.stream, self.is_bound, self.is_over, self.is_heard = Stream(), False, False, here != CLIENT
        self.awaits(k)
        t.sockets.append(self)

    def awaits(self, k):
        reply = success(CONNECTION_BIND, k)
        self.k, self.means = k, {reply: BOUND, fingerprinted(reply): BOUND}

    def hears(self, text):
        """A message comes before it is bound."""
        kind = int.from_bytes(text[:2], "big")
        if not self.is_heard or kind & ~ERROR != CONNECTION_BIND or self.t.means.get(text) == [GARBLED]:
            return
        meant = self.means.get(text)
        if meant == BOUND:
            self.is_bound = True
        elif meant is None:
            self.is_over = True
        else:
            self.awaits(meant)

    def takes_up(self):
        """Frames are taken up, as long as it is to be bound: what the first one is."""
        first = None
        while not (self.is_bound or self.is_over) and (found := self.stream.look()):
            kind, text = found
            if kind == "message":
                self.hears(text)
            first = first or kind
        return first

    def given(self):
        """Bytes of the peer that wait are given, where there are some."""
        if self.is_over or not self.is_bound or not self.stream.kept:
            return None
        value, self.stream.kept = self.stream.kept, b""
        return peer_gives(self.peer, value, "tcp")

    def takes(self, piece):
        self.stream.kept += b"" if self.stream.dead else piece
        if self.is_bound:
            return self.given()
        return "ignored" if self.takes_up() == "channel" else "handled"

    def hear(self, now, what, answer):
        return self.t.hear(now, what, answer, to=self.here)

    # ---- lines

    def challenge(self, k, told=OTHER_NONCE):
        """A challenge of its newest CONNECTION_BIND, behind which there is one of another number."""
        text = unsigned(CONNECTION_BIND | ERROR, self.k, told)
        self.means[text] = k
        return text

    def binds(self, now, behind=b""):
        """The reply comes by which it is bound, with bytes of the peer behind it."""
        answer = self.piece(now, success(CONNECTION_BIND, self.k) + behind)
        assert answer == "handled" and self.is_bound
        self.connected()

    def connected(self):
        return self.t.event(f"TcpConnected {self.peer}")

    def has_failed(self, now):
        """That it has failed is told, and that it is to be closed."""
        assert self.is_over
        self.t.event(f"TcpConnectFailed {self.peer}")
        return closes(self.t, now, self.here)

    def is_closed(self, now):
        """The user closes it, and is told to."""
        self.is_over = True
        closed(self.t, now, self.here)
        return closes(self.t, now, self.here)

    def goes(self, now):
        """It goes with its allocation: nothing is told of it, and what comes to it is for nobody."""
        self.is_over = True
        return self.piece(now, b"late")

    def sends(self, now, value, what=None):
        """Bytes go to the peer: the number of the line."""
        line = f"transmit {self.here} {SERVER} {shown(value)}"
        return send(self.t, now, self.peer, value if what is None else what, line, "tcp")


def ends(t):
    """A layer above the client meets an error: no message counts any more."""
    t.say("error", "ok")
    for it in t.sockets:
        it.is_heard = False
    t.event("AllocationCreateFailed 4")


def joining():
    """A connection is to be bound, by the fourth request, which went out at 200 ms."""
    t = opened()
    return t, Socket(t, ONE, AT, 4)


def joined(behind=b""):
    """It is bound, and bytes wait."""
    t, s = joining()
    s.binds(NOW, behind)
    return t, s


def three_joining():
    """Three connections are to be bound, by the requests from the sixth on. The last one went out at 400 ms."""
    t, all_of_them = all_three(250 * MS), []
    for i, (here, peer) in enumerate(((ONE, AT), (TWO, NEXT_TO), (THREE, THIRD))):
        draws_from(t, 300 * MS + 50 * MS * i, here, bind(6 + i, 7 + i))
        all_of_them.append(Socket(t, here, peer, 6 + i))
    return t, *all_of_them


def payload(answers):
    """The bytes of peers that were given, joined."""
    return b"".join(bytes.fromhex(it.split(" ")[3]) for it in answers if it.startswith("peer "))
