"""A client's way through a course, call by call, and its comparison with the one that was never refused
memory.

Before a call that is refused memory each answer is that of the ample run, byte for byte. Behind it messages
are compared as `shown` has them: without their numbers, of which the refused call may have drawn one. Two
that are due at one moment may leave in another order then, since that goes by their numbers. So all that is
due is drawn first, and is compared and answered in an order that numbers don't change.
"""

from refused_server import OWN, RELAYED, RELAYED_6, SERVER, shown

# these may be made again where they were refused memory; after others the client has failed
OF_THE_USER = (
    "open", "create_permission", "create_permissions", "bind_channel", "tcp_connect", "allocated_tcp_socket",
    "tcp_closed", "delete", "send_to",
)
# these note why events happen. Without memory for that they answer as ever, and the cause is lost
NOTING = "recv", "poll_recv", "poll"
SEED = bytes([1] * 32)
MS, SECOND = 1_000_000, 1_000_000_000
# turns at one moment
MOST_TURNS = 50
UDP, TCP = 17, 6


class Fault(Exception):
    """Why a run is not good."""


class Failed(Exception):
    """A call was refused memory after which the client has failed."""


def pair(address):
    host, port = address.rsplit(":", 1)
    return host.strip("[]"), int(port)


def exact(answer):
    """An answer as a text, with the bytes that a view shows."""
    if not isinstance(getattr(answer, "data", None), memoryview):
        return repr(answer)
    told = (bytes(it) if isinstance(it, memoryview) else it for it in vars(answer).values())
    return repr((type(answer).__name__, *told))


def masked(answer):
    """The same, but that the number of a message, and what is computed from that, is left out."""
    if type(answer).__name__ == "Transmit":
        return f"{answer.source} {answer.to} {int(answer.transport)} {shown(answer.data)}"
    return exact(answer)


def compared(name, answer):
    """What a call told, as it is compared behind a refusal. Of a message that is drawn only that it is one:
    in which order several leave, numbers decide."""
    if name == "poll_transmit":
        return "nothing" if answer is None else type(answer).__name__
    return masked(answer)


class Told:
    """What a step of the ample run told. `waiting` has the events that waited before it."""

    def __init__(self, name, answer, now, waiting=()):
        self.name, self.now, self.waiting = name, now, waiting
        self.exact, self.compared = exact(answer), compared(name, answer)


class Early:
    """A client whose events are taken as soon as they are told. While some wait it answers `poll` as the
    client would: to wait until that very moment."""

    def __init__(self, turn, client):
        self.turn, self.client, self.waiting = turn, client, []

    def __getattr__(self, name):
        def call(*given, **named):
            try:
                return getattr(self.client, name)(*given, **named)
            finally:
                while (event := self.client.poll_event()) is not None:
                    self.waiting.append(event)
        return call

    def poll(self, now):
        return self.turn.WaitUntil(now) if self.waiting else self.__getattr__("poll")(now)

    def poll_event(self):
        return self.waiting.pop(0) if self.waiting else None

    def close(self):
        self.client.close()


class Walk:
    """A run of a course. `library` has the client's module, and the counters of the library below it;
    `ample` is what the ample run told, where this isn't that one. `refused` is the call that was refused
    memory, and `lost` one that was refused what it notes. `sockets` are the own addresses of those that
    are opened next."""

    def __init__(self, library, course, ample=None, is_early=False):
        self.library, self.turn, self.course, self.ample = library, library.turn, course, ample
        self.is_early, self.is_stream = is_early, course.transport == TCP
        self.client, self.server, self.now = None, course.server(), 0
        self.told, self.refused, self.lost, self.sockets, self.cut = [], None, None, [], 0

    def close(self):
        if self.client is not None:
            self.client.close()

    # ---- a call, and what it told

    def open(self):
        turn, course = self.turn, self.course
        config = turn.TurnConfig("user", "pass", turn.Transport(course.peers), turn.Families(course.families),
                                 turn.Integrity(course.integrity))
        client = turn.TurnClient(pair(OWN), pair(SERVER), config, turn.Transport(course.transport), seed=SEED)
        self.client = Early(turn, client) if self.is_early else client

    def tried(self, name, given, named):
        """What a call answers, or the error that it raises."""
        try:
            return self.open() if name == "open" else getattr(self.client, name)(*given, **named)
        except self.turn.TurnError as error:
            return error

    def call(self, name, *given, **named):
        """Makes a call. Where it is refused memory it has to say so, or to answer as ever where that was for
        its notes. Then, if it is the user's, it has changed nothing, and is made once more; behind another
        one the client has failed."""
        waiting = tuple(self.client.waiting) if isinstance(self.client, Early) else ()
        held = self.held() if name in OF_THE_USER and self.client else None
        was_refused = self.library.is_refused()
        answer = self.tried(name, given, named)
        says_so = isinstance(answer, self.turn.NoMemory)
        if self.library.is_refused() == was_refused:
            if says_so:
                raise Fault(f"{name} says NoMemory, and nothing was refused")
        elif name in NOTING and not says_so:
            self.lost = name
        else:
            self.refused = name
            if not says_so:
                raise Fault(f"{name} was refused memory, and answers {exact(answer)}")
            if name not in OF_THE_USER:
                raise Failed
            if self.client and self.held() != held:
                raise Fault(f"{name} was refused memory, and now the client holds {self.held()}")
            answer = self.tried(name, given, named)
        self.tell(name, answer, waiting)
        return answer

    def tell(self, name, answer, waiting=()):
        """Keeps what was told, or holds it against what the ample run told there."""
        if self.ample is not None:
            if len(self.told) == len(self.ample):
                raise Fault(f"{name} is called, and the ample run was over")
            want = self.ample[len(self.told)]
            told = compared(name, answer) if self.refused else exact(answer)
            wanted = want.compared if self.refused else want.exact
            if (name, self.now, told) != (want.name, want.now, wanted):
                raise Fault(f"{name} at {self.now} tells {told}, and not {want.name} at {want.now} {wanted}")
        is_kept = self.ample is None or self.is_early
        self.told.append(Told(name, answer, self.now, waiting) if is_kept else want)

    # ---- what a course does

    def asks(self, name, *given):
        """A call of the user's, at the moment, and what the client holds then."""
        self.call(name, *given, self.now)
        self.shows()

    def sends(self, peer, value, transport=None):
        self.asks("send_to", self.turn.Transport(transport or self.course.peers), pair(peer), value)

    def hears(self, text, local=None):
        """Bytes come from the server, to the client's own address or that of a socket; over TCP in pieces
        of `cut` bytes, where that isn't 0."""
        size = self.cut or len(text) or 1
        pieces = [text[at : at + size] for at in range(0, len(text), size)] if self.is_stream else [text]
        for piece in pieces or [b""]:
            self.call("recv", piece, self.now, local=local)
            while self.is_stream and self.call("poll_recv", self.now) is not None:
                pass

    def runs(self, seconds):
        """Takes turns until so much time has passed, or the client is closed."""
        until, turns = self.now + int(seconds * SECOND), 0
        while turns < MOST_TURNS:
            answer, has_happened = self.takes_turn()
            turns += 1
            if has_happened or not isinstance(answer, self.turn.Closed) and answer.moment <= self.now:
                continue
            if isinstance(answer, self.turn.Closed) or answer.moment > until:
                self.now = until
                self.shows()
                return
            self.now, turns = answer.moment, 0
        raise Fault(f"{turns} turns at {self.now}, and the client wants another one")

    def takes_turn(self):
        """What `poll` answers in a turn, and whether anything happened in it."""
        drawn = self.draws()
        answer = self.call("poll", self.now)
        has_happened = bool(drawn) or isinstance(answer, (self.turn.AllocateTcpSocket, self.turn.TcpClose))
        if isinstance(answer, self.turn.AllocateTcpSocket):
            local = self.sockets.pop(0)
            self.asks("allocated_tcp_socket", answer.id, answer.peer, local and pair(local))
        while self.call("poll_event") is not None:
            has_happened = True
        self.answers(drawn)
        return answer, has_happened

    def draws(self):
        """All that is to be sent at the moment, in an order of its own."""
        drawn = []
        while isinstance(sent := self.call("poll_transmit", self.now), self.turn.Transmit):
            drawn.append(sent)
        drawn.sort(key=masked)
        self.tell("drawn", [masked(it) for it in drawn])
        return drawn

    def answers(self, drawn):
        """The server hears these, and the client what it answers."""
        for sent in drawn:
            reply = self.server.answer(sent.data)
            if reply is not None:
                self.hears(reply, sent.source)

    def shows(self):
        self.tell("getters", self.held())

    def held(self):
        """What each getter tells."""
        client, transport = self.client, self.turn.Transport(self.course.peers)
        at = [client.permissions(transport, pair(it)) for it in (RELAYED, RELAYED_6)]
        has = [client.have_permission(transport, pair(it)[0]) for it in self.course.known]
        return client.relayed_addresses(), at, has, client.channels(), client.connections()
