#!/usr/bin/env python3
"""example.py: asks a TURN server for an address, and sends payloads through it to a peer that sends them back.

    TURN_PASSWORD=secret python3 bindings/python/example.py --server 127.0.0.1:3478 --user alice --echo

With --connect the address is one over TCP (RFC 6062), and the payloads go over a connection to the peer. With --accept
a peer opens the connection, and gets back what it sends. `--help` tells the options and the exit status. The client itself does no input or output: its sockets and its clock are of asyncio.
"""

from __future__ import annotations

import argparse
import asyncio
import contextlib
import ipaddress
import os
import statistics
import string
import sys
import time
from collections.abc import Callable, Coroutine
from pathlib import Path
from typing import Any, Protocol

from turn_client import (
    Address, AllocateTcpSocket, AllocationCreated, AllocationCreateFailed, BadIntegrity, BadText, CauseLost,
    ChannelCreated, Deleted, Expired, Families, Handled, Integrity, LongName, NoAllocation, NoCommonAlgorithm,
    OtherFamily, PeerData, PeerIcmp, PermissionCreated, Rejected, RelayedPort, SocketClosed, TcpClose, TcpConnected,
    TcpConnectFailed, Transmit, Transport, TurnCause, TurnClient, TurnConfig, TurnError, TurnEvent, TurnRecvRet,
    Unanswered, Unusable, WaitUntil,
)

ALL_BACK, SOME_LOST, BAD_USAGE, FAILED, NO_ANSWER = range(5)
STATUSES = ("exit status: 0 all came back, or nothing was to be sent; 1 something was lost; 2 options that can't be "
            "read; 3 the server refused something, or the client failed; 4 no answer")

SECOND, MILLISECOND = 1_000_000_000, 1_000_000  # in nanoseconds
PAUSE = 0.01          # seconds that it waits at least where the client wants a turn and does nothing in it
INTERVAL = 0.001      # seconds between two payloads at least
PATIENCE = 2.0        # seconds that the last payloads are waited for
CONNECT_PATIENCE = 10.0
READ_MAX = 65536      # bytes that are read at once
NUMBER = 4            # bytes of the number at the front of a payload
STRIDE, BYTES = 31, 256  # from each of its other bytes to the next, and how many different ones there are
LEAST_SIZE, MOST_SIZE, MOST_COUNT = NUMBER, 60000, 1_000_000
TOKEN_DIGITS = 16
MOST_INTERVAL = 0xFFFFFFFF


CAUSES: dict[type[TurnCause], str] = {
    Unanswered: "unanswered", BadIntegrity: "integrity", NoCommonAlgorithm: "no-algorithm", OtherFamily: "other-family",
    CauseLost: "no-memory", Deleted: "deleted", Expired: "expired", SocketClosed: "socket-closed", Unusable: "unusable",
}


class Failure(Exception):
    """Why the run ends, and with which exit status."""

    def __init__(self, status: int, text: str) -> None:
        super().__init__(text)
        self.status = status


class Redirected(Failure):
    """The server named another one, by an error 300."""

    def __init__(self, server: Address, text: str) -> None:
        super().__init__(FAILED, text)
        self.server = server


def printable(text: str) -> str:
    """A text of the server's, without what isn't to be printed."""
    return "".join(it for it in text if it.isprintable())


def text_of(cause: TurnCause) -> str:
    if isinstance(cause, Rejected):
        return f"rejected {cause.code} {'signed' if cause.is_signed else 'unsigned'} {printable(cause.reason)}"
    return CAUSES[type(cause)]


def shown(address: Address) -> str:
    ip, port = address
    return f"[{ip}]:{port}" if ":" in ip else f"{ip}:{port}"


def own_address(transport: asyncio.BaseTransport) -> Address:
    ip, port = transport.get_extra_info("sockname")[:2]
    return ip, port


# ---- payloads


class Tally:
    """What goes, what came back, and how long that took. A payload is its number, and bytes that depend on that."""

    def __init__(self, count: int, size: int) -> None:
        self.count, self.size, self.sent = count, size, 0
        self.awaited: dict[int, int] = {}
        self.trips: list[float] = []
        self.rest = b""

    def payload(self, number: int) -> bytes:
        turn = bytes((number + STRIDE * place) % BYTES for place in range(BYTES))
        return number.to_bytes(NUMBER, "big") + (turn * (self.size // BYTES + 1))[NUMBER : self.size]

    def goes(self) -> bytes:
        payload = self.payload(self.sent)
        self.awaited[self.sent] = time.monotonic_ns()
        self.sent += 1
        return payload

    def comes(self, data: bytes) -> None:
        """A payload is back, where it is one that is awaited."""
        number = int.from_bytes(data[:NUMBER], "big")
        if number in self.awaited and data == self.payload(number):
            self.trips.append((time.monotonic_ns() - self.awaited.pop(number)) / MILLISECOND)

    def flows(self, data: bytes) -> None:
        """Bytes of a connection came, in which payloads follow each other and are cut anywhere."""
        self.rest += data
        whole = len(self.rest) - len(self.rest) % self.size
        for start in range(0, whole, self.size):
            self.comes(self.rest[start : start + self.size])
        self.rest = self.rest[whole:]

    def is_back(self) -> bool:
        return self.sent == self.count and not self.awaited

    def print(self) -> None:
        print(f"{len(self.trips)} of {self.count} payloads came back")
        if self.trips:
            print(f"round trip: least {min(self.trips):.3f} ms, median {statistics.median(self.trips):.3f} ms, "
                  f"greatest {max(self.trips):.3f} ms")


# ---- lines to the server


class Line(Protocol):
    """What carries bytes to the server and from it."""

    own: Address

    def listen(self, session: Session) -> None: ...

    def write(self, data: bytes) -> None: ...

    async def drain(self) -> None: ...

    def close(self) -> None: ...


class Datagrams(asyncio.DatagramProtocol):
    """A UDP socket that is connected to the server."""

    session: Session | None = None

    def connection_made(self, transport: Any) -> None:
        self.transport: asyncio.DatagramTransport = transport
        self.own = own_address(transport)

    def listen(self, session: Session) -> None:
        self.session = session

    def datagram_received(self, data: bytes, source: Any) -> None:
        if self.session is not None:
            self.session.received(data, self.own)

    def error_received(self, error: Exception) -> None:
        """An ICMP report came, which anybody may send: the client goes on."""
        print(f"nothing comes from the server: {error}")

    def write(self, data: bytes) -> None:
        self.transport.sendto(data)

    async def drain(self) -> None:
        """Datagrams don't wait."""

    def close(self) -> None:
        self.transport.close()


class Stream:
    """A connection over TCP to the server: the client's own, or that of a peer."""

    def __init__(self, reader: asyncio.StreamReader, writer: asyncio.StreamWriter) -> None:
        self.reader, self.writer, self.own = reader, writer, own_address(writer.transport)

    def listen(self, session: Session) -> None:
        session.start(self.read_all(session))

    async def read_all(self, session: Session) -> None:
        """Hands on what comes, and at the end no bytes."""
        data = b"-"
        while data:
            try:
                data = await self.reader.read(READ_MAX)
            except OSError:
                data = b""
            session.received(data, self.own)

    def write(self, data: bytes) -> None:
        self.writer.write(data)

    async def drain(self) -> None:
        await self.writer.drain()

    def close(self) -> None:
        self.writer.close()


async def connected(server: Address, source: str | None = None) -> Stream:
    """A connection to the server, from an own IP address."""
    opening = asyncio.open_connection(*server, local_addr=(source, 0) if source else None)
    return Stream(*await asyncio.wait_for(opening, CONNECT_PATIENCE))


async def open_line(server: Address, is_stream: bool) -> Line:
    try:
        if is_stream:
            return await connected(server)
        loop = asyncio.get_running_loop()
        return (await loop.create_datagram_endpoint(Datagrams, remote_addr=server))[1]
    except (OSError, asyncio.TimeoutError) as error:
        raise Failure(NO_ANSWER, f"no connection to {shown(server)}: {error}") from error


# ---- the client with its sockets and its clock


class Session:
    """Takes the turns of a client. What happened is kept, and what went wrong ends who waits (until)."""

    def __init__(self, client: TurnClient, line: Line, peer: Address | None, take: Callable[[bytes], None]) -> None:
        self.client, self.line, self.peer, self.take_payload = client, line, peer, take
        self.lines = {line.own: line}
        self.tasks: set[asyncio.Task[None]] = set()
        self.events: list[TurnEvent] = []
        self.failure: Failure | None = None
        self.changed = asyncio.Event()
        self.timer: asyncio.TimerHandle | None = None
        self.has_heard = self.is_deleted = self.is_over = False
        self.accepts: str | None = None  # the address of peers whose connections are accepted
        self.accepted: Address | None = None  # the first of them, once it is bound
        self.has_ended = False  # whether that is over
        self.began = time.monotonic_ns()
        line.listen(self)
        self.take_turns()

    def close(self) -> None:
        self.is_over = True
        for task in self.tasks:
            task.cancel()
        for line in self.lines.values():
            line.close()
        if self.timer is not None:
            self.timer.cancel()
        self.client.close()

    def start(self, work: Coroutine[Any, Any, None]) -> None:
        task = asyncio.get_running_loop().create_task(work)
        self.tasks.add(task)
        task.add_done_callback(self.tasks.discard)

    def say(self, text: str) -> None:
        print(f"{(time.monotonic_ns() - self.began) / SECOND:8.3f}  {text}", flush=True)

    def fail(self, status: int, text: str) -> None:
        """What was first decides the exit status."""
        self.failure = self.failure or Failure(status, text)
        self.changed.set()

    async def until(self, holds: Callable[[], bool], seconds: float | None = None) -> bool:
        """Waits until something holds, for so many seconds at most: whether it holds. Raises what went wrong."""
        end = None if seconds is None else time.monotonic() + seconds
        while not holds():
            if self.failure is not None:
                raise self.failure
            self.changed.clear()
            try:
                await asyncio.wait_for(self.changed.wait(), None if end is None else end - time.monotonic())
            except asyncio.TimeoutError:
                return holds()
        return True

    async def event(self, kind: type[TurnEvent]) -> None:
        await self.until(lambda: any(isinstance(it, kind) for it in self.events))

    # ---- turns

    def take_turns(self) -> None:
        """Takes turns until there is nothing to do, and sets the clock for the next one."""
        if self.timer is not None:
            self.timer.cancel()
        try:
            wait = self.turn()
            while wait is None:
                wait = self.turn()
        except TurnError as error:
            self.is_over = True
            self.fail(FAILED, f"the client failed: {error}")
        self.changed.set()
        if not self.is_over and wait is not None:
            self.timer = asyncio.get_running_loop().call_later(wait, self.take_turns)

    def turn(self) -> float | None:
        """One turn: how many seconds there is nothing to do; None where another turn is to be taken at once."""
        has_done = False
        while (transmit := self.client.poll_transmit(time.monotonic_ns())) is not None:
            self.send(transmit)
            has_done = True
        answer = self.client.poll(time.monotonic_ns())
        while (happened := self.client.poll_event_with_cause()) is not None:
            self.follow(*happened)
            has_done = True
        if isinstance(answer, AllocateTcpSocket):
            if self.accepts is None or (answer.peer[0] == self.accepts and self.accepted is None):
                self.start(self.open_socket(answer))
            else:
                self.client.allocated_tcp_socket(answer.id, answer.peer, None, time.monotonic_ns())
        elif isinstance(answer, TcpClose):
            self.lose(answer.local)
        elif isinstance(answer, WaitUntil):
            ahead = (answer.moment - time.monotonic_ns()) / SECOND
            if not has_done:
                return ahead if ahead > 0 else PAUSE
        else:
            self.end()
            return 0.0
        return None

    def end(self) -> None:
        self.is_over = True
        if not self.is_deleted:
            self.fail(FAILED, "the address is gone: the server didn't renew it")

    def follow(self, event: TurnEvent, cause: TurnCause | None) -> None:
        self.say(str(event))
        self.events.append(event)
        if cause is not None:
            self.say(f"cause: {text_of(cause)}")
        if isinstance(event, AllocationCreated) and (mapped := self.client.mapped_address()) is not None:
            self.say(f"public address: {shown(mapped)}")
        if self.accepts and isinstance(event, TcpConnected):
            self.accepted = self.accepted or event.peer
        if isinstance(event, AllocationCreated) and (token := self.client.reservation_token()) is not None:
            self.say(f"reservation token: {token.hex()}")
        if self.is_deleted or cause is None or (self.accepts and isinstance(event, TcpConnectFailed)):
            return
        if isinstance(event, AllocationCreateFailed):
            self.failure = self.failure or self.failed_allocation(cause)
            self.changed.set()
        else:
            self.fail(FAILED, f"no permission, no channel or no connection: {text_of(cause)}")

    def failed_allocation(self, cause: TurnCause) -> Failure:
        """Why there is no address."""
        if (server := self.client.alternate_server()) is not None:
            self.say(f"alternate server: {shown(server)} {printable(self.client.alternate_domain() or '')}".rstrip())
            return Redirected(server, f"no address: {text_of(cause)}")
        if not self.has_heard:
            return Failure(NO_ANSWER, "no answer from the server")
        return Failure(FAILED, f"no address: {text_of(cause)}")

    # ---- what goes and comes

    def send(self, transmit: Transmit) -> None:
        line = self.lines.get(transmit.source)
        if line is not None:
            line.write(transmit.data)

    def received(self, data: bytes, local: Address) -> None:
        """Bytes of the server came over one of the lines; no bytes where it closed that."""
        if self.is_over:
            return
        try:
            self.take(self.client.recv(data, time.monotonic_ns(), local=local))
            while (more := self.client.poll_recv(time.monotonic_ns())) is not None:
                self.take(more)
        except TurnError as error:
            self.fail(FAILED, f"what came can't be taken: {error}")
        if not data and local == self.line.own and isinstance(self.line, Stream):
            self.is_over = True
            if not self.is_deleted:
                self.fail(FAILED, "the server closed the connection")
        self.take_turns()

    def take(self, came: TurnRecvRet) -> None:
        self.has_heard |= isinstance(came, Handled)
        if isinstance(came, PeerData) and came.peer == self.peer:
            self.take_payload(bytes(came.data))
        elif isinstance(came, PeerData) and self.accepts:
            self.send_back(came.peer, bytes(came.data))
        elif isinstance(came, PeerData):
            self.say(f"{len(came.data)} bytes of {shown(came.peer)}, which nobody waits for")
        elif isinstance(came, PeerIcmp):
            self.say(str(came))

    # ---- connections of peers

    async def open_socket(self, asked: AllocateTcpSocket) -> None:
        """Opens the socket of a connection to a peer, and tells the client; then it is read."""
        stream = None
        try:
            stream = await connected(asked.to, asked.source[0])
            self.lines[stream.own] = stream
        except (OSError, asyncio.TimeoutError) as error:
            self.say(f"no socket for the connection to {shown(asked.peer)}: {error}")
        try:
            self.client.allocated_tcp_socket(asked.id, asked.peer, stream.own if stream else None, time.monotonic_ns())
        except TurnError as error:
            self.fail(FAILED, f"the socket for {shown(asked.peer)} isn't taken: {error}")
        self.take_turns()
        if stream is not None:
            stream.listen(self)

    def send_back(self, peer: Address, data: bytes) -> None:
        """Bytes came over a connection that a peer opened: they are printed, with a question mark for each that isn't
        printable ASCII, and sent back."""
        text = "".join(chr(it) if chr(it).isascii() and chr(it).isprintable() else "?" for it in data)
        print(f"{len(data)} bytes of {shown(peer)}: {text}", flush=True)
        if data:
            self.send_payload(Transport.TCP, peer, data)

    def lose(self, local: Address) -> None:
        self.has_ended |= self.accepted is not None
        line = self.lines.pop(local, None)
        if line is not None:
            line.close()

    # ---- what is asked for

    def ask(self, call: Callable[..., None], *given: Any) -> None:
        call(*given, time.monotonic_ns())
        self.take_turns()

    def send_payload(self, transport: Transport, peer: Address, payload: bytes) -> Line:
        """Sends a payload to a peer: the line that it went over."""
        transmit = self.client.send_to(transport, peer, payload, time.monotonic_ns())
        self.send(transmit)
        return self.lines[transmit.source]

    async def give_back(self) -> None:
        """Asks for the end of the address, and waits for that, where there is one and the client goes on."""
        if self.is_over:
            return
        self.is_deleted = True
        try:
            self.ask(self.client.delete)
        except NoAllocation:
            return
        self.say("gives the address back")
        while not self.is_over:
            self.changed.clear()
            await self.changed.wait()


# ---- peers of this program's own


class DatagramEcho(asyncio.DatagramProtocol):
    """Sends back what it gets."""

    def connection_made(self, transport: Any) -> None:
        self.transport: asyncio.DatagramTransport = transport

    def datagram_received(self, data: bytes, source: Any) -> None:
        self.transport.sendto(data, source)


class StreamEcho(asyncio.Protocol):
    """Sends back what it gets, and reads no more while that waits."""

    def __init__(self, sockets: contextlib.ExitStack) -> None:
        self.sockets = sockets

    def connection_made(self, transport: Any) -> None:
        self.transport: asyncio.Transport = transport
        self.sockets.callback(transport.close)

    def data_received(self, data: bytes) -> None:
        self.transport.write(data)

    def pause_writing(self) -> None:
        self.transport.pause_reading()

    def resume_writing(self) -> None:
        self.transport.resume_reading()


async def open_peer(options: argparse.Namespace, sockets: contextlib.ExitStack) -> Address | None:
    """The peer: one of this program's own with --echo."""
    loopback = "::1" if ":" in options.server[0] else "127.0.0.1"
    peer: Address | None = options.connect or options.peer
    if not options.echo:
        return peer
    ip, port = peer or (loopback, 0)
    loop = asyncio.get_running_loop()
    if options.is_connection:
        server = await loop.create_server(lambda: StreamEcho(sockets), ip, port)
        sockets.callback(server.close)
        own: Address = server.sockets[0].getsockname()[:2]
        return own
    transport, _ = await loop.create_datagram_endpoint(DatagramEcho, local_addr=(ip, port))
    sockets.callback(transport.close)
    return own_address(transport)


# ---- the run


async def reach(session: Session, options: argparse.Namespace, peer: Address) -> None:
    """Asks for what carries payloads to a peer, one thing behind the other."""
    client = session.client
    session.ask(client.create_permission, options.between, peer[0])
    await session.event(PermissionCreated)
    if options.is_connection:
        session.ask(client.tcp_connect, peer)
        await session.event(TcpConnected)
    elif not options.indications:
        session.ask(client.bind_channel, options.between, peer)
        await session.event(ChannelCreated)


async def send_all(session: Session, options: argparse.Namespace, peer: Address, tally: Tally) -> None:
    """Sends the payloads, at an interval or spread over the time that the address is kept, and waits for the last."""
    pause = max(INTERVAL, options.seconds / max(tally.count, 1))
    if options.interval is not None:
        pause = options.interval * MILLISECOND / SECOND
    while tally.sent < tally.count:
        await session.until(lambda: False, pause)
        await session.send_payload(options.between, peer, tally.goes()).drain()
    await session.until(tally.is_back, PATIENCE)


async def accept(session: Session, options: argparse.Namespace) -> None:
    """Waits until a peer has opened a connection and closed it, for --seconds at most."""
    relayed = next(it.relayed for it in session.events if isinstance(it, AllocationCreated))
    session.ask(session.client.create_permission, Transport.TCP, options.accept)
    await session.event(PermissionCreated)
    session.say(f"waits for a connection to {shown(relayed)}")
    await session.until(lambda: session.has_ended, options.seconds or None)


async def opened(options: argparse.Namespace, peer: Address | None, tally: Tally) -> Session:
    family = Families.IPV6 if ":" in (options.accept or (peer or options.server)[0]) else Families.IPV4
    config = TurnConfig(options.user, options.password, options.between, family,
                        Integrity.SHA256 if options.sha256 else Integrity.SHA1 | Integrity.SHA256,
                        short_lifetimes=not options.ignore_short_lifetimes,
                        attempt_indications=options.attempt_indications, relayed_port=options.port,
                        reservation_token=options.token)
    line = await open_line(options.server, options.tcp)
    try:
        client = TurnClient(line.own, options.server, config, Transport.TCP if options.tcp else Transport.UDP)
    except (BadText, LongName) as error:
        line.close()
        raise Failure(BAD_USAGE, str(error)) from error
    session = Session(client, line, peer, tally.flows if options.is_connection else tally.comes)
    session.accepts = options.accept
    return session


async def use(session: Session, options: argparse.Namespace, peer: Address | None, tally: Tally) -> None:
    """All from the allocation to the end of the time that the address is kept."""
    await session.event(AllocationCreated)
    if options.accept:
        await accept(session, options)
        options.has_accepted = session.accepted is not None
        return
    keeps_until = time.monotonic() + options.seconds
    if peer is not None:
        await reach(session, options, peer)
        await send_all(session, options, peer, tally)
    await session.until(lambda: False, keeps_until - time.monotonic())


async def work(options: argparse.Namespace, tally: Tally) -> None:
    with contextlib.ExitStack() as sockets:
        peer = await open_peer(options, sockets)
        session = await opened(options, peer, tally)
        sockets.callback(session.close)
        try:
            await use(session, options, peer, tally)
        finally:
            await session.give_back()


async def work_or_follow(options: argparse.Namespace, tally: Tally) -> None:
    """Does the work, with --follow at the server that the first one names: once."""
    try:
        await work(options, tally)
    except Redirected as error:
        if not options.follow:
            raise
        print(f"goes on with {shown(error.server)}", flush=True)
        options.server = error.server
        await work(options, tally)


async def run(options: argparse.Namespace) -> int:
    tally, failed = Tally(options.count, options.size), None
    try:
        await work_or_follow(options, tally)
    except (Failure, TurnError, OSError) as error:
        failed = error.status if isinstance(error, Failure) else FAILED
        print(f"example: {error}", file=sys.stderr)
    await asyncio.sleep(0)  # what was closed goes now
    if tally.count > 0:
        tally.print()
    if failed is not None:
        return failed
    return ALL_BACK if tally.is_back() and (options.has_accepted or not options.accept) else SOME_LOST


# ---- options


def read_address(text: str) -> Address:
    """IP:PORT, of IPv6 [IP]:PORT."""
    ip, colon, port = text.rpartition(":")
    if ip.startswith("[") != (":" in ip) or not colon or not port.isdecimal() or int(port) > 0xFFFF:
        raise ValueError(text)
    return str(ipaddress.ip_address(ip.strip("[]"))), int(port)


def bounded(least: int, most: int) -> Callable[[str], int]:
    def number(text: str) -> int:
        if not text.isdecimal() or not least <= int(text) <= most:
            raise argparse.ArgumentTypeError(f"{text} isn't a number from {least} to {most}")
        return int(text)
    return number


def read_token(text: str) -> bytes:
    if len(text) != TOKEN_DIGITS or set(text) - set(string.hexdigits):
        raise argparse.ArgumentTypeError(f"{text} isn't {TOKEN_DIGITS} hexadecimal digits")
    return bytes.fromhex(text)


def first_line(file: str) -> str:
    try:
        return Path(file).read_text(encoding="utf-8").partition("\n")[0].rstrip("\r")
    except (OSError, UnicodeError) as error:
        raise argparse.ArgumentTypeError(f"{file}: {error}") from None


def add_peer_options(parser: argparse.ArgumentParser) -> None:
    add = parser.add_argument
    add("--peer", type=read_address, metavar="IP:PORT", help="the peer, which is to send back what it gets")
    add("--connect", type=read_address, metavar="IP:PORT",
        help="the peer, over a connection over TCP (RFC 6062); wants --tcp")
    add("--accept", type=lambda it: str(ipaddress.ip_address(it)), metavar="IP",
        help="in place of a peer: waits until one at IP opens a connection (RFC 6062), prints its bytes and sends them "
        "back, until it closes that; for --seconds at most. Wants --tcp")
    add("--attempt-indications", action="store_true", help="such a connection may be announced by an indication, as "
        "coturn does, which nobody signs")
    add("--echo", action="store_true", help="the peer is one of this program's own: on loopback, or where --peer or "
        "--connect says; a port 0 is a free one")


def add_payload_options(parser: argparse.ArgumentParser) -> None:
    add = parser.add_argument
    add("--count", type=bounded(0, MOST_COUNT), default=10, help="how many payloads; without it 10")
    add("--size", type=bounded(LEAST_SIZE, MOST_SIZE), default=100, help="bytes of each; without it 100")
    add("--seconds", type=bounded(0, MOST_COUNT), default=0, help="how long the address is kept at least; "
        "without it 0")
    add("--interval", type=bounded(0, MOST_INTERVAL), metavar="MS", help="between two payloads; without it they are "
        "spread over the time that the address is kept, at least 1 ms apart")


def add_port_options(parser: argparse.ArgumentParser) -> None:
    add = parser.add_mutually_exclusive_group().add_argument
    add("--even-port", dest="port", action="store_const", const=RelayedPort.EVEN, default=RelayedPort.ANY,
        help="asks for an even port of the address")
    add("--reserve", dest="port", action="store_const", const=RelayedPort.EVEN_AND_NEXT,
        help="the same, and that the server reserve the next port; tells the token for that")
    add("--token", type=read_token, metavar="HEX",
        help=f"asks for the port that is reserved under this token, of {TOKEN_DIGITS} digits")


def check_options(parser: argparse.ArgumentParser, options: argparse.Namespace) -> None:
    """Ends the program, with the reason, where options contradict one another or one is missing."""
    if options.password is None:
        parser.error("a password is wanted: TURN_PASSWORD, --password-file or --password")
    if options.accept and (not options.tcp or options.peer or options.connect or options.echo):
        parser.error("--accept wants --tcp, and none of --peer, --connect and --echo")
    if options.connect and (not options.tcp or options.peer or options.indications):
        parser.error("--connect wants --tcp, and neither --peer nor --indications")
    if not options.echo and any(it and it[1] == 0 for it in (options.peer, options.connect)):
        parser.error("a peer has a port that isn't 0")


def read_options() -> argparse.Namespace:
    parser = argparse.ArgumentParser(allow_abbrev=False, epilog=STATUSES)
    add = parser.add_argument
    add("--server", type=read_address, required=True, metavar="IP:PORT", help="of IPv6 [IP]:PORT")
    add("--user", required=True)
    add("--password-file", dest="password", type=first_line, metavar="FILE",
        help="its first line is the password; without it that is the variable TURN_PASSWORD")
    add("--password", help="the password, which other users of the machine can see while the program runs")
    add("--tcp", action="store_true", help="a connection over TCP to the server; peers are reached over UDP")
    add_peer_options(parser)
    add_payload_options(parser)
    add_port_options(parser)
    add("--indications", action="store_true", help="no channel: each payload goes in an indication")
    add("--follow", action="store_true", help="goes on at the server that this one names by an error 300, once")
    add("--ignore-short-lifetimes", action="store_true", help="ignores a renewal that grants less than 600 s")
    add("--sha256", action="store_true", help="requests are signed by HMAC-SHA256 alone; without it by that "
        "or HMAC-SHA1")
    options = parser.parse_args()
    if options.password is None:
        # no default of the parser's: it would read the variable as the name of a file
        options.password = os.environ.get("TURN_PASSWORD")
    check_options(parser, options)
    options.is_connection = options.connect is not None
    options.between = Transport.TCP if options.is_connection or options.accept else Transport.UDP
    options.has_accepted = False
    if not options.echo and not options.peer and not options.connect:
        options.count = 0
    return options


if __name__ == "__main__":
    sys.exit(asyncio.run(run(read_options())))
