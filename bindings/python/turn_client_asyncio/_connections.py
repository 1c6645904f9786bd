"""Connections to peers (RFC 6062): open_turn_connection."""

from __future__ import annotations

import asyncio
from collections.abc import Callable
from dataclasses import replace
from ssl import SSLContext
from time import monotonic_ns
from typing import Any

from turn_client import (
    Address, AllocateTcpSocket, Buffer, PeerData, PermissionCreated, PermissionCreateFailed, TcpConnected,
    TcpConnectFailed, Transport, TurnCause, TurnConfig, TurnError, TurnEvent, TurnRecvRet,
)

from ._driver import Credentials, Driver, reached, settings
from ._errors import PeerRefused, why
from ._lines import Line, Route, Server, pair, route_to

CONNECT_PATIENCE = 30.0  # seconds that a connection to the server has, for one to a peer
FLUSH_PATIENCE = 30.0    # seconds that the server has to close a connection which was closed here


class Connection(Driver):
    """An allocation over TCP, for one connection to one peer."""

    writer: asyncio.StreamWriter

    def __init__(self, line: Line, config: TurnConfig, route: Route, peer: Address, limit: int) -> None:
        self._route, self._peer = route, peer
        self._tasks: set[asyncio.Task[None]] = set()
        self._data_line: Line | None = None
        self._is_made = False
        self._error: Exception | None = None
        self.reader = asyncio.StreamReader(limit)
        self._protocol = asyncio.StreamReaderProtocol(self.reader)
        super().__init__(line, config, Transport.TCP)

    def _asks(self, call: Callable[..., None], *given: Any) -> None:
        try:
            call(*given, monotonic_ns())
        except TurnError as error:
            self._refused(str(error), None)
        self._wake()

    def _allocated(self) -> None:
        self._asks(self._client.create_permission, Transport.TCP, self._peer[0])

    def _follow(self, event: TurnEvent, cause: TurnCause | None) -> None:
        if self._is_closing:
            return
        if isinstance(event, PermissionCreated) and not self._is_made:
            self._asks(self._client.tcp_connect, self._peer)
        elif isinstance(event, TcpConnected):
            self._makes()
        elif isinstance(event, (PermissionCreateFailed, TcpConnectFailed)):
            self._refused(why(cause), cause)

    def _refused(self, text: str, cause: TurnCause | None) -> None:
        self._error = PeerRefused(self._peer[0], text, cause, "connection to")
        if not self._ready.done():
            self._ready.set_exception(self._error)
        self._close()

    # ---- its socket

    def _opens(self, asked: AllocateTcpSocket) -> None:
        """One is opened for the connection that was requested; a peer that connects gets none."""
        if asked.peer != self._peer or self._data_line is not None or self._is_closing:
            self._opened(asked, None)
            return
        task = self._loop.create_task(self._open(asked))
        self._tasks.add(task)
        task.add_done_callback(self._tasks.discard)

    async def _open(self, asked: AllocateTcpSocket) -> None:
        line: Line | None = None
        try:
            route = replace(self._route.elsewhere(asked.to, None), local_addr=(asked.source[0], 0))
            line = await asyncio.wait_for(route.open(), CONNECT_PATIENCE)
        except (OSError, asyncio.TimeoutError) as error:
            self._line.error = OSError(f"no connection to the server for that to the peer: {error}")
        self._opened(asked, line)

    def _opened(self, asked: AllocateTcpSocket, line: Line | None) -> None:
        """Tells the client of the socket."""
        try:
            self._client.allocated_tcp_socket(asked.id, asked.peer, line.own if line else None, monotonic_ns())
        except TurnError:
            if line is not None:
                line.transport.close()
            return
        if line is not None:
            self._data_line, self._lines[line.own] = line, line
            line.attach(self)
        self._wake()

    def _drops(self, local: Address) -> None:
        line = self._lines.pop(local, None)
        if line is not None:
            line.transport.close()

    def _makes(self) -> None:
        if self._is_made or self._data_line is None:
            return
        self._is_made = True
        transport = _PeerTransport(self, self._data_line, self._peer)
        self._protocol.connection_made(transport)
        self.writer = asyncio.StreamWriter(transport, self._protocol, self.reader, self._loop)
        if not self._ready.done():
            self._ready.set_result(None)

    # ---- what goes and comes

    def _take(self, came: TurnRecvRet) -> None:
        if isinstance(came, PeerData) and came.peer == self._peer and not self._is_closing:
            self._makes()  # data may come with what makes it
            self._protocol.data_received(bytes(came.data))

    def _writes(self, data: Buffer) -> None:
        try:
            self._send(self._client.send_to(Transport.TCP, self._peer, data, monotonic_ns()))
        except TurnError as error:
            self._refused(str(error), None)

    def _pauses(self, line: Line, is_paused: bool) -> None:
        if line is self._data_line and self._is_made:
            if is_paused:
                self._protocol.pause_writing()
            else:
                self._protocol.resume_writing()

    def _lost(self, line: Line, error: Exception | None) -> None:
        """The peer closed the connection, or this side did; or that to the server is gone."""
        super()._lost(line, error)
        if line is not self._data_line or self._is_over:
            return
        self._turn()  # it may have been made just before
        if not self._is_made:
            self._refused("the server closed it before it was made", None)
        elif not self.writer.is_closing():
            self._ends_reading(error)
        self._asks(self._client.tcp_closed, line.own, line.server)
        self._close()

    def _ends_reading(self, error: Exception | None) -> None:
        """A server may reset each connection that ends, as coturn does: that is an end as any other."""
        if error is None or isinstance(error, ConnectionResetError):
            self._protocol.eof_received()
        else:
            self._error = error
            self.reader.set_exception(error)

    def _finish(self, error: Exception | None) -> None:
        for task in self._tasks:
            task.cancel()
        if self._is_made:
            self._protocol.connection_lost(error or self._error)
        if not self._ended.done():
            self._ended.set_result(None)


class _PeerTransport(asyncio.Transport):
    """A connection to a peer, as a writer has it."""

    def __init__(self, driver: Connection, line: Line, peer: Address) -> None:
        super().__init__()
        self._driver, self._line, self._peer, self._is_closing = driver, line, peer, False

    def get_extra_info(self, name: str, default: Any = None) -> Any:
        """`peername`, `server_address`, and what the socket to the server has."""
        told = {"peername": self._peer, "server_address": self._line.server}
        return told[name] if name in told else self._line.transport.get_extra_info(name, default)

    def is_closing(self) -> bool:
        return self._is_closing or self._driver._is_closing

    def write(self, data: Buffer) -> None:
        if not isinstance(data, (bytes, bytearray, memoryview)):
            raise TypeError(f"data is to be bytes, and not {type(data).__name__}")
        if len(data) and not self.is_closing():
            self._driver._writes(data)

    def can_write_eof(self) -> bool:
        return False

    def close(self) -> None:
        """Sends what waits, lets the server pass it on, then gives the address back. The server closes the connection
        when it has passed on what it got, which it has some seconds for."""
        if self.is_closing():
            return
        self._is_closing = True
        transport = self._line.transport
        transport.resume_reading()
        if transport.can_write_eof():
            transport.write_eof()
        else:
            transport.close()
        self._driver._loop.call_later(FLUSH_PATIENCE, transport.abort)

    def abort(self) -> None:
        self._driver._end(None)

    def pause_reading(self) -> None:
        if not self.is_closing():
            self._line.transport.pause_reading()

    def resume_reading(self) -> None:
        if not self.is_closing():
            self._line.transport.resume_reading()

    def is_reading(self) -> bool:
        return bool(self._line.transport.is_reading())

    def get_write_buffer_size(self) -> int:
        return int(self._line.transport.get_write_buffer_size())

    def set_write_buffer_limits(self, high: int | None = None, low: int | None = None) -> None:
        self._line.transport.set_write_buffer_limits(high, low)


async def open_turn_connection(
    server: Server, credentials: Credentials, peer: Address, *, ssl: SSLContext | bool | None = None,
    server_hostname: str | None = None, local_addr: Address | None = None, follow: int = 0, limit: int = 65536,
) -> tuple[asyncio.StreamReader, asyncio.StreamWriter]:
    """Opens a connection over TCP to a peer through a TURN server (RFC 6062), as asyncio.open_connection does. What is
    given, and what is raised, is as for create_turn_endpoint; but turn:HOST is over TCP here, and a URI over UDP raises a
    ValueError. PeerRefused also tells that the server can't connect to the peer. `limit` is as in
    asyncio.open_connection.

    Each connection has a relayed address of its own, which is given back when it is closed: `await
    writer.wait_closed()` waits for that. Nobody else can connect to that address. There is no write_eof."""
    to = pair(peer)
    config = replace(settings(credentials, to), allocation_transport=Transport.TCP)
    route = route_to(server, Transport.TCP, ssl, server_hostname, local_addr)

    def make(line: Line, by: Route) -> Connection:
        return Connection(line, config, by, to, limit)

    made = await reached(route, follow, make)
    return made.reader, made.writer
