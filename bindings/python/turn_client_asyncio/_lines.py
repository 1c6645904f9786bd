"""Lines to a server, and the addresses at their ends."""

from __future__ import annotations

import asyncio
from dataclasses import dataclass, replace
from functools import lru_cache
from ssl import SSLContext
from typing import Any, Protocol, Union

from turn_client import Address, Transport, _of_c, _to_c

from ._uris import TurnUri, way_to

UNSENT_MAX = 256 * 1024  # bytes that wait in a socket before the protocol is told to pause

Server = Union[Address, str, TurnUri]  # a text is a URI


# ---- addresses


@lru_cache(maxsize=1024)
def normal(host: str, port: int) -> Address:
    """An address as it is told of peers. ValueError where it is none."""
    return _of_c(_to_c((host, port)))


def pair(address: Any) -> Address:
    """An address as sockets have them, of which IPv6 has two more members."""
    return normal(address[0], address[1])


def named(transport: asyncio.BaseTransport, name: str) -> Address:
    host, port = transport.get_extra_info(name)[:2]
    return str(host).partition("%")[0], port


# ---- lines


class Listener(Protocol):
    """Who has a line."""

    def _came(self, data: bytes, line: Line) -> None: ...

    def _lost(self, line: Line, error: Exception | None) -> None: ...

    def _pauses(self, line: Line, is_paused: bool) -> None: ...

    def _line_reports(self, error: Exception) -> None: ...


class Line:
    """What carries bytes to the server and from it. It has one driver, and before that takes nothing."""

    transport: Any
    own: Address
    server: Address
    driver: Listener | None = None
    is_lost = False
    error: Exception | None = None

    def connection_made(self, transport: asyncio.BaseTransport) -> None:
        self.transport = transport
        self.own, self.server = named(transport, "sockname"), named(transport, "peername")
        if hasattr(transport, "set_write_buffer_limits"):
            transport.set_write_buffer_limits(UNSENT_MAX)

    def connection_lost(self, error: Exception | None) -> None:
        self.is_lost, self.error = True, error
        if self.driver is not None:
            self.driver._lost(self, error)

    def pause_writing(self) -> None:
        if self.driver is not None:
            self.driver._pauses(self, True)

    def resume_writing(self) -> None:
        if self.driver is not None:
            self.driver._pauses(self, False)

    def attach(self, driver: Listener) -> None:
        self.driver = driver
        if self.is_lost:
            asyncio.get_running_loop().call_soon(driver._lost, self, self.error)

    def _takes(self, data: bytes) -> None:
        if self.driver is not None:
            self.driver._came(data, self)

    def write(self, data: bytes) -> None:
        raise NotImplementedError


class DatagramLine(Line, asyncio.DatagramProtocol):
    """A UDP socket that is connected to the server."""

    def datagram_received(self, data: bytes, addr: Any) -> None:
        self._takes(data)

    def error_received(self, exc: Exception) -> None:
        self.error = exc
        if self.driver is not None:
            self.driver._line_reports(exc)

    def write(self, data: bytes) -> None:
        if not self.is_lost:
            self.transport.sendto(data)


class StreamLine(Line, asyncio.Protocol):
    """A connection to the server, over TCP or TLS."""

    def data_received(self, data: bytes) -> None:
        self._takes(data)

    def write(self, data: bytes) -> None:
        if not self.is_lost:
            self.transport.write(data)


@dataclass(frozen=True)
class Route:
    """How a server is reached."""

    server: Address
    transport: Transport
    ssl: SSLContext | bool | None
    server_hostname: str | None
    local_addr: Address | None

    async def open(self) -> Line:
        """OSError where there is no way."""
        loop = asyncio.get_running_loop()
        host, port = self.server[:2]
        if self.transport == Transport.UDP:
            return (await loop.create_datagram_endpoint(DatagramLine, local_addr=self.local_addr,
                                                        remote_addr=(host, port)))[1]
        return (await loop.create_connection(StreamLine, host, port, ssl=self.ssl or None, local_addr=self.local_addr,
                                             server_hostname=self.server_hostname))[1]

    def elsewhere(self, server: Address, domain: str | None) -> Route:
        """The same to another server, whose certificate is to be that of the domain which the first one named, or of
        the first one (RFC 8489, section 10)."""
        name = domain or self.server_hostname or self.server[0]
        return replace(self, server=server, server_hostname=name if self.ssl else None)


def route_to(server: Server, transport: Transport | None, ssl: SSLContext | bool | None, server_hostname: str | None,
             local_addr: Address | None) -> Route:
    if isinstance(server, (str, TurnUri)):
        server, transport, ssl = way_to(TurnUri.parse(str(server)), transport, ssl)
    if ssl and transport == Transport.UDP:
        raise ValueError("ssl wants TCP to the server: there is no DTLS")
    if server_hostname is not None and not ssl:
        raise ValueError("server_hostname is only meaningful with ssl")
    by = Transport.TCP if ssl else Transport.UDP if transport is None else Transport(transport)
    return Route(server, by, ssl, server_hostname, local_addr)
