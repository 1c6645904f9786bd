"""Datagrams to peers: create_turn_endpoint, and the transport that it returns."""

from __future__ import annotations

import asyncio
import errno
from collections.abc import Callable, Iterable
from ssl import SSLContext
from time import monotonic_ns
from typing import Any, TypeVar

from turn_client import (
    PAYLOAD_MAX, PERMIT_MAX, Address, AlreadyExists, Buffer, ChannelCreated, ChannelCreateFailed,
    ExpiredChannelExists, InvalidAddresses, NoChannel, NoPermission, PeerData, PeerIcmp, PermissionCreated,
    PermissionCreateFailed, TooLarge, Transport, TurnCause, TurnConfig, TurnError, TurnEvent, TurnRecvRet,
)

from ._driver import SECOND, Credentials, Driver, reached, settings
from ._errors import PeerRefused, PeerUnreachable, why
from ._lines import Line, Route, Server, normal, pair, route_to

WAITING_MAX = 256                # datagrams that wait for permissions, of all peers together
WAITING_BYTES_MAX = 256 * 1024
CHANNEL_REST = 300 * SECOND      # from a failed channel to the next attempt at one to the same peer
CHANNELS_NOTED = 1024            # peers whose channel failed

ProtocolT = TypeVar("ProtocolT", bound=asyncio.DatagramProtocol)


class TurnTransport(Driver, asyncio.DatagramTransport):
    """Datagrams to peers and from them through a TURN server. create_turn_endpoint makes one.

    It asks for the permission of a peer to whom something is sent, and then for a channel to it; without a channel
    datagrams go in indications. The client renews both until the transport is closed: so each IP address to which
    something was sent stays permitted. A channel that the server rejects is asked for again after five minutes."""

    def __init__(self, line: Line, config: TurnConfig, transport: Transport, protocol: asyncio.DatagramProtocol,
                 peer: Address | None, channels: bool) -> None:
        self._protocol, self._peer, self._has_channels = protocol, peer, channels
        self._asked: dict[str, list[asyncio.Future[None]]] = {}
        self._waiting: dict[str, list[tuple[Address, bytes]]] = {}
        self._count = self._bytes = 0
        self._bound: set[Address] = set()
        self._binding: set[Address] = set()
        self._barred: dict[Address, int] = {}
        self._is_paused = self._is_made = False
        self._told: dict[str, Any] = {"peername": peer}
        super().__init__(line, config, transport)

    # ---- as of any transport

    def get_extra_info(self, name: str, default: Any = None) -> Any:
        """`relayed_address` (also by `sockname`), the address to which peers send, and `relayed_addresses`, where there
        are two; `mapped_address`, the socket's own as the server saw it, or None; `server_address`; `peername`; and
        what the socket to the server has, as `ssl_object`."""
        return self._told[name] if name in self._told else self._line.transport.get_extra_info(name, default)

    def is_closing(self) -> bool:
        return self._is_closing

    def close(self) -> None:
        """Gives the relayed address back to the server, then calls connection_lost(None): at the latest after three
        seconds. Nothing comes from peers any more, and what waits for permissions is dropped."""
        self._close()

    def abort(self) -> None:
        """Closes at once. The server keeps the address until its time is over."""
        self._end(None)

    async def wait_closed(self) -> None:
        """Waits until connection_lost was called."""
        await asyncio.shield(self._ended)

    def set_protocol(self, protocol: asyncio.BaseProtocol) -> None:
        self._protocol = protocol  # type: ignore[assignment]

    def get_protocol(self) -> asyncio.BaseProtocol:
        return self._protocol

    def _call(self, name: str, *given: Any) -> None:
        """Calls the protocol. What that raises is the loop's to handle, as with any transport."""
        try:
            getattr(self._protocol, name)(*given)
        except Exception as error:  # noqa: BLE001, as a protocol may raise any
            self._loop.call_exception_handler({
                "message": f"{name} of a protocol over a TURN server failed", "exception": error, "transport": self,
                "protocol": self._protocol})

    # ---- to peers

    def sendto(self, data: Buffer, addr: Any = None) -> None:
        """Sends a datagram to a peer: an IP address as text, and a port. Without one it goes to the endpoint's `peer`.
        A datagram may be dropped (see the module), as with any datagrams. What it can't be sent for is reported by
        error_received. ValueError tells an address that is none, or another one than `peer`, TypeError no bytes."""
        to = self._target(addr)
        if not isinstance(data, (bytes, bytearray, memoryview)):
            raise TypeError(f"data is to be bytes, and not {type(data).__name__}")
        if not self._is_closing and not self._is_paused:
            self._send_to(to, data)

    def _target(self, addr: Any) -> Address:
        if addr is None and self._peer is None:
            raise ValueError("an address is wanted: the endpoint has no peer")
        to = pair(addr) if addr is not None else self._peer
        if to is None or self._peer not in (None, to):
            raise ValueError(f"{to} is another address than that of the peer, {self._peer}")
        return to

    def _send_to(self, to: Address, data: Buffer) -> None:
        try:
            self._send(self._client.send_to(Transport.UDP, to, data, monotonic_ns()))
        except NoPermission:
            self._wait(to, bytes(data))
        except TooLarge:
            self._call("error_received", OSError(errno.EMSGSIZE, f"more than {PAYLOAD_MAX} bytes"))
        except TurnError as error:
            self._call("error_received", OSError(errno.ENOBUFS, str(error)))
        else:
            self._wants_channel(to)

    def _wait(self, to: Address, data: bytes) -> None:
        """Has a datagram wait for the permission, which is asked for; or drops it."""
        host, size = to[0], len(data)
        if self._count == WAITING_MAX or self._bytes + size > WAITING_BYTES_MAX:
            return
        if host not in self._asked and not self._asks(host):
            return
        self._waiting.setdefault(host, []).append((to, data))
        self._count, self._bytes = self._count + 1, self._bytes + size

    def _unwaited(self, host: str) -> list[tuple[Address, bytes]]:
        """Takes what waits."""
        waiting = self._waiting.pop(host, [])
        self._count, self._bytes = self._count - len(waiting), self._bytes - sum(len(it) for _, it in waiting)
        return waiting

    # ---- permissions

    async def permit(self, host: str) -> None:
        """Lets an IP address send to this endpoint, to whom nothing was sent, and waits until it may. PeerRefused."""
        await self._permits([normal(host, 0)[0]])

    async def permit_several(self, hosts: Iterable[str]) -> None:
        """Lets several IP addresses send to this endpoint, as permit does for one, and waits until all may. Those that
        are neither permitted nor asked for yet are asked for by one request, which the server grants or rejects as a
        whole. At most PERMIT_MAX, of one family; one that is named twice counts once. PeerRefused names the first that
        was refused. InvalidAddresses of turn_client: there is none, or more than PERMIT_MAX, or they are of two
        families. ValueError: one is no IP address."""
        different = list(dict.fromkeys(normal(host, 0)[0] for host in hosts))
        if not 1 <= len(different) <= PERMIT_MAX or len({":" in host for host in different}) > 1:
            raise InvalidAddresses
        await self._permits(different)

    async def _permits(self, hosts: list[str]) -> None:
        if self._is_closing:
            raise PeerRefused(hosts[0], "the endpoint is closed")
        missing = [host for host in hosts if not self._client.have_permission(Transport.UDP, host)]
        if unasked := [host for host in missing if host not in self._asked]:
            self._requests(unasked)
        waiting: list[asyncio.Future[None]] = [self._loop.create_future() for _ in missing]
        for host, future in zip(missing, waiting):
            self._asked[host].append(future)
        await asyncio.gather(*waiting)

    def set_credentials(self, username: str, password: str) -> None:
        """Sets the credentials that replace the present ones with the next challenge: for passwords that expire. Call
        it before they do. BadText, LongName, NoMemory of turn_client."""
        self._client.set_credentials(username, password)

    def _requests(self, hosts: list[str]) -> None:
        """Asks for permissions by one request."""
        try:
            self._client.create_permissions(Transport.UDP, hosts, monotonic_ns())
        except AlreadyExists:
            if len(hosts) > 1:  # one was asked for just before the refusal of an older request was followed
                for host in hosts:
                    self._requests([host])
                return
        except TurnError as error:
            raise PeerRefused(hosts[0], str(error)) from error
        for host in hosts:
            self._asked[host] = []
        self._wake()

    def _asks(self, host: str) -> bool:
        """Whether a permission could be asked for; if not that is reported."""
        try:
            self._requests([host])
        except PeerRefused as error:
            self._call("error_received", error)
            return False
        return True

    def _permitted(self, host: str) -> None:
        for waiting in self._asked.pop(host, []):
            if not waiting.done():
                waiting.set_result(None)
        if not self._is_made and self._peer is not None and host == self._peer[0]:
            self._makes()
            self._wants_channel(self._peer)
        for to, data in self._unwaited(host):
            if not self._is_closing and not self._is_paused:
                self._send_to(to, data)

    def _refused(self, host: str, cause: TurnCause | None) -> None:
        error = PeerRefused(host, why(cause), cause)
        for waiting in self._asked.pop(host, []):
            if not waiting.done():
                waiting.set_exception(error)
        self._unwaited(host)
        if self._is_made:
            self._call("error_received", error)
        elif self._peer is not None and host == self._peer[0]:
            self._fails_to_start(error)

    def _fails_to_start(self, error: PeerRefused) -> None:
        """There is an address, and no way to the peer: whoever waits is told, and the address is given back."""
        if not self._ready.done():
            self._ready.set_exception(error)
        self._close()

    # ---- channels

    def _wants_channel(self, to: Address) -> None:
        if not self._has_channels or to in self._bound or to in self._binding or self._is_closing:
            return
        if (now := monotonic_ns()) < self._barred.get(to, 0):
            return
        try:
            self._client.bind_channel(Transport.UDP, to, now)
        except AlreadyExists:
            self._bound.add(to)
        except ExpiredChannelExists as error:
            self._bars(to, error.until)
        except (NoChannel, TurnError):
            self._bars(to, now + CHANNEL_REST)
        else:
            self._binding.add(to)
            self._wake()

    def _bars(self, to: Address, until: int) -> None:
        """Asks for no channel to a peer until then."""
        if len(self._barred) >= CHANNELS_NOTED:
            self._barred.clear()
        self._barred[to] = until

    # ---- what happens

    def _allocated(self) -> None:
        relayed = [address for _, address in self._client.relayed_addresses()]
        self._told |= {"relayed_address": relayed[0], "sockname": relayed[0], "relayed_addresses": relayed,
                       "mapped_address": self._client.mapped_address(), "server_address": self._line.server}
        if self._peer is None:
            self._makes()
            return
        try:
            self._requests([self._peer[0]])
        except PeerRefused as error:
            self._fails_to_start(error)

    def _makes(self) -> None:
        self._is_made = True
        self._call("connection_made", self)
        if not self._ready.done():
            self._ready.set_result(None)

    def _follow(self, event: TurnEvent, cause: TurnCause | None) -> None:
        if self._is_closing:
            return
        if isinstance(event, PermissionCreated):
            self._permitted(event.peer)
        elif isinstance(event, PermissionCreateFailed):
            self._refused(event.peer, cause)
        elif isinstance(event, ChannelCreated):
            self._binding.discard(event.peer)
            self._bound.add(event.peer)
        elif isinstance(event, ChannelCreateFailed):
            self._binding.discard(event.peer)
            self._bound.discard(event.peer)
            self._bars(event.peer, monotonic_ns() + CHANNEL_REST)

    def _take(self, came: TurnRecvRet) -> None:
        if not self._is_made or self._is_closing:
            return
        if isinstance(came, PeerData) and self._peer in (None, came.peer):
            self._call("datagram_received", bytes(came.data), came.peer)
        elif isinstance(came, PeerIcmp) and self._peer in (None, came.peer):
            self._call("error_received", PeerUnreachable(came))

    def _line_reports(self, error: Exception) -> None:
        if self._is_made and not self._is_closing:
            self._call("error_received", error)

    def _pauses(self, line: Line, is_paused: bool) -> None:
        self._is_paused = is_paused
        if self._is_made and not self._is_over:
            self._call("pause_writing" if is_paused else "resume_writing")

    def _finish(self, error: Exception | None) -> None:
        for host, asked in self._asked.items():
            for waiting in asked:
                if not waiting.done():
                    waiting.set_exception(PeerRefused(host, "the endpoint is closed"))
        self._asked.clear()
        self._waiting.clear()
        if self._is_made:
            self._call("connection_lost", error)
        if not self._ended.done():
            self._ended.set_result(None)


async def create_turn_endpoint(
    protocol_factory: Callable[[], ProtocolT], server: Server, credentials: Credentials,
    peer: Address | None = None, *, transport: Transport | None = None, ssl: SSLContext | bool | None = None,
    server_hostname: str | None = None, local_addr: Address | None = None, channels: bool = True, follow: int = 0,
) -> tuple[TurnTransport, ProtocolT]:
    """Gets a relayed address from a TURN server. Returns a transport and the protocol, whose connection_made was called
    with it, as loop.create_datagram_endpoint does.

    server: its name or IP address, and its port, which for TLS often is 5349; or a URI (RFC 7065) as a text or a
        TurnUri. turn:HOST is over UDP, turn:HOST?transport=tcp over TCP, turns:HOST over TLS, by default with what
        ssl.create_default_context() returns
    credentials: the user's name and password; or a TurnConfig, which has them and more
    peer: an IP address and a port, to which alone datagrams go, and from which alone they come; for a peer of IPv6 the
        relayed address is one of IPv6. When this returns, it is permitted
    transport: to the server, Transport.UDP or Transport.TCP; UDP unless ssl or a URI says otherwise
    ssl, server_hostname: for TLS over TCP, as in loop.create_connection. Neither may contradict a URI
    local_addr: as there
    channels: False for peers to whom little is sent: then all goes in indications
    follow: how often in a row another server is asked, which a server names by a response 300. Such a response may be
        anybody's who can send from the server's address, except over TLS. A server that was asked isn't asked again

    AllocationFailed: the server gives no address (after 39.5 seconds, if it doesn't answer); PeerRefused: none for that
    peer; OSError: the server can't be reached, or TLS fails; UriError: the URI is none, or one of a STUN server or of
    DTLS; BadText, LongName, BadSetting, ValueError: what is given can't be. To wait for less long, use
    asyncio.wait_for."""
    to = None if peer is None else pair(peer)
    config, route = settings(credentials, to), route_to(server, transport, ssl, server_hostname, local_addr)
    if config.allocation_transport != Transport.UDP:
        raise ValueError("datagrams want an allocation over UDP: allocation_transport says otherwise")
    protocol = protocol_factory()

    def make(line: Line, by: Route) -> TurnTransport:
        return TurnTransport(line, config, by.transport, protocol, to, channels)

    return await reached(route, follow, make), protocol
