"""The client with its lines and its clock: what datagrams and connections share."""

from __future__ import annotations

import asyncio
from collections.abc import Callable
from time import monotonic_ns
from typing import TypeVar, Union

from turn_client import (
    Address, AllocateTcpSocket, AllocationCreateFailed, Closed, Expired, Families, TcpClose, Transmit, Transport,
    TurnCause, TurnClient, TurnConfig, TurnError, TurnEvent, TurnRecvRet, WaitUntil,
)

from ._errors import AllocationFailed, AllocationLost, PeerRefused, why
from ._lines import Line, Route

CLOSE_PATIENCE = 3.0    # seconds that the server has to confirm the end of an allocation
SECOND = 1_000_000_000  # in nanoseconds
PAUSE = 10_000_000      # nanoseconds until the next turn, where the client wants one at once and does nothing

Credentials = Union[tuple[str, str], TurnConfig]
DriverT = TypeVar("DriverT", bound="Driver")


class Driver:
    """Takes the turns of a client, until it is over. `_ready` is done when there is an address."""

    def __init__(self, line: Line, config: TurnConfig, transport: Transport) -> None:
        self._loop = asyncio.get_running_loop()
        self._client = TurnClient(line.own, line.server, config, transport)
        self._line, self._lines = line, {line.own: line}
        self._timer: asyncio.TimerHandle | None = None
        self._soon: asyncio.Handle | None = None
        self._patience: asyncio.TimerHandle | None = None
        self._due = 0
        self._failed: AllocationFailed | None = None
        self._has_address = self._is_closing = self._is_over = False
        self._ready: asyncio.Future[None] = self._loop.create_future()
        self._ended: asyncio.Future[None] = self._loop.create_future()
        line.attach(self)
        self._wake()

    # ---- turns

    def _wake(self) -> None:
        """Has a turn taken soon, as one is due after each call."""
        if self._soon is None and not self._is_over:
            self._soon = self._loop.call_soon(self._turn)

    def _turn(self) -> None:
        """Takes turns until there is nothing to do, and sets the timer for the next one."""
        self._soon = None
        try:
            due = self._turns()
        except TurnError as error:
            self._end(AllocationLost(f"the client failed: {error}"))
            return
        if due is None or self._is_over or (due == self._due and self._timer is not None):
            return
        if self._timer is not None:
            self._timer.cancel()
        self._due = due
        self._timer = self._loop.call_later(max(due - monotonic_ns(), 0) / SECOND, self._is_due)

    def _is_due(self) -> None:
        self._timer = None
        if not self._is_over:
            self._turn()

    def _turns(self) -> int | None:
        """The moment of the next turn; None where the endpoint is over."""
        while not self._is_over:
            has_done = False
            while (transmit := self._client.poll_transmit(monotonic_ns())) is not None:
                self._send(transmit)
                has_done = True
            answer = self._client.poll(monotonic_ns())
            while not self._is_over and (happened := self._client.poll_event_with_cause()) is not None:
                self._happens(*happened)
                has_done = True
            if self._is_over:
                return None
            if isinstance(answer, Closed):
                self._closes()
            elif isinstance(answer, AllocateTcpSocket):
                self._opens(answer)
            elif isinstance(answer, TcpClose):
                self._drops(answer.local)
            elif isinstance(answer, WaitUntil) and not has_done:
                self._failed = None  # it goes on: what failed was one family of two
                return answer.moment if answer.moment > (now := monotonic_ns()) else now + PAUSE
        return None

    def _happens(self, event: TurnEvent, cause: TurnCause | None) -> None:
        if isinstance(event, AllocationCreateFailed):
            self._failed = AllocationFailed(cause, self._client.alternate_server(), self._client.alternate_domain())
        else:
            self._follow(event, cause)
        if not self._has_address and self._client.relayed_addresses():
            self._has_address = True
            self._allocated()

    def _closes(self) -> None:
        """The client has ended."""
        if self._is_closing:
            self._end(None)
        elif not self._has_address:
            self._end(self._failed or AllocationFailed(None))
        else:
            cause = self._failed.cause if self._failed else Expired()
            self._end(AllocationLost(f"the relayed address is gone: {why(cause)}", cause))

    # ---- what a driver does with it

    def _follow(self, event: TurnEvent, cause: TurnCause | None) -> None:
        raise NotImplementedError

    def _allocated(self) -> None:
        raise NotImplementedError

    def _take(self, came: TurnRecvRet) -> None:
        raise NotImplementedError

    def _finish(self, error: Exception | None) -> None:
        raise NotImplementedError

    def _pauses(self, line: Line, is_paused: bool) -> None:
        raise NotImplementedError

    def _line_reports(self, error: Exception) -> None:
        """The system reports something of the UDP socket. Anybody may send an ICMP report: the client goes on."""

    def _opens(self, asked: AllocateTcpSocket) -> None:
        """No connections are requested over an allocation over UDP."""

    def _drops(self, local: Address) -> None:
        """Without such a connection there is no socket to close."""

    # ---- what goes and comes

    def _send(self, transmit: Transmit) -> None:
        line = self._lines.get(transmit.source)
        if line is not None:
            line.write(transmit.data)

    def _came(self, data: bytes, line: Line) -> None:
        """Bytes of the server came over one of the lines."""
        if self._is_over:
            return
        try:
            came: TurnRecvRet | None = self._client.recv(data, monotonic_ns(), local=line.own)
            while came is not None:
                self._take(came)
                came = None if self._is_over else self._client.poll_recv(monotonic_ns())
        except TurnError as error:
            self._end(AllocationLost(f"the client failed: {error}"))
        self._wake()

    def _lost(self, line: Line, error: Exception | None) -> None:
        """A line is gone: without the client's own, the endpoint is over."""
        if line is self._line and not self._is_over:
            lost = None if self._is_closing else AllocationLost("the connection to the server is closed")
            if lost is not None:
                lost.__cause__ = error
            self._end(lost)

    # ---- the end

    def _close(self) -> None:
        """Gives the address back, for which the server has some seconds."""
        if self._is_closing or self._is_over:
            return
        self._is_closing = True
        try:
            self._client.delete(monotonic_ns())
        except TurnError:  # it has none
            self._end(None)
            return
        self._patience = self._loop.call_later(CLOSE_PATIENCE, self._end, None)
        self._wake()

    def _end(self, error: Exception | None) -> None:
        """Ends it at once. An error is why it isn't as it was asked for."""
        if self._is_over:
            return
        self._is_over = self._is_closing = True
        for handle in (self._timer, self._soon, self._patience):
            if handle is not None:
                handle.cancel()
        self._client.close()
        for line in self._lines.values():
            line.transport.abort()  # nothing of it matters any more
        if error is not None and not self._has_address:
            error.__cause__ = self._line.error
        if not self._ready.done():
            self._ready.set_exception(error or ConnectionAbortedError("the endpoint was closed"))
            self._ready.exception()  # whoever waits is told; if nobody does, nothing is logged
        self._loop.call_soon(self._finish, error)


# ---- what makes one


def settings(credentials: Credentials, peer: Address | None) -> TurnConfig:
    if isinstance(credentials, TurnConfig):
        return credentials
    family = Families.IPV6 if peer is not None and ":" in peer[0] else Families.IPV4
    return TurnConfig(*credentials, address_families=family)


async def reached(route: Route, follow: int, make: Callable[[Line, Route], DriverT]) -> DriverT:
    """A driver that is ready, at the server or at another one that it names."""
    asked: list[Address] = []
    while True:
        line = await route.open()
        asked.append(line.server)
        try:
            made = make(line, route)
        except BaseException:
            line.transport.close()
            raise
        try:
            await made._ready
            return made
        except AllocationFailed as error:
            elsewhere = error.alternate_server
            if elsewhere is None or elsewhere in asked or len(asked) > follow:
                raise
            route = route.elsewhere(elsewhere, error.alternate_domain)
        except PeerRefused:
            await asyncio.shield(made._ended)
            raise
        except BaseException:
            made._end(None)
            raise
