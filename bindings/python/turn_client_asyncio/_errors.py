"""What goes wrong."""

from __future__ import annotations

import errno

from turn_client import Address, PeerIcmp, Rejected, TurnCause


def why(cause: TurnCause | None) -> str:
    """A cause in words. The server's own are without what isn't to be printed."""
    if isinstance(cause, Rejected):
        reason = "".join(it for it in cause.reason if it.isprintable())
        return f"rejected {cause.code} {'signed' if cause.is_signed else 'unsigned'} {reason}".rstrip()
    return " ".join((type(cause).__doc__ or type(cause).__name__).split()) if cause else "no response"


class AllocationFailed(ConnectionError):
    """The server gave no relayed address. `cause` says why; after a response 300, `alternate_server` and
    `alternate_domain` name another server."""

    def __init__(self, cause: TurnCause | None, alternate_server: Address | None = None,
                 alternate_domain: str | None = None) -> None:
        super().__init__(f"no relayed address: {why(cause)}")
        self.cause, self.alternate_server, self.alternate_domain = cause, alternate_server, alternate_domain


class AllocationLost(ConnectionError):
    """The relayed address is gone, which the endpoint had: the server didn't renew it, or closed the connection.
    `cause` is that of the client; None if the connection was closed, or the client ran out of memory."""

    def __init__(self, text: str, cause: TurnCause | None = None) -> None:
        super().__init__(text)
        self.cause = cause


class PeerRefused(ConnectionError):
    """There is no permission for `peer`, an IP address, or no connection to it: it was rejected, or not renewed. What
    waited for it is dropped. `cause` says why; None if the endpoint has no relayed address of that family, or is over.
    """

    def __init__(self, peer: str, text: str, cause: TurnCause | None = None, what: str = "permission for") -> None:
        super().__init__(f"no {what} {peer}: {text}")
        self.peer, self.cause = peer, cause


class PeerUnreachable(OSError):
    """The server passes on an ICMP report about what was sent to `peer`: its type, its code and its data."""

    def __init__(self, report: PeerIcmp) -> None:
        super().__init__(errno.EHOSTUNREACH, f"ICMP type {report.icmp_type} code {report.icmp_code} on the way to "
                                             f"{report.peer[0]} port {report.peer[1]}")
        self.peer, self.icmp_type = report.peer, report.icmp_type
        self.icmp_code, self.icmp_data = report.icmp_code, report.icmp_data
