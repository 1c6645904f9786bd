"""Datagrams (RFC 8656) and connections (RFC 6062) through a TURN server over asyncio, for turn_client.

    transport, protocol = await create_turn_endpoint(Protocol, "turn:turn.example.org", ("alice", "secret"))
    transport.sendto(b"hello", ("198.51.100.1", 9000))
    reader, writer = await open_turn_connection(("turn.example.org", 3478), ("alice", "secret"), ("198.51.100.1", 80))

A server is a URI (RFC 7065), or a name or an IP address with a port.

The transport is an asyncio.DatagramTransport, and the protocol an asyncio.DatagramProtocol: what peers send comes by
datagram_received. There is no thread and no polling; a timer is set to when the client wants its next turn. Everything
runs in the loop in which the endpoint was created, and no method may be called from another thread.

What waits to be sent is bounded, and nothing that came is stored:

- While a permission for a peer is requested, what is sent to that peer waits: 256 datagrams and 256 KiB of all peers
  together (WAITING_MAX, WAITING_BYTES_MAX). What comes beyond is dropped, and what waits is dropped if the server
  rejects the permission.
- While more than 256 KiB (UNSENT_MAX) wait in the socket to the server, the protocol is told by pause_writing, as over
  any transport, and what it sends until resume_writing is dropped.

Of a connection nothing is dropped: `await writer.drain()` waits while more than 256 KiB wait, and the socket isn't read
while the reader has enough.
"""

from __future__ import annotations

from ._connections import open_turn_connection
from ._datagrams import WAITING_BYTES_MAX, WAITING_MAX, TurnTransport, create_turn_endpoint
from ._driver import CLOSE_PATIENCE
from ._lines import UNSENT_MAX
from ._errors import AllocationFailed, AllocationLost, PeerRefused, PeerUnreachable
from ._uris import TurnUri, UriError, UriRefusal, UriScheme

__all__ = ["CLOSE_PATIENCE", "UNSENT_MAX", "WAITING_BYTES_MAX", "WAITING_MAX", "AllocationFailed", "AllocationLost",
           "PeerRefused", "PeerUnreachable", "TurnTransport", "TurnUri", "UriError", "UriRefusal", "UriScheme",
           "create_turn_endpoint", "open_turn_connection"]
