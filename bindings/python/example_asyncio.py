#!/usr/bin/env python3
"""example_asyncio.py: sends payloads through a TURN server to a peer that sends them back, over turn_client_asyncio.

    TURN_PASSWORD=secret python3 bindings/python/example_asyncio.py --server 127.0.0.1:3478 --user alice \\
        --peer 127.0.0.1:9000

`--help` tells the options and the exit status.
"""

from __future__ import annotations

import argparse
import asyncio
import os
import ssl
import sys
import time
from typing import Any

from turn_client import Address, Families, Rejected, TurnCause, TurnConfig, Unanswered
from turn_client_asyncio import (
    AllocationFailed, AllocationLost, PeerRefused, TurnTransport, create_turn_endpoint, open_turn_connection,
)

ALL_BACK, SOME_LOST, BAD_USAGE, FAILED, NO_ANSWER = range(5)
STATUSES = ("exit status: 0 all came back, or nothing was to be sent; 1 something was lost; 2 options that can't be "
            "read; 3 the server refused something, or the address is lost; 4 no answer, or no connection to the server")
PATIENCE = 2.0  # seconds that the last payloads are waited for
NUMBER = 4      # bytes of the number at the front of a payload


def payloads(count: int, size: int) -> list[bytes]:
    """Each is its number, and bytes that depend on that."""
    return [it.to_bytes(NUMBER, "big") + bytes(k & 0xFF for k in range(it, it + size - NUMBER)) for it in range(count)]


class Payloads(asyncio.DatagramProtocol):
    """What goes to the peer, and what comes back."""

    def __init__(self, count: int, size: int) -> None:
        self.payloads = payloads(count, size)
        self.awaited = set(self.payloads)
        self.all_back, self.lost = asyncio.Event(), asyncio.get_running_loop().create_future()

    def datagram_received(self, data: bytes, addr: Any) -> None:
        self.awaited.discard(data)
        if not self.awaited:
            self.all_back.set()

    def error_received(self, exc: Exception) -> None:
        print(f"an error: {exc}", flush=True)

    def connection_lost(self, exc: Exception | None) -> None:
        self.lost.set_result(exc)


async def send_all(transport: TurnTransport, protocol: Payloads, options: argparse.Namespace) -> None:
    """Sends the payloads, waits for the last, and keeps the address for as long as it is wanted."""
    keeps_until = time.monotonic() + options.seconds
    for payload in protocol.payloads:
        await asyncio.sleep(options.interval / 1000)
        transport.sendto(payload)
    if protocol.payloads:
        await asyncio.wait([asyncio.ensure_future(protocol.all_back.wait())], timeout=PATIENCE)
    await asyncio.sleep(keeps_until - time.monotonic())


async def use(transport: TurnTransport, protocol: Payloads, options: argparse.Namespace) -> None:
    """The same, unless the address is lost before."""
    work = asyncio.ensure_future(send_all(transport, protocol, options))
    await asyncio.wait([work, protocol.lost], return_when=asyncio.FIRST_COMPLETED)
    if protocol.lost.done():
        work.cancel()
        raise protocol.lost.result() or ConnectionAbortedError("the transport is closed")
    await work


async def connect(options: argparse.Namespace, config: TurnConfig, context: ssl.SSLContext | None) -> None:
    """Sends the payloads over a connection to the peer."""
    reader, writer = await open_turn_connection(uri_of(options), config, options.connect, ssl=context,
                                                follow=options.redirects)
    sent = b"".join(payloads(options.count, options.size))

    async def write() -> None:
        for at in range(0, len(sent), options.size):
            writer.write(sent[at : at + options.size])
            await writer.drain()

    _, came = await asyncio.gather(write(), reader.readexactly(len(sent)))
    writer.close()
    await writer.wait_closed()
    options.status = ALL_BACK if came == sent else SOME_LOST
    print(f"{options.count if came == sent else 0} of {options.count} payloads came back")


async def run(options: argparse.Namespace) -> None:
    families = Families.IPV6 if ":" in (options.peer or options.connect or options.server)[0] else Families.IPV4
    config = TurnConfig(options.user, os.environ["TURN_PASSWORD"], address_families=families)
    context = ssl.create_default_context(cafile=options.tls) if options.tls else None
    if options.connect:
        await connect(options, config, context)
        return
    began = time.monotonic()
    transport, protocol = await create_turn_endpoint(
        lambda: Payloads(options.count, options.size), uri_of(options), config, options.peer, ssl=context,
        channels=not options.indications, follow=options.redirects)
    for name in ("server_address", "relayed_address", "mapped_address"):
        said = {"mapped_address": "public address"}.get(name, name.replace("_", " "))
        print(f"{said}: {shown(transport.get_extra_info(name))}", flush=True)
    try:
        await use(transport, protocol, options)
    finally:
        print(f"{time.monotonic() - began:8.3f}  gives the address back")
        transport.close()
        await transport.wait_closed()
        print(f"{options.count - len(protocol.awaited)} of {options.count} payloads came back")
    options.status = SOME_LOST if protocol.awaited else ALL_BACK


# ---- what it is told, and says


def shown(address: Address | None) -> str:
    if address is None:
        return "none"
    return f"[{address[0]}]:{address[1]}" if ":" in address[0] else f"{address[0]}:{address[1]}"


def uri_of(options: argparse.Namespace) -> str:
    """The server (RFC 7065)."""
    return f"{'turns' if options.tls else 'turn'}:{shown(options.server)}{'?transport=tcp' if options.tcp else ''}"


def text_of(cause: TurnCause | None) -> str:
    if isinstance(cause, Rejected):
        reason = "".join(it for it in cause.reason if it.isprintable())
        return f"rejected {cause.code} {'signed' if cause.is_signed else 'unsigned'} {reason}"
    return type(cause).__name__.lower()


def read_address(text: str) -> Address:
    """IP:PORT, of IPv6 [IP]:PORT."""
    ip, _, port = text.rpartition(":")
    return ip.strip("[]"), int(port)


def read_options() -> argparse.Namespace:
    parser = argparse.ArgumentParser(allow_abbrev=False, epilog=STATUSES)
    add = parser.add_argument
    add("--server", type=read_address, required=True, metavar="HOST:PORT", help="of IPv6 [IP]:PORT")
    add("--user", required=True, help="whose password is the variable TURN_PASSWORD")
    add("--tcp", action="store_true", help="over TCP to the server")
    add("--tls", metavar="FILE", help="over TLS to the server, whose certificate these certificates vouch for")
    add("--peer", type=read_address, metavar="IP:PORT", help="the peer, which is to send back what it gets")
    add("--connect", type=read_address, metavar="IP:PORT", help="the same, over a connection over TCP (RFC 6062)")
    add("--count", type=int, default=10, help="how many payloads; without it 10")
    add("--size", type=int, default=100, help="bytes of each; without it 100")
    add("--interval", type=int, default=1, metavar="MS", help="between two payloads; without it 1")
    add("--seconds", type=int, default=0, help="how long the address is kept at least; without it 0")
    add("--indications", action="store_true", help="no channel: each payload goes in an indication")
    add("--redirects", type=int, default=0, metavar="N", help="how many other servers are asked, which servers name")
    options = parser.parse_args()
    if "TURN_PASSWORD" not in os.environ:
        parser.error("a password is wanted: TURN_PASSWORD")
    options.count, options.status = options.count if options.peer or options.connect else 0, FAILED
    return options


def main() -> int:
    options = read_options()
    try:
        asyncio.run(run(options))
    except (AllocationFailed, AllocationLost, PeerRefused) as error:
        print(f"{error}\ncause: {text_of(error.cause)}")
        if isinstance(error, AllocationFailed) and error.alternate_server is not None:
            print(f"alternate server: {shown(error.alternate_server)}")
        return NO_ANSWER if isinstance(error.cause, Unanswered) else FAILED
    except asyncio.IncompleteReadError as error:
        print(f"{error}\n0 of {options.count} payloads came back")
        return SOME_LOST
    except OSError as error:
        print(f"no connection to {shown(options.server)}: {error}")
        return NO_ANSWER
    return int(options.status)


if __name__ == "__main__":
    sys.exit(main())
