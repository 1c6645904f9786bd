"""A TURN server for tests, in the loop of the test: it answers as the test says, and notes what it got.

Its messages are written by RFC 8489, 8656 and 6062 with the words of tests/c/samples_base.py, which shares no code with
the client. It challenges the first ALLOCATE, and takes what is signed by the user `alice` with the password `secret`.
"""

from __future__ import annotations

import asyncio
import hashlib
import hmac
import importlib
import socket
import struct
import sys
from collections.abc import Callable, Iterator
from pathlib import Path
from ssl import SSLContext
from typing import Any

sys.path.insert(0, str(Path(__file__).resolve().parents[2] / "tests" / "c"))

base: Any = importlib.import_module("samples_base")

HEADER = 20
Send = Callable[[bytes], None]


def in_order(text: bytes) -> Iterator[tuple[int, int, bytes]]:
    """The type of each attribute of a message, where it stands, and its value."""
    at = HEADER
    while at + 4 <= len(text):
        kind, size = struct.unpack_from(">HH", text, at)
        yield kind, at, text[at + 4 : at + 4 + size]
        at += 4 + size + -size % 4


def attributes(text: bytes) -> dict[int, tuple[int, bytes]]:
    """Where each attribute of a message stands, and its value, by its type."""
    return {kind: (at, value) for kind, at, value in in_order(text)}


def is_signed(text: bytes, told: dict[int, tuple[int, bytes]]) -> bool:
    """Whether MESSAGE-INTEGRITY is right (RFC 8489, section 14.5)."""
    if base.INTEGRITY not in told:
        return False
    at, value = told[base.INTEGRITY]
    covered = text[:2] + struct.pack(">H", at + 24 - HEADER) + text[4:at]
    key = hashlib.md5(b":".join((base.NAME, base.DOMAIN, base.SECRET))).digest()
    return hmac.new(key, covered, hashlib.sha1).digest() == value


def address(value: bytes, transaction: bytes) -> str:
    """What an XOR-PEER-ADDRESS says."""
    mask = struct.pack(">I", base.MAGIC) + transaction
    octets = bytes(a ^ b for a, b in zip(value[4:], mask))
    port = struct.unpack(">H", value[2:4])[0] ^ base.MAGIC >> 16
    if value[1] == 2:
        return f"[{socket.inet_ntop(socket.AF_INET6, octets)}]:{port}"
    return f"{socket.inet_ntop(socket.AF_INET, octets)}:{port}"


def hosts(text: bytes) -> list[str]:
    """What each XOR-PEER-ADDRESS of a message says, without the port."""
    peers = [value for kind, _, value in in_order(text) if kind == base.PEER]
    return [address(it, text[8:HEADER]).rpartition(":")[0] for it in peers]


class FakeServer:
    """What is set decides what it answers: `rejects` names an error code by the method of the requests that get it
    (401 as to a wrong password), `denies` hosts for which a CREATE_PERMISSION gets a 403, `silent` the methods whose
    requests get nothing, `elsewhere` the server that it names by a response 300."""

    def __init__(self) -> None:
        self.rejects: dict[int, int] = {}
        self.denies: set[str] = set()
        self.silent: set[int] = set()
        self.elsewhere: str | None = None
        self.echoes = True
        self.chunk = 0                                    # bytes that are written at once over TCP; 0: all
        self.greeting = b""                               # what a peer sends as soon as its connection is bound
        self.requests: list[int] = []                     # the methods of signed requests
        self.permissions: list[list[str]] = []            # the hosts of signed CREATE_PERMISSIONs, each once
        self._named: dict[bytes, list[str]] = {}          # the same by the transaction ID
        self.lifetimes: list[int] = []                    # of signed REFRESHs
        self.unsigned = 0                                 # requests that weren't signed
        self.payloads: list[tuple[str, bytes, bool]] = []  # peer, data, and whether by a channel
        self.channels: dict[int, str] = {}
        self.bound: asyncio.StreamWriter | None = None    # the connection of a peer
        self.sends: list[Send] = []                       # to each client that sent something
        self.writers: list[asyncio.StreamWriter] = []
        self._closes: list[Callable[[], None]] = []

    async def start(self, is_stream: bool = False, ssl: SSLContext | None = None) -> tuple[str, int]:
        """Its address."""
        if is_stream:
            server = await asyncio.start_server(self._serve, "127.0.0.1", 0, ssl=ssl)
            self._closes.append(server.close)
            bound: tuple[str, int] = server.sockets[0].getsockname()
            return bound
        transport, _ = await asyncio.get_running_loop().create_datagram_endpoint(
            lambda: _Datagrams(self), local_addr=("127.0.0.1", 0))
        self._closes.append(transport.close)
        own: tuple[str, int] = transport.get_extra_info("sockname")
        return own

    def stop(self) -> None:
        for close in [*self._closes, *(it.close for it in self.writers)]:
            close()

    def count(self, method: int) -> int:
        return self.requests.count(method)

    # ---- what comes

    async def _serve(self, reader: asyncio.StreamReader, writer: asyncio.StreamWriter) -> None:
        self.writers.append(writer)

        def send(text: bytes) -> None:
            step = self.chunk or len(text)
            for at in range(0, len(text), step):
                writer.write(text[at : at + step])

        try:
            while True:
                head = await reader.readexactly(4)
                size = struct.unpack(">H", head[2:])[0]
                rest = size + -size % 4 if head[0] & 0xC0 else HEADER - 4 + size
                self.take(head + await reader.readexactly(rest), send, writer)
                if self.bound is writer:
                    await self._relay(reader, writer)
        except (asyncio.IncompleteReadError, OSError):
            writer.close()

    async def _relay(self, reader: asyncio.StreamReader, writer: asyncio.StreamWriter) -> None:
        """The bytes of a connection to a peer, which sends them back."""
        while data := await reader.read(65536):
            self.payloads.append(("", data, False))
            if self.echoes:
                writer.write(data)
                await writer.drain()

    def take(self, text: bytes, send: Send, source: Any) -> None:
        if send not in self.sends:
            self.sends.append(send)
        if text[0] & 0xC0:
            number, size = struct.unpack(">HH", text[:4])
            self._payload(self.channels[number], text[4 : 4 + size], send, number)
            return
        kind, transaction, told = struct.unpack(">H", text[:2])[0], text[8:HEADER], attributes(text)
        if kind == base.SEND | base.INDICATION:
            self._payload(address(told[base.PEER][1], transaction), told[base.DATA][1], send, 0)
        elif not is_signed(text, told):
            self.unsigned += 1
            self._challenges(kind, transaction, send)
        elif kind not in self.silent:
            self.requests.append(kind)
            if kind == base.CREATE_PERMISSION and transaction not in self._named:  # else it was sent again
                self._named[transaction] = hosts(text)
                self.permissions.append(self._named[transaction])
            self._answers(kind, transaction, told, send, source)

    def _challenges(self, method: int, transaction: bytes, send: Send) -> None:
        if method in self.silent:
            return
        more: list[tuple[int, bytes]] = [base.code(401), (base.REALM, base.DOMAIN), (base.NONCE, base.ORDINARY)]
        if self.elsewhere is not None:
            more = [base.code(300), *base.elsewhere(self.elsewhere, b"localhost")]
        send(base.message(method | base.ERROR, transaction, more))

    def _answers(self, method: int, transaction: bytes, told: dict[int, tuple[int, bytes]], send: Send,
                 source: Any) -> None:
        if self.rejects.get(method) == 401:
            self._challenges(method, transaction, send)
            return
        is_denied = method == base.CREATE_PERMISSION and not self.denies.isdisjoint(self._named[transaction])
        if method in self.rejects or is_denied:
            rejection = [base.code(self.rejects.get(method, 403), b"No\tway")]
            send(base.message(method | base.ERROR, transaction, rejection, base.BY_SHA1))
            return
        given: list[tuple[int, bytes]] = []
        if method == base.ALLOCATE:
            given = [(base.RELAYED_KIND, base.xored(base.RELAYED, transaction)), base.lifetime(600),
                     (base.MAPPED, base.xored(base.STRANGER, transaction))]
        elif method == base.REFRESH:
            self.lifetimes.append(struct.unpack(">I", told[base.lifetime(0)[0]][1])[0])
            given = [base.lifetime(self.lifetimes[-1])]
        elif method == base.CHANNEL_BIND:
            number = struct.unpack(">H", told[base.CHANNEL][1][:2])[0]
            self.channels[number] = address(told[base.PEER][1], transaction)
        elif method == base.CONNECT:
            given = [base.identified(7)]
        answer = base.message(method | base.SUCCESS, transaction, given, base.BY_SHA1)
        if method == base.CONNECTION_BIND:
            self.bound, answer = source, answer + self.greeting
        send(answer)

    def _payload(self, peer: str, data: bytes, send: Send, channel: int) -> None:
        self.payloads.append((peer, data, bool(channel)))
        if self.echoes:
            send(base.padded(channel, data) if channel else base.data(peer, data))

    def brings(self, *texts: bytes) -> None:
        """Sends to the client that came last."""
        for text in texts:
            self.sends[-1](text)


class _Datagrams(asyncio.DatagramProtocol):
    def __init__(self, server: FakeServer) -> None:
        self.server = server
        self.sends: dict[Any, Send] = {}

    def connection_made(self, transport: Any) -> None:
        self.transport: asyncio.DatagramTransport = transport

    def datagram_received(self, data: bytes, addr: Any) -> None:
        send = self.sends.setdefault(addr, lambda text: self.transport.sendto(text, addr))
        self.server.take(data, send, addr)
