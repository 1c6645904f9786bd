#!/usr/bin/env python3
"""test_turn_client_asyncio.py: turn_client_asyncio against a server of this test's own (fake_server.py) on loopback.

    python3 bindings/python/test_turn_client_asyncio.py

The shared library is the one that turn_client.py finds. TLS is tried where `openssl` makes a certificate.
tests/live tries the driver against coturn.
"""

from __future__ import annotations

import asyncio
import contextlib
import errno
import io
import logging
import os
import shutil
import ssl
import subprocess
import sys
import tempfile
import threading
import time
import unittest
from collections.abc import Callable
from pathlib import Path
from typing import Any, ClassVar
from unittest import mock

HERE = Path(__file__).resolve().parent
sys.dont_write_bytecode = True
sys.path.insert(0, str(HERE))

import turn_client as turn  # noqa: E402
import turn_client_asyncio as over  # noqa: E402
from fake_server import FakeServer, base  # noqa: E402
from turn_client_asyncio import _datagrams, _driver  # noqa: E402

USER = (base.NAME.decode(), base.SECRET.decode())
PEER, OTHER = ("198.51.100.1", 9000), ("198.51.100.1", 9001)
RELAYED, MAPPED = ("203.0.113.5", 50000), ("198.51.100.9", 9000)  # what the server tells
logging.getLogger("asyncio").setLevel(logging.ERROR)  # not that the machine is slow
PATIENCE = 20.0  # seconds that anything may take on a slow machine


class Notes(asyncio.DatagramProtocol):
    """What an endpoint tells."""

    def __init__(self) -> None:
        self.transport: Any = None
        self.came: list[tuple[bytes, Any]] = []
        self.errors: list[Exception] = []
        self.pauses: list[bool] = []
        self.lost: list[Exception | None] = []

    def connection_made(self, transport: Any) -> None:
        self.transport = transport

    def datagram_received(self, data: bytes, addr: Any) -> None:
        self.came.append((data, addr))

    def error_received(self, exc: Exception) -> None:
        self.errors.append(exc)

    def pause_writing(self) -> None:
        self.pauses.append(True)

    def resume_writing(self) -> None:
        self.pauses.append(False)

    def connection_lost(self, exc: Exception | None) -> None:
        self.lost.append(exc)


async def until(holds: Callable[[], object]) -> None:
    end = time.monotonic() + PATIENCE
    while not holds():
        if time.monotonic() > end:
            raise AssertionError("it doesn't happen")
        await asyncio.sleep(0.005)


class Case(unittest.IsolatedAsyncioTestCase):
    async def asyncSetUp(self) -> None:
        self.server = FakeServer()
        self.addCleanup(self.server.stop)
        self.opened: list[over.TurnTransport] = []

    async def asyncTearDown(self) -> None:
        for transport in self.opened:
            transport.abort()
            await transport.wait_closed()

    async def endpoint(self, peer: Any = None, is_stream: bool = False, **more: Any) -> tuple[Any, Notes]:
        at = await self.server.start(is_stream)
        by = turn.Transport.TCP if is_stream else turn.Transport.UDP
        transport, protocol = await over.create_turn_endpoint(Notes, at, USER, peer, transport=by, **more)
        self.opened.append(transport)
        return transport, protocol


def several(*last: int) -> list[str]:
    """Hosts 198.51.100.K."""
    return [f"198.51.100.{it}" for it in last]


async def comes(protocol: Notes, data: bytes) -> None:
    """Waits until the last payload that came is this one, of the peer."""
    await until(lambda: protocol.came and protocol.came[-1] == (data, PEER))


class Datagrams(Case):
    async def goes_and_comes_back(self, is_stream: bool) -> None:
        transport, protocol = await self.endpoint(is_stream=is_stream)
        self.assertIs(protocol.transport, transport)
        transport.sendto(b"one", PEER)
        await until(lambda: protocol.came)
        self.assertEqual(self.server.payloads, [("198.51.100.1:9000", b"one", False)])
        await until(lambda: transport._bound)
        transport.sendto(bytearray(b"other"), list(PEER))
        await until(lambda: len(protocol.came) == 2)
        self.assertEqual(self.server.payloads[1:], [("198.51.100.1:9000", b"other", True)])
        self.assertEqual(protocol.came, [(b"one", PEER), (b"other", PEER)])
        self.assertEqual(self.server.count(base.CREATE_PERMISSION), 1)
        self.assertEqual(self.server.count(base.CHANNEL_BIND), 1)

    async def test_over_udp(self) -> None:
        await self.goes_and_comes_back(is_stream=False)

    async def test_over_tcp(self) -> None:
        await self.goes_and_comes_back(is_stream=True)

    async def test_over_tcp_byte_by_byte(self) -> None:
        self.server.chunk = 1
        await self.goes_and_comes_back(is_stream=True)

    async def test_what_it_tells_of_itself(self) -> None:
        transport, protocol = await self.endpoint()
        told = {"relayed_address": RELAYED, "sockname": RELAYED, "relayed_addresses": [RELAYED],
                "mapped_address": MAPPED, "peername": None, "nothing": None}
        self.assertEqual({it: transport.get_extra_info(it) for it in told}, told)
        self.assertEqual(transport.get_extra_info("nothing", 5), 5)
        self.assertEqual(transport.get_extra_info("server_address")[0], "127.0.0.1")
        self.assertIs(transport.get_protocol(), protocol)
        self.assertIsInstance(transport, asyncio.DatagramTransport)

    async def test_no_channels(self) -> None:
        transport, protocol = await self.endpoint(channels=False)
        for data in (b"one", b"two"):
            transport.sendto(data, PEER)
            await comes(protocol, data)
        self.assertEqual([it[2] for it in self.server.payloads], [False, False])
        self.assertEqual(self.server.count(base.CHANNEL_BIND), 0)

    async def test_a_rejected_channel(self) -> None:
        """All goes in indications, and no channel is asked for again."""
        self.server.rejects[base.CHANNEL_BIND] = 508
        transport, protocol = await self.endpoint(PEER)
        await until(lambda: transport._barred)
        for data in (b"one", b"two"):
            transport.sendto(data)
            await comes(protocol, data)
        self.assertEqual((self.server.count(base.CHANNEL_BIND), protocol.errors), (1, []))

    async def test_with_a_peer(self) -> None:
        """It is permitted at once, and nobody else is heard or sent to."""
        transport, protocol = await self.endpoint(PEER)
        self.assertEqual(self.server.count(base.CREATE_PERMISSION), 1)
        self.assertEqual(transport.get_extra_info("peername"), PEER)
        self.server.brings(base.data("198.51.100.1:9001", b"other"), base.data("198.51.100.1:9000", b"peer"))
        await until(lambda: protocol.came)
        self.assertEqual(protocol.came, [(b"peer", PEER)])
        transport.sendto(b"", PEER)
        await until(lambda: len(protocol.came) == 2)
        with self.assertRaisesRegex(ValueError, "another address"):
            transport.sendto(b"", OTHER)

    async def test_permit(self) -> None:
        transport, protocol = await self.endpoint()
        await asyncio.gather(transport.permit("198.51.100.1"), transport.permit("198.51.100.1"))
        self.server.brings(base.data("198.51.100.1:9001", b"hello"))
        await until(lambda: protocol.came)
        self.assertEqual((protocol.came, self.server.count(base.CREATE_PERMISSION)), ([(b"hello", OTHER)], 1))
        await transport.permit("198.51.100.1")
        self.assertEqual(self.server.count(base.CREATE_PERMISSION), 1)

    async def test_permit_several(self) -> None:
        """Those that are permitted already aren't asked for again."""
        for is_stream in (False, True):
            self.server.permissions.clear()
            transport, protocol = await self.endpoint(is_stream=is_stream)
            await transport.permit("198.51.100.2")
            for _ in range(2):
                await asyncio.wait_for(transport.permit_several(iter(several(1, 2, 1, 3, 2))), PATIENCE)
            await transport.permit("198.51.100.3")
            self.server.brings(base.data("198.51.100.3:9000", b"hello"))
            await until(lambda: protocol.came)
            self.assertEqual(self.server.permissions, [several(2), several(1, 3)])

    async def test_permit_as_many_as_may_be(self) -> None:
        transport, _ = await self.endpoint()
        hosts = several(*range(turn.PERMIT_MAX))
        await transport.permit_several(hosts + hosts)
        self.assertEqual(self.server.permissions, [hosts])

    async def test_permit_several_that_others_wait_for(self) -> None:
        """A permission that a datagram or another task waits for isn't asked for again."""
        transport, protocol = await self.endpoint()
        transport.sendto(b"one", PEER)
        waiting = asyncio.gather(transport.permit("198.51.100.2"), transport.permit_several(several(3, 1, 2, 4)),
                                 transport.permit_several(several(4, 5, 6)))
        await asyncio.wait_for(waiting, PATIENCE)
        self.assertEqual(self.server.permissions, [several(1), several(2), several(3, 4), several(5, 6)])
        await comes(protocol, b"one")

    async def test_permit_several_of_which_one_is_not_noted(self) -> None:
        """It is asked for after a response that rejects it, and before what that causes is followed."""
        self.server.denies.add(PEER[0])
        transport, _ = await self.endpoint()
        follow = transport._follow

        def asks_again(event: Any, cause: Any) -> None:
            if isinstance(event, turn.PermissionCreateFailed):
                self.server.denies.clear()
                transport._client.create_permission(turn.Transport.UDP, PEER[0], time.monotonic_ns())
            follow(event, cause)

        with mock.patch.object(transport, "_follow", asks_again):
            with self.assertRaises(over.PeerRefused):
                await transport.permit(PEER[0])
        await asyncio.wait_for(transport.permit_several(several(1, 2)), PATIENCE)
        self.assertEqual(self.server.permissions, [several(1), several(1), several(2)])

    async def test_an_icmp_report(self) -> None:
        transport, protocol = await self.endpoint()
        await transport.permit(PEER[0])
        self.server.brings(base.REPORT)
        await until(lambda: protocol.errors)
        error: Any = protocol.errors[0]
        self.assertIsInstance(error, over.PeerUnreachable)
        self.assertEqual((error.peer, error.icmp_type, error.icmp_code, error.icmp_data), (PEER, 3, 3, 5))

    async def test_what_is_given_wrongly(self) -> None:
        transport, protocol = await self.endpoint()
        for addr in (None, ("example.org", 9), ("198.51.100.1", 0x10000)):
            with self.assertRaises(ValueError):
                transport.sendto(b"", addr)
        with self.assertRaises(TypeError):
            transport.sendto("text", PEER)
        for hosts in (["198.51.100.1", "example.org"], "198.51.100.1"):
            with self.assertRaises(ValueError):
                await transport.permit_several(hosts)
        for hosts in ([], several(*range(turn.PERMIT_MAX + 1)), [PEER[0], "2001:db8::7"]):
            with self.assertRaises(turn.InvalidAddresses):
                await transport.permit_several(hosts)
        with self.assertRaises(over.PeerRefused) as refused:  # there is no relayed address of IPv6
            await transport.permit_several(["2001:db8::7", "2001:db8::8"])
        self.assertEqual((refused.exception.peer, refused.exception.cause), ("2001:db8::7", None))
        await asyncio.sleep(0.1)
        self.assertEqual(self.server.permissions, [])
        await transport.permit(PEER[0])
        transport.sendto(bytes(turn.PAYLOAD_MAX + 1), PEER)
        self.assertEqual([getattr(it, "errno", None) for it in protocol.errors], [errno.EMSGSIZE])
        transport.sendto(b"", ("2001:db8::7", 9))  # there is no relayed address of IPv6
        self.assertIsInstance(protocol.errors[1], over.PeerRefused)

    async def test_a_protocol_that_fails(self) -> None:
        transport, protocol = await self.endpoint(PEER)
        told: list[Any] = []
        asyncio.get_running_loop().set_exception_handler(lambda loop, context: told.append(context["exception"]))
        with mock.patch.object(protocol, "datagram_received", side_effect=KeyError("wrong")):
            transport.sendto(b"one")
            await until(lambda: told)
        self.assertIsInstance(told[0], KeyError)
        transport.sendto(b"two")
        await until(lambda: protocol.came)
        self.assertEqual(protocol.came, [(b"two", PEER)])


class Bounds(Case):
    async def test_what_waits_for_a_permission(self) -> None:
        self.server.silent.add(base.CREATE_PERMISSION)
        transport, _ = await self.endpoint()
        for number in range(over.WAITING_MAX + 50):
            transport.sendto(number.to_bytes(2, "big"), PEER)
        self.server.silent.clear()
        await until(lambda: len(self.server.payloads) == over.WAITING_MAX)
        await asyncio.sleep(0.1)
        self.assertEqual([it[1] for it in self.server.payloads],
                         [number.to_bytes(2, "big") for number in range(over.WAITING_MAX)])
        self.assertEqual((transport._count, transport._bytes, transport._waiting), (0, 0, {}))

    async def test_bytes_that_wait_for_a_permission(self) -> None:
        self.server.silent.add(base.CREATE_PERMISSION)
        transport, _ = await self.endpoint()
        for number in range(10):
            transport.sendto(bytes(60_000), ("198.51.100.1", 9000 + number))
        self.assertEqual(transport._count, over.WAITING_BYTES_MAX // 60_000)

    async def test_many_peers(self) -> None:
        """No more of them are asked for than wait."""
        self.server.silent.add(base.CREATE_PERMISSION)
        transport, _ = await self.endpoint()
        for number in range(2 * over.WAITING_MAX):
            transport.sendto(b"x", (f"198.51.{number // 256}.{number % 256}", 9000))
        self.assertEqual(len(transport._asked), over.WAITING_MAX)

    async def test_a_socket_that_is_full(self) -> None:
        """The protocol is told, and what it sends is dropped until it may go on."""
        self.server.echoes = False
        transport, protocol = await self.endpoint(PEER, is_stream=True)
        await until(lambda: transport._bound)
        reading = self.server.writers[0].transport
        reading.pause_reading()  # type: ignore[attr-defined]
        for _ in range(2000):
            transport.sendto(bytes(10_000))
        waits = transport._line.transport.get_write_buffer_size()
        self.assertEqual(protocol.pauses, [True])
        self.assertLess(waits, over.UNSENT_MAX + 20_000)
        reading.resume_reading()  # type: ignore[attr-defined]
        await until(lambda: protocol.pauses == [True, False])
        transport.sendto(b"last")
        await until(lambda: self.server.payloads[-1][1] == b"last")
        self.assertLess(len(self.server.payloads), 2000)

    async def test_it_sleeps(self) -> None:
        """No thread is started, and no turn is taken where nothing is due."""
        threads = threading.active_count()
        transport, _ = await self.endpoint(PEER)
        await until(lambda: transport._bound)
        await asyncio.sleep(0.3)
        turns = mock.Mock(side_effect=transport._turns)
        with mock.patch.object(transport, "_turns", turns):
            await asyncio.sleep(0.5)
        self.assertLessEqual(turns.call_count, 1)
        self.assertEqual(threading.active_count(), threads)


class Failures(Case):
    async def fails(self, kind: type[Exception], *given: Any, **more: Any) -> Any:
        with self.assertRaises(kind) as caught:
            await self.endpoint(*given, **more)
        return caught.exception

    async def test_a_wrong_password(self) -> None:
        self.server.rejects[base.ALLOCATE] = 401
        for is_stream in (False, True):
            error = await self.fails(over.AllocationFailed, is_stream=is_stream)
            self.assertEqual((error.cause.code, error.cause.is_signed), (401, False))

    async def test_a_rejection(self) -> None:
        self.server.rejects[base.ALLOCATE] = 486
        error = await self.fails(over.AllocationFailed)
        self.assertEqual(error.cause, turn.Rejected(486, "No\tway", True))
        self.assertEqual(str(error), "no relayed address: rejected 486 signed Noway")
        self.assertIsInstance(error, OSError)

    async def test_no_answer(self) -> None:
        self.server.silent.add(base.ALLOCATE)
        at = await self.server.start()
        config = turn.TurnConfig(*USER, request_retransmits=turn.RequestRetransmits(2, 50, 50, 50))
        with self.assertRaises(over.AllocationFailed) as caught:
            await over.create_turn_endpoint(Notes, at, config)
        self.assertIsInstance(caught.exception.cause, turn.Unanswered)

    async def test_no_server(self) -> None:
        at = await self.server.start(is_stream=True)
        self.server.stop()
        await asyncio.sleep(0.01)
        with self.assertRaises(ConnectionRefusedError):
            await over.create_turn_endpoint(Notes, at, USER, transport=turn.Transport.TCP)

    async def test_a_peer_that_the_server_denies(self) -> None:
        """The address that was given is given back."""
        self.server.rejects[base.CREATE_PERMISSION] = 403
        error = await self.fails(over.PeerRefused, PEER)
        self.assertEqual((error.peer, error.cause), (PEER[0], turn.Rejected(403, "No\tway", True)))
        self.assertEqual(self.server.lifetimes, [0])

    async def test_a_denied_peer_later(self) -> None:
        self.server.rejects[base.CREATE_PERMISSION] = 403
        transport, protocol = await self.endpoint()
        transport.sendto(b"one", PEER)
        transport.sendto(b"two", PEER)
        with self.assertRaises(over.PeerRefused):
            await transport.permit(PEER[0])
        self.assertEqual([type(it) for it in protocol.errors], [over.PeerRefused])
        self.assertEqual((transport._count, self.server.payloads), (0, []))
        self.server.rejects.clear()
        transport.sendto(b"three", PEER)
        await until(lambda: protocol.came)
        self.assertEqual(protocol.came, [(b"three", PEER)])

    async def test_several_of_which_one_is_denied(self) -> None:
        """The server rejects what is asked for with it."""
        self.server.denies.add("198.51.100.3")
        transport, protocol = await self.endpoint()
        await transport.permit(PEER[0])
        with self.assertRaises(over.PeerRefused) as refused:
            await transport.permit_several(several(1, 2, 3))
        self.assertEqual((refused.exception.peer, refused.exception.cause),
                         ("198.51.100.2", turn.Rejected(403, "No\tway", True)))
        self.assertEqual([getattr(it, "peer", None) for it in protocol.errors], several(2, 3))
        await transport.permit_several(several(2, 1))
        self.assertEqual(self.server.permissions, [several(1), several(2, 3), several(2)])

    async def test_given_up(self) -> None:
        """Who waits no longer leaves nothing behind."""
        self.server.silent.add(base.ALLOCATE)
        made: list[Any] = []
        at = await self.server.start()
        with mock.patch.object(_datagrams.TurnTransport, "_finish", lambda self, error: made.append(self)):
            with self.assertRaises(asyncio.TimeoutError):
                await asyncio.wait_for(over.create_turn_endpoint(Notes, at, USER), 0.2)
            await until(lambda: made)
        self.assertTrue(made[0]._line.transport.is_closing())
        self.assertIsNone(made[0]._soon)

    async def test_what_cannot_be(self) -> None:
        at = await self.server.start()
        tcp = turn.TurnConfig(*USER, allocation_transport=turn.Transport.TCP)
        cases: list[tuple[type[Exception], Any, dict[str, Any]]] = [
            (ValueError, tcp, {}), (ValueError, USER, {"ssl": True, "transport": turn.Transport.UDP}),
            (ValueError, USER, {"server_hostname": "localhost"}), (ValueError, USER, {"peer": ("example.org", 9)}),
            (ValueError, USER, {"transport": 5}), (turn.LongName, ("a" * (turn.NAME_MAX + 1), ""), {}),
        ]
        for kind, credentials, given in cases:
            with self.subTest(str(given)), self.assertRaises(kind):
                await over.create_turn_endpoint(Notes, at, credentials, **given)


class Redirections(Case):
    async def asyncSetUp(self) -> None:
        await super().asyncSetUp()
        self.first = FakeServer()
        self.addCleanup(self.first.stop)
        self.at, self.elsewhere = await self.first.start(), await self.server.start()
        self.first.elsewhere = "{}:{}".format(*self.elsewhere)

    async def test_not_followed(self) -> None:
        with self.assertRaises(over.AllocationFailed) as caught:
            await over.create_turn_endpoint(Notes, self.at, USER)
        error = caught.exception
        self.assertEqual((error.alternate_server, error.alternate_domain), (self.elsewhere, "localhost"))
        self.assertEqual(self.server.unsigned, 0)

    async def test_followed(self) -> None:
        transport, _ = await over.create_turn_endpoint(Notes, self.at, USER, follow=1)
        self.opened.append(transport)
        self.assertEqual(transport.get_extra_info("server_address"), self.elsewhere)

    async def test_in_a_circle(self) -> None:
        self.server.elsewhere = "{}:{}".format(*self.at)
        with self.assertRaises(over.AllocationFailed):
            await over.create_turn_endpoint(Notes, self.at, USER, follow=9)
        self.assertEqual((self.first.unsigned, self.server.unsigned), (1, 1))

    async def test_further_than_told(self) -> None:
        third = FakeServer()
        self.addCleanup(third.stop)
        self.server.elsewhere = "{}:{}".format(*await third.start())
        with self.assertRaises(over.AllocationFailed):
            await over.create_turn_endpoint(Notes, self.at, USER, follow=1)
        self.assertEqual(third.unsigned, 0)


class Ends(Case):
    async def test_closed(self) -> None:
        for is_stream in (False, True):
            transport, protocol = await self.endpoint(PEER, is_stream=is_stream)
            transport.close()
            transport.close()
            self.assertTrue(transport.is_closing())
            self.assertEqual(protocol.lost, [])
            self.server.brings(base.data("198.51.100.1:9000", b"late"))
            transport.sendto(b"late")
            await transport.wait_closed()
            self.assertEqual((protocol.lost, protocol.came, self.server.payloads), ([None], [], []))
        self.assertEqual(self.server.lifetimes, [0, 0])
        with self.assertRaises(over.PeerRefused):
            await transport.permit(PEER[0])
        with self.assertRaisesRegex(over.PeerRefused, "198.51.100.1: the endpoint is closed"):
            await transport.permit_several(several(1, 2))

    async def test_closed_and_unanswered(self) -> None:
        self.server.silent.add(base.REFRESH)
        transport, protocol = await self.endpoint()
        with mock.patch.object(_driver, "CLOSE_PATIENCE", 0.1):
            transport.close()
            await transport.wait_closed()
        self.assertEqual(protocol.lost, [None])

    async def test_aborted(self) -> None:
        self.server.silent.add(base.CREATE_PERMISSION)
        transport, protocol = await self.endpoint()
        waiting = asyncio.ensure_future(transport.permit(PEER[0]))
        several_waiting = asyncio.ensure_future(transport.permit_several(several(1, 2)))
        await asyncio.sleep(0.01)
        transport.abort()
        self.assertEqual(protocol.lost, [])
        await transport.wait_closed()
        self.assertEqual((protocol.lost, self.server.lifetimes), ([None], []))
        for it in (waiting, several_waiting):
            with self.assertRaises(over.PeerRefused):
                await asyncio.wait_for(it, PATIENCE)

    async def test_aborted_by_what_comes(self) -> None:
        transport, protocol = await self.endpoint(PEER, is_stream=True)
        with mock.patch.object(protocol, "datagram_received", lambda data, addr: transport.abort()):
            self.server.brings(base.data("198.51.100.1:9000", b"one") * 3)
            await transport.wait_closed()
        self.assertEqual(protocol.lost, [None])

    async def test_the_server_closes(self) -> None:
        _, protocol = await self.endpoint(is_stream=True)
        self.server.writers[0].close()
        await until(lambda: protocol.lost)
        self.assertIsInstance(protocol.lost[0], over.AllocationLost)

    async def test_the_address_is_lost(self) -> None:
        """Its time is over, and it wasn't renewed: 600 seconds later, for the client."""
        self.server.silent.add(base.REFRESH)
        transport, protocol = await self.endpoint()
        later = 700 * 1_000_000_000
        with mock.patch.object(_driver, "monotonic_ns", lambda: time.monotonic_ns() + later):
            transport._wake()
            await until(lambda: protocol.lost)
        self.assertIsInstance(protocol.lost[0], over.AllocationLost)
        self.assertEqual((str(protocol.lost[0]), getattr(protocol.lost[0], "cause", None)),
                         ("the relayed address is gone: Its time was over.", turn.Expired()))


@unittest.skipUnless(shutil.which("openssl"), "openssl isn't installed")
class Tls(Case):
    """With a certificate for localhost alone."""

    folder: ClassVar[str]

    @classmethod
    def setUpClass(cls) -> None:
        cls.folder = tempfile.mkdtemp()
        cls.addClassCleanup(shutil.rmtree, cls.folder)
        subprocess.run(["openssl", "req", "-x509", "-newkey", "ec", "-pkeyopt", "ec_paramgen_curve:P-256", "-nodes",
                        "-days", "2", "-subj", "/CN=localhost", "-addext", "subjectAltName=DNS:localhost",
                        "-keyout", f"{cls.folder}/key", "-out", f"{cls.folder}/cert"], check=True, capture_output=True)

    async def asyncSetUp(self) -> None:
        await super().asyncSetUp()
        own = ssl.create_default_context(ssl.Purpose.CLIENT_AUTH)
        own.load_cert_chain(f"{self.folder}/cert", f"{self.folder}/key")
        self.at = await self.server.start(is_stream=True, ssl=own)
        self.trusting = ssl.create_default_context(cafile=f"{self.folder}/cert")

    async def test_datagrams(self) -> None:
        transport, protocol = await over.create_turn_endpoint(Notes, self.at, USER, PEER, ssl=self.trusting,
                                                              server_hostname="localhost")
        self.assertIsNotNone(transport.get_extra_info("ssl_object"))
        transport.sendto(b"one")
        await until(lambda: protocol.came)
        self.assertEqual(protocol.came, [(b"one", PEER)])
        transport.close()
        await transport.wait_closed()
        self.assertEqual(self.server.lifetimes, [0])

    async def test_a_connection(self) -> None:
        """The connection for it goes over TLS, too, under the same name."""
        reader, writer = await over.open_turn_connection(self.at, USER, PEER, ssl=self.trusting,
                                                         server_hostname="localhost")
        writer.write(b"hello")
        self.assertEqual(await reader.readexactly(5), b"hello")
        writer.close()
        await writer.wait_closed()

    async def test_another_name(self) -> None:
        asyncio.get_running_loop().set_exception_handler(lambda loop, context: None)  # of the server
        with self.assertRaises(ssl.SSLCertVerificationError):
            await over.create_turn_endpoint(Notes, self.at, USER, ssl=self.trusting)

    async def test_another_authority(self) -> None:
        asyncio.get_running_loop().set_exception_handler(lambda loop, context: None)  # of the server
        with self.assertRaises(ssl.SSLCertVerificationError):
            await over.create_turn_endpoint(Notes, self.at, USER, ssl=True, server_hostname="localhost")

    async def test_a_uri(self) -> None:
        for server in (f"turns:localhost:{self.at[1]}", f"TURNS:LocalHost.:{self.at[1]}?transport=tcp"):
            transport, _ = await over.create_turn_endpoint(Notes, server, USER, ssl=self.trusting)
            self.opened.append(transport)
            self.assertIsNotNone(transport.get_extra_info("ssl_object"))
        _, writer = await over.open_turn_connection(f"turns:localhost:{self.at[1]}", USER, PEER, ssl=self.trusting)
        self.assertIsNotNone(writer.get_extra_info("ssl_object"))
        writer.close()
        await writer.wait_closed()

    async def test_a_uri_alone(self) -> None:
        """The authorities are those of the system, and the certificate is to be valid for the URI's host."""
        asyncio.get_running_loop().set_exception_handler(lambda loop, context: None)  # of the server
        with self.assertRaises(ssl.SSLCertVerificationError):
            await over.create_turn_endpoint(Notes, f"turns:localhost:{self.at[1]}", USER)
        with mock.patch.dict(os.environ, {"SSL_CERT_FILE": f"{self.folder}/cert"}):  # which the system's default is
            transport, _ = await over.create_turn_endpoint(Notes, f"turns:localhost:{self.at[1]}", USER)
            self.opened.append(transport)
            self.assertIsNotNone(transport.get_extra_info("ssl_object"))
            with self.assertRaises(ssl.SSLCertVerificationError):
                await over.create_turn_endpoint(Notes, f"turns:127.0.0.1:{self.at[1]}", USER)


class Readme(Case):
    async def test_its_program(self) -> None:
        """It prints what came back."""
        at = await self.server.start()
        page = (HERE / "README.md").read_text(encoding="utf-8")
        program = next(it for it in page.split("```python\n") if "create_turn_endpoint(" in it and "import" in it[:6])
        text, _, _ = program.partition("\nasyncio.run(main())\n```")
        self.assertEqual(text.count("turn:127.0.0.1:3478"), 1)
        names: dict[str, Any] = {}
        exec(text.replace("turn:127.0.0.1:3478", "turn:{}:{}".format(*at)), names)  # noqa: S102
        with contextlib.redirect_stdout(io.StringIO()) as printed:
            await names["main"]()
        self.assertEqual(printed.getvalue(), f"{RELAYED} b'hello'\n")


class Connections(Case):
    """RFC 6062."""

    async def open(self) -> tuple[asyncio.StreamReader, asyncio.StreamWriter]:
        at = await self.server.start(is_stream=True)
        return await over.open_turn_connection(at, USER, PEER)

    async def test_both_ways(self) -> None:
        reader, writer = await self.open()
        self.assertEqual(writer.get_extra_info("peername"), PEER)
        sent = bytes(range(256)) * 4096
        for at in range(0, len(sent), 65536):
            writer.write(sent[at : at + 65536])
            await writer.drain()
        self.assertEqual(await reader.readexactly(len(sent)), sent)
        writer.close()
        await writer.wait_closed()
        self.assertEqual((self.server.lifetimes, b"".join(it[1] for it in self.server.payloads)), ([0], sent))
        self.assertEqual(self.server.requests, [base.ALLOCATE, base.CREATE_PERMISSION, base.CONNECT,
                                                base.CONNECTION_BIND, base.REFRESH])

    async def test_the_peer_speaks_first(self) -> None:
        """What it sends comes in one chunk with the response that makes the connection."""
        self.server.greeting = b"hello"
        reader, writer = await self.open()
        self.assertEqual(await reader.readexactly(5), b"hello")
        writer.transport.abort()
        await writer.wait_closed()

    async def test_the_peer_closes(self) -> None:
        self.server.greeting = b"hello"
        reader, writer = await self.open()
        assert self.server.bound is not None
        self.server.bound.close()
        self.assertEqual(await reader.read(), b"hello")
        self.assertTrue(writer.is_closing())
        await writer.wait_closed()
        self.assertEqual(self.server.lifetimes, [0])

    async def test_a_peer_that_cannot_be_reached(self) -> None:
        self.server.rejects[base.CONNECT] = 447
        with self.assertRaises(over.PeerRefused) as caught:
            await self.open()
        self.assertEqual(caught.exception.cause, turn.Rejected(447, "No\tway", True))
        self.assertEqual(self.server.lifetimes, [0])

    async def test_a_peer_that_is_denied(self) -> None:
        self.server.rejects[base.CREATE_PERMISSION] = 403
        with self.assertRaises(over.PeerRefused):
            await self.open()

    async def test_the_server_closes_all(self) -> None:
        reader, writer = await self.open()
        self.server.writers[0].close()
        with self.assertRaises(over.AllocationLost):
            await reader.read()
        with contextlib.suppress(over.AllocationLost):
            await writer.wait_closed()

    async def test_nothing_is_dropped(self) -> None:
        """While the peer reads nothing, the writer waits."""
        self.server.echoes = False
        _, writer = await self.open()
        assert self.server.bound is not None
        reading: Any = self.server.bound.transport
        reading.pause_reading()

        async def write() -> None:
            for _ in range(1000):
                writer.write(bytes(10_000))
                await writer.drain()

        writing = asyncio.ensure_future(write())
        await asyncio.sleep(0.2)
        self.assertFalse(writing.done())
        self.assertLess(writer.transport.get_write_buffer_size(), over.UNSENT_MAX + 20_000)
        reading.resume_reading()
        await writing
        await until(lambda: sum(len(it[1]) for it in self.server.payloads) == 10_000_000)
        writer.transport.abort()


if __name__ == "__main__":
    unittest.main()
