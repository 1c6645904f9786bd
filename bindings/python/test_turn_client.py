#!/usr/bin/env python3
"""test_turn_client.py: walks the exchanges of tests/c/samples.py by turn_client.py, and looks at this module's own.

    python3 bindings/python/test_turn_client.py

What is to be sent and told comes from tests/c/samples.py, which works it out by the RFCs. Sizes, offsets and numbers
come from bindings/c/include/turn_client.h, by cc (CC names another compiler). The shared library is the one that
turn_client.py finds.
What is freed is counted by a library of this test's own, whose malloc can be made to refuse: it is made of the archive
of dist/x86_64-linux-gnu, or of the folder that TURN_CLIENT_LIB names.
"""

from __future__ import annotations

import ctypes
import gc
import importlib
import importlib.util
import ipaddress
import os
import re
import shutil
import subprocess
import sys
import tempfile
import unittest
from collections.abc import Callable
from dataclasses import dataclass
from pathlib import Path
from typing import Any
from unittest import mock

HERE = Path(__file__).resolve().parent
ROOT = HERE.parents[1]
sys.dont_write_bytecode = True
sys.path[:0] = [str(HERE), str(ROOT / "tests" / "c")]

import turn_client  # noqa: E402

samples: Any = importlib.import_module("samples")
base: Any = importlib.import_module("samples_base")
others: Any = importlib.import_module("samples_settings")

INCLUDE = ROOT / "bindings" / "c" / "include"
HEADER = (INCLUDE / "turn_client.h").read_text()
NUMBERS = {name: int(value) for name, value in re.findall(r"\b(TURN_[A-Z0-9_]+) = (-?\d+)", HEADER)}
CC = os.environ.get("CC", "cc")
LIBRARY = turn_client._library()
IS_UNPROVED = LIBRARY.name == turn_client._UNPROVED
SANITIZER = ["-fsanitize=address"] * IS_UNPROVED  # which such a library is compiled for
FOLDER = Path(os.environ.get("TURN_CLIENT_LIB") or ROOT / "dist" / "x86_64-linux-gnu")
ARCHIVE = FOLDER / LIBRARY.with_suffix(".a").name
SOME_MS = 10

REFUSALS = {
    "TURN_NO_CLIENT": turn_client.NoClient, "TURN_ALREADY_OPEN": turn_client.AlreadyOpen,
    "TURN_BAD_FAMILY": turn_client.BadFamily, "TURN_BAD_TEXT": turn_client.BadText,
    "TURN_LONG_NAME": turn_client.LongName, "TURN_BAD_SETTING": turn_client.BadSetting,
    "TURN_SMALL_BUFFER": turn_client.SmallBuffer, "TURN_UNREAD": turn_client.Unread,
    "TURN_NO_ALLOCATION": turn_client.NoAllocation, "TURN_ALREADY_EXISTS": turn_client.AlreadyExists,
    "TURN_NO_PERMISSION": turn_client.NoPermission, "TURN_NO_CHANNEL": turn_client.NoChannel,
    "TURN_EXPIRED_CHANNEL": turn_client.ExpiredChannelExists, "TURN_NO_SOCKET": turn_client.NoTcpSocket,
    "TURN_TOO_LARGE": turn_client.TooLarge, "TURN_NO_MEMORY": turn_client.NoMemory,
    "TURN_ZERO_SEED": turn_client.ZeroSeed, "TURN_BAD_LENGTH": turn_client.BadLength,
    "TURN_BAD_ADDRESSES": turn_client.InvalidAddresses,
}
EVENTS = {
    "AllocationCreated": "TURN_ALLOCATION_CREATED", "AllocationCreateFailed": "TURN_ALLOCATION_FAILED",
    "PermissionCreated": "TURN_PERMISSION_CREATED", "PermissionCreateFailed": "TURN_PERMISSION_FAILED",
    "ChannelCreated": "TURN_CHANNEL_CREATED", "ChannelCreateFailed": "TURN_CHANNEL_FAILED",
    "TcpConnected": "TURN_TCP_CONNECTED", "TcpConnectFailed": "TURN_TCP_FAILED",
}
CAUSES = {
    "NoneType": "TURN_CAUSE_NONE", "Rejected": "TURN_REJECTED", "Unanswered": "TURN_UNANSWERED",
    "BadIntegrity": "TURN_INTEGRITY", "NoCommonAlgorithm": "TURN_NO_ALGORITHM", "OtherFamily": "TURN_OTHER_FAMILY",
    "CauseLost": "TURN_CAUSE_MEMORY", "Deleted": "TURN_DELETED", "Expired": "TURN_EXPIRED",
    "SocketClosed": "TURN_SOCKET_CLOSED", "Unusable": "TURN_UNUSABLE",
}


# ---- values as samples.py has them


def read(text: str) -> turn_client.Address:
    ip, port = text.rsplit(":", 1)
    return ip.strip("[]"), int(port)


def shown(address: turn_client.Address) -> str:
    ip, port = address
    return f"[{ip}]:{port}" if ":" in ip else f"{ip}:{port}"


def read_all(text: bytes) -> list[str]:
    """The IP addresses of peers: of each its family, and its octets."""
    peers = []
    while text:
        size = 17 if text[0] == 6 else 5
        peers.append(str(ipaddress.ip_address(text[1:size])))
        text = text[size:]
    return peers


def transport_of(text: str) -> turn_client.Transport:
    return turn_client.Transport[text.upper()]


def text_of(transport: Any) -> str:
    return str(transport.name).lower()


# ---- exchanges


@dataclass(frozen=True)
class Step:
    """A call, what it is given, and what it is to tell."""

    part: str
    now: int
    call: str
    given: dict[str, Any]
    want: dict[str, Any]
    answer: str | int


def recorded(make: Callable[[], Any]) -> tuple[dict[str, Any], list[Step]]:
    """The settings and the steps of an exchange."""
    steps: list[Step] = []

    def step(exchange: Any, call: str, given: dict[str, Any], want: dict[str, Any], answer: str | int = "TURN_OK",
             name: str | None = None, repeats: int = 0) -> None:
        part = exchange.parts[-1][0] + (f", {name}" if name else "")
        steps.append(Step(part, exchange.now, call, given, want, answer))

    with mock.patch.object(samples.Exchange, "step", step):
        exchange = make()
    return exchange.settings, steps


def asked(settings: dict[str, Any]) -> dict[str, Any]:
    """What an ALLOCATE asks for besides, and the pace, as a client's settings have it."""
    pace = settings.get("pace", 50)
    port = NUMBERS[settings.get("port", "TURN_PORT_ANY")]
    named = {"reservation_token": settings["reservation"].to_bytes(8, "big")} if "reservation" in settings else {
        "relayed_port": port}
    return {"requested_lifetime": settings.get("lifetime", 1800), "pace": 0 if pace == 0xFFFFFFFF else pace, **named}


def opened(module: Any, settings: dict[str, Any]) -> Any:
    """A client of a module under the seed of all exchanges."""
    waits = [settings[it] for it in ("sends", "first_wait", "most_wait", "last_wait") if it in settings]
    anonymous = settings.get("anonymous", "TURN_ANONYMOUS_AUTO")
    config = module.TurnConfig(
        base.NAME.decode(), base.SECRET.decode(), transport_of(settings["peers"]),
        settings.get("families", NUMBERS["TURN_IPV4"]), settings.get("integrity", NUMBERS["TURN_SHA1"]),
        NUMBERS[anonymous], module.RequestRetransmits(*waits) if waits else None,
        short_lifetimes=not settings.get("ignore_short_lifetimes"),
        attempt_indications=bool(settings.get("attempt_indications")), **asked(settings))
    return module.TurnClient(read(settings["local"]), read(settings["server"]), config,
                             transport_of(settings["transport"]), seed=base.SEED)


class Walker:
    """Makes the calls of an exchange by a module, each of which answers a status and what it told."""

    def __init__(self, module: Any, settings: dict[str, Any]) -> None:
        self.module, self.settings = module, settings
        self.client: Any = None
        self.joined: bytes = b""

    def told(self, step: Step) -> tuple[str | int, dict[str, Any]]:
        try:
            answer, told = getattr(self, step.call)(step)
            return answer, told
        except self.module.TurnError as error:
            names = {kind.__name__: name for name, kind in REFUSALS.items()}
            until = {"until": error.until} if step.call == "bind" and hasattr(error, "until") else {}
            return names[type(error).__name__], until

    def open(self, step: Step) -> Any:
        self.client = opened(self.module, self.settings)
        return "TURN_OK", {}

    def close(self, step: Step) -> Any:
        self.client.close()
        return "TURN_OK", {}

    def delete(self, step: Step) -> Any:
        self.client.delete(step.now)
        return "TURN_OK", {}

    # ---- what comes and goes

    def feed(self, step: Step) -> Any:
        data = step.given["bytes"]
        answer = self.client.recv(data, step.now, source=read(step.given["from"]), local=read(step.given["to"]))
        if isinstance(answer, self.module.PeerData):
            return self.payload(answer, data, step.want.get("start", 0))
        if isinstance(answer, self.module.PeerIcmp):
            return "TURN_ICMP", {"transport": text_of(answer.transport), "peer": shown(answer.peer),
                                 "icmp_type": answer.icmp_type, "icmp_code": answer.icmp_code,
                                 "number": answer.icmp_data}
        return {self.module.Handled(): "TURN_OK", self.module.Ignored(): "TURN_IGNORED"}[answer], {}

    def pull(self, step: Step) -> Any:
        answer = self.client.poll_recv(step.now)
        return ("TURN_NOTHING", {}) if answer is None else self.payload(answer, b"", 0)

    def payload(self, answer: Any, data: bytes, start: int) -> Any:
        told = {"transport": text_of(answer.transport), "peer": shown(answer.peer)}
        if isinstance(answer.data, bytes):
            self.joined = answer.data
            return "TURN_PAYLOAD", told | {"is_joined": True, "size": len(answer.data)}
        stands = answer.data.obj is data and data[start : start + len(answer.data)] == answer.data
        return "TURN_PAYLOAD", told | {"bytes": bytes(answer.data), "start": start if stands else None}

    def read(self, step: Step) -> Any:
        """The module has read them: they are given once."""
        joined, self.joined = self.joined, b""
        return ("TURN_OK", {"bytes": joined}) if joined else ("TURN_NOTHING", {})

    def draw(self, step: Step) -> Any:
        answer = self.client.poll_transmit(step.now)
        return ("TURN_NOTHING", {}) if answer is None else self.transmit(answer)

    def send(self, step: Step) -> Any:
        given = step.given["bytes"]
        data = bytes(given) if isinstance(given, int) else given
        return self.transmit(self.client.send_to(transport_of(step.given["transport"]), read(step.given["to"]), data,
                                                 step.now))

    @staticmethod
    def transmit(answer: Any) -> Any:
        return "TURN_OK", {"bytes": answer.data, "transport": text_of(answer.transport),
                           "from": shown(answer.source), "to": shown(answer.to)}

    # ---- time and events

    def poll(self, step: Step) -> Any:
        answer = self.client.poll(step.now)
        if isinstance(answer, self.module.Closed):
            return "TURN_CLOSED", {}
        if isinstance(answer, self.module.AllocateTcpSocket):
            return "TURN_OPEN_SOCKET", {
                "number": answer.id, "transport": text_of(answer.transport), "from": shown(answer.source),
                "to": shown(answer.to), "peer": shown(answer.peer)}
        if isinstance(answer, self.module.TcpClose):
            return "TURN_CLOSE_SOCKET", {"from": shown(answer.local), "to": shown(answer.remote)}
        return "TURN_OK", {"until": answer.moment}

    def event(self, step: Step) -> Any:
        event = self.client.poll_event()
        if event is None:
            return "TURN_NOTHING", {}
        kind = type(event).__name__
        if kind == "AllocationCreateFailed":
            address, transport = ("0.0.0.0:0" if event.family == NUMBERS["TURN_IPV4"] else "[::]:0"), "none"
        else:
            told = event.relayed if kind == "AllocationCreated" else event.peer
            address = shown((told, 0) if isinstance(told, str) else told)
            transport = "tcp" if kind.startswith("Tcp") else text_of(event.transport)
        return "TURN_OK", {"number": EVENTS[kind], "transport": transport, "peer": address}

    def expired(self, step: Step) -> Any:
        expired = self.client.poll_expired()
        if expired is None:
            return "TURN_NOTHING", {}
        return "TURN_OK", {"transport": text_of(expired.transport), "peer": shown(expired.relayed)}

    # ---- why it happened, and what the server named

    def cause(self, step: Step) -> Any:
        cause, server, domain = self.client.cause(), self.client.alternate_server(), self.client.alternate_domain()
        told: dict[str, Any] = {"number": CAUSES[type(cause).__name__]}
        if isinstance(cause, self.module.Rejected):
            told |= {"code": cause.code, "is_signed": cause.is_signed}
            told |= {"size": len(cause.reason.encode())} if cause.reason else {}
        told |= {"peer": shown(server)} if server else {}
        return "TURN_OK", told | ({"domain_size": len(domain.encode())} if domain else {})

    def reason(self, step: Step) -> Any:
        cause = self.client.cause()
        return self.text(cause.reason if isinstance(cause, self.module.Rejected) else None)

    def domain(self, step: Step) -> Any:
        return self.text(self.client.alternate_domain())

    @staticmethod
    def text(text: str | None) -> Any:
        return ("TURN_NOTHING", {}) if text is None else ("TURN_OK", {"bytes": text.encode()})

    def mapped(self, step: Step) -> Any:
        address = self.client.mapped_address()
        return ("TURN_NOTHING", {}) if address is None else ("TURN_OK", {"peer": shown(address)})

    def reservation(self, step: Step) -> Any:
        token = self.client.reservation_token()
        return ("TURN_NOTHING", {}) if token is None else ("TURN_OK", {"until": int.from_bytes(token, "big")})

    # ---- what is asked for, and what was done

    def permit(self, step: Step) -> Any:
        peer, _ = read(step.given["to"])
        self.client.create_permission(transport_of(step.given["transport"]), peer, step.now)
        return "TURN_OK", {}

    def permit_several(self, step: Step) -> Any:
        peers = read_all(step.given["bytes"])
        self.client.create_permissions(transport_of(step.given["transport"]), peers, step.now)
        return "TURN_OK", {}

    def bind(self, step: Step) -> Any:
        self.client.bind_channel(transport_of(step.given["transport"]), read(step.given["to"]), step.now)
        return "TURN_OK", {}

    def connect(self, step: Step) -> Any:
        self.client.tcp_connect(read(step.given["to"]), step.now)
        return "TURN_OK", {}

    def socket(self, step: Step) -> Any:
        local = None if step.given["from"] == base.NOBODY else read(step.given["from"])
        self.client.allocated_tcp_socket(step.given["number"], read(step.given["to"]), local, step.now)
        return "TURN_OK", {}

    def closed(self, step: Step) -> Any:
        self.client.tcp_closed(read(step.given["from"]), read(step.given["to"]), step.now)
        return "TURN_OK", {}

    # ---- how the client introduces itself

    def credentials(self, step: Step) -> Any:
        self.client.set_credentials(step.given["bytes"].decode(), step.given["password"].decode())
        return "TURN_OK", {}

    def software(self, step: Step) -> Any:
        self.client.set_software(step.given["bytes"].decode())
        return "TURN_OK", {}

    def fingerprint(self, step: Step) -> Any:
        self.client.set_fingerprint(step.given["number"] == 1)
        return "TURN_OK", {}

    # ---- what is held

    def held(self, step: Step, elements: list[dict[str, Any]]) -> Any:
        return len(elements), elements[step.given["number"]] if elements else {}

    def relayed(self, step: Step) -> Any:
        return self.held(step, [{"transport": text_of(transport), "peer": shown(address)}
                                for transport, address in self.client.relayed_addresses()])

    def permissions(self, step: Step) -> Any:
        peers = self.client.permissions(transport_of(step.given["transport"]), read(step.given["to"]))
        return self.held(step, [{"peer": shown((it, 0))} for it in peers])

    def is_permitted(self, step: Step) -> Any:
        peer, _ = read(step.given["to"])
        return int(self.client.have_permission(transport_of(step.given["transport"]), peer)), {}

    def channels(self, step: Step) -> Any:
        return self.held(step, [{"number": it.number, "peer": shown(it.peer)} for it in self.client.channels()])

    def connections(self, step: Step) -> Any:
        return self.held(step, [{"from": shown(it.local), "peer": shown(it.peer), "number": it.id,
                                 "is_bound": it.is_bound} for it in self.client.connections()])


def walk(test: unittest.TestCase, make: Callable[[], Any], module: Any = turn_client) -> set[str]:
    """Walks an exchange: the calls that were made."""
    settings, steps = recorded(make)
    walker = Walker(module, settings)
    for k, step in enumerate(steps):
        wanted = step.want if step.answer != "TURN_OK" or step.call != "open" else {}
        test.assertEqual(walker.told(step), (step.answer, wanted), f"{step.part}, step {k}: {step.call}")
    return {step.call for step in steps}


def many() -> Any:
    """Ten channels, more than a getter has room for at first. Then a payload with zeros comes in pieces."""
    t = samples.Exchange("many", "tcp")
    t.begins()
    t.challenged()
    t.granted()
    channels = [(base.A + k, f"198.51.100.1:{9000 + k}") for k in range(10)]
    for k, (number, peer) in enumerate(channels):
        t.at(100 + 50 * k)
        t.reaches("bind", peer)
        t.draws(base.bind(2 + k, number, peer))
        t.feeds(base.success(base.CHANNEL_BIND, 2 + k))
        if k == 0:
            t.tells("TURN_PERMISSION_CREATED", base.host(peer))
        t.tells("TURN_CHANNEL_CREATED", peer)
    t.holds_channels(*channels)
    frame = base.padded(base.A, b"\0a\0\0")
    t.feeds(frame[:5])
    t.gives_joined(frame[5:], channels[0][1], b"\0a\0\0")
    t.does("close")
    return t


EXCHANGES = (*samples.EXCHANGES, many)


class Exchanges(unittest.TestCase):
    """Each status, each byte that is to be sent, each event, getter and payload is what samples.py says."""

    def test_over_udp(self) -> None:
        self.assertLessEqual({"permit", "bind", "feed", "send", "channels"}, walk(self, samples.udp))

    def test_over_tcp(self) -> None:
        self.assertLessEqual({"permit", "bind", "feed", "pull", "read"}, walk(self, samples.tcp))

    def test_several_peers(self) -> None:
        self.assertLessEqual({"permit_several", "feed", "permissions"}, walk(self, samples.several))

    def test_connections(self) -> None:
        self.assertLessEqual({"connect", "socket", "closed", "connections"}, walk(self, samples.connections))

    def test_introduction(self) -> None:
        self.assertLessEqual({"credentials", "permit"}, walk(self, samples.replaced))
        self.assertLessEqual({"software", "fingerprint", "bind"}, walk(self, samples.introduced))

    def test_others(self) -> None:
        for make in EXCHANGES[3:]:
            with self.subTest(make.__name__):
                walk(self, make)


class Causes(unittest.TestCase):
    def test_with_its_event(self) -> None:
        """Two responses came, and then the events of both are taken."""
        settings, steps = recorded(samples.rejected)
        walker = Walker(turn_client, settings)
        for step in steps:
            if "two permissions" in step.part and step.call == "event":
                break
            walker.told(step)
        rejections = ((base.ONE, 403, "Forbidden"), (base.TWO, 508, "Insufficient Capacity"))
        for peer, code, reason in rejections:
            event = turn_client.PermissionCreateFailed(turn_client.Transport.UDP, read(peer)[0])
            cause = turn_client.Rejected(code, reason, True)
            self.assertEqual(walker.client.poll_event_with_cause(), (event, cause))
            self.assertEqual(walker.client.cause(), cause)
        self.assertIsNone(walker.client.poll_event_with_cause())

    def test_each_has_its_class(self) -> None:
        """In the order of the header, and no other."""
        numbers = {name: NUMBERS[name] for name in CAUSES.values()}
        kinds = re.search(r"enum turn_cause_kind {(.*?)^};", HEADER, re.DOTALL | re.MULTILINE)
        assert kinds is not None
        self.assertEqual(set(re.findall(r"TURN_\w+(?= =)", kinds[1])), set(numbers))
        self.assertEqual(turn_client._REJECTED, numbers["TURN_REJECTED"])
        for place, kind in enumerate(turn_client._OTHER_CAUSES):
            self.assertEqual(numbers[CAUSES[type(kind()).__name__]], turn_client._REJECTED + 1 + place)
        self.assertEqual(len(turn_client._OTHER_CAUSES), len(numbers) - 2)

    def test_closed(self) -> None:
        client, _ = allocated()
        client.close()
        calls: list[Callable[[], object]] = [client.cause, client.poll_event_with_cause, client.mapped_address,
                                             client.reservation_token, client.alternate_server, client.alternate_domain,
                                             client.poll_expired]
        for call in calls:
            with self.subTest(call), self.assertRaises(turn_client.NoClient):
                call()


# ---- refusals


def allocated() -> tuple[Any, int]:
    """A client with an allocation, and a moment then."""
    exchange = samples.Exchange("refusals")
    client = opened(turn_client, exchange.settings)
    client.poll_transmit(0)
    client.recv(base.challenge(), 0)
    now = 50 * base.MS
    client.poll_transmit(now)
    client.recv(base.grant(base.RELAYED), now)
    return client, now


class Refusals(unittest.TestCase):
    def test_each_has_its_class(self) -> None:
        refused = {name for name, value in NUMBERS.items() if value < 0}
        self.assertEqual(set(REFUSALS), refused)
        for name, kind in REFUSALS.items():
            with self.subTest(name), self.assertRaises(turn_client.TurnError) as caught:
                turn_client._checked(NUMBERS[name])
            self.assertIs(type(caught.exception), kind)
            self.assertRegex(str(caught.exception), "^[A-Za-z].* .*[.]$")
        self.assertEqual(turn_client._checked(NUMBERS["TURN_CLOSE_SOCKET"]), NUMBERS["TURN_CLOSE_SOCKET"])
        with self.assertRaisesRegex(turn_client.TurnError, "-99"):
            turn_client._checked(-99)

    def test_opening(self) -> None:
        def opens(name: str = "alice", word: str = "secret", **more: Any) -> None:
            config = turn_client.TurnConfig(name, word, **more)
            turn_client.TurnClient(read(base.OWN), read(base.SERVER), config).close()

        opens("a" * turn_client.NAME_MAX, "\u20ac")
        cases: list[tuple[type[turn_client.TurnError], dict[str, Any]]] = [
            (turn_client.LongName, {"name": "a" * (turn_client.NAME_MAX + 1)}),
            (turn_client.BadText, {"name": "\ud800"}), (turn_client.BadText, {"word": "\udfff"}),
            (turn_client.BadSetting, {"allocation_transport": turn_client.Transport.TCP}),
            (turn_client.BadSetting, {"address_families": 4}),
            (turn_client.BadSetting, {"anonymous_username": 3}),
        ]
        for kind, given in cases:
            with self.subTest(kind.__name__), self.assertRaises(kind):
                opens(**given)

    def test_introduction(self) -> None:
        """Nothing that is refused changes what the first request has."""
        client = opened(turn_client, samples.Exchange("refusals").settings)
        client.set_credentials("a" * turn_client.NAME_MAX, "\u20ac")
        client.set_software(others.PROGRAM[1].decode())
        client.set_fingerprint(True)
        long = "a" * (turn_client.SOFTWARE_MAX + 1)
        cases: list[tuple[type[turn_client.TurnError], Callable[[], object]]] = [
            (turn_client.LongName, lambda: client.set_credentials("a" * (turn_client.NAME_MAX + 1), "secret")),
            (turn_client.BadText, lambda: client.set_credentials("\ud800", "secret")),
            (turn_client.BadText, lambda: client.set_credentials("alice", "\udfff")),
            (turn_client.TooLarge, lambda: client.set_software(long)),
            (turn_client.BadText, lambda: client.set_software("\ud800")),
        ]
        for kind, call in cases:
            with self.subTest(kind.__name__), self.assertRaises(kind):
                call()
        self.assertEqual(client.poll_transmit(0).data, base.fingerprinted(base.first(base.UDP, others.PROGRAM)))
        client.set_software(long[:-1])
        client.set_software("")
        client.close()
        closed: list[Callable[[], object]] = [lambda: client.set_credentials("alice", "secret"),
                                              lambda: client.set_software(""), lambda: client.set_fingerprint(True)]
        for call in closed:
            with self.subTest(call), self.assertRaises(turn_client.NoClient):
                call()

    def test_seeds(self) -> None:
        config = turn_client.TurnConfig("alice", "secret")

        def first(seed: bytes | None) -> bytes:
            with turn_client.TurnClient(read(base.OWN), read(base.SERVER), config, seed=seed) as client:
                sent = client.poll_transmit(0)
            assert sent is not None
            return sent.data

        with self.assertRaises(turn_client.ZeroSeed):
            first(bytes(32))
        self.assertEqual(first(base.SEED), first(base.SEED))
        self.assertNotEqual(first(None), first(None))

    def test_algorithms(self) -> None:
        config = turn_client.TurnConfig("alice", "secret")
        self.assertEqual(config.supported_integrity, turn_client.Integrity.SHA1 | turn_client.Integrity.SHA256)

    @unittest.skipIf(IS_UNPROVED, "all channels take minutes where nothing is optimised")
    def test_all_channels(self) -> None:
        client, now = allocated()
        numbers = 0x8000 - 0x4000  # RFC 5766, section 11
        peers = [(f"198.51.{k // 256}.{k % 256}", 9000) for k in range(numbers + 1)]
        for peer in peers[:-1]:
            client.bind_channel(turn_client.Transport.UDP, peer, now)
        with self.assertRaises(turn_client.NoChannel):
            client.bind_channel(turn_client.Transport.UDP, peers[-1], now)

    def test_what_the_module_prevents(self) -> None:
        client, now = allocated()
        with self.assertRaises(turn_client.AlreadyOpen):
            client._open(turn_client.TurnConfig("alice", "secret"), base.SEED)
        with self.assertRaises(turn_client.BadFamily):
            client._status("permit", turn_client.Transport.UDP, turn_client._Address(), now)
        room = ctypes.create_string_buffer(1)
        with self.assertRaises(turn_client.BadLength):
            client._status("feed", client._server, client._local, room, -1, now, turn_client._Payload())
        with self.assertRaises(turn_client.SmallBuffer):
            client._status("draw", now, ctypes.create_string_buffer(1), 1, turn_client._Transmit())

    def test_unread(self) -> None:
        """Joined bytes that nobody read: the module does so before the next call."""
        settings, steps = recorded(samples.tcp)
        walker = Walker(turn_client, settings)
        for step in steps:
            if step.call == "feed" and step.want.get("is_joined"):
                break
            walker.told(step)
        feed = turn_client._CALL["feed"]
        payload, client = turn_client._Payload(), walker.client
        data = step.given["bytes"]
        feed(client._client, client._server, client._local, data, len(data), step.now, payload)
        with self.assertRaises(turn_client.Unread):
            client.poll_recv(step.now)

    def test_values(self) -> None:
        client, now = allocated()
        udp = turn_client.Transport.UDP
        waits = samples.Exchange("waits", sends=-1, first_wait=1, most_wait=1, last_wait=1).settings
        config = turn_client.TurnConfig("alice", "secret")
        calls: list[Callable[[], object]] = [
            lambda: client.create_permission(udp, "example.org", now),
            lambda: client.create_permissions(udp, ["198.51.100.1", "example.org"], now),
            lambda: client.create_permissions(udp, "198.51.100.1", now),
            lambda: client.bind_channel(udp, ("198.51.100.1", 0x10000), now),
            lambda: client.bind_channel(udp, ("198.51.100.1", -1), now),
            lambda: client.create_permission(udp, "198.51.100.1", -1),
            lambda: client.poll(turn_client.MOMENT_MAX + 1),
            lambda: client.create_permission((1 << 32) + udp, "198.51.100.1", now),
            lambda: opened(turn_client, waits),
            lambda: turn_client.TurnClient(read(base.OWN), read(base.SERVER), config, seed=base.SEED[1:]),
            lambda: turn_client.TurnClient(read(base.OWN), read(base.SERVER), config, seed=base.SEED * 2),
        ]
        for k, call in enumerate(calls):
            with self.subTest(k), self.assertRaises(ValueError):
                call()
        client.create_permission(udp, "198.51.100.1", now)  # nothing was asked for by these

    def test_wrong_bytes(self) -> None:
        client, now = allocated()
        for data in (None, "text", [1], 1):
            with self.subTest(repr(data)), self.assertRaises(TypeError):
                client.recv(data, now)
            with self.subTest(repr(data)), self.assertRaises(TypeError):
                client.send_to(turn_client.Transport.UDP, read(base.ONE), data, now)


class Buffers(unittest.TestCase):
    def test_bytes_that_change_later(self) -> None:
        client, now = allocated()
        client.create_permission(turn_client.Transport.UDP, read(base.ONE)[0], now)
        now += 50 * base.MS
        client.poll_transmit(now)
        client.recv(bytearray(base.success(base.CREATE_PERMISSION, 2)), now)
        came = bytearray(base.data(base.ONE, b"hello"))
        answer = client.recv(memoryview(came), now)
        came[:] = bytes(len(came))
        self.assertEqual(answer.data, b"hello")
        sent = client.send_to(turn_client.Transport.UDP, read(base.ONE), bytearray(b"hello"), now)
        self.assertEqual(sent.data, base.indication(3, base.ONE, b"hello"))


class Texts(unittest.TestCase):
    def test_password_is_not_shown(self) -> None:
        self.assertNotIn("secret", repr(turn_client.TurnConfig("alice", "secret")))

    def test_addresses_are_written_as_sockets_write_them(self) -> None:
        for text in ("0.0.0.0", "203.0.113.5", "::", "2001:db8::5", "::ffff:198.51.100.1"):
            made = turn_client._to_c((text, 0xFFFF))
            self.assertEqual(turn_client._of_c(made), (text, 0xFFFF))


class Library(unittest.TestCase):
    """Which shared library is loaded."""

    def test_it_is_not_there(self) -> None:
        with self.assertRaisesRegex(ImportError, "loaded from /nowhere/libturn_client.so"):
            loaded_from("/nowhere", "turn_client_of_nowhere")

    def test_another_platform(self) -> None:
        others = {"sys.platform": "darwin", "platform.machine": lambda: "aarch64", "os.confstr_names": {}}
        for name, value in others.items():
            refused = self.assertRaisesRegex(ImportError, "is made for x86-64 Linux with glibc, and this is ")
            with self.subTest(name), mock.patch(name, value), refused:
                loaded_from("", "turn_client_of_another_platform")

    @unittest.skipIf(IS_UNPROVED, "what isn't proved isn't installed")
    def test_installed(self) -> None:
        """What `pip install` unpacks is the module and the library that it loads."""
        with tempfile.TemporaryDirectory() as folder:
            wheel = Path(folder, importlib.import_module("make_wheel").build_wheel(folder))
            shutil.unpack_archive(wheel, folder, "zip")
            how: dict[str, Any] = {"cwd": folder, "capture_output": True, "text": True}
            told = "import turn_client as it; print(it._library(), it._CALL['relayed'].__name__)"
            ran = subprocess.run([sys.executable, "-c", told], env={"PYTHONPATH": folder}, check=True, **how)
            self.assertEqual(ran.stdout, f"{folder}/turn_client/libturn_client.so turn_client_relayed\n")


# ---- what is freed

METER = """
#include <stdlib.h>
void *__real_malloc(size_t), *__real_realloc(void *, size_t);
void __real_free(void *);
long held = 0, left = -1; /* blocks; and the allocations that are made before one is refused */
void *__wrap_malloc(size_t size) {
    void *block = left-- == 0 ? NULL : __real_malloc(size);
    held += block != NULL;
    return block;
}
void *__wrap_realloc(void *block, size_t size) {
    void *moved = left-- == 0 ? NULL : __real_realloc(block, size);
    held += block == NULL && moved != NULL;
    return moved;
}
void __wrap_free(void *block) {
    held -= block != NULL;
    __real_free(block);
}
"""


def loaded_from(folder: str, name: str) -> Any:
    """The module once more, over the shared library of another folder; of none the one that it finds itself."""
    spec = importlib.util.spec_from_file_location(name, HERE / "turn_client.py")
    assert spec is not None and spec.loader is not None
    module = importlib.util.module_from_spec(spec)
    with mock.patch.dict(os.environ, TURN_CLIENT_LIB=folder), mock.patch.dict(sys.modules, {name: module}):
        spec.loader.exec_module(module)
    return module


class Memory(unittest.TestCase):
    """Over a library that counts the blocks that it holds."""

    folder: str
    module: Any
    held: ctypes.c_long
    left: ctypes.c_long

    @classmethod
    def setUpClass(cls) -> None:
        cls.folder = tempfile.mkdtemp()
        cls.addClassCleanup(shutil.rmtree, cls.folder)
        source, library = Path(cls.folder, "meter.c"), Path(cls.folder, "libturn_client.so")
        source.write_text(METER)
        wraps = [f"-Wl,--wrap={it}" for it in ("malloc", "realloc", "free")]
        subprocess.run([CC, "-shared", "-fPIC", *SANITIZER, "-o", library, source, "-Wl,--whole-archive", ARCHIVE,
                        "-Wl,--no-whole-archive", *wraps], check=True)
        cls.module = loaded_from(cls.folder, "turn_client_metered")
        meter = ctypes.CDLL(str(library))
        cls.held, cls.left = (ctypes.c_long.in_dll(meter, it) for it in ("held", "left"))

    def opened(self) -> Any:
        client = opened(self.module, samples.Exchange("memory").settings)
        client.poll_transmit(0)
        self.assertGreater(self.held.value, 0)
        return client

    def setUp(self) -> None:
        self.assertEqual(self.held.value, 0)

    def test_closed(self) -> None:
        client = self.opened()
        client.close()
        self.assertEqual(self.held.value, 0)
        client.close()
        self.assertEqual((client.relayed_addresses(), client.channels(), client.connections()), ([], [], []))
        self.assertFalse(client.have_permission(self.module.Transport.UDP, "198.51.100.1"))
        with self.assertRaises(self.module.NoClient):
            client.poll(SOME_MS)

    def test_left(self) -> None:
        client = self.opened()
        with self.assertRaises(KeyError), client:
            raise KeyError
        self.assertEqual(self.held.value, 0)

    def test_forgotten(self) -> None:
        client = self.opened()
        del client
        gc.collect()
        self.assertEqual(self.held.value, 0)

    def test_exchanges(self) -> None:
        for make in EXCHANGES:
            with self.subTest(make.__name__):
                walk(self, make, self.module)
                self.assertEqual(self.held.value, 0)

    def is_refused(self, allocation: int) -> bool:
        """Whether opening a client and drawing its first message is, where so many allocations are made before."""
        self.left.value = allocation
        try:
            opened(self.module, samples.Exchange("memory").settings).poll_transmit(0)
        except self.module.NoMemory:
            return True
        finally:
            self.left.value = -1
        return False

    def test_refused_introduction(self) -> None:
        """Both texts want memory, and nothing has changed without it."""
        client = self.opened()
        calls: list[Callable[[], object]] = [lambda: client.set_credentials("bob", "another"),
                                             lambda: client.set_software("text")]
        for call in calls:
            self.left.value = 0
            with self.assertRaises(self.module.NoMemory):
                call()
            self.left.value = -1
            call()
        client.close()

    def test_refused(self) -> None:
        refused = 0
        while self.is_refused(refused):
            refused += 1
            gc.collect()
            self.assertEqual(self.held.value, 0)
        self.assertGreater(refused, 1)


# ---- what C says


class Structs(unittest.TestCase):
    def test_sizes_and_offsets(self) -> None:
        kinds = [it for it in vars(turn_client).values()
                 if isinstance(it, type) and issubclass(it, ctypes.Structure) and it is not ctypes.Structure]
        self.assertEqual({f"turn_{it.__name__[1:].lower()}" for it in kinds},
                         set(re.findall(r"^typedef struct (\w+) {", HEADER, re.MULTILINE)))
        want, asked = [], []
        for kind in kinds:
            name = f"turn_{kind.__name__[1:].lower()}"
            want.append(ctypes.sizeof(kind))
            asked.append(f"sizeof({name})")
            for told in kind._fields_:
                field, at = told[0], getattr(kind, told[0])
                want += [at.offset, at.size]
                asked += [f"offsetof({name}, {field.rstrip('_')})", f"sizeof((({name} *)0)->{field.rstrip('_')})"]
        self.assertEqual(self.asked_of_c(asked), want)

    def test_numbers(self) -> None:
        want = {
            "TURN_NAME_MAX": turn_client.NAME_MAX, "TURN_SOFTWARE_MAX": turn_client.SOFTWARE_MAX,
            "TURN_PAYLOAD_MAX": turn_client.PAYLOAD_MAX, "TURN_PERMIT_MAX": turn_client.PERMIT_MAX,
            "TURN_MOMENT_MAX": turn_client.MOMENT_MAX, "TURN_MESSAGE_MAX": turn_client._MESSAGE_MAX,
            "TURN_SEND_EXTRA": turn_client._SEND_EXTRA, "TURN_CLIENT_VERSION_NUMBER": turn_client.library_version(),
            "TURN_NOTHING": turn_client._NOTHING, "TURN_IGNORED": turn_client._IGNORED,
            "TURN_PAYLOAD": turn_client._PAYLOAD, "TURN_ICMP": turn_client._ICMP, "TURN_CLOSED": turn_client._CLOSED,
            "TURN_OPEN_SOCKET": turn_client._OPEN_SOCKET, "TURN_CLOSE_SOCKET": turn_client._CLOSE_SOCKET,
            **{f"TURN_{it.name}": it for it in (*turn_client.Transport, *turn_client.Families, *turn_client.Integrity)},
            **{f"TURN_ANONYMOUS_{it.name}": it for it in turn_client.Anonymous},
            **{name: kind.status for name, kind in REFUSALS.items()},
        }
        self.assertEqual(dict(zip(want, self.asked_of_c(list(want)))), want)

    def asked_of_c(self, asked: list[str]) -> list[int]:
        """What expressions are, by the header."""
        lines = "".join(f'    printf("%lld\\n", (long long)({it}));\n' for it in asked)
        with tempfile.TemporaryDirectory() as folder:
            source, program = Path(folder, "probe.c"), Path(folder, "probe")
            source.write_text(f'#include <stdio.h>\n#include "turn_client.h"\nint main(void) {{\n{lines}}}\n')
            subprocess.run([CC, "-std=c11", "-I", INCLUDE, "-o", program, source], check=True)
            told = subprocess.run([program], check=True, capture_output=True, text=True).stdout
        return [int(it) for it in told.split()]


if __name__ == "__main__":
    unittest.main()
