#!/usr/bin/env python3
"""test_uris.py: URIs of servers, as turn_client_asyncio reads them and goes by them.

    python3 bindings/python/test_uris.py

The rows are those of tests/driver/uris.c: RFC 7064 and RFC 7065 (their appendixes A), and what the grammars of these and
of RFC 3986 take or leave out. More rows are here. Servers are fake_server.py's.
"""

from __future__ import annotations

import re
import sys
import unittest
from pathlib import Path
from typing import Any

HERE = Path(__file__).resolve().parent
sys.dont_write_bytecode = True
sys.path.insert(0, str(HERE))

import turn_client as turn  # noqa: E402
import turn_client_asyncio as over  # noqa: E402
import test_turn_client_asyncio as driven  # noqa: E402
from turn_client_asyncio import TurnUri, UriError, UriRefusal, UriScheme, _uris  # noqa: E402

ROWS = HERE.parents[1] / "tests" / "driver" / "uris.c"
GOOD = re.compile(r'^    \{"(?P<text>[^"]+)", TURN_URI_(?P<scheme>\w+), "(?P<host>[^"]+)", (?P<port>\d+), '
                  r'(?P<transport>0|TURN_UDP|TURN_TCP), (?P<family>[046]), (?P<is_secure>true|false)\},$', re.MULTILINE)
BAD = re.compile(r'^    \{"(?P<text>[^"]*)", TURN_URI_(?P<refusal>\w+)\},$', re.MULTILINE)
UDP, TCP = turn.Transport.UDP, turn.Transport.TCP


def rows(name: str, form: re.Pattern[str]) -> list[dict[str, str]]:
    """The rows of an array of C."""
    table = ROWS.read_text(encoding="utf-8").partition(f" {name}[] = {{\n")[2].partition("\n};")[0]
    found = [it.groupdict() for it in form.finditer(table + "\n")]
    if len(found) != table.count('{"'):
        raise AssertionError(f"{ROWS}: rows of {name} have another form")
    return found


class Rows(unittest.TestCase):
    def test_what_is_read(self) -> None:
        """The driver of C tells no transport by 0."""
        found = rows("goods", GOOD)
        self.assertGreaterEqual(len(found), 25)
        for row in found:
            with self.subTest(row["text"]):
                uri = TurnUri.parse(row["text"])
                named = {"0": None, "TURN_UDP": UDP, "TURN_TCP": TCP}[row["transport"]]
                self.assertEqual((uri.scheme.name, uri.host, uri.port, uri.explicit_transport, uri.is_secure),
                                 (row["scheme"], row["host"], int(row["port"]), named, row["is_secure"] == "true"))
                self.assertEqual(":" in uri.host, row["family"] == "6")
                self.assertEqual(TurnUri.parse(str(uri)), uri)

    def test_what_is_refused(self) -> None:
        found = rows("bads", BAD)
        self.assertGreaterEqual(len(found), 48)
        for row in found:
            text = row["text"].encode().decode("unicode_escape").encode("latin-1").decode()
            with self.subTest(text):
                self.refuses(text, row["refusal"])
        self.assertEqual({it["refusal"] for it in found} | {"LONG_HOST", "NOT_TURN", "DTLS"},
                         {it.name for it in UriRefusal})

    def refuses(self, text: str, refusal: str) -> None:
        with self.assertRaises(UriError) as caught:
            TurnUri.parse(text)
        self.assertEqual((caught.exception.refusal.name, caught.exception.uri), (refusal, text))
        self.assertEqual(str(caught.exception), f"the URI of the server is refused: {caught.exception.refusal.value}")

    def test_more_that_is_refused(self) -> None:
        """Among them what C's texts can't have, and digits that are none of ASCII."""
        for text, refusal in (
                ("turn:[::1]3478", "BAD_HOST"), ("turn:example.org:+1", "BAD_PORT"), ("turn:[", "BAD_HOST"),
                ("turn:b\u00fccher.example", "BAD_HOST"), ("turn:example.org:80a", "BAD_PORT"),
                ("turn:example\0.org", "BAD_HOST"), ("turn:[::1\0]", "BAD_HOST"), ("turn:[\ud800]", "BAD_HOST"),
                ("turn:example.org\n", "BAD_HOST"), ("turn:example.org:3478\n", "BAD_PORT"),
                ("turn:example.org?transport=udp\n", "BAD_QUERY"), ("turn:\u0661.2.3.4", "BAD_HOST"),
                ("turn:example.org:\u0661", "BAD_PORT"), ("turn:example.org:" + "9" * 5000, "BAD_PORT"),
                ("turn:[" + "0" * 5000 + "::]", "BAD_HOST"), ("turn:example.org?transport=\u0131", "BAD_QUERY"),
                ("stuns:example.org?transport=tcp", "BAD_QUERY"), ("turn:alice:secret@example.org", "BAD_PORT")):
            with self.subTest(text):
                self.refuses(text, refusal)

    def test_long_hosts(self) -> None:
        """Names of 253 and 254 bytes, and labels of 63 and 64 (RFC 1035, section 2.3.4)."""
        name = (49 * "a" + ".") * 5 + 3 * "a"
        self.assertEqual(TurnUri.parse(f"turn:{name}").host, name)
        self.assertEqual(TurnUri.parse(f"turn:{name}.").host, name)
        self.refuses(f"turn:{name}a", "LONG_HOST")
        TurnUri.parse(f"turn:{63 * 'a'}.org")
        self.refuses(f"turn:{64 * 'a'}.org", "BAD_HOST")

    def test_case(self) -> None:
        """The texts of a grammar are without case (RFC 5234, section 2.3)."""
        uri = TurnUri.parse("TURN:example.org?TRANSPORT=Tcp")
        self.assertEqual((uri.scheme, uri.transport), (UriScheme.TURN, TCP))

    def test_defaults(self) -> None:
        """RFC 8656, section 18.9; RFC 7065, section 3.2."""
        for text, port, transport in (("turn:example.org", 3478, UDP), ("turn:example.org?transport=tcp", 3478, TCP),
                                      ("turns:example.org", 5349, TCP), ("turns:example.org:443", 443, TCP),
                                      ("stun:example.org", 3478, UDP), ("stuns:example.org", 5349, TCP)):
            uri = TurnUri.parse(text)
            self.assertEqual((uri.port, uri.transport, str(uri)), (port, transport, text))
            self.assertEqual((uri.is_turn, uri.explicit_transport), (text[0] == "t", TCP if "=tcp" in text else None))


class Ways(unittest.TestCase):
    """How the server of a URI is reached, with what is given beside it."""

    def way(self, text: str, transport: Any = None, ssl: Any = None) -> Any:
        return _uris.way_to(TurnUri.parse(text), transport, ssl)

    def test_ways(self) -> None:
        at, secure = ("example.org", 3478), ("example.org", 5349)
        self.assertEqual(self.way("turn:example.org"), (at, UDP, None))
        self.assertEqual(self.way("turn:example.org", TCP), (at, TCP, None))
        self.assertEqual(self.way("turn:example.org?transport=tcp", TCP, False), (at, TCP, False))
        self.assertEqual(self.way("turns:example.org"), (secure, TCP, True))
        self.assertEqual(self.way("turns:example.org?transport=tcp", TCP, True), (secure, TCP, True))

    def test_no_way(self) -> None:
        for text, transport, refusal in (("stun:example.org", None, UriRefusal.NOT_TURN),
                                         ("stuns:example.org", None, UriRefusal.NOT_TURN),
                                         ("turns:example.org?transport=udp", None, UriRefusal.DTLS),
                                         ("turns:example.org", UDP, UriRefusal.DTLS)):
            with self.subTest(text), self.assertRaises(UriError) as caught:
                self.way(text, transport)
            self.assertEqual((caught.exception.refusal, caught.exception.uri), (refusal, text))

    def test_contradictions(self) -> None:
        for text, transport, ssl in (("turn:example.org?transport=udp", TCP, None), ("turn:example.org", TCP, True),
                                     ("turn:example.org?transport=tcp", UDP, None), ("turns:example.org", None, False),
                                     ("turn:example.org", 5, None)):
            with self.subTest(f"{text} {transport} {ssl}"), self.assertRaises(ValueError) as caught:
                self.way(text, transport, ssl)
            self.assertNotIsInstance(caught.exception, UriError)


class Endpoints(driven.Case):
    """The drivers take a URI where they take an address."""

    async def goes_and_comes_back(self, server: Any, **more: Any) -> Any:
        transport, protocol = await over.create_turn_endpoint(driven.Notes, server, driven.USER, driven.PEER, **more)
        self.opened.append(transport)
        transport.sendto(b"one")
        await driven.until(lambda: protocol.came)
        self.assertEqual(protocol.came, [(b"one", driven.PEER)])
        return transport

    async def test_udp(self) -> None:
        at = await self.server.start()
        for server in (f"turn:127.0.0.1:{at[1]}", TurnUri.parse(f"turn:127.0.0.1:{at[1]}?transport=udp")):
            transport = await self.goes_and_comes_back(server)
            self.assertEqual(transport.get_extra_info("server_address"), at)
            self.assertEqual(transport._client.transport, UDP)

    async def test_tcp(self) -> None:
        at = await self.server.start(is_stream=True)
        transport = await self.goes_and_comes_back(f"turn:127.0.0.1:{at[1]}?transport=tcp")
        self.assertEqual(transport._client.transport, TCP)
        await self.goes_and_comes_back(f"turn:127.0.0.1:{at[1]}", transport=TCP)

    async def test_a_connection(self) -> None:
        """It is over TCP also if the URI names no transport."""
        at = await self.server.start(is_stream=True)
        reader, writer = await over.open_turn_connection(f"turn:127.0.0.1:{at[1]}", driven.USER, driven.PEER)
        writer.write(b"hello")
        self.assertEqual(await reader.readexactly(5), b"hello")
        writer.close()
        await writer.wait_closed()

    async def test_refused(self) -> None:
        """Before anything is sent or looked up."""
        at = await self.server.start()
        for text in ("", "127.0.0.1:3478", f"stun:127.0.0.1:{at[1]}", f"turns:127.0.0.1:{at[1]}?transport=udp"):
            with self.subTest(text), self.assertRaises(UriError):
                await over.create_turn_endpoint(driven.Notes, text, driven.USER)
            with self.subTest(text), self.assertRaises(UriError):
                await over.open_turn_connection(text, driven.USER, driven.PEER)
        with self.assertRaisesRegex(ValueError, "over UDP, and transport says otherwise"):
            await over.open_turn_connection(f"turn:127.0.0.1:{at[1]}?transport=udp", driven.USER, driven.PEER)
        with self.assertRaisesRegex(ValueError, "only meaningful with ssl"):
            await over.create_turn_endpoint(driven.Notes, f"turn:127.0.0.1:{at[1]}", driven.USER, server_hostname="a")
        self.assertEqual((self.server.unsigned, self.server.requests), (0, []))


if __name__ == "__main__":
    unittest.main()
