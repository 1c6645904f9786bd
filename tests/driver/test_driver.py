"""test_driver.py: the driver of C against a server of this test's own, on loopback.

    python3 -m unittest discover tests/driver

The driver is built of its sources, under sanitizers, and its courses are in cases.c; uris.c has
rows of URIs. The server is bindings/python/fake_server.py. The library is that of dist/;
TURN_CLIENT_LIB names another folder. It wants cc (CC names another compiler); TLS is tried where
`openssl` makes a certificate and OpenSSL's headers are there. tests/live tries the driver against
coturn.
"""

import asyncio
import logging
import os
import re
import shutil
import ssl
import subprocess
import sys
import tempfile
import unittest
from pathlib import Path

TOP = Path(__file__).resolve().parents[2]
sys.dont_write_bytecode = True
sys.path[:0] = [str(TOP / "bindings" / "python"), str(TOP / "tools")]

import released  # noqa: E402
from fake_server import FakeServer, base  # noqa: E402

BINDING = TOP / "bindings" / "c"
LIBRARY = Path(os.environ.get("TURN_CLIENT_LIB") or TOP / "dist" / "x86_64-linux-gnu")
CC = os.environ.get("CC", "cc")
STRICT = ("-std=c11", "-Wall", "-Wextra", "-Wpedantic", "-Werror")
SANITIZERS = ("-g", "-O1", "-fsanitize=address,undefined", "-fno-sanitize-recover=all")
PATIENCE = 90  # seconds that a course may take
HAS_OPENSSL = not subprocess.run(
    [CC, "-x", "c", "-fsyntax-only", "-"], input="#include <openssl/ssl.h>\n", text=True,
    capture_output=True, check=False).returncode
ROOM = tempfile.TemporaryDirectory(prefix="driver-")
PEER = "198.51.100.1:9000"
logging.getLogger("asyncio").setLevel(logging.CRITICAL)  # not that a handshake failed


def archive():
    """The library of the client: the proved one, or that of bindings/c/try."""
    proved = LIBRARY / "libturn_client.a"
    return proved if proved.is_file() else LIBRARY / "libturn_client_unproved.a"


def build(name, *options):
    """Builds a program of this folder with the driver's sources."""
    sources = [it for it in sorted((BINDING / "driver").glob("*.c"))
               if HAS_OPENSSL or it.stem != "openssl"]
    more = ("-DWITH_OPENSSL", "-lssl", "-lcrypto") if HAS_OPENSSL else ()
    made = Path(ROOM.name, name)
    program = Path(__file__).with_name(f"{name}.c")
    words = [CC, *STRICT, *SANITIZERS, *options, f"-I{BINDING}/include", program, *sources,
             archive(), *more, "-o", made]
    subprocess.run([str(it) for it in words], check=True)
    return made


def setUpModule():
    build("uris")
    build("cases", "-Wl,--wrap=malloc,--wrap=calloc")


def tearDownModule():
    ROOM.cleanup()


class Uris(unittest.TestCase):
    def test_each_row(self):
        ran = subprocess.run([Path(ROOM.name, "uris")], capture_output=True, text=True, check=False)
        self.assertEqual(ran.returncode, 0, ran.stdout + ran.stderr)
        self.assertRegex(ran.stdout, r"^\d{3} passed, 0 failed$")


class Course(unittest.IsolatedAsyncioTestCase):
    """Runs a course of cases.c against a server."""

    async def asyncSetUp(self):
        self.server = FakeServer()
        self.addCleanup(self.server.stop)

    async def run_course(self, name, uri, *more):
        words = [str(it) for it in (Path(ROOM.name, "cases"), name, uri, *more)]
        ran = await asyncio.create_subprocess_exec(*words, stdout=asyncio.subprocess.PIPE,
                                                   stderr=asyncio.subprocess.STDOUT)
        printed, _ = await asyncio.wait_for(ran.communicate(), PATIENCE)
        self.assertEqual((ran.returncode, printed.decode()), (0, ""))

    async def course(self, name, is_stream=False):
        _, port = await self.server.start(is_stream)
        await self.run_course(name, f"turn:127.0.0.1:{port}" + "?transport=tcp" * is_stream)


class Opening(Course):
    async def test_what_is_refused(self):
        await self.run_course("refused", "")
        await self.run_course("refused_options", "")

    async def test_the_server_rejects_it(self):
        self.server.rejects[base.ALLOCATE] = 486
        await self.course("rejected")

    async def test_a_wrong_password(self):
        self.server.rejects[base.ALLOCATE] = 401
        await self.course("wrong_password")

    async def test_no_response_in_time(self):
        self.server.silent.add(base.ALLOCATE)
        await self.course("late")

    async def redirected(self, is_stream):
        other = FakeServer()
        self.addCleanup(other.stop)
        _, port = await other.start(is_stream)
        self.server.elsewhere = f"127.0.0.1:{port}"
        await self.course("redirected", is_stream)
        self.assertEqual((self.server.unsigned, other.count(base.ALLOCATE)), (2, 1))

    async def test_another_server_is_followed_over_udp(self):
        await self.redirected(is_stream=False)

    async def test_another_server_is_followed_over_tcp(self):
        await self.redirected(is_stream=True)

    async def test_no_server_is_tried_twice(self):
        _, port = await self.server.start()
        self.server.elsewhere = f"127.0.0.1:{port}"
        await self.run_course("redirected_in_a_circle", f"turn:127.0.0.1:{port}")
        self.assertEqual(self.server.unsigned, 1)


class Datagrams(Course):
    async def back_and_forth(self, is_stream):
        await self.course("datagrams", is_stream)
        self.assertEqual(self.server.payloads, [
            (PEER, b"one", False), (PEER, b"other", True), (PEER, b"", True)])
        self.assertEqual(self.server.count(base.CREATE_PERMISSION), 1)
        self.assertEqual(self.server.count(base.CHANNEL_BIND), 1)
        self.assertEqual(self.server.lifetimes, [0])  # the address is given back

    async def test_over_udp(self):
        await self.back_and_forth(is_stream=False)

    async def test_over_tcp(self):
        await self.back_and_forth(is_stream=True)

    async def test_by_a_name_of_which_one_address_listens(self):
        for is_stream in (False, True):
            _, port = await self.server.start(is_stream)
            await self.run_course("permits", f"turn:localhost:{port}" + "?transport=tcp" * is_stream)

    async def test_over_tcp_in_chunks_of_three_bytes(self):
        self.server.chunk = 3
        await self.back_and_forth(is_stream=True)

    async def test_indications(self):
        await self.course("indications")
        self.assertEqual([by for _, _, by in self.server.payloads], [False] * 3)
        self.assertEqual(self.server.count(base.CHANNEL_BIND), 0)

    async def test_a_rejected_channel_leaves_indications(self):
        self.server.rejects[base.CHANNEL_BIND] = 508
        await self.course("datagrams")
        self.assertEqual([by for _, _, by in self.server.payloads], [False] * 3)
        self.assertEqual(self.server.count(base.CHANNEL_BIND), 1)  # it isn't requested again

    async def test_what_is_refused(self):
        await self.course("arguments")

    async def test_a_permission(self):
        await self.course("permits")
        self.assertEqual(self.server.count(base.CREATE_PERMISSION), 1)

    async def test_permissions_of_several(self):
        for is_stream in (False, True):
            self.server.permissions.clear()
            await self.course("permits_several", is_stream)
            self.assertEqual(self.server.permissions, [["198.51.100.2"],
                                                       ["198.51.100.1", "198.51.100.3"]])

    async def test_permissions_of_as_many_as_may_be(self):
        await self.course("permits_many")
        self.assertEqual(self.server.permissions, [[f"198.51.101.{it}" for it in range(32)]])

    async def test_permissions_of_which_one_is_requested(self):
        await self.course("permits_beside_a_send")
        self.assertEqual(self.server.permissions, [["198.51.100.1"],
                                                   ["198.51.100.2", "198.51.100.3"]])

    async def test_rejected_permissions_of_several(self):
        self.server.denies.add("198.51.100.3")
        await self.course("rejected_peers")
        self.assertEqual(self.server.permissions, [
            ["198.51.100.1"], ["198.51.100.2", "198.51.100.3"], ["198.51.100.2"]])

    async def test_what_is_refused_of_several(self):
        await self.course("arguments_of_several")
        self.assertEqual(self.server.permissions, [])

    async def test_a_rejected_permission(self):
        self.server.rejects[base.CREATE_PERMISSION] = 403
        await self.course("rejected_peer", is_stream=True)
        self.assertEqual(self.server.payloads, [])

    async def test_so_many_wait_for_a_permission(self):
        self.server.silent.add(base.CREATE_PERMISSION)
        await self.course("waiting")
        await self.course("waiting_bytes")
        self.assertEqual(self.server.payloads, [])

    async def test_a_small_buffer(self):
        await self.course("small_buffer")

    async def test_so_many_wait_to_be_taken(self):
        await self.course("received", is_stream=True)

    async def test_an_icmp_report(self):
        self.server._payload = lambda *given: self.server.brings(base.REPORT)
        await self.course("unreachable")

    async def test_in_a_loop_of_ones_own(self):
        await self.course("own_loop")
        await self.course("own_loop", is_stream=True)

    async def test_waiting_does_not_spin(self):
        await self.course("idle")
        await self.course("idle", is_stream=True)


class Ends(Course):
    async def test_the_server_closes_the_connection(self):
        self.server._payload = lambda *given: [it.close() for it in self.server.writers]
        await self.course("lost", is_stream=True)

    async def test_the_end_is_not_confirmed(self):
        self.server.silent.add(base.REFRESH)
        await self.course("silent_end")

    async def test_aborted(self):
        await self.course("aborted")
        await asyncio.sleep(0.1)
        self.assertEqual(self.server.lifetimes, [])


class Memory(Course):
    """Each allocation of the driver and of the client fails in turn."""

    async def test_datagrams_over_udp(self):
        await self.course("refused_memory")

    async def test_datagrams_over_tcp(self):
        await self.course("refused_memory", is_stream=True)

    async def test_permissions(self):
        await self.course("refused_memory_of_permissions", is_stream=True)

    async def test_a_connection(self):
        await self.course("refused_memory_of_connection", is_stream=True)


class Connections(Course):
    async def test_a_million_bytes_both_ways(self):
        await self.course("connection", is_stream=True)
        self.assertEqual(sum(len(data) for _, data, _ in self.server.payloads), 1_000_000)
        self.assertEqual(self.server.lifetimes, [0])

    async def test_nothing_is_lost_that_nobody_reads(self):
        self.server.greeting = bytes(it % 251 for it in range(2_000_000))
        await self.course("unread", is_stream=True)

    async def test_the_peer_closes(self):
        self.server.greeting = b"welcome"

        async def close(_reader, writer):
            writer.close()

        self.server._relay = close
        await self.course("ended", is_stream=True)

    async def test_the_server_rejects_it(self):
        self.server.rejects[base.CONNECT] = 447
        await self.course("rejected_connection", is_stream=True)


@unittest.skipUnless(HAS_OPENSSL and shutil.which("openssl"),
                     "OpenSSL's headers or its program aren't installed")
class Tls(Course):
    async def tls_course(self, name, host="127.0.0.1"):
        room = tempfile.TemporaryDirectory(prefix="driver-tls-")
        self.addCleanup(room.cleanup)
        certificate, key = Path(room.name, "certificate.pem"), Path(room.name, "key.pem")
        subprocess.run(
            ["openssl", "req", "-x509", "-newkey", "ec", "-pkeyopt", "ec_paramgen_curve:P-256",
             "-nodes", "-days", "2", "-subj", "/CN=test", "-addext", "subjectAltName=IP:127.0.0.1",
             "-keyout", key, "-out", certificate],
            check=True, capture_output=True)
        context = ssl.SSLContext(ssl.PROTOCOL_TLS_SERVER)
        context.load_cert_chain(certificate, key)
        _, port = await self.server.start(True, context)
        await self.run_course(name, f"turns:{host}:{port}", certificate)

    async def test_datagrams(self):
        await self.tls_course("over_tls")
        self.assertEqual([by for _, _, by in self.server.payloads], [False, True, True])

    async def test_a_connection(self):
        await self.tls_course("connection_over_tls")
        self.assertEqual(sum(len(data) for _, data, _ in self.server.payloads), 1_000_000)

    async def test_a_certificate_for_another_host(self):
        await self.tls_course("another_host", host="localhost")

    async def test_a_certificate_that_nobody_vouches_for(self):
        await self.tls_course("untrusted")

    async def test_no_file_of_authorities(self):
        await self.run_course("no_authorities", "")

    async def test_a_server_without_tls(self):
        _, port = await self.server.start(True)
        await self.run_course("no_tls", f"turns:127.0.0.1:{port}")


class Sources(unittest.TestCase):
    """What holds of the files of the driver."""

    def test_each_file_is_in_the_archive(self):
        script = (BINDING / "build_driver").read_text()
        listed = re.findall(r"^ *archive turn_driver(?:_openssl)? (.*)$", script, re.M)
        self.assertEqual(sorted(" ".join(listed).split()),
                         sorted(it.stem for it in (BINDING / "driver").glob("*.c")))

    def test_a_release_counts_each_file(self):
        counted = [it for it in released.COPIES["libturn_driver.a"] if "/driver/" in it]
        there = [str(it.relative_to(TOP)) for it in (BINDING / "driver").iterdir()]
        self.assertEqual(sorted(counted), sorted(it for it in there if "openssl" not in it))


if __name__ == "__main__":
    unittest.main()
