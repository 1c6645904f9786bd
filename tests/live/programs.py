"""The programs that are run: how each is built, and which options it takes."""

import glob
import os
import re
import shutil
import subprocess
import sys
from dataclasses import dataclass

ROOT = os.path.abspath(os.path.join(os.path.dirname(__file__), "..", ".."))
LIBRARY = os.path.join(ROOT, "dist", "x86_64-linux-gnu")  # the folder of the released library
UNPROVED = "libturn_client_unproved"  # as bindings/c/try names it
PEERS = {"run": ["--peer"], "stream": ["--connect"], "opens": ["--accept"], "echo": ["--echo"], "none": []}  # by which it learns its peer
DEBIAN_CRATES = "/usr/share/cargo/registry"
C_FILES = ("turn_client.c", "options.c", "sockets.c", "tally.c")
C_DRIVER_FILES = ("example_driver.c", *(f"driver/{it}.c" for it in (
    "address", "buffers", "clock", "connection", "datagrams", "driver", "failure", "line", "openssl", "turns", "uri")))
SANITIZERS = ("-g", "-O1", "-fsanitize=address,undefined", "-fno-sanitize-recover=all", "-fno-omit-frame-pointer")


@dataclass(frozen=True)
class Program:
    """One to run, over the transports to the server that it has."""

    name: str
    command: tuple
    transports: tuple
    takes: frozenset
    driver: bool = False  # whether it leaves the client to a driver of the repository

    def options(self, case):
        """The options of a case, in those words that the program has. Lacks tells that it has none."""
        if case.peer == "opens":  # it sends what it gets, and no payloads of its own
            given = ["--tcp"] if len(self.transports) > 1 else []
            given += ["--family", case.family] if "--family" in self.takes else []
            return [*given, "--seconds", str(case.seconds), *case.options]
        given = ["--count", str(case.count), "--size", str(case.size)]
        if case.seconds:
            given += ["--seconds", str(case.seconds)]
        if case.interval:
            given += ["--interval", str(case.interval)]
        if "--family" in self.takes:
            given += ["--family", case.family]
        elif case.family == "both":
            raise Lacks("--family")  # for one alone it goes by the peer's
        given += self._algorithms(case)
        if case.indications:
            given.append("--indications")
        if case.transport == "tcp" and len(self.transports) > 1:
            given.append("--tcp")
        given += [*case.options, *({"echo": ["--echo"]}.get(case.peer, []))]
        for one in [*given, *PEERS[case.peer]]:
            if one.startswith("--") and one not in self.takes:
                raise Lacks(one)
        return given

    def _algorithms(self, case):
        if case.algorithms == "sha1":
            return ["--algorithms", "sha1"] if "--algorithms" in self.takes else []
        if case.algorithms == "sha256" and "--sha256" in self.takes:
            return ["--sha256"]
        return ["--algorithms", case.algorithms]


class Lacks(Exception):
    """A program has no such option."""


@dataclass(frozen=True)
class Absent:
    """A program that can't be run, and why."""

    name: str
    why: str


def _made(name, command, transports, cwd=None, driver=False):
    """A program whose options are those that its help names."""
    told = subprocess.run([*command, "--help"], capture_output=True, text=True, check=False, cwd=cwd)
    takes = frozenset(re.findall(r"--[a-z][a-z0-9-]*", told.stdout + told.stderr))
    if told.returncode != 0 or "--server" not in takes:
        return Absent(name, "its help names no options")
    return Program(name, tuple(command), transports, takes, driver)


def _build(command, cwd, log):
    with open(log, "ab") as out:
        return subprocess.run(command, cwd=cwd, stdin=subprocess.DEVNULL, stdout=out, stderr=out,
                              check=False).returncode == 0


def _library(archive):
    """The static library of a folder: one that is proved, or of bindings/c/try."""
    unproved = os.path.join(archive, UNPROVED + ".a")
    return unproved if os.path.exists(unproved) else os.path.join(archive, "libturn_client.a")


def of_c(archive, folder):
    """bindings/c/turn_client.c under sanitizers. The archive is proved code, and isn't instrumented."""
    name, made = "bindings/c/turn_client.c", os.path.join(folder, "turn_client")
    compiler = os.environ.get("CC") or shutil.which("clang") or "cc"
    library = _library(archive)
    if not os.path.exists(library):
        return [Absent(name, f"there is no {library}")]
    command = [compiler, "-std=c11", *SANITIZERS, "-Wall", "-Wextra", "-I" + archive, *C_FILES, library, "-o", made]
    if not _build(command, os.path.join(ROOT, "bindings", "c"), os.path.join(folder, "build-c.log")):
        return [Absent(name, "it isn't built: see build-c.log")]
    return [_made(name, [made], ("udp", "tcp"))]


def of_c_driver(archive, folder):
    """bindings/c/example_driver.c with the sources of the driver, under sanitizers."""
    name, made = "bindings/c/example_driver.c", os.path.join(folder, "example_driver")
    compiler = os.environ.get("CC") or shutil.which("clang") or "cc"
    library = _library(archive)
    if not os.path.exists(library):
        return [Absent(name, f"there is no {library}")]
    command = [compiler, "-std=c11", *SANITIZERS, "-Wall", "-Wextra", "-Iinclude", *C_DRIVER_FILES, library, "-lssl",
               "-lcrypto", "-o", made]
    if not _build(command, os.path.join(ROOT, "bindings", "c"), os.path.join(folder, "build-c-driver.log")):
        return [Absent(name, "it isn't built, for which it wants libssl-dev: see build-c-driver.log")]
    return [_made(name, [made], ("udp", "tcp", "tls"), driver=True)]


def of_rust(archive, folder):
    """The examples of bindings/rust/: each with a loop of its own over one transport; over the driver socket.rs, and
    example-rustls."""
    source = os.path.join(ROOT, "bindings", "rust")
    transports = {"udp": ("udp",), "tcp": ("tcp",), "accept": ("tcp",), "socket": ("udp", "tcp")}
    names = {kind: f"bindings/rust/examples/{kind}.rs" for kind in transports}
    if not os.path.isdir(source) or shutil.which("cargo") is None:
        return [Absent(name, "no folder bindings/rust/, or no cargo") for name in names.values()]
    target = os.path.join(folder, "rust-target")
    environment = ["env", "TURN_CLIENT_LIB=" + archive, "CARGO_TARGET_DIR=" + target]
    build, log = ["cargo", "build", "--offline", "--release"], os.path.join(folder, "build-rust.log")
    if not _build([*environment, *build, "--examples"], source, log):
        return [Absent(name, "it isn't built: see build-rust.log") for name in names.values()]
    made = [_made(names[kind], [os.path.join(target, "release", "examples", kind)], by, driver=kind == "socket")
            for kind, by in transports.items()]
    return [*made, _of_rustls([*environment, "CARGO_HOME=" + _debian_home(folder), *build], source, target, log)]


def _debian_home(folder):
    """A folder that has cargo take the packages of Debian (librust-NAME-dev) in place of those of a registry."""
    home = os.path.join(folder, "cargo-home")
    os.makedirs(home, exist_ok=True)
    with open(os.path.join(home, "config.toml"), "w", encoding="utf-8") as config:
        config.write(f'source.crates-io.replace-with = "debian"\nsource.debian.directory = "{DEBIAN_CRATES}"\n')
    return home


def _of_rustls(build, source, target, log):
    """The example over TLS. Its rustls knows no names that are IP addresses."""
    name = "bindings/rust/example-rustls"
    if not glob.glob(os.path.join(DEBIAN_CRATES, "rustls-0.20*")):
        return Absent(name, "rustls isn't installed: apt-get install librust-rustls-dev librust-rustls-pemfile-dev")
    if not _build(build, os.path.join(source, "example-rustls"), log):
        return Absent(name, "it isn't built: see build-rust.log")
    command = [os.path.join(target, "release", "turn-client-example-rustls"), "--tls-name", "localhost"]
    return _made(name, command, ("tls",), driver=True)


def of_python(archive, folder):
    """bindings/python/example.py, and example_asyncio.py over turn_client_asyncio, with the shared library that
    bindings/python/build makes of the archive."""
    names, source = ("example.py", "example_asyncio.py"), os.path.join(ROOT, "bindings", "python")
    if not os.path.isdir(source):
        return [Absent(f"bindings/python/{name}", "no folder bindings/python/") for name in names]
    copy = os.path.join(folder, "python")
    shutil.copytree(source, copy, dirs_exist_ok=True, ignore=shutil.ignore_patterns(".*", "__pycache__"))
    python, library = [sys.executable], _library(archive)
    if UNPROVED in library:
        python = ["env", "TURN_CLIENT_LIB=" + archive, *python]
    elif not _build([os.path.join(source, "build"), library, copy], source, os.path.join(folder, "build-python.log")):
        return [Absent(f"bindings/python/{name}", "it isn't built: see build-python.log") for name in names]
    transports = ("udp", "tcp"), ("udp", "tcp", "tls")
    return [_made(f"bindings/python/{name}", [*python, os.path.join(copy, name)], by, driver="tls" in by)
            for name, by in zip(names, transports)]


def all_of_them(archive, folder):
    return [*of_c(archive, folder), *of_c_driver(archive, folder), *of_rust(archive, folder), *of_python(archive, folder)]
