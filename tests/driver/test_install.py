"""test_install.py: bindings/c/install, and programs that are built over what it installs.

    python3 -m unittest discover tests/driver

It installs into a temporary folder. Programs are built by gcc and clang, by pkg-config and CMake,
over the shared library and the archive, with all warnings as errors, and run. What isn't installed
on this machine is skipped.
"""

import os
import re
import shutil
import subprocess
import sys
import tempfile
import unittest
from pathlib import Path

sys.path.insert(0, str(Path(__file__).resolve().parent))

from test_driver import BINDING, HAS_OPENSSL, LIBRARY, STRICT, TOP  # noqa: E402

VERSION = (TOP / "VERSION").read_text().strip()
COMPILERS = [it for it in ("gcc", "clang") if shutil.which(it)]
# it wants a server where there is none, and prints why it has no driver
PROGRAM = r"""
#include <stdio.h>
#include <turn_driver.h>
int main(void)
{
    turn_driver_failure failure;
    if (turn_client_version() != TURN_CLIENT_VERSION_NUMBER)
        return 2;
    if (turn_driver_open("turn:127.0.0.1:9?transport=tcp", "a", "b", NULL, &failure) != NULL)
        return 3;
    puts(failure.text);
    return 0;
}
"""
PRINTED = "no connection to 127.0.0.1:9: Connection refused\n"
CMAKE = """
cmake_minimum_required(VERSION 3.16)
project(mine C)
set(turn_client_USE_STATIC_LIBS {is_static})
find_package(turn_client {version} CONFIG REQUIRED {components})
add_executable(mine main.c)
target_link_libraries(mine PRIVATE {target})
"""
HEADERS = ("turn_client.h", "turn_driver.h")
PATIENCE = 120


def run(*words, **more):
    env = {**os.environ, **more.pop("env", {})}
    ran = subprocess.run([str(it) for it in words], capture_output=True, text=True, check=False,
                         env=env, timeout=PATIENCE, **more)
    if ran.returncode:
        raise AssertionError(f"{words}: status {ran.returncode}\n{ran.stdout}{ran.stderr}")
    return ran.stdout


def refusal(*words, **more):
    """What a command says that is to fail."""
    env = {**os.environ, **more.pop("env", {})}
    ran = subprocess.run([str(it) for it in words], capture_output=True, text=True, check=False,
                         env=env)
    if not ran.returncode:
        raise AssertionError(f"{words} is not refused")
    return ran.stderr


def declared(header):
    """The names of the functions that a header declares."""
    text = (BINDING / "include" / header).read_text()
    return sorted(re.findall(r"^\w[\w ]*?[ *](turn_\w+)\(", text, re.M))


def files(folder):
    return sorted(str(it.relative_to(folder)) for it in Path(folder).rglob("*") if not it.is_dir())


class Installation:
    """What holds of each installation. `room` and `prefix` are set by the class that has it."""

    def flags(self, *more, prefix=None):
        env = {"PKG_CONFIG_PATH": f"{prefix or self.prefix}/lib/pkgconfig"}
        return run("pkg-config", "--cflags", "--libs", *more, env=env).split()

    def build(self, compiler, *flags):
        source, made = self.room / "main.c", self.room / "main"
        source.write_text(PROGRAM)
        run(compiler, *STRICT, "-O2", source, *flags, "-o", made)
        return made

    def test_the_shared_library(self):
        library = self.prefix / "lib" / "libturn_client.so"
        self.assertIn(f"[libturn_client.so.{VERSION.split('.')[0]}]", run("readelf", "-d", library))
        names = run("nm", "-D", "--defined-only", library).split()[2::3]
        self.assertEqual(sorted(names), declared("turn_client.h"))

    def test_the_archive_of_the_driver_has_its_names_only(self):
        names = run("nm", "-g", "--defined-only", self.prefix / "lib" / "libturn_driver.a").split()
        self.assertEqual(sorted(it for it in names if re.fullmatch(r"turn_\w+", it)),
                         declared("turn_driver.h"))

    @unittest.skipUnless(shutil.which("pkg-config"), "pkg-config isn't installed")
    def test_by_pkg_config(self):
        self.assertIn(f"-I{self.prefix}/include", self.flags("turn_client"))
        where = {"LD_LIBRARY_PATH": str(self.prefix / "lib")}
        for compiler in COMPILERS:
            with self.subTest(compiler=compiler):
                made = self.build(compiler, *self.flags("turn_driver"))
                self.assertIn("libturn_client.so.0", run("readelf", "-d", made))
                self.assertEqual(run(made, env=where), PRINTED)
                static = [f"{self.prefix}/lib/libturn_client.a" if it == "-lturn_client" else it
                          for it in self.flags("turn_driver")]
                made = self.build(compiler, *static)
                self.assertNotIn("libturn_client", run("readelf", "-d", made))
                self.assertEqual(run(made), PRINTED)

    @unittest.skipUnless(shutil.which("cmake") and shutil.which("make"), "no CMake or no make")
    def test_by_cmake(self):
        for is_static in ("ON", "OFF"):
            with self.subTest(static=is_static), tempfile.TemporaryDirectory() as room:
                self.by_cmake(room, self.prefix, is_static)

    def by_cmake(self, room, prefix, is_static, target="turn_client::turn_driver", components=""):
        Path(room, "main.c").write_text(PROGRAM)
        text = CMAKE.format(is_static=is_static, version="0.1", target=target,
                            components=components)
        Path(room, "CMakeLists.txt").write_text(text)
        run("cmake", "-S", room, "-B", f"{room}/b", f"-DCMAKE_PREFIX_PATH={prefix}")
        run("cmake", "--build", f"{room}/b")
        self.assertEqual(run(f"{room}/b/mine"), PRINTED)
        is_linked = "libturn_client.so.0" in run("readelf", "-d", f"{room}/b/mine")
        self.assertEqual(is_linked, is_static == "OFF")

    def test_the_headers_in_c_and_cpp(self):
        for header in HEADERS:
            path = self.prefix / "include" / header
            for compiler in COMPILERS:
                run(compiler, "-std=c99", *STRICT[1:], "-fsyntax-only", "-x", "c", path)
            for compiler in filter(shutil.which, ("g++", "clang++")):
                run(compiler, "-std=c++11", *STRICT[1:], "-fsyntax-only", "-x", "c++", path)


@unittest.skipUnless((LIBRARY / "libturn_driver.a").is_file(), "it isn't the released library")
class Copied(Installation, unittest.TestCase):
    """What is installed from dist/ without a compiler."""

    @classmethod
    def setUpClass(cls):
        room = tempfile.TemporaryDirectory(prefix="install-")
        cls.addClassCleanup(room.cleanup)
        cls.room = Path(room.name)
        cls.prefix = cls.room / "prefix"
        # a PATH without a compiler
        (tools := cls.room / "bin").mkdir()
        for name in ("sh", "cat", "sed", "mktemp", "rm", "mkdir", "cp", "chmod", "ln", "dirname"):
            (tools / name).symlink_to(shutil.which(name))
        run(BINDING / "install", "--prefix", cls.prefix, env={"PATH": str(tools)})

    def test_the_files(self):
        self.assertEqual(files(self.prefix), sorted([
            "include/turn_client.h", "include/turn_driver.h",
            "lib/cmake/turn_client/turn_client-config-version.cmake",
            "lib/cmake/turn_client/turn_client-config.cmake",
            "lib/libturn_client.a", "lib/libturn_client.so",
            f"lib/libturn_client.so.{VERSION.split('.')[0]}", f"lib/libturn_client.so.{VERSION}",
            "lib/libturn_driver.a", "lib/pkgconfig/turn_client.pc", "lib/pkgconfig/turn_driver.pc",
            "share/doc/turn_client/LICENSE-APACHE", "share/doc/turn_client/LICENSE-MIT",
            "share/man/man3/turn_client.3", "share/man/man3/turn_driver.3"]))

    @unittest.skipUnless(shutil.which("cmake"), "CMake isn't installed")
    def test_cmake_refuses_what_is_not_there(self):
        for wanted in (("0.2", ""), ("1.0", ""), ("0.1", "COMPONENTS openssl")):
            with self.subTest(wanted=wanted), tempfile.TemporaryDirectory() as room:
                text = CMAKE.format(is_static="ON", version=wanted[0], target="x",
                                    components=wanted[1])
                Path(room, "CMakeLists.txt").write_text(text)
                where = f"-DCMAKE_PREFIX_PATH={self.prefix}"
                said = refusal("cmake", "-S", room, "-B", f"{room}/b", where)
                self.assertIn("turn_client", said)

    def test_destdir_and_uninstall(self):
        with tempfile.TemporaryDirectory() as room:
            env = {"DESTDIR": room}
            run(BINDING / "install", "--prefix=/opt/turn", "--libdir=lib64", env=env)
            written = (Path(room) / "opt/turn/lib64/pkgconfig/turn_client.pc").read_text()
            self.assertIn("prefix=/opt/turn\nlibdir=${prefix}/lib64\n", written)
            self.assertIn("/opt/turn/lib64/libturn_client.so.0", {f"/{it}" for it in files(room)})
            run(BINDING / "install", "--prefix=/opt/turn", "--libdir=lib64", "--uninstall", env=env)
            self.assertEqual(files(room), [])

    def test_a_moved_prefix_serves_cmake(self):
        if not shutil.which("cmake"):
            self.skipTest("CMake isn't installed")
        with tempfile.TemporaryDirectory() as room:
            options = "--prefix=/nowhere", "--libdir=lib/x86_64-linux-gnu"
            run(BINDING / "install", *options, env={"DESTDIR": room})
            moved = shutil.move(f"{room}/nowhere", f"{room}/moved")
            self.by_cmake(tempfile.mkdtemp(dir=room), moved, "ON")

    def test_what_is_refused(self):
        options = "--nothing", "--prefix=here", "--libdir=/lib", "--libdir=../lib", "--prefix"
        for option in options:
            with self.subTest(option=option):
                said = refusal(BINDING / "install", option, env={"DESTDIR": "/nowhere"})
                self.assertIn("install: ", said)


@unittest.skipUnless((LIBRARY / "libturn_client.a").is_file() and shutil.which("objcopy"),
                     "no proved library, or no binutils")
class FromSource(Installation, unittest.TestCase):
    """What is installed with a compiler: all but the archive is made by it."""

    @classmethod
    def setUpClass(cls):
        room = tempfile.TemporaryDirectory(prefix="install-")
        cls.addClassCleanup(room.cleanup)
        cls.room, cls.prefix = Path(room.name), Path(room.name, "prefix")
        options = ["--source"] + ["--openssl"] * HAS_OPENSSL
        run(BINDING / "install", "--prefix", cls.prefix, *options)

    def test_the_files(self):
        there = files(self.prefix)
        self.assertIn("bin/turn-client", there)
        self.assertIn("share/man/man1/turn-client.1", there)
        self.assertEqual("lib/libturn_driver_openssl.a" in there, HAS_OPENSSL)
        self.assertIn("exit status", run(self.prefix / "bin" / "turn-client", "--help").lower())

    @unittest.skipUnless(HAS_OPENSSL, "OpenSSL's headers aren't installed")
    def test_tls_by_pkg_config_and_cmake(self):
        made = self.build(COMPILERS[0], *self.flags("turn_driver_openssl"), "-Wl,--no-as-needed")
        self.assertEqual(run(made, env={"LD_LIBRARY_PATH": str(self.prefix / "lib")}), PRINTED)
        if shutil.which("cmake"):
            with tempfile.TemporaryDirectory() as room:
                self.by_cmake(room, self.prefix, "ON", "turn_client::turn_driver_openssl",
                              "COMPONENTS openssl")

    def test_tools_that_are_not_gnus_are_named(self):
        with tempfile.TemporaryDirectory() as room:
            Path(room, "ld").write_text("#!/bin/sh\necho 'Apple ld'\n")
            Path(room, "ld").chmod(0o755)
            path = f"{room}:{os.environ['PATH']}"
            said = refusal(BINDING / "build_driver", f"{room}/out", env={"PATH": path})
            self.assertIn("NOT-GNU-BINUTILS", said)
            self.assertIn(f"{room}/ld", said)

    @unittest.skipUnless(shutil.which("musl-gcc"), "no musl-gcc: apt-get install musl-tools")
    def test_musl(self):
        with tempfile.TemporaryDirectory() as prefix:
            run(BINDING / "install", "--prefix", prefix, "--source", env={"CC": "musl-gcc"})
            made = self.build("musl-gcc", *self.flags("turn_driver", prefix=prefix))
            self.assertNotIn("libc.so.6", run("readelf", "-d", made))
            self.assertEqual(run(made, env={"LD_LIBRARY_PATH": f"{prefix}/lib"}), PRINTED)
            made = self.build("musl-gcc", "-static", *self.flags("turn_driver", prefix=prefix))
            self.assertEqual(run(made), PRINTED)

    @unittest.skipUnless(shutil.which("musl-gcc"), "no musl-gcc: apt-get install musl-tools")
    def test_the_released_archives_serve_musl(self):
        archives = [LIBRARY / f"lib{it}.a" for it in ("turn_driver", "turn_client")]
        if all(it.is_file() for it in archives):
            made = self.build("musl-gcc", "-static", f"-I{BINDING}/include", *archives)
            self.assertEqual(run(made), PRINTED)


class Pages(unittest.TestCase):
    def test_the_readme_shows_the_program(self):
        shown = re.search(r"^```c\n(.*?)^```$", (BINDING / "README.md").read_text(), re.M | re.S)[1]
        self.assertIn(shown, (BINDING / "hello.c").read_text())

    @unittest.skipUnless((LIBRARY / "turn_driver.pc").is_file() and shutil.which("pkg-config"),
                         "it isn't the released library, or pkg-config isn't installed")
    def test_programs_are_built_as_the_readme_says(self):
        with tempfile.TemporaryDirectory() as room:
            flags = run("pkg-config", "--cflags", "--libs", "turn_driver",
                        env={"PKG_CONFIG_PATH": str(LIBRARY)}).split()
            made = Path(room, "hello")
            for compiler in COMPILERS:
                run(compiler, *STRICT, BINDING / "hello.c", *flags, "-o", made)
                said = refusal(made, "turn:127.0.0.1:9?transport=tcp")
                self.assertEqual(said, PRINTED)

    @unittest.skipUnless(shutil.which("mandoc"), "mandoc isn't installed")
    def test_man_pages(self):
        for page in sorted((BINDING / "man").iterdir()):
            ran = subprocess.run(["mandoc", "-T", "lint", page], capture_output=True, text=True,
                                 check=False)
            wrong = [it for it in ran.stdout.splitlines()
                     if "referenced manual not found" not in it]
            self.assertEqual(wrong, [], page)

    def test_man_pages_name_each_call(self):
        for name in ("turn_driver", "turn_driver_openssl"):
            page = (BINDING / "man" / "turn_driver.3").read_text()
            self.assertEqual([it for it in declared(f"{name}.h")
                              if not re.search(rf"\.F[no] {it}\b", page)], [])

    @unittest.skipUnless(shutil.which("shellcheck"), "shellcheck isn't installed")
    def test_scripts(self):
        run("shellcheck", *(BINDING / it for it in ("install", "build_driver", "gnu_tools")))

    def test_the_options_of_turn_client_are_in_its_page(self):
        listed = set(re.findall(r'"  (--[a-z-]+)', (BINDING / "options.c").read_text()))
        page = (BINDING / "man" / "turn-client.1").read_text()
        in_page = re.findall(r"^\.It Fl Fl ([a-z-]+)", page, re.M)
        self.assertEqual(listed, {f"--{it}" for it in in_page})


if __name__ == "__main__":
    unittest.main()
