#!/usr/bin/env python3
"""test_make_wheel.py: what make_wheel.py builds, and that pip installs it into a fresh environment without a network.

    python3 bindings/python/test_make_wheel.py

The shared library is the one that turn_client.py finds. One that isn't proved isn't installed: then most is skipped.
"""

from __future__ import annotations

import base64
import csv
import email
import hashlib
import importlib
import importlib.util
import os
import re
import subprocess
import sys
import tempfile
import unittest
import zipfile
from pathlib import Path
from typing import Any
from unittest import mock

HERE = Path(__file__).resolve().parent
ROOT = HERE.parents[1]
sys.dont_write_bytecode = True
sys.path.insert(0, str(HERE))

import make_wheel  # noqa: E402
import turn_client  # noqa: E402

VERSION = (ROOT / "VERSION").read_text(encoding="utf-8").strip()
LIBRARY = turn_client._library()
IS_UNPROVED = LIBRARY.name == turn_client._UNPROVED
HAS_PIP = all(map(importlib.util.find_spec, ("ensurepip", "venv")))
IMPORTS = ("import turn_client as it, turn_client_asyncio as more; print(it.__version__, it.__file__, more.__file__, "
           "it._library(), it.TurnConfig('alice', 'secret').username)")


class Tags(unittest.TestCase):
    """By PEP 600: the number is that of the oldest glibc that serves."""

    def test_by_what_the_library_wants(self) -> None:
        cases = {
            b"\0free\0GLIBC_2.14\0GLIBC_2.2.5\0": "py3-none-manylinux_2_17_x86_64.manylinux2014_x86_64",
            b"\0GLIBC_2.17\0": "py3-none-manylinux_2_17_x86_64.manylinux2014_x86_64",
            b"\0GLIBC_2.2.5\0GLIBC_2.34\0GLIBC_2.4\0": "py3-none-manylinux_2_34_x86_64",
        }
        for names, tag in cases.items():
            self.assertEqual(make_wheel.tag(names), tag)


class Refusals(unittest.TestCase):
    def test_sdist(self) -> None:
        with self.assertRaisesRegex(make_wheel.UnsupportedOperation, "no sdist of turn-client.* wheel"):
            make_wheel.build_sdist("")

    def test_a_copy_of_the_folder(self) -> None:
        """As a pip makes one that is older than 21.3."""
        with tempfile.TemporaryDirectory() as folder:
            copy = Path(folder, "a", "b", "make_wheel.py")
            copy.parent.mkdir(parents=True)
            copy.write_bytes((HERE / "make_wheel.py").read_bytes())
            ran = subprocess.run([sys.executable, copy], capture_output=True, text=True, check=False)
        self.assertEqual(ran.returncode, 1)
        self.assertRegex(ran.stderr, "built in a clone .* upgrade it")

    @unittest.skipIf(IS_UNPROVED, "what isn't proved isn't installed")
    def test_another_version(self) -> None:
        refused = self.assertRaisesRegex(SystemExit, f"9[.]9[.]9, and VERSION {re.escape(VERSION)}")
        other = mock.patch.object(turn_client, "__version__", "9.9.9")
        with other, tempfile.TemporaryDirectory() as folder, refused:
            make_wheel.build_wheel(folder)


class Metadata(unittest.TestCase):
    @unittest.skipIf(sys.version_info < (3, 11), "there is no tomllib")
    def test_pyproject_states_the_same(self) -> None:
        tomllib: Any = importlib.import_module("tomllib")
        project = tomllib.loads((HERE / "pyproject.toml").read_text(encoding="utf-8"))["project"]
        told = email.message_from_string(make_wheel.METADATA)
        self.assertEqual(project["name"], told["Name"])
        self.assertEqual(project["dynamic"], ["version"])
        self.assertEqual(project["description"], told["Summary"])
        self.assertEqual(project["requires-python"], told["Requires-Python"])
        self.assertEqual(project["license"], {"text": told["License"]})
        self.assertEqual(",".join(project["keywords"]), told["Keywords"])
        self.assertEqual(project["classifiers"], told.get_all("Classifier"))
        self.assertEqual((project["readme"], VERSION), ("README.md", told["Version"]))
        self.assertEqual(told.get_all("License-File"), ["LICENSE-MIT", "LICENSE-APACHE"])


@unittest.skipIf(IS_UNPROVED, "what isn't proved isn't installed")
class Wheel(unittest.TestCase):
    def test_record(self) -> None:
        """By the specification of wheels: each file but the list itself, by its SHA-256 and its size."""
        with tempfile.TemporaryDirectory() as folder:
            made = make_wheel.build_wheel(folder)
            with zipfile.ZipFile(Path(folder, made)) as wheel:
                names = wheel.namelist()
                listed = {row[0]: row[1:] for row in csv.reader(wheel.read(names[-1]).decode().splitlines())}
                self.assertEqual(list(listed), names)
                for name in names[:-1]:
                    content = wheel.read(name)
                    digest = base64.urlsafe_b64encode(hashlib.sha256(content).digest()).decode().rstrip("=")
                    self.assertEqual(listed[name], [f"sha256={digest}", str(len(content))])
                self.assertEqual(listed[names[-1]], ["", ""])
        self.assertRegex(made, rf"^turn_client-{re.escape(VERSION)}-py3-none-manylinux_2_\d+_x86_64[^-]*[.]whl$")
        for name in ("turn_client/libturn_client.so", "turn_client/py.typed", "turn_client_asyncio/py.typed"):
            self.assertIn(name, names)

    def test_the_same_again(self) -> None:
        with tempfile.TemporaryDirectory() as one, tempfile.TemporaryDirectory() as two:
            made = [Path(it, make_wheel.build_wheel(it)).read_bytes() for it in (one, two)]
        self.assertEqual(*made)


@unittest.skipIf(IS_UNPROVED, "what isn't proved isn't installed")
@unittest.skipUnless(HAS_PIP, "there is no venv with pip: Debian has them in python3-venv")
class Installed(unittest.TestCase):
    """In a fresh environment, with an empty home, nothing on the path and no network."""

    room: Path
    environment: dict[str, str]

    @classmethod
    def setUpClass(cls) -> None:
        made = tempfile.TemporaryDirectory()
        cls.addClassCleanup(made.cleanup)
        cls.room = Path(made.name).resolve()
        cls.environment = {"HOME": str(cls.room), "PATH": "/nowhere", "PIP_NO_INDEX": "1",
                           "PIP_DISABLE_PIP_VERSION_CHECK": "1"}
        if named := os.environ.get("TURN_CLIENT_LIB"):
            cls.environment["TURN_CLIENT_LIB"] = os.path.abspath(named)
        cls.run_python(sys.executable, "-m", "venv", str(cls.room / "venv"))

    @classmethod
    def run_python(cls, *words: str, **more: str) -> str:
        environment = {**cls.environment, **more}
        ran = subprocess.run(words, cwd=cls.room, env=environment, capture_output=True, text=True, check=False)
        if ran.returncode != 0:
            raise AssertionError(ran.stdout + ran.stderr)
        return ran.stdout

    def pip(self, *words: str) -> str:
        return self.run_python(str(self.room / "venv/bin/python"), "-m", "pip", *words)

    def imported(self, **more: str) -> list[str]:
        """What an import finds."""
        return self.run_python(str(self.room / "venv/bin/python"), "-c", IMPORTS, **more).split()

    def test_installed(self) -> None:
        self.pip("install", str(HERE))
        # without the library that the tests name
        version, module, driver, library, name = self.imported(TURN_CLIENT_LIB="")
        site = str(self.room / "venv/lib")
        for path, end in ((module, "turn_client/__init__.py"), (driver, "turn_client_asyncio/__init__.py"),
                          (library, "turn_client/libturn_client.so")):
            self.assertTrue(path.startswith(site) and path.endswith(end), path)
            self.assertTrue(Path(path).with_name("py.typed").is_file())
        self.assertEqual((version, name), (VERSION, "alice"))
        self.assertRegex(self.pip("show", "turn-client"), f"(?m)^Version: {re.escape(VERSION)}$")
        self.pip("check")
        self.pip("uninstall", "--yes", "turn-client")
        with self.assertRaisesRegex(AssertionError, "No module named 'turn_client'"):
            self.imported()

    def test_installed_editable(self) -> None:
        """Python imports what is in this folder."""
        self.pip("install", "--editable", str(HERE))
        version, module, driver, _, _ = self.imported()
        self.assertEqual((version, Path(module), Path(driver)),
                         (VERSION, HERE / "turn_client.py", HERE / "turn_client_asyncio" / "__init__.py"))
        self.pip("uninstall", "--yes", "turn-client")

    def test_sdist_refused(self) -> None:
        """By the words of a frontend's own hook, as `python -m build --sdist` calls it."""
        with self.assertRaisesRegex(AssertionError, "UnsupportedOperation: there is no sdist"):
            self.run_python(sys.executable, "-c", f"import sys; sys.path.insert(0, {str(HERE)!r}); import make_wheel; "
                                                  "make_wheel.build_sdist('.')")


if __name__ == "__main__":
    unittest.main()
