#!/usr/bin/env python3
"""Tests of the commands at the top and of what finds and holds the released files.

    python3 tools/test_tools.py

Each test of dist/ works on a copy of it in which one thing is spoiled.
"""

import contextlib
import importlib.util
import io
import re
import shutil
import subprocess
import sys
import tempfile
import unittest
from importlib.machinery import SourceFileLoader
from pathlib import Path
from unittest import mock

TOP = Path(__file__).resolve().parent.parent
sys.dont_write_bytecode = True
sys.path.insert(0, str(TOP / "tools"))

import programs  # noqa: E402
import released  # noqa: E402
import results  # noqa: E402
import sampled  # noqa: E402


def script(path):
    """A script without an ending, as a module."""
    loader = SourceFileLoader(f"script_{path.name}", str(path))
    made = importlib.util.module_from_spec(importlib.util.spec_from_loader(loader.name, loader))
    loader.exec_module(made)
    return made


release, replay, layout, architecture = (
    script(TOP / it) for it in ("tools/release", "replay", "tools/layout", "tools/architecture")
)
version = script(TOP / "tools/version")
words = script(TOP / "tools/words")
lints = script(TOP / "tools/lints")
index = script(TOP / "tools/index")
bench, c_calls = (script(TOP / it) for it in ("bench/run", "bench/c_calls.py"))


class Dist(unittest.TestCase):
    """What is wrong with a copy of dist/ that is spoiled."""

    def setUp(self):
        room = tempfile.TemporaryDirectory()
        self.addCleanup(room.cleanup)
        self.copy = Path(room.name, "dist")
        shutil.copytree(released.DIST, self.copy)
        for module in (release, released):
            patch = mock.patch.multiple(module, DIST=self.copy, MANIFEST=self.copy / "MANIFEST")
            patch.start()
            self.addCleanup(patch.stop)
        released.manifest.cache_clear()
        self.addCleanup(released.manifest.cache_clear)

    def wrong(self):
        return {file for file, why in release.stored_faults() if why}

    def test_a_copy_is_right(self):
        self.assertEqual(self.wrong(), set())

    def test_a_changed_byte_is_seen_in_each_file(self):
        for file in released.FILES:
            with self.subTest(file=file):
                before = self.copy.joinpath(file).read_bytes()
                at = len(before) // 2
                self.copy.joinpath(file).write_bytes(before[:at] + bytes([before[at] ^ 1]) + before[at + 1 :])
                self.assertEqual(self.wrong(), {file})
                self.copy.joinpath(file).write_bytes(before)

    def test_a_changed_byte_fails_the_command(self):
        with open(self.copy / "turn-replay", "ab") as it:
            it.write(b"\0")
        with mock.patch.object(sys, "argv", ["release", "check"]), contextlib.redirect_stdout(io.StringIO()) as told:
            self.assertEqual(release.main(), 1)
        self.assertIn("failed: turn-replay: its digest is not that of MANIFEST", told.getvalue())

    def test_a_missing_and_a_further_file_are_seen(self):
        (self.copy / "stun-inspect").unlink()
        (self.copy / "other").write_bytes(b"")
        self.assertEqual(self.wrong(), {"stun-inspect", "other"})

    def test_other_bytes_than_those_built_of_the_same_code_are_seen(self):
        with tempfile.TemporaryDirectory() as room, contextlib.redirect_stdout(io.StringIO()):
            shutil.copytree(self.copy, room, dirs_exist_ok=True)
            Path(room, "turn-replay").write_bytes(b"another program")
            with mock.patch.object(release, "is_comparable", lambda file: True):
                wrong = {file for file, why in release.built_faults(room) if why}
        self.assertEqual(wrong, {"turn-replay"})

    def test_too_many_bytes_are_seen(self):
        with mock.patch.object(release, "MOST_BYTES", 1000):
            self.assertEqual(self.wrong(), {"all of it"})


class Sources(unittest.TestCase):
    """What the digest of a file's sources depends on."""

    def setUp(self):
        room = tempfile.TemporaryDirectory()
        self.addCleanup(room.cleanup)
        self.top = Path(room.name)
        self.write("crates.txt", "# low first\nlow: hex\nhigh: low\nturn_replay: high\nbeside: low\n")
        for crate in ("low", "high", "turn_replay", "beside"):
            self.write(f"crates/{crate}/src/lib.rt", f"{crate}\n")
        patch = mock.patch.object(released, "TOP", self.top)
        patch.start()
        self.addCleanup(patch.stop)
        self.addCleanup(self.forget)
        self.first = self.digest()

    def write(self, path, text):
        self.top.joinpath(path).parent.mkdir(parents=True, exist_ok=True)
        self.top.joinpath(path).write_text(text)

    @staticmethod
    def forget():
        for it in (released.crate_lines, released.below, released.code_of, released.digest_of_crates):
            it.cache_clear()

    def digest(self):
        self.forget()
        return released.sources_of("turn-replay")

    def test_code_below_counts(self):
        self.write("crates/low/src/lib.rt", "another low\n")
        self.assertNotEqual(self.digest(), self.first)

    def test_a_new_file_below_counts(self):
        self.write("crates/high/src/deeper/more.rt", "\n")
        self.assertNotEqual(self.digest(), self.first)

    def test_another_library_of_a_crate_counts(self):
        self.write("crates.txt", "low: base64\nhigh: low\nturn_replay: high\nbeside: low\n")
        self.assertNotEqual(self.digest(), self.first)

    def test_what_is_not_below_does_not_count(self):
        self.write("crates/beside/src/lib.rt", "another\n")
        self.write("crates/low/proofs/Lemmas.antt", "a proof\n")
        self.assertEqual(self.digest(), self.first)


class Replay(unittest.TestCase):
    """How `./replay` shows a trace, by rows."""

    def test_each_event_has_its_answer_below_it(self):
        trace = b"# a remark\ndesk realm sha1 auto\n\nevent\nrelayed"
        wanted = b"# a remark\ndesk realm sha1 auto\n\nevent\n    none\nrelayed\n    relayed\n"
        self.assertEqual(replay.shown(trace, b"none\nrelayed\n"), wanted)

    def test_a_bad_line_is_told_behind_it(self):
        self.assertEqual(replay.shown(b"event\nevents\nevent\n", b"none\nbad trace: line 2\n"),
                         b"event\n    none\nevents\n    bad trace: line 2\nevent\n")

    def test_a_bad_line_that_is_no_event(self):
        self.assertEqual(replay.shown(b"desk\nevent\n", b"bad trace: line 1\n"),
                         b"desk\n    bad trace: line 1\nevent\n")

    def test_many_traces_are_parted(self):
        wanted = b"%\nevent\n    none\n    status 0\n%\nevents\n    bad trace: line 1\n    status 1\n"
        self.assertEqual(replay.shown(b"%event\n%events\n", b"none\nstatus 0\nbad trace: line 1\nstatus 1\n"), wanted)


class Commands(unittest.TestCase):
    """What the commands at the top end with."""

    def run_it(self, *words, given=b""):
        how = {"input": given, "stdout": subprocess.PIPE, "stderr": subprocess.PIPE, "cwd": TOP}
        ran = subprocess.run(words, **how)
        return ran.returncode, ran.stdout.decode(), ran.stderr.decode()

    def test_a_trace_from_standard_input(self):
        trace = (TOP / "examples/challenge.trace").read_bytes()
        status, printed, _ = self.run_it("./replay", "--answers", given=trace)
        self.assertEqual((status, printed), (0, (TOP / "examples/challenge.out").read_text()))

    def test_a_picture(self):
        with tempfile.TemporaryDirectory() as room:
            status, _, _ = self.run_it("./replay", "--picture", f"{room}/it.svg", "examples/lost.trace")
            drawn = Path(room, "it.svg").read_bytes()
        self.assertEqual((status, drawn), (0, (TOP / "docs/pictures/lost.svg").read_bytes()))

    def test_the_worst_status_of_several_files(self):
        with tempfile.TemporaryDirectory() as room:
            Path(room, "bad.trace").write_text("events\n")
            status, printed, _ = self.run_it("./replay", f"{room}/bad.trace", "examples/challenge.trace")
        self.assertEqual(status, 1)
        self.assertIn("bad trace: line 1", printed)
        self.assertIn("== examples/challenge.trace", printed)

    def test_a_file_that_is_not_there(self):
        for words in (("./replay", "no.trace"), ("./inspect", "no.file"), ("./picture", "no.file")):
            status, printed, told = self.run_it(*words)
            self.assertEqual((status, printed), (programs.NO_PROGRAM, ""))
            self.assertIn("can't be read: No such file", told)

    def test_an_option_that_is_not_there(self):
        for command in ("./replay", "./inspect", "./picture"):
            self.assertEqual(self.run_it(command, "--nothing")[0], programs.WRONG_USE)

    def test_a_line_of_words(self):
        # RFC 8656, section 12.4: channel 0x4000, the length of the data, the data, padded over TCP alone
        status, printed, _ = self.run_it("./inspect", "frame", "4000000568656c6c6f")
        self.assertEqual((status, printed.splitlines()[1:3]), (0, ["channel 0x4000", "data 68656c6c6f"]))


class Layout(unittest.TestCase):
    """What breaks a rule of the layout."""

    def test_code_above_theorems_is_seen(self):
        crates = layout.listed("a_laws:\nb: a_laws  # a word\nc: b\ntest_d: c\nbench_e staticlib: c\nf_laws: a_laws\ng:")
        self.assertEqual([*layout.laws_below(crates)], ["b stands above a_laws", "c stands above a_laws"])

    def test_each_import_is_read(self):
        text = (
            "use std::fmt;\nuse crate::a::{One, Two as Other};\npub use b::c::Three;\n// use d::Four;\n"
            "use crate::b::Five;\n"
        )
        read = {("fmt", "std"), ("One", "me::a"), ("Two", "me::a"), ("Three", "b::c"), ("Five", "b")}
        self.assertEqual({*layout.imports(text, "me", {"b", "me"})}, read)

    def test_another_path_is_seen(self):
        with tempfile.TemporaryDirectory() as room:
            source = Path(room, "crates", "a", "src")
            source.mkdir(parents=True)
            source.joinpath("lib.rt").write_text("use b::Instant;\nuse stun_types_base::memory::NoMemory;\n")
            own = "use crate::b::Instant;\nuse crate::stun_types_base::memory::NoMemory;\n"
            source.joinpath("more.rt").write_text(own)
            found = [*layout.other_paths(Path(room), {"a": [], "b": [], "stun_types_base": []})]
        self.assertEqual(
            found,
            [
                f"crates/a/src/{file} imports Instant from b, not from stun_types_base::instant"
                for file in ("lib.rt", "more.rt")
            ],
        )

    def test_paths_are_counted(self):
        with tempfile.TemporaryDirectory() as room:
            top = Path(room)
            chain = [f"c{n}: {' '.join(f'c{m}' for m in range(n))}" for n in range(20)]
            top.joinpath("crates.txt").write_text("\n".join(chain[:19]))
            self.assertEqual([*layout.too_many_paths(top)], [])
            top.joinpath("crates.txt").write_text("\n".join(chain))
            found = [*layout.too_many_paths(top)]
        # each crate has twice as many as the one before, and one more
        self.assertEqual(found, ["crates.txt has 1,048,555 paths, and at most 700,000 are allowed"])


class Index(unittest.TestCase):
    """What the page of definitions has, and what differs from it, in small specs."""

    def setUp(self):
        room = tempfile.TemporaryDirectory()
        self.addCleanup(room.cleanup)
        self.top = Path(room.name)
        self.top.joinpath("docs").mkdir()
        self.write("crates.txt", "# low first\nlow:\nhigh: low\nrun: high\ntest_all: high\nbench_all: high\n")
        for crate in ("low", "high", "run", "test_all", "bench_all"):
            self.write(f"crates/{crate}/specs/Lib.antt", "pub mod B\npub mod A\npub use Rattle.low.specs as Low\n")
            self.write(f"crates/{crate}/specs/A.antt", "-- Of A.\n\nabbrev pub first : N\n")
            self.write(f"crates/{crate}/specs/B.antt", "pub mod Deep\n")
            self.write(f"crates/{crate}/specs/B/Deep.antt", "-- Of B.\n\n-- Deep. Very.\nabbrev pub deep : N\n")
        self.write("crates/run/src/main.rt", "")
        self.assertEqual(self.run_it(), (0, "index: 4 right, 0 wrong\n"))

    def write(self, path, text):
        self.top.joinpath(path).parent.mkdir(parents=True, exist_ok=True)
        self.top.joinpath(path).write_text(text)

    def run_it(self, *given):
        with contextlib.redirect_stdout(io.StringIO()) as told:
            status = index.main([*given], self.top)
        return status, told.getvalue()

    def test_libraries_are_listed_the_lowest_first(self):
        lines = self.top.joinpath(index.PAGE).read_text().removeprefix(index.HEAD).split("\n")
        of = ["", "- `first`, {}/A: (file) Of A.", "- `deep`, {}/B/Deep: Deep.", ""]
        self.assertEqual(lines, ["", *(it.format(crate) for crate in ("low", "high") for it in (f"## {crate}", *of))])

    def test_each_form_of_definition_is_read(self):
        text = (
            "-- Of the file.\n-- More of it.\nuse A.{N}\n\nabbrev pub bare : N\n\n"
            "-- The first, of `one` (section 1.2). The second.\nabbrev pub one : N\none = 1\n\n"
            "unfoldable pub other' : N\n\n-- ---- a section\n\nabbrev pub alone : N\n\n"
            "-- All of:\n--\n-- - a field.\npub record Many : Type 0 where\n  pub field : N\n\n"
            "module _ {T : Type 0} where\n  -- A choice\n  -- of two.\n  pub data Choice : Type 0 where\n    Left : N\n\n"
            "-- It is proved.\npub proved : one ≡ one\n"
        )
        read = [("bare", "(file) Of the file."), ("one", "The first, of `one` (section 1.2)."), ("other'", "see `one`"),
                ("alone", "(file) Of the file."), ("Many", "All of: .."), ("Choice", "A choice of two.")]
        self.assertEqual([*index.definitions(text)], read)

    def test_what_differs_is_seen(self):
        rows = (
            ("crates/high/specs/B/Deep.antt", "-- Deep. Very.", "-- Deep! Very.", 1),
            ("crates/high/specs/B/Deep.antt", "-- Deep. Very.", "-- Deep. Less.", 0),
            ("crates/high/specs/A.antt", "first", "second", 1),
            ("crates/test_all/specs/A.antt", "first", "second", 0),
            ("crates.txt", "low:\nhigh: low\n", "high: low\nlow:\n", 1),
            (index.PAGE, "Deep.\n", "Deep. \n", 1),
        )
        for file, old, new, status in rows:
            with self.subTest(file=file, new=new):
                text = self.top.joinpath(file).read_text()
                self.assertIn(old, text)
                self.write(file, text.replace(old, new))
                self.assertEqual(self.run_it("check")[0], status)
                self.write(file, text)
                self.assertEqual(self.run_it("check")[0], 0)

    def test_a_file_that_is_not_there_is_seen(self):
        self.top.joinpath("crates/high/specs/A.antt").unlink()
        wanted = "failed: there is no crates/high/specs/A.antt, which is declared\nindex: 0 right, 1 wrong\n"
        self.assertEqual(self.run_it("check"), (1, wanted))
        self.top.joinpath(index.PAGE).unlink()
        self.assertEqual(self.run_it("check")[0], 1)


class Words(unittest.TestCase):
    """What is refused as a name in code."""

    @staticmethod
    def faults(path, text):
        return [it.partition(": ")[2] for it in words.faults(path, text)]

    def test_a_planted_word_is_seen(self):
        for word in words.INSTEAD:
            found = self.faults("crates/a/src/lib.rt", f"let is_{word} = 1;\n")
            self.assertEqual([it.partition(":")[0] for it in found], [f"is_{word}"], word)
            self.assertEqual(len(self.faults("crates/a/specs/A.antt", f"Is{word.title()} : Type 0\n")), 1, word)

    def test_comments_strings_and_idioms_pass(self):
        text = 'let a = "kept"; // told\nqueue.pop_front(); // `moment`\n#[derive(PartialEq)]\n'
        self.assertEqual(self.faults("crates/a/src/lib.rt", text), [])
        self.assertEqual(self.faults("crates/a/specs/A.antt", "-- what is kept\nIsStored : Type 0\n"), [])

    def test_a_file_has_a_name_too(self):
        self.assertEqual(len(self.faults("crates/a/src/telling/told.rt", "\n")), 1)

    def test_a_transaction_id_is_called_so(self):
        wrong = "fn add(\n    a: &mut A,\n    number: TransactionId,\n) -> bool {\n"
        self.assertEqual(len(self.faults("crates/a/src/lib.rt", wrong)), 1)
        self.assertEqual(self.faults("crates/a/src/lib.rt", wrong.replace("number", "transaction_id")), [])
        self.assertEqual(self.faults("crates/a/src/lib.rt", "struct A {\n    b: u8,\n    number: TransactionId,\n}\n"), [])

    def test_a_function_for_a_proof_alone_is_called_so(self):
        empty = "/// A theorem.\nfn texts_fit(text: &str)\n    ensures { length text ≤ 9 }\n{\n}\n"
        found = [("crates/a/src/b.rt", empty), ("crates/a/src/c.rt", "fn run() {\n    texts_fit(text);\n}\n")]
        self.assertEqual(len([*words.unmarked(found)]), 1)
        marked = [(path, text.replace("texts_fit", "proof_texts_fit")) for path, text in found]
        self.assertEqual([*words.unmarked(marked)], [])
        self.assertEqual([*words.unmarked([found[0], ("crates/a_laws/src/c.rt", found[1][1])])], [])


class Lints(unittest.TestCase):
    """What linters see in a folder."""

    def linted(self, text, name="check"):
        with tempfile.TemporaryDirectory() as room, contextlib.redirect_stdout(io.StringIO()) as told:
            Path(room, name).parent.mkdir(parents=True, exist_ok=True)
            Path(room, name).write_text(text)
            subprocess.run(["git", "init", "-q", room], check=True)
            subprocess.run(["git", "-C", room, "add", name], check=True)
            status = lints.main(Path(room))
        return status, told.getvalue()

    @unittest.skipUnless(shutil.which("shellcheck"), "shellcheck isn't installed")
    def test_a_planted_fault_is_seen(self):
        status, told = self.linted("#!/bin/sh\nrm $1\n")
        self.assertEqual((status, "SC2086" in told, told.splitlines()[-1]), (1, True, "0 passed, 1 failed"))
        status, told = self.linted('#!/bin/sh\nrm "$1"\n')
        self.assertEqual((status, told.splitlines()[-1]), (0, "1 passed, 0 failed"))

    @unittest.skipUnless(shutil.which("mypy"), "mypy isn't installed")
    def test_a_wrong_type_is_seen(self):
        """In bindings/python alone; what has no type is wrong there, too."""
        name = f"{lints.TYPED}/a/b.py"
        for wrong in ("def f() -> int:\n    return ''\n", "def f(a):\n    return a\n"):
            status, told = self.linted(wrong, name)
            self.assertEqual((status, f"failed: {name}:" in told, told.count(" failed")), (1, True, 1), told)
            self.assertEqual(self.linted(wrong)[0], 0)
        self.assertEqual(self.linted("def f(a: int) -> int:\n    return a\n", name)[0], 0)

    def test_what_is_not_installed_is_said(self):
        with mock.patch.object(lints.shutil, "which", return_value=None):
            status, told = self.linted("A = 1\n", f"{lints.TYPED}/b.py")
        self.assertEqual((status, f"skipped: the types of 1 files of {lints.TYPED}: mypy " in told), (0, True), told)

    def test_scripts_are_told_by_their_first_line(self):
        with tempfile.TemporaryDirectory() as room:
            heads = {"a": "#!/usr/bin/env bash", "b": "#!/usr/bin/env python3", "c.py": "import os", "d": "fish sh"}
            for name, head in heads.items():
                Path(room, name).write_text(f"{head}\n")
            self.assertEqual(lints.scripts(Path(room), [*heads, "gone"]), (["a"], ["b", "c.py"]))


class Version(unittest.TestCase):
    """What states another version than VERSION, in a copy of the files that state one."""

    HEADER, CARGO = "bindings/c/include/turn_client.h", "bindings/rust/Cargo.toml"
    CARGO_SYS, CARGO_TOKIO = (f"bindings/rust/turn-client-{it}/Cargo.toml" for it in ("sys", "tokio"))
    LIBRARY = "crates/turn_client_c/src/lib.rt"
    PROGRAMS = tuple(f"crates/{it}/src/arguments.rt" for it in version.PROGRAMS)
    WHEEL, CHANGES = "bindings/python/make_wheel.py", "CHANGELOG.md"
    MODULE = "bindings/python/turn_client.py"
    DIST = "dist/x86_64-linux-gnu"

    def setUp(self):
        room = tempfile.TemporaryDirectory()
        self.addCleanup(room.cleanup)
        self.top = Path(room.name)
        files = ("MANIFEST", "turn_client.pc", "turn_client.h")
        copied = ("VERSION", "bindings/c/build", self.HEADER, self.CARGO, self.CARGO_SYS, self.CARGO_TOKIO,
                  self.LIBRARY, *self.PROGRAMS, self.WHEEL, self.MODULE, self.CHANGES)
        for file in (*copied, *(f"{self.DIST}/{it}" for it in files)):
            self.top.joinpath(file).parent.mkdir(parents=True, exist_ok=True)
            shutil.copy(TOP / file, self.top / file)
        dist = self.top / self.DIST
        patch = mock.patch.multiple(released, TOP=self.top, DIST=dist, MANIFEST=dist / "MANIFEST")
        patch.start()
        self.addCleanup(patch.stop)
        self.addCleanup(released.manifest.cache_clear)
        self.stands = self.top.joinpath("VERSION").read_text().strip()

    def replace(self, file, old, new):
        text = self.top.joinpath(file).read_text()
        self.assertEqual(text.count(old), 1, f"{file}: {old}")
        self.top.joinpath(file).write_text(text.replace(old, new))

    def check(self):
        """The status, the lines of what is wrong, and what is printed beside them."""
        released.manifest.cache_clear()
        with contextlib.redirect_stdout(io.StringIO()) as told:
            status = version.main(self.top)
        lines = told.getvalue().splitlines()
        return status, [it for it in lines if it.startswith("failed: ")], lines

    def test_a_copy_is_right(self):
        self.assertEqual(self.check()[:2], (0, []))

    def test_a_wrong_version_is_seen_in_each_place(self):
        stands, number = self.stands, version.number_of(self.stands)
        parts = dict(zip(("MAJOR", "MINOR", "PATCH"), stands.split(".")))
        read = '(TOP / "VERSION").read_text(encoding="utf-8").strip()'
        rows = (
            (self.HEADER, f'VERSION "{stands}"', 'VERSION "9.8.7"', "TURN_CLIENT_VERSION states 9.8.7"),
            *((self.HEADER, f"_{it} {parts[it]}", f"_{it} 9", f"TURN_CLIENT_VERSION_{it} states 9") for it in parts),
            (self.HEADER, f"_NUMBER {number}", "_NUMBER 90807", "TURN_CLIENT_VERSION_NUMBER states 90807"),
            (self.LIBRARY, f"VERSION: u32 = {number};", "VERSION: u32 = 90807;", "turn_client_c: VERSION states 90807"),
            *((it, f'VERSION: &str = "{stands}"', 'VERSION: &str = "9.8.7"', f"{it.split('/')[1]}: VERSION states 9.8.7")
              for it in self.PROGRAMS),
            (self.LIBRARY, f"result ≡ {number} }}", "result ≡ 90807 }", "turn_client_version states 90807"),
            (self.CARGO, f'\nversion = "{stands}"', '\nversion = "9.8.7"', f"{self.CARGO} states 9.8.7"),
            (self.CARGO, f'version = "={stands}"', 'version = "=9.8.7"', "of the other package states 9.8.7"),
            (self.CARGO_TOKIO, f'version = "={stands}"', 'version = "=9.8.7"', "of the other package states 9.8.7"),
            (self.CARGO_TOKIO, f'\nversion = "{stands}"', '\nversion = "9.8.7"', f"{self.CARGO_TOKIO} states 9.8.7"),
            (self.CARGO_SYS, f'version = "{stands}"', 'version = "9.8.7"', f"{self.CARGO_SYS} states 9.8.7"),
            (self.WHEEL, read, '"9.8.7"', f"{self.WHEEL}: VERSION states 9.8.7"),
            (self.WHEEL, "Version: {VERSION}", "Version: 9.8.7", f"{self.WHEEL}: METADATA states 9.8.7"),
            (self.MODULE, f'__version__ = "{stands}"', '__version__ = "9.8.7"', f"{self.MODULE} states 9.8.7"),
            ("bindings/c/build", "Version: $version", "Version: 9.8.7", "bindings/c/build states 9.8.7"),
            (self.CHANGES, f"## [{stands}]", "## [9.8.7]", f"{self.CHANGES}, its newest version states 9.8.7"),
            (f"{self.DIST}/MANIFEST", f"version = {stands}", "version = 9.8.7", "MANIFEST 9.8.7"),
            (f"{self.DIST}/turn_client.pc", f"Version: {stands}", "Version: 9.8.7", "turn_client.pc states 9.8.7"),
        )
        for file, old, new, wanted in rows:
            with self.subTest(file=file, new=new):
                self.replace(file, old, new)
                status, wrong, _ = self.check()
                self.assertEqual(status, 1)
                self.assertTrue(any(wanted in it for it in wrong), wrong)
                self.replace(file, new, old)

    def test_a_missing_macro_is_seen(self):
        self.replace(self.HEADER, "#define TURN_CLIENT_VERSION_MINOR", "#define TURN_CLIENT_OTHER")
        self.assertEqual(self.check()[0], 1)

    def test_a_version_of_another_form_is_seen(self):
        for text in ("0.1", "0.01.0", "0.1.0-rc1", "v0.1.0"):
            with self.subTest(text=text):
                self.top.joinpath("VERSION").write_text(f"{text}\n")
                self.assertIn(f"failed: VERSION {text} is not of the form MAJOR.MINOR.PATCH", self.check()[1])

    def test_a_header_of_another_release_is_seen(self):
        with open(self.top / self.DIST / "turn_client.h", "a", encoding="utf-8") as it:
            it.write("#define TURN_CLIENT_VERSION_MAJOR 9\n")
        self.assertEqual(self.check()[0], 1)

    def test_dist_may_be_older_until_the_next_release(self):
        self.top.joinpath("VERSION").write_text("9.8.7\n")
        _, wrong, lines = self.check()
        self.assertFalse([it for it in wrong if "MANIFEST" in it], wrong)
        self.assertIn(f"version: dist/ has release {self.stands}, and VERSION states 9.8.7: tools/release makes it anew",
                      lines)

    def test_a_release_of_these_sources_states_their_version(self):
        self.top.joinpath("VERSION").write_text("9.8.7\n")
        with mock.patch.object(released, "is_current", lambda file: True):
            self.assertIn(f"failed: dist/ MANIFEST states {self.stands}, and VERSION 9.8.7", self.check()[1])


class Architecture(unittest.TestCase):
    """The picture of the layers and crates."""

    def setUp(self):
        room = tempfile.TemporaryDirectory()
        self.addCleanup(room.cleanup)
        self.top = Path(room.name)
        self.top.joinpath("docs").mkdir()
        for file in ("crates.txt", architecture.PICTURE):
            shutil.copy(TOP / file, self.top / file)
        self.picture = self.top / architecture.PICTURE

    def check(self):
        with contextlib.redirect_stdout(io.StringIO()) as told:
            status = architecture.main(["check"], self.top)
        return status, told.getvalue().splitlines()[-1]

    def test_a_copy_is_right(self):
        self.assertEqual(self.check(), (0, "architecture: 1 right, 0 wrong"))

    def test_a_changed_byte_is_seen(self):
        before = self.picture.read_bytes()
        for at in (0, len(before) // 2, len(before) - 1):
            with self.subTest(at=at):
                self.picture.write_bytes(before[:at] + bytes([before[at] ^ 1]) + before[at + 1 :])
                self.assertEqual(self.check(), (1, "architecture: 0 right, 1 wrong"))

    def test_a_missing_picture_is_seen(self):
        self.picture.unlink()
        self.assertEqual(self.check()[0], 1)

    def test_another_crate_is_seen_until_it_is_drawn(self):
        with open(self.top / "crates.txt", "a", encoding="utf-8") as it:
            it.write("test_another: line_io\n")
        self.assertEqual(self.check()[0], 1)
        self.assertEqual(architecture.main([], self.top), 0)
        self.assertEqual(self.check()[0], 0)
        self.assertIn("test_another", self.picture.read_text(encoding="utf-8"))

    def test_an_arrow_is_left_out_where_others_lead(self):
        found = architecture.layers("# low\na:\n\n# middle\nb: a hex\n\n# high\nc: b a\nc_more: c\n")
        self.assertEqual(architecture.uses(found), [[], [0], [1]])
        self.assertEqual([*map(architecture.facade, found)], [None, None, "c"])

    def test_boxes_are_apart_and_arrows_pass_beside_layers(self):
        found = architecture.layers((TOP / "crates.txt").read_text(encoding="utf-8"))
        direct = architecture.uses(found)
        bands = architecture.placed(found, direct)
        tops, tall, _ = architecture.heights(found, bands)
        for points in architecture.arrows(found, direct, bands):
            for (left, high), (right, low) in zip(points, points[1:]):
                for it in bands:
                    passes = min(left, right) < it.right and max(left, right) > it.left
                    self.assertFalse(passes and high < tops[it.row] + tall[it.row] and low > tops[it.row], points)
        boxes = re.findall(r'<rect class="[cfbo ]+" x="(\d+)" y="(\d+)" width="(\d+)" height="\d+" rx="4"/>\n'
                           r"<text[^>]*>(\w+)<", self.picture.read_text(encoding="utf-8"))
        self.assertEqual({it[3] for it in boxes}, {name for layer in found for name in layer.crates})
        for y in {it[1] for it in boxes}:
            line = sorted((int(x), int(x) + int(width), name) for x, down, width, name in boxes if down == y)
            for (_, end, _), (start, _, name) in zip(line, line[1:]):
                self.assertLess(end, start, name)


class PageFile(unittest.TestCase):
    """A page of results/ in a folder of its own."""

    def setUp(self):
        room = tempfile.TemporaryDirectory()
        self.addCleanup(room.cleanup)
        self.page = Path(room.name, "results", "page.md")

    def text(self):
        return self.page.read_text(encoding="utf-8")


class Pages(PageFile):
    """What stands on a page of results/."""

    CPUINFO = (
        "processor\t: 0\ncpu family\t: 6\nmodel\t\t: 85\nmodel name\t: Intel(R)  Xeon(R) Processor @ 2.50GHz\n"
        "flags\t\t: fpu hypervisor\n\nprocessor\t: 1\nmodel name\t: another\n"
    )
    WHERE = {"machine": "a machine", "date": "2026-11-28", "commit": "e9e13b7"}

    def test_a_machine_is_named_by_its_model(self):
        wanted = "Intel(R) Xeon(R) Processor @ 2.50GHz (family 6, model 85), 2 processors, virtual machine"
        self.assertEqual(results.machine(self.CPUINFO), wanted)
        self.assertEqual(results.machine("processor : 0\n"), "unknown processor, 1 processor")

    def test_the_commit_is_that_of_git(self):
        words = ["git", "rev-parse", "--short", "HEAD"]
        told = subprocess.run(words, cwd=TOP, stdout=subprocess.PIPE, text=True).stdout
        self.assertEqual(results.commit(), told.strip() or "unknown")

    def test_a_command_is_named_without_the_page(self):
        words = [str(TOP / "bench/run"), "300", "--results", "p.md", "--runs", "3", "--note=it is quiet"]
        self.assertEqual(results.own_command(words), "bench/run 300 --runs 3")
        self.assertEqual(results.own_command([str(TOP / "test"), "--proofs", "--note", "x"]), "./test --proofs")

    def test_a_section_is_replaced_and_others_stay_in_order(self):
        first, second = results.PAGES["live"].sections
        for section, figure in ((second, 1), (first, 2), (first, "3|4")):
            top = results.head("it", "quiet", **self.WHERE)
            results.write(self.page, "live", section, top, results.table(("a", "b"), [(figure, None)]))
        body = "- by: `it`\n- machine: a machine\n- date: 2026-11-28\n- commit: e9e13b7\n- note: quiet\n\n"
        first, second = (f"\n## {it}\n\n{body}| a | b |\n| --- | --- |\n" for it in (first, second))
        self.assertTrue(self.text().startswith("# Live runs\n\n"))
        self.assertTrue(self.text().endswith(f"{first}| 3\\|4 |  |\n{second}| 1 |  |\n"), self.text())

    def test_a_head_has_what_is_not_given(self):
        with mock.patch.multiple(results, machine=lambda: "m", today=lambda: "d", commit=lambda: "c"):
            self.assertEqual(results.head("it"), ["- by: `it`", "- machine: m", "- date: d", "- commit: c"])

    def test_a_run_adds_its_row(self):
        for number in range(4):
            results.add_row(self.page, "hostile", "it", ("seed", "wrong"), (number, 0), 3)
        wanted = "| seed | wrong |\n| --- | --- |\n| 1 | 0 |\n| 2 | 0 |\n| 3 | 0 |\n"
        self.assertTrue(self.text().endswith(f"\n## Runs\n\n- by: `it`\n\n{wanted}"))

    def test_of_several_runs_the_median(self):
        self.assertEqual(results.spread([3, 1, 2]), ["2.0", "1.0", "3.0"])
        self.assertEqual(results.spread([4, 1], "{:.2f}"), ["2.50", "1.00", "4.00"])
        self.assertEqual(results.spread([7]), ["7.0", None, None])


class GatePage(PageFile):
    """The gate's page, of a log."""

    LOG = (
        "machine: a machine\ndate: 2026-11-28\ncommit: e9e13b7\ncrates: 62\npaths: 1,206,140\n"
        "rt: ok; handles allowed: none; must-fail edits: 62 refused; "
        "every proof and must-fail edit was done in this run\n147 passed, 0 failed\n"
        "processors: stun_types_wire                     120.0 s proved and built    60.0 s of edits\n"
        "processors: turn_replay                          60.0 s proved and built     0.0 s of edits\n"
        "processors: rt itself                 30.0 s\n"
        "proofs             147 passed   0 failed   600.0 s    300.0 s of processors\n"
        "archive              0 passed   0 failed    60.0 s     60.0 s of processors\n"
        "examples            13 passed   0 failed     0.1 s\n"
        "hostile            200 passed   0 failed     1.6 s      6.0 s of processors\n"
        "11.0 minutes, 6.5 of processors (6.0 user, 0.5 system)\n"
        "360 passed, 0 failed\n"
    )

    def test_each_figure_stands_in_its_table(self):
        layers = {"STUN": ["stun_types_wire"], "programs": ["turn_replay"], "none": []}
        results.write_gate(self.page, self.LOG, "quiet", of_layers=layers)
        for line in (
            "- commit: e9e13b7", "- crates: 62", "- note: quiet", "- last line: `360 passed, 0 failed`",
            "- proofs: every proof and must-fail edit was done in this run",
            "| processor minutes from nothing, on model 85 | 245 | 6.5 (6.0 user, 0.5 system) |",
            "| paths that `rt` walks | 700,000 | 1,206,140 |",
            "| proofs | 147 | 0 | 600.0 | 300.0 |", "| examples | 13 | 0 | 0.1 |  |",
            "| crates and the static library: proved and built | 4.0 |",
            "| must-fail edits | 1.0 |", "| `rt` itself | 0.5 |",
            "| the parts after `rt ci` | 0.1 |", "| links and runs under `rt ci`, and the rest | 0.9 |",
            "| STUN | 120 | 60 |", "| programs | 60 | 0 |", "| `turn_replay` | 60.0 | 0.0 |",
            "| 2026-11-28 | e9e13b7 | a machine | 62 | 62 | all | 11.0 | 6.5 | `360 passed, 0 failed` | quiet |",
        ):
            self.assertIn(f"{line}\n", self.text())
        self.assertNotIn("| none |", self.text())

    def test_what_was_kept_is_told(self):
        kept = "done in this run: 2 of the 70 proofs (of crates and of their tests) and 1 of the 62 must-fail edits"
        log = self.LOG.replace("every proof and must-fail edit was done in this run", f"{kept}; the others are kept")
        results.write_gate(self.page, log)
        self.assertIn(f"- proofs: {kept}\n", self.text())
        self.assertIn("| 62 | 62 | 2 of the 70 | 11.0 |", self.text())

    def test_a_run_that_failed_or_did_not_end_is_refused(self):
        last = "360 passed, 0 failed\n"
        for log in (self.LOG.replace(last, "359 passed, 1 failed\n"), self.LOG.replace(last, ""), ""):
            with self.assertRaises(ValueError):
                results.write_gate(self.page, log)
        self.assertFalse(self.page.exists())

    def test_the_gate_prints_such_lines(self):
        gate = script(TOP / "test")
        with contextlib.redirect_stdout(io.StringIO()) as told:
            gate.told("hostile", gate.Result(200, 0, "", 6.0), 1.6)
            gate.told("examples", gate.Result(13, 0), 0.1)
            gate.tell_crates(mock.Mock(rt=30.0, crates=lambda: {"turn_replay": (60.0, 1.5)}))
            print(f"11.0 minutes, {gate.time_of_processors()}")
        found = told.getvalue()
        parts = [("hostile", "200", "0", "1.6", "6.0"), ("examples", "13", "0", "0.1", "")]
        self.assertEqual(results.PART.findall(found), parts)
        self.assertEqual(results.CRATE.findall(found), [("turn_replay", "60.0", "1.5")])
        self.assertEqual(results.RT.findall(found), ["30.0"])
        self.assertTrue(results.TIME.search(found))


class Fuzzed(unittest.TestCase):
    """The part `fuzz` of ./test."""

    def fuzzed(self, is_proved, compiler="true", has_archive=True, failed=0):
        """What the part comes to, the scripts that it calls, and what is printed, with this in place of a compiler."""
        gate, called = script(TOP / "test"), []

        def command(*words):
            called.append([str(it) for it in words])
            return gate.Result(1 - failed, failed, "", 1.0)

        with (
            tempfile.TemporaryDirectory() as room, mock.patch.object(gate, "command", command),
            mock.patch.dict("os.environ", {"CC": compiler}), contextlib.redirect_stdout(io.StringIO()) as told,
        ):
            if has_archive:
                Path(room, "libturn_client.a").touch()
            part = next(it for it in gate.parts(lambda: Path(room), is_proved) if it.name == "fuzz")
            counts = gate.run(part._replace(wants=()), False)
        return counts, [it[0] for it in called], told.getvalue()

    def test_both_run_of_what_was_proved(self):
        counts, called, _ = self.fuzzed(True)
        self.assertEqual((counts, called), ((3, 0, 0), ["tests/fuzz/run", "tools/archive", "tests/fuzz/run"]))

    def test_one_runs_of_what_was_released(self):
        counts, called, _ = self.fuzzed(False)
        self.assertEqual((counts, called), ((1, 0, 0), ["tests/fuzz/run"]))

    def test_what_is_found_fails(self):
        counts, called, _ = self.fuzzed(True, failed=1)
        self.assertEqual((counts, called), ((0, 1, 0), ["tests/fuzz/run"]))

    def test_it_is_skipped_without_libfuzzer_and_without_a_proved_library(self):
        for how, why in (({"compiler": "false"}, "libFuzzer"), ({"has_archive": False}, "isn't proved")):
            counts, called, told = self.fuzzed(False, **how)
            self.assertEqual((counts, called), ((0, 0, 1), []))
            self.assertIn(why, told)


class Measured(unittest.TestCase):
    """How scripts read what their programs print."""

    def test_the_tables_of_bench(self):
        def line(name, wanted, measured, misses=""):
            return f"{name:<96} {wanted:>14} {measured:>9}{misses}\n"

        text = f"{'':<72} {'ns':>10} {'allocations':>12}\n{'a message, 18 adds':<72} {'99.1':>10} {0:>12}\n\n"
        text += f"{'':<96} {'wanted at most':>14} {'measured':>9}\n" + line("a frame of 1000, to one of 10", "1.50", "0.906")
        text += line("a frame over TCP, ns", "", "125.000") + line("  to a datagram", "2.00", "4.600", "  MISSED")
        found = bench.read(text)
        self.assertEqual(found[0], [("a message, 18 adds", 99.1, 0)])
        self.assertEqual(found[1][0], ("a frame of 1000, to one of 10", "1.50", 0.906))
        self.assertEqual(found[1][1], ("a frame over TCP, ns", "", 125.0))
        self.assertEqual(found[1][2:], [("a frame over TCP, ns: to a datagram", "2.00", 4.6)])
        times, bounds = bench.tables([found, bench.read(text.replace("4.600", "4.900"))])
        self.assertEqual(times[2:], ["| a message, 18 adds | 99.1 | 99.1 | 99.1 | 0 |"])
        self.assertEqual(bounds[-1], "| a frame over TCP, ns: to a datagram | 2.00 | 4.750 | 4.600 | 4.900 | missed |")

    def test_the_lines_of_calls_from_c(self):
        text = "over UDP\n  open         1218 ns  3 allocations\nover TCP\n  poll      -3 ns  0 allocations\n"
        self.assertEqual(c_calls.read(text), [("over UDP", "open", 1218, 3), ("over TCP", "poll", -3, 0)])
        self.assertEqual(c_calls.table([c_calls.read(text)])[-1], "| over TCP | poll | -3 |  |  | 0 |")

    def test_processes_are_told_apart(self):
        with tempfile.TemporaryDirectory() as room:
            for name in ("crates/a", "rt-edit-1-x"):
                Path(room, name).mkdir(parents=True)

            def process(pid, parent, ticks, words=("sh",), folder="crates/a"):
                at = Path(room, "proc", str(pid))
                at.mkdir(parents=True, exist_ok=True)
                own, ended = ticks
                after = f"S {parent} {'0 ' * 9}{own} 0 {ended} 0 0 0 0 0 {pid} 0 0"
                at.joinpath("stat").write_text(f"{pid} (a (b) c) {after}\n")
                at.joinpath("cmdline").write_bytes("\0".join(words).encode() + b"\0")
                if not at.joinpath("cwd").is_symlink():
                    at.joinpath("cwd").symlink_to(Path(room, folder))

            tick, rattle = sampled.TICKS, ("rattle", "check", "--crate-name", "a", "src/lib.rt")
            process(1, 0, (3 * tick, 0))
            process(2, 1, (0, tick))
            process(3, 2, (4 * tick, 2 * tick), rattle)
            process(4, 1, (tick, 0), rattle, "rt-edit-1-x")
            process(5, 1, (tick, 0), ("clang", "a.o"))
            process(6, 0, (tick, 0), rattle)
            sampler = sampled.Sampler(1, Path(room, "proc"))
            sampler.sample()
            process(4, 1, (2 * tick, 0), rattle, "rt-edit-1-x")
            shutil.rmtree(Path(room, "proc/3"))
            process(2, 1, (0, 8 * tick))
            sampler.sample()
        self.assertEqual((sampler.rt, sampler.crates()), (3.0, {"a": [8.0, 2.0]}))


if __name__ == "__main__":
    unittest.main()
