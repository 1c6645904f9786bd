"""What stands in `dist/`: which files were released, of which sources, and whether the sources went on since.

`dist/x86_64-linux-gnu/MANIFEST` has a section `[release]` for the whole, and one for each file: its digest, the
crate or the file that it was made of, and the digest of all code below that. `tools/release` writes it.
"""

import configparser
import hashlib
from functools import lru_cache
from pathlib import Path

TOP = Path(__file__).resolve().parent.parent
PLATFORM = "x86_64-linux-gnu"
DIST = TOP / "dist" / PLATFORM
MANIFEST = DIST / "MANIFEST"

# each released program, and its crate
PROGRAMS = {"turn-replay": "turn_replay", "stun-inspect": "stun_inspect", "trace-picture": "trace_picture"}
LIBRARY_CRATE = "turn_client_c"
# each other released file, and what it is made of beside the crate: scripts that build it, or files that it copies
# or is compiled of
LIBRARIES = {
    "libturn_client.a": ("bindings/c/build", "bindings/c/wiping.c"),
    "libturn_client.so": ("bindings/c/build", "bindings/c/wiping.c", "bindings/python/build", "VERSION"),
}
COPIES = {
    "turn_client.h": ("bindings/c/include/turn_client.h",),
    "turn_client.pc": ("bindings/c/build", "VERSION"),
    "turn_driver.h": ("bindings/c/include/turn_driver.h",),
    "turn_driver.pc": ("bindings/c/build_driver", "VERSION"),
    "libturn_driver.a": (
        "bindings/c/build_driver", "bindings/c/include/turn_client.h", "bindings/c/include/turn_driver.h",
        "bindings/c/driver/internal.h", *(f"bindings/c/driver/{it}.c" for it in (
            "address", "buffers", "clock", "connection", "datagrams", "driver", "failure", "line", "turns", "uri"))),
}
FILES = (*LIBRARIES, *COPIES, *PROGRAMS)
# what is made without what was proved: of C, of files that are copied, and of the released archive
DERIVED = ("libturn_client.so", "turn_client.h", "turn_driver.h", "turn_driver.pc", "libturn_driver.a")
# what packages of Rust have of files elsewhere, each with that file: a package has no file from outside its folder, and
# `rt` takes no repository with links
RUST = ("bindings/rust", "bindings/rust/turn-client-sys", "bindings/rust/turn-client-tokio")
PACKAGED = {
    **{f"{RUST[1]}/lib/{PLATFORM}/{it}": f"dist/{PLATFORM}/{it}" for it in ("libturn_client.a", "turn_client.h")},
    **{f"{package}/{it}": it for package in RUST for it in ("LICENSE-APACHE", "LICENSE-MIT")},
}


def digest_of(path):
    """The SHA-256 of a file, in hex."""
    return hashlib.sha256(Path(path).read_bytes()).hexdigest()


@lru_cache(maxsize=None)
def crate_lines():
    """Each line of crates.txt by the crate's name, without comments."""
    lines = (line.partition("#")[0].strip() for line in (TOP / "crates.txt").read_text().splitlines())
    return {line.partition(":")[0].split()[0]: line for line in lines if line}


@lru_cache(maxsize=None)
def below(crate):
    """A crate and all crates of the repository that it stands on, by name, sorted."""
    found, left = set(), [crate]
    while left:
        name = left.pop()
        if name not in found:
            found.add(name)
            left += [it for it in crate_lines()[name].partition(":")[2].split() if it in crate_lines()]
    return sorted(found)


@lru_cache(maxsize=None)
def code_of(crate):
    """The digest of a crate's own code: its line of crates.txt, and each file of src/ by its path."""
    folder = TOP / "crates" / crate
    whole = hashlib.sha256(crate_lines()[crate].encode() + b"\n")
    for path in sorted((folder / "src").rglob("*.rt")):
        whole.update(f"{path.relative_to(folder)} {digest_of(path)}\n".encode())
    return whole.hexdigest()


@lru_cache(maxsize=None)
def digest_of_crates(crate):
    """The digest of the code of a crate and of each crate below it. Definitions and proofs are no part of it: they
    are checked, and nothing is compiled of them."""
    return hashlib.sha256("".join(f"{it} {code_of(it)}\n" for it in below(crate)).encode()).hexdigest()


def sources_of(file):
    """The digest of all that a released file is made of: the code of its crate and of those below, and the scripts
    that build it or the file that it copies."""
    crate = PROGRAMS.get(file) or (LIBRARY_CRATE if file in LIBRARIES else None)
    whole = hashlib.sha256(digest_of_crates(crate).encode() if crate else b"")
    for path in LIBRARIES.get(file) or COPIES.get(file) or ():
        whole.update(f"{path} {digest_of(TOP / path)}\n".encode())
    return whole.hexdigest()


@lru_cache(maxsize=None)
def manifest():
    """The sections of MANIFEST by name; empty where nothing is released."""
    parser = configparser.ConfigParser(interpolation=None)
    parser.read(MANIFEST, encoding="utf-8")
    return parser


def is_current(file):
    """Whether a file was released of just the sources that stand here."""
    known = manifest()
    return file in known and known[file]["sources"] == sources_of(file)


def version():
    return manifest().get("release", "version", fallback="none")
