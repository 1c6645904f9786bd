"""Builds wheels of the client for pip (PEP 517, PEP 660), with the standard library alone: no network, no compiler.

`pip install ./bindings/python` calls build_wheel. The wheel has the package turn_client, which is turn_client.py with
its shared library and the mark that it has type hints, and turn_client_asyncio as it is in this folder. The shared
library is the one that turn_client.py finds: that of dist/x86_64-linux-gnu, unless TURN_CLIENT_LIB names another
folder. `pip install -e ./bindings/python` calls build_editable, whose wheel only names this folder.

The wheel needs no other package, and is for any Python 3 on x86-64 Linux with glibc. Its tag names manylinux_2_17, the
oldest platform that pip knows by a name of its own: the library wants libc.so.6 alone, and of that nothing newer than
glibc 2.14 (memcpy). A library of this machine that wants a newer one gets the tag of what it wants. There is no sdist:
the library is in dist/, which is outside of this folder and is built by the Rattle kit.
"""

from __future__ import annotations

import base64
import hashlib
import re
import sys
import zipfile
from pathlib import Path
from typing import Any

HERE = Path(__file__).resolve().parent
TOP = HERE.parents[1]
NAME, PROJECT = "turn_client", "turn-client"
DRIVER = "turn_client_asyncio"
SHARED = "libturn_client.so"
LICENSES = "LICENSE-MIT", "LICENSE-APACHE"
OUTSIDE = f"{PROJECT} is built in a clone of its repository: this folder alone has neither VERSION nor the library. " \
          "A pip older than 21.3 builds in a copy of the folder: upgrade it (pip install --upgrade pip)."
OLDEST = 17  # the minor version of glibc of manylinux_2_17, which an older pip knows as manylinux2014


class UnsupportedOperation(Exception):
    """What build_sdist raises; a frontend looks for this name (PEP 517)."""


if not (TOP / "VERSION").is_file():
    raise SystemExit(OUTSIDE)
VERSION = (TOP / "VERSION").read_text(encoding="utf-8").strip()
INFO = f"{NAME}-{VERSION}.dist-info"
METADATA = f"""\
Metadata-Version: 2.1
Name: {PROJECT}
Version: {VERSION}
Summary: A proved TURN client that does no input or output, and a driver for asyncio
License: MIT OR Apache-2.0
Keywords: turn,stun,nat,rfc8656,asyncio
Classifier: Framework :: AsyncIO
Classifier: License :: OSI Approved :: Apache Software License
Classifier: License :: OSI Approved :: MIT License
Classifier: Operating System :: POSIX :: Linux
Classifier: Programming Language :: Python :: 3
Classifier: Topic :: Internet
Classifier: Typing :: Typed
License-File: LICENSE-MIT
License-File: LICENSE-APACHE
Requires-Python: >=3.9
Description-Content-Type: text/markdown

"""


# ---- what the wheel has


def library() -> Path:
    """The shared library, which is loaded once to see that it serves this platform."""
    sys.path.insert(0, str(HERE))
    try:
        import turn_client
    except ImportError as why:
        raise SystemExit(f"{PROJECT} isn't installed: {why}") from None
    found = turn_client._library()
    if found.name != SHARED:
        raise SystemExit(f"{PROJECT} isn't installed: {found} is not proved")
    if turn_client.__version__ != VERSION:
        raise SystemExit(f"{PROJECT} isn't installed: turn_client.py states version {turn_client.__version__}, and "
                         f"VERSION {VERSION}")
    return found


def tag(shared: bytes) -> str:
    """The tag of a library, by the newest version of glibc that it names: as of the oldest platform that has that."""
    named = [int(it) for it in re.findall(rb"\0GLIBC_2\.(\d+)(?:\.\d+)?(?=\0)", shared)]
    least = max([OLDEST, *named])
    legacy = ".manylinux2014_x86_64" if least == OLDEST else ""
    return f"py3-none-manylinux_2_{least}_x86_64{legacy}"


def wheel_file(of: str) -> str:
    tags = "".join(f"Tag: py3-none-{it}\n" for it in of.removeprefix("py3-none-").split("."))
    return f"Wheel-Version: 1.0\nGenerator: {NAME} make_wheel ({VERSION})\nRoot-Is-Purelib: false\n{tags}"


def information(of: str) -> dict[str, bytes]:
    """The folder of metadata, by paths in it."""
    return {
        **{f"{INFO}/{it}": (TOP / it).read_bytes() for it in LICENSES},
        f"{INFO}/METADATA": METADATA.encode() + (HERE / "README.md").read_bytes(),
        f"{INFO}/WHEEL": wheel_file(of).encode(),
    }


def packages(shared: bytes) -> dict[str, bytes]:
    driver = {f"{DRIVER}/{it.name}": it.read_bytes()
              for it in [*sorted((HERE / DRIVER).glob("*.py")), HERE / DRIVER / "py.typed"]}
    client = (HERE / f"{NAME}.py").read_bytes()
    return {f"{NAME}/__init__.py": client, f"{NAME}/{SHARED}": shared, f"{NAME}/py.typed": driver[f"{DRIVER}/py.typed"], **driver}


def record(given: dict[str, bytes], path: str) -> bytes:
    """The list of all files with their digests, and of itself without."""
    lines = []
    for name, content in given.items():
        digest = base64.urlsafe_b64encode(hashlib.sha256(content).digest()).rstrip(b"=").decode()
        lines.append(f"{name},sha256={digest},{len(content)}\n")
    return "".join([*lines, f"{path},,\n"]).encode()


def write(folder: str, of: str, given: dict[str, bytes]) -> str:
    """Writes a wheel into a folder: its name. The same files are the same bytes."""
    path, made = f"{INFO}/RECORD", f"{NAME}-{VERSION}-{of}.whl"
    with zipfile.ZipFile(Path(folder, made), "w", zipfile.ZIP_DEFLATED) as wheel:
        for name, content in {**given, path: record(given, path)}.items():
            told = zipfile.ZipInfo(name)
            told.external_attr = (0o755 if name.endswith(".so") else 0o644) << 16
            wheel.writestr(told, content, zipfile.ZIP_DEFLATED)
    return made


# ---- what a frontend calls


def build_wheel(wheel_directory: str, config_settings: Any = None, metadata_directory: Any = None) -> str:
    """Writes the wheel into a folder, and answers its name (PEP 517)."""
    shared = library().read_bytes()
    of = tag(shared)
    return write(wheel_directory, of, {**packages(shared), **information(of)})


def build_editable(wheel_directory: str, config_settings: Any = None, metadata_directory: Any = None) -> str:
    """The same of a wheel by which Python imports what is in this folder (PEP 660)."""
    of = tag(library().read_bytes())
    return write(wheel_directory, of, {f"{NAME}.pth": f"{HERE}\n".encode(), **information(of)})


def build_sdist(sdist_directory: str, config_settings: Any = None) -> str:
    """Refuses: see above."""
    raise UnsupportedOperation(f"there is no sdist of {PROJECT}, whose library is built outside of this folder: make a "
                               "wheel (pip wheel ./bindings/python), or install from a clone")
