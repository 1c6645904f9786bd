#!/usr/bin/env python3
"""Makes the rows of `test_rows_wire`: what it is asked, and what it is to answer.

Nothing here knows the repository's code. What is to be answered is worked out by RFC 8489, RFC 8656 and RFC
6062, with Python's hmac, hashlib and zlib, and where a call is refused by what its documentation says. Bytes
that other programs were recorded to send, and samples of RFCs, are held against what is worked out. Rows of
frames are made in `rows_wire_frames.py`, of attributes in `rows_wire_attributes.py`, of messages that are read in
`rows_wire_messages.py`, of messages that are written in `rows_wire_written.py`, and of bytes that are changed in
place or moved in `rows_wire_changed.py`.
"""

import sys
from pathlib import Path

# what is imported leaves no folder of compiled files behind
sys.dont_write_bytecode = True

import rows_wire_attributes
import rows_wire_changed
import rows_wire_frames
import rows_wire_messages
import rows_wire_written
from rows_wire_base import write

CRATE = Path(__file__).resolve().parents[2] / "crates/test_rows_wire"


def main():
    for made in (
        rows_wire_frames, rows_wire_attributes, rows_wire_messages, rows_wire_written, rows_wire_changed,
    ):
        made.rows()
    write(CRATE)


if __name__ == "__main__":
    main()
