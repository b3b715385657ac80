"""What the tests have in common: files, and the program that is proved."""

from __future__ import annotations

import os
import pathlib
import subprocess

ROOT = pathlib.Path(__file__).resolve().parents[3]
EXAMPLE = ROOT / "crates" / "jbig2_decode" / "data" / "t88-h1.jb2"
PAGE = ROOT / "crates" / "jbig2_decode" / "data" / "page.jb2"
PROGRAM = os.environ.get("JBIG2_DECODE")

# Of a sequential file of one page (T.88, D.4).
HEADER = bytes.fromhex("974A42320D0A1A0A 01 00000001")
# Row R9.2 of crates/jbig2_rows/README.md: a text region whose symbol is in the globals.
GLOBALS = bytes.fromhex("00000001 00 00 01 0000000F 0001 00000001 00000001 5F80800040")
TEXT = bytes.fromhex(
    "00000000 30 00 01 00000013 00000008 00000001" + "00" * 11 + "00000002 06 20 01 01 0000002D 00000008 00000001"
    "000000000000000000 0011 0000 00000001 01" + "00" * 17 + "0004"
)


def run_program(*words: str) -> tuple[int, bytes, str]:
    """Status, output and messages of jbig2-decode."""
    assert PROGRAM is not None
    run = subprocess.run([PROGRAM, *words], capture_output=True, check=False)
    return run.returncode, run.stdout, run.stderr.decode()


def generic_page(width: int, height: int) -> bytes:
    """A page that a generic region of no bytes fills: the larger, the longer it takes."""
    size = width.to_bytes(4, "big") + height.to_bytes(4, "big")
    return (
        bytes.fromhex("00000000 30 00 01 00000013")
        + size
        + bytes(11)
        + bytes.fromhex("00000001 26 00 01 0000001A")
        + size
        + bytes.fromhex("000000000000000000 00 03FFFDFF02FEFEFE")
    )
