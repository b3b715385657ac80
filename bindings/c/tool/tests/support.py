"""What the tests have in common: the builds of the program, files, and PNG pictures as packed rows."""
from __future__ import annotations

import dataclasses
import os
import pathlib
import re
import resource
import struct
import subprocess
import tempfile
import time
import unittest
import zlib

from conformance.runner.pictures import Picture, of_numbers, pictures_of

ROOT = pathlib.Path(__file__).resolve().parents[4]

# The builds, by bindings/c/tool/test: the usual one, one with sanitizers, one that counts calls, one without libraries.
TOOL = os.environ["TOOL"]
SANITIZED = os.environ.get("SANITIZED") or TOOL
COUNTED = os.environ["COUNTED"]
BARE = os.environ["BARE"]
DECODER = os.environ["PROGRAM"]
SUITE = pathlib.Path(os.environ["SUITE"])
EXAMPLE = ROOT / "crates" / "jbig2_decode" / "data" / "t88-h1.jb2"
BOOK = EXAMPLE.read_bytes()
PNG = b"\x89PNG\r\n\x1a\n"

VERSIONS = subprocess.run([TOOL, "--version"], capture_output=True, check=True).stdout
HAS_PNG, HAS_TIFF, HAS_PDF = (name in VERSIONS for name in (b": libpng", b": libtiff", b": libqpdf"))

WHOLE, NOT_DONE, WRONG_WORDS, INCOMPLETE, OVER_LIMIT = range(5)
# Seconds after which nothing comes any more. What does come is early, also on a slow and busy computer.
PATIENCE = 1000


@dataclasses.dataclass(frozen=True)
class Ended:
    """How a run ended."""

    status: int
    output: bytes
    errors: str


def run(*words, program: str = TOOL, seconds: int = 300, **how) -> Ended:
    """Runs the program for at most this many seconds of the processor. On a busy computer many more may pass."""
    how = {"stdout": subprocess.PIPE, "stderr": subprocess.PIPE, "timeout": 20 * seconds, **how}
    if "input" not in how:
        how.setdefault("stdin", subprocess.DEVNULL)
    limited = ["sh", "-c", f'ulimit -t {seconds}; exec "$@"', "sh"]
    ended = subprocess.run([*limited, program, *map(str, words)], check=False, **how)
    return Ended(ended.returncode, ended.stdout or b"", (ended.stderr or b"").decode(errors="replace"))


def seconds_of(call) -> float:
    """The seconds of the processor that the programs take which a call runs."""
    before = resource.getrusage(resource.RUSAGE_CHILDREN)
    call()
    after = resource.getrusage(resource.RUSAGE_CHILDREN)
    return after.ru_utime + after.ru_stime - before.ru_utime - before.ru_stime


def wait_until(is_so, process: subprocess.Popen) -> None:
    """Waits until something is so, or a process has ended."""
    last = time.monotonic() + PATIENCE
    while not is_so() and process.poll() is None and time.monotonic() < last:
        time.sleep(0.01)


def decoded(file: pathlib.Path, index: int, *words: str) -> Picture | None:
    """A page by the proved program."""
    ended = subprocess.run([DECODER, *words, "pbm", str(file), str(index)], capture_output=True, check=False)
    return pictures_of(ended.stdout)[0] if ended.returncode == 0 else None


def chunks_of(data: bytes) -> dict[bytes, bytes]:
    """The chunks of a PNG file, those of one name joined, with their sums checked."""
    assert data.startswith(PNG), data[:8]
    place, chunks = 8, {}
    while place < len(data):
        size, name = struct.unpack(">I4s", data[place : place + 8])
        content = data[place + 8 : place + 8 + size]
        assert zlib.crc32(name + content) == int.from_bytes(data[place + 8 + size : place + 12 + size], "big")
        chunks[name] = chunks.get(name, b"") + content
        place += 12 + size
    return chunks


def picture_of_png(data: bytes) -> Picture:
    """The picture of a PNG file of 1 bit, without a filter other than 0."""
    chunks = chunks_of(data)
    width, height, depth, colour, _, _, interlaced = struct.unpack(">IIBBBBB", chunks[b"IHDR"])
    assert (depth, colour, interlaced) == (1, 0, 0)
    stride = (width + 7) // 8
    lines = zlib.decompress(chunks[b"IDAT"])
    assert len(lines) == height * (stride + 1) and not any(lines[:: stride + 1])
    rows = [lines[y * (stride + 1) + 1 : (y + 1) * (stride + 1)] for y in range(height)]
    full = (1 << 8 * stride) - 1
    return of_numbers([(int.from_bytes(row, "big") ^ full) >> (8 * stride - width) for row in rows], width)


def counted(*words, **how) -> tuple[int, int]:
    """How often globals were decoded, and embedded pages read."""
    ended = run(*words, program=COUNTED, **how)
    counts = re.search(r"decoded globals: (\d+), read pages: (\d+)\n$", ended.errors)
    return int(counts[1]), int(counts[2])


class Case(unittest.TestCase):
    """A test with a folder of its own, in which the program runs."""

    maxDiff = 600

    def setUp(self):
        if not HAS_PNG:
            self.skipTest("libpng is not here")
        room = tempfile.TemporaryDirectory()
        self.addCleanup(room.cleanup)
        self.room = pathlib.Path(room.name)

    def made(self, data: bytes, name: str = "scan.jb2") -> pathlib.Path:
        path = self.room / name
        path.write_bytes(data)
        return path

    def run_here(self, *words, **how) -> Ended:
        return run(*words, cwd=self.room, **how)

    def files(self) -> list[str]:
        return sorted(str(path.relative_to(self.room)) for path in self.room.rglob("*") if path.is_file())

    def assert_in_proportion(self, run_on, size: int):
        """What is eight times as large takes some eight times as long, and not 64 times."""
        small, large = (seconds_of(lambda: run_on(size // part)) for part in (8, 1))
        self.assertLess(large, 24 * small)

    def assert_ends(self, ended: Ended, status: int, *texts: str):
        """The status, and texts that standard error has; none where there are none."""
        self.assertEqual(ended.status, status, ended.errors)
        for text in texts:
            self.assertIn(text, ended.errors)
        if not texts:
            self.assertEqual(ended.errors, "")
