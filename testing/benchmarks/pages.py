"""Measures whole processes of jbig2-decode on pages, beside jbig2dec.

    testing/benchmarks/pages [--rounds N] FILE.jb2 ..

Each file has a page, which both programs draw into a file. A line has the page's name, the millions of instructions of
jbig2-decode (callgrind's), the milliseconds of the processor of both, and the most memory of both, in KB. Programs take
turns, and the least of the rounds (11) counts. The pictures are compared: status 1 where two differ. PROGRAM may name a
built jbig2-decode. It needs jbig2dec, valgrind and GNU time.
"""
from __future__ import annotations

import argparse
import os
import pathlib
import re
import subprocess
import sys
import tempfile

ROOT = pathlib.Path(__file__).resolve().parents[2]


def program() -> str:
    """The built jbig2-decode."""
    if "PROGRAM" in os.environ:
        return os.environ["PROGRAM"]
    built = subprocess.run([ROOT / "tools" / "build" / "program", "jbig2-decode"], check=True, stdout=subprocess.PIPE, text=True)
    return built.stdout.rstrip("\n")


def milliseconds(words: list[str], out: pathlib.Path) -> float:
    """The processor's time of one run."""
    with open(out, "wb") as output:
        child = subprocess.Popen(words, stdout=output, stderr=subprocess.DEVNULL)
        _, status, used = os.wait4(child.pid, 0)
        child.returncode = os.waitstatus_to_exitcode(status)
    if child.returncode:
        sys.exit(f"testing/benchmarks/pages: {' '.join(words)}: status {child.returncode}")
    return 1000 * (used.ru_utime + used.ru_stime)


def kilobytes(words: list[str]) -> int:
    """The most memory of one run. It is GNU time's: a child of this script would begin with the script's own peak."""
    words = ["/usr/bin/time", "-f", "%M", *words]
    ended = subprocess.run(words, stdout=subprocess.DEVNULL, stderr=subprocess.PIPE, check=True, text=True)
    return int(ended.stderr.split()[-1])


def millions(words: list[str]) -> float:
    """The instructions of one run."""
    words = ["valgrind", "--tool=callgrind", "--callgrind-out-file=/dev/null", *words]
    ended = subprocess.run(words, stdout=subprocess.DEVNULL, stderr=subprocess.PIPE, check=True, text=True)
    return int(re.search(r"Collected : (\d+)", ended.stderr)[1]) / 1e6


def measured(file: pathlib.Path, rounds: int, room: pathlib.Path) -> str:
    """The line of a page."""
    ours, theirs = room / "ours.pbm", room / "theirs.pbm"
    here = [program(), "pbm", str(file), "0"]
    there = ["jbig2dec", "-t", "pbm", "-o", str(theirs), str(file)]
    turns = [(milliseconds(here, ours), milliseconds(there, room / "said")) for _ in range(rounds)]
    if ours.read_bytes() != theirs.read_bytes():
        sys.exit(f"testing/benchmarks/pages: {file}: the pictures differ")
    times = " ".join(f"{min(column):.1f}" for column in zip(*turns))
    return f"{file.stem} {millions(here):.1f} {times} {kilobytes(here)} {kilobytes(there)}"


def main() -> None:
    """Measures the pages that are named."""
    parser = argparse.ArgumentParser(usage=__doc__)
    parser.add_argument("--rounds", type=int, default=11)
    parser.add_argument("files", type=pathlib.Path, nargs="+")
    options = parser.parse_args()
    with tempfile.TemporaryDirectory() as name:
        for file in options.files:
            print(measured(file, options.rounds, pathlib.Path(name)), flush=True)


if __name__ == "__main__":
    main()
