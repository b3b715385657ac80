"""Times the command hayro-jbig2 on whole documents, beside jbig2dec.

    testing/benchmarks/command [--pages N] [--rounds N] FILE.jb2 ..

Each file has a page. A JBIG2 file and a PDF file of N pages (200, at most 255) are made of it, all the same page, whose
dictionaries and tables they share. Both programs write all pages of the JBIG2 file as PBM; jbig2dec can't read PDF files.
Programs take turns. Where clang builds unchecked_document.c and that draws the same page, its loop without checks takes
turns with them. Of the processor's time, and of the time that passed, the least of the rounds (3) counts. What is written is
compared. `make -C bindings/c` builds the command first.
"""
from __future__ import annotations

import argparse
import os
import pathlib
import shutil
import subprocess
import sys
import tempfile
import time

from conformance.runner.embedding import embedded_page, image_of
from conformance.runner.pdf import Image, pdf_of
from conformance.runner.segments import END_OF_PAGE, IDENTIFICATION, sequential

ROOT = pathlib.Path(__file__).resolve().parents[2]
TOOL = str(ROOT / "bindings" / "c" / "out" / "hayro-jbig2")


def file_of(image: Image, pages: int) -> bytes:
    """A JBIG2 file of equal pages, at most 255."""
    segments = [segment for segment in sequential(image.stream) if segment.kind != END_OF_PAGE]
    last = (1 + max(segment.number for segment in segments)).to_bytes(4, "big")
    out = [IDENTIFICATION, b"\1", pages.to_bytes(4, "big"), image.shared]
    for page in range(1, pages + 1):
        out += [segment.on_page(page) for segment in segments]
        out.append(last + bytes([END_OF_PAGE, 0, page]) + bytes(4))
    return b"".join(out)


def timed(words: list[str]) -> tuple[float, float]:
    """The seconds of the processor and those that passed."""
    before, began = os.times(), time.monotonic()
    subprocess.run(words, check=True, stderr=subprocess.DEVNULL)
    after, ended = os.times(), time.monotonic()
    used = after.children_user + after.children_system - before.children_user - before.children_system
    return used, ended - began


def loop_of(file: pathlib.Path, pages: int, room: pathlib.Path, out: pathlib.Path) -> list[str]:
    """The command of the loop without checks, or nothing where it can't be."""
    program, source = str(room / "unchecked_document"), str(ROOT / "testing" / "benchmarks" / "unchecked_document.c")
    words = ["clang", "-std=gnu11", "-Wall", "-Wextra", "-O3", "-march=x86-64-v2", source, "-o", program]
    # Other processors than x86-64 have no such level.
    if not shutil.which("clang") or subprocess.run(words).returncode:
        return []
    # The whole path, since a name alone may be a word of the command's.
    drawn = subprocess.run([TOOL, file.absolute(), "-p", "1", "-f", "pbm", "-o", "-"], capture_output=True).stdout
    try:
        # It trusts the file, so of another kind of page it may draw a part, or never end.
        tried = subprocess.run([program, file, "1"], capture_output=True, timeout=60)
    except subprocess.TimeoutExpired:
        return []
    is_whole = tried.returncode == 0 and tried.stdout == drawn
    return ["sh", "-c", f'exec "$0" "$1" {pages} >"$2"', program, str(file), str(out)] if is_whole else []


def ways_of(document: pathlib.Path, pdf: pathlib.Path, out: pathlib.Path) -> dict[str, list[str]]:
    """The commands, by their names. Each writes out."""
    ways = {}
    for jobs in sorted({1, 4}):
        for name, file in ("file", document), ("PDF", pdf):
            ways[f"{name}, {jobs} jobs"] = [TOOL, str(file), "--force", "-j", str(jobs), "-o", str(out)]
    if shutil.which("jbig2dec"):
        ways["jbig2dec, file"] = ["jbig2dec", "-q", "-t", "pbm", "-o", str(out), str(document)]
    return ways


def compare(file: pathlib.Path, image: Image, pages: int, rounds: int) -> None:
    """Prints a line for each way."""
    with tempfile.TemporaryDirectory() as name:
        room = pathlib.Path(name)
        document, pdf, out = room / "document.jb2", room / "document.pdf", room / "out.pbm"
        document.write_bytes(file_of(image, pages))
        pdf.write_bytes(pdf_of([image] * pages))
        ways = ways_of(document, pdf, out)
        if loop := loop_of(file, pages, room, out):
            ways["a loop without checks"] = loop
        runs: dict[str, list[tuple[float, float]]] = {way: [] for way in ways}
        written = set()
        for _ in range(rounds):
            for way, words in ways.items():
                runs[way].append(timed(words))
                written.add(hash(out.read_bytes()))
        for way, times in runs.items():
            used, passed = (min(column) for column in zip(*times))
            print(f"    {way}: {used:.2f} s of the processor, {passed:.2f} s")
        if len(written) != 1:
            sys.exit("    the pictures differ")


def main() -> None:
    """Prints a paragraph for each file."""
    parser = argparse.ArgumentParser(usage=__doc__)
    parser.add_argument("--pages", type=int, default=200)
    parser.add_argument("--rounds", type=int, default=3)
    parser.add_argument("files", nargs="+", type=pathlib.Path)
    options = parser.parse_args()
    if not 1 <= options.pages <= 255:
        parser.error("--pages takes 1 to 255")
    if subprocess.run(["make", "--silent", "-C", ROOT / "bindings" / "c"], stdout=subprocess.DEVNULL).returncode:
        sys.exit("testing/benchmarks/command: make -C bindings/c can't build the command")
    for file in options.files:
        image = image_of(embedded_page(file.read_bytes(), 0))
        print(f"{file.name}: {options.pages} pages, {len(image.shared)} bytes of globals")
        compare(file, image, options.pages, options.rounds)
        sys.stdout.flush()


if __name__ == "__main__":
    main()
