"""Cuts pages off at random places, and compares the rows that are shown of them here, by Poppler and by jbig2dec.

    cut_off.py [--suite] [--count COUNT] [--seed SEED] [--thrice] [--list] [FILE.jb2 ..]

Each FILE is sequential, and its first page is taken, as a PDF file has it. With --suite there are those of the conformance
suite that have refinements, halftone regions or MMR data, too. The end of a page's stream is cut off, at a place after its
headers; with --thrice each page is cut off after a third, a half and four fifths. The command hayro-jbig2 reads it in salvage.
A row counts if it has ink on the whole page and is shown as it is there. Status 1 where the command reports nothing, or shows
ink that the whole page doesn't have, unless what is missing could have taken it away. --list names each page of which another
decoder shows more rows.
Needs make and libqpdf (Debian's libqpdf-dev), jbig2dec, and pdfimages (Debian's poppler-utils).
"""
from __future__ import annotations

import argparse
import collections
import dataclasses
import itertools
import pathlib
import random
import subprocess
import sys
import tempfile

from testing.comparison.root import ROOT
from conformance.runner.embedding import Embedded, embedded_page, pdf_of
from conformance.runner.pictures import NoPicture, Picture, pictures_of
from conformance.runner.segments import PAGE_INFORMATION, Segment, sequential
from conformance.suite.all_cases import cases_of
from conformance.suite.case import SEQUENTIAL

COMMAND = pathlib.Path(ROOT, "bindings/c/out/hayro-jbig2")
INCOMPLETE = 3  # the command's status for a page that lacks something
HEADERS = 64  # page information, and the headers of a region
HALFTONES, REFINEMENTS = (22, 23), (42, 43)
MODULES = ("mmr", "refinements", "halftones")  # of the conformance suite
PARTS = (1 / 3, 1 / 2, 4 / 5)


@dataclasses.dataclass(frozen=True)
class Shown:
    """What is shown of a cut-off page by each decoder: rows that are right."""

    name: str
    rows: dict[str, int]
    inked: int
    is_reported: bool
    has_wrong_ink: bool

    @property
    def best(self) -> int:
        return max(rows for decoder, rows in self.rows.items() if decoder != "ours")


def rows_of(picture: Picture) -> list[bytes]:
    stride = (picture.width + 7) // 8
    return [picture.rows[at : at + stride] for at in range(0, len(picture.rows), stride)]


def picture_in(path: pathlib.Path) -> Picture | None:
    """The picture in a PBM file, if there is one."""
    try:
        return pictures_of(path.read_bytes())[0]
    except (OSError, NoPicture, IndexError):
        return None


def right_rows(picture: Picture | None, whole: Picture) -> int:
    """How many rows with ink are as on the whole page."""
    if picture is None or picture.width != whole.width:
        return 0
    return sum(any(row) and row == shown for row, shown in zip(rows_of(whole), rows_of(picture)))


def has_wrong_ink(picture: Picture | None, whole: Picture) -> bool:
    """Whether a picture is black where the whole page is white."""
    if picture is None:
        return False
    return bool(int.from_bytes(picture.rows, "big") & ~int.from_bytes(whole.rows, "big"))


def drawn_here(page: Embedded, room: pathlib.Path, *words: str) -> tuple[Picture | None, int]:
    """What the command draws, and its status."""
    (room / "page.jb2e").write_bytes(page.stream)
    (room / "page.jb2g").write_bytes(page.shared)
    shared = [room / "page.jb2g"] if page.shared else []
    picture = room / "ours.pbm"
    status = subprocess.run(
        [COMMAND, *words, "--quiet", room / "page.jb2e", *shared, "-o", picture], stderr=subprocess.DEVNULL
    ).returncode
    return picture_in(picture), status


def run_peer(*words: str | pathlib.Path) -> None:
    """Runs another decoder, which may fail or take too long: then it shows nothing."""
    try:
        subprocess.run(words, stderr=subprocess.DEVNULL, timeout=60)
    except subprocess.TimeoutExpired:
        print(f"{words[0]} takes more than a minute")


def drawn_by_peers(page: Embedded, room: pathlib.Path) -> dict[str, Picture | None]:
    """What Poppler and jbig2dec draw."""
    (room / "page.pdf").write_bytes(pdf_of(page))
    run_peer("pdfimages", room / "page.pdf", room / "poppler")
    streams = [room / "page.jb2g", room / "page.jb2e"] if page.shared else [room / "page.jb2e"]
    run_peer("jbig2dec", "-q", "-e", "-t", "pbm", "-o", room / "jbig2dec.pbm", *streams)
    return {"Poppler": picture_in(room / "poppler-000.pbm"), "jbig2dec": picture_in(room / "jbig2dec.pbm")}


def shown_of(name: str, page: Embedded, whole: Picture, place: int) -> Shown:
    """Draws a page whose stream is cut off."""
    cut = dataclasses.replace(page, stream=page.stream[:place])
    with tempfile.TemporaryDirectory() as folder:
        room = pathlib.Path(folder)
        ours, status = drawn_here(cut, room, "--salvage")
        pictures = drawn_by_peers(cut, room)
    rows = {"ours": right_rows(ours, whole)} | {peer: right_rows(picture, whole) for peer, picture in pictures.items()}
    inked = sum(any(row) for row in rows_of(whole))
    is_wrong = not any(map(takes_ink_away, sequential(page.stream))) and has_wrong_ink(ours, whole)
    return Shown(f"{name} after {place} bytes", rows, inked, status == INCOMPLETE, is_wrong)


def takes_ink_away(segment: Segment) -> bool:
    """Whether more of a segment may turn black pixels white: it is a refinement, a page or a halftone region that begins black,
    or a halftone region whose cells are not joined by Or."""
    flags = segment.data[16:18]
    if segment.kind == PAGE_INFORMATION:
        return bool(flags[0] & 4)
    return segment.kind in REFINEMENTS or segment.kind in HALFTONES and flags[1] & 0xF0 > 0


def suite_files() -> list[tuple[str, bytes]]:
    """Files of the conformance suite, which are to be drawn."""
    cases = [case for module in MODULES for case in cases_of(module)]
    return [(case.name, case.files[".jb2"]) for case in cases if case.kind == SEQUENTIAL]


def whole_pages(files: list[tuple[str, bytes]]) -> list[tuple[str, Embedded, Picture]]:
    """The first pages of files, and what the command draws of them."""
    pages = []
    for name, data in files:
        page = embedded_page(data, 0)
        with tempfile.TemporaryDirectory() as folder:
            picture, status = drawn_here(page, pathlib.Path(folder))
        if status or picture is None or picture.is_plain or len(page.stream) <= HEADERS:
            print(f"{name}: left out")
        else:
            pages.append((name, page, picture))
    return pages


def inside(stream: bytes, place: int) -> int:
    """A place, or the one after it where a segment ends there: nobody can see that a page ends early there."""
    ends = itertools.accumulate(len(segment.on_page(1)) for segment in sequential(stream))
    return place + (place in ends)


def cuts(options: argparse.Namespace, pages: list[tuple[str, Embedded, Picture]]):
    """The pages that are cut off, each with the place."""
    if options.thrice:
        places = [(page, int(part * len(page[1].stream))) for page in pages for part in PARTS]
    else:
        chance = random.Random(options.seed)
        chosen = [chance.choice(pages) for _ in range(options.count)]
        places = [(page, chance.randrange(HEADERS, len(page[1].stream))) for page in chosen]
    return [(page, inside(page[1].stream, place)) for page, place in places]


def main() -> int:
    parser = argparse.ArgumentParser(usage=__doc__)
    parser.add_argument("--count", type=int, default=300)
    parser.add_argument("--seed", type=int, default=1)
    parser.add_argument("--thrice", action="store_true")
    parser.add_argument("--list", action="store_true")
    parser.add_argument("--suite", action="store_true")
    parser.add_argument("files", type=pathlib.Path, nargs="*")
    options = parser.parse_args()
    files = [(path.name, path.read_bytes()) for path in options.files] + (suite_files() if options.suite else [])
    if not files:
        parser.error("there are no files")
    subprocess.run(["make", "--quiet", "-C", pathlib.Path(ROOT, "bindings", "c")], check=True, stdout=subprocess.DEVNULL)
    places = cuts(options, whole_pages(files))
    total, wrong, less = collections.Counter(), 0, 0
    for (name, page, whole), place in places:
        shown = shown_of(name, page, whole, place)
        total += collections.Counter(shown.rows) + collections.Counter(inked=shown.inked)
        fault = "not reported" if not shown.is_reported else "ink that the page doesn't have" if shown.has_wrong_ink else ""
        wrong += bool(fault)
        less += shown.rows["ours"] < shown.best
        if fault or (options.list and shown.rows["ours"] < shown.best):
            print(f"{shown.name}: {fault or 'less here'}: {shown.rows}")
    parts = ", ".join(f"{100 * rows / total['inked']:.1f} in 100 {who}" for who, rows in total.items() if who != "inked")
    print(f"{len(places)} cut-off pages, of the rows with ink: {parts}; {less} with less here, {wrong} wrong")
    return 1 if wrong else 0


if __name__ == "__main__":
    sys.exit(main())
