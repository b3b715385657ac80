"""Tries the limit of work of the shared library for C, on the conformance suite or on files.

usage: testing/limits/run [--long] [--every UNITS] [--jobs COUNT] [--library LIBRARY] [FILE ..]

Each page is drawn without a limit, then within exactly what it takes, which must change nothing: not the rows, nor the
fault that refuses the page, if one does. Then it is drawn within less, which must be refused for want of work with
nothing left, and the same context must draw an example. The same is tried with what pages share. The bytes that the
library asks for are added up, and compared with what was paid. Pages are tried as pages of files and as embedded ones,
in lenient and in strict reading.

Pairs of pages are tried too, two for each price of docs/FORMAT.md, 12.6. The least limits that are enough for both
differ by that price.

LIBRARY is bindings/c/out/libhayro_jbig2.so.0 where none is named: run bindings/c/build first. FILE .. are files with a file
header, which are tried instead of the suite and the pairs. --long also tries pages whose segments are repeated. --every tries
each limit below what a page takes, where that is at most UNITS; else some of them are tried. Status 0: all is so.
"""
from __future__ import annotations

import argparse
import concurrent.futures
import os
import pathlib
import sys

from testing.limits import bounds, subjects
from testing.limits.library import NO_LIMIT, Library, Page
from testing.limits.pair_trials import tried_pairs
from testing.limits.trials import Found, Trial

ROOT = pathlib.Path(__file__).resolve().parents[2]
EXAMPLE = ROOT / "crates" / "jbig2_decode" / "data" / "t88-h1.jb2"
# How many subjects a process takes at once.
PIECE = 50


def options_of(words: list[str]) -> argparse.Namespace:
    """The options and the files."""
    parser = argparse.ArgumentParser(usage=__doc__, add_help=True)
    parser.add_argument("--long", action="store_true")
    parser.add_argument("--every", type=int, default=0)
    parser.add_argument("--jobs", type=int, default=os.cpu_count())
    parser.add_argument("--library", default=str(ROOT / "bindings" / "c" / "out" / "libhayro_jbig2.so.0"))
    parser.add_argument("files", nargs="*")
    return parser.parse_args(words)


def tried(path: str, every: int, piece: list[subjects.Subject]) -> Found:
    """What the trials of some subjects find, in both modes."""
    library, data, found = Library(path), EXAMPLE.read_bytes(), Found()
    with library.made("file", "file_new_within", None, True, NO_LIMIT, data, len(data)) as example:
        for subject in piece:
            for strict in (False, True):
                found.add(Trial(library, Page(example, 2), subject, strict, every).run())
    return found


def all_tried(options: argparse.Namespace) -> Found:
    """What the trials of all subjects find."""
    wanted = subjects.of_files(options.files) if options.files else subjects.of_suite(options.long)
    size = 1 if options.files else PIECE
    pieces = [wanted[at : at + size] for at in range(0, len(wanted), size)]
    found = Found()
    with concurrent.futures.ProcessPoolExecutor(options.jobs) as pool:
        for part in pool.map(tried, [options.library] * len(pieces), [options.every] * len(pieces), pieces):
            found.add(part)
    if not options.files:
        found.add(tried_pairs(options.library))
    return found


def report(found: Found) -> int:
    """Prints what was taken and what is not so, and returns the status."""
    for name, taken in ("pages", found.pages), ("what pages share", found.shared):
        units = sorted(one.units for one in taken if one.units) or [0]
        print(f"{name}: {len(taken)} trials, in {len(units)} work is done: {units[0]} to {units[-1]} units")
    lists = found.pages + found.refused + found.shared, found.reading
    for bound, taken in zip((bounds.DECODING, bounds.READING), lists):
        excess, most = bound.most(taken)
        found.check(excess <= bound.besides, f"{most} asks for {excess} bytes besides those of {bound}")
    for fault in found.faults:
        print(f"not so: {fault}")
    print(f"{found.checks} checks of the limit of work, {len(found.faults)} failed")
    return 1 if found.faults else 0


def main() -> int:
    """Runs the trials."""
    options = options_of(sys.argv[1:])
    try:
        return report(all_tried(options))
    except (OSError, AttributeError) as fault:
        print(f"testing/limits/run: {fault}", file=sys.stderr)
        return 2


if __name__ == "__main__":
    sys.exit(main())
