"""Has mutool, gs and jbig2dec draw the pages of the conformance suite over this library, and compares them with the
expected pictures.

    pages.py SUITE [--both]

SUITE is a folder that conformance/make has filled. With --both the pages are drawn over the system's library too,
for the table in bindings/dropin/README.md. Status 1 where a page is drawn otherwise over this library.
"""
from __future__ import annotations

import argparse
import concurrent.futures
import pathlib
import sys
import tempfile

from bindings.dropin.tests.peers import OURS, PEERS, SYSTEM, Library, pictures_by, pictures_by_program, pictures_of_file
from conformance.runner.manifest import Entry, Sample
from conformance.runner.pictures import Picture
from testing.samples import image_of_sample, samples_of

PAGES_IN_A_PDF = 100
IN_FILES = "mutool draw, files of several pages"


def wrong_in_pdf(peer_at: int, library: Library, samples: list[Sample]) -> list[str]:
    """The pages that a peer draws otherwise out of PDF files."""
    wrong = []
    with tempfile.TemporaryDirectory() as room:
        for start in range(0, len(samples), PAGES_IN_A_PDF):
            part = samples[start : start + PAGES_IN_A_PDF]
            images = [image_of_sample(sample) for sample in part]
            _, pictures = pictures_by(PEERS[peer_at], library, images, pathlib.Path(room))
            for sample, picture in zip(part, pictures):
                if picture is None or picture.digest != sample.entry.picture:
                    wrong.append(sample.entry.label)
    return wrong


def wrong_by_program(library: Library, samples: list[Sample], suite: pathlib.Path) -> list[str]:
    """The pages that the program jbig2dec draws otherwise, of files and of streams."""
    wrong = []
    with tempfile.TemporaryDirectory() as room:
        for entry, part in by_file(samples):
            words = [str(suite / f"{entry.name}.jb2")]
            if entry.is_embedded:
                words = [str(suite / f"{entry.name}.{stream}.jb2") for stream in ("globals", "page")]
                words = words if part[0].globals else ["-e", words[1]]
            wrong += wrong_in(part, pictures_by_program(library, words, pathlib.Path(room)))
    return wrong


def wrong_in_files(library: Library, samples: list[Sample], suite: pathlib.Path) -> list[str]:
    """The pages that mutool draws otherwise of files of several pages, which it opens without a PDF file."""
    wrong = []
    with tempfile.TemporaryDirectory() as room:
        for entry, part in by_file(samples):
            if len(part) > 1:
                wrong += wrong_in(part, pictures_of_file(library, suite / f"{entry.name}.jb2", pathlib.Path(room)))
    return wrong


def by_file(samples: list[Sample]) -> list[tuple[Entry, list[Sample]]]:
    """The pages of each file, with the entry of its first."""
    files: dict[str, list[Sample]] = {}
    for sample in samples:
        files.setdefault(sample.entry.name, []).append(sample)
    return [(part[0].entry, part) for part in files.values()]


def wrong_in(samples: list[Sample], pictures: list[Picture]) -> list[str]:
    """The pages of a file whose pictures, which are in the order of the pages, aren't the meant ones."""
    drawn = {page: picture.digest for page, picture in enumerate(pictures)}
    return [sample.entry.label for sample in samples if drawn.get(sample.entry.page) != sample.entry.picture]


def compared(library: Library, samples: list[Sample], suite: pathlib.Path) -> dict[str, list[str]]:
    """For each peer the pages that it draws otherwise than they are meant."""
    with concurrent.futures.ThreadPoolExecutor() as pool:
        waiting = {peer.name: pool.submit(wrong_in_pdf, at, library, samples) for at, peer in enumerate(PEERS)}
        waiting[IN_FILES] = pool.submit(wrong_in_files, library, samples, suite)
        waiting["jbig2dec"] = pool.submit(wrong_by_program, library, samples, suite)
        return {name: future.result() for name, future in waiting.items()}


def main() -> int:
    """Compares, and prints a line for each peer."""
    parser = argparse.ArgumentParser(usage=__doc__)
    parser.add_argument("suite", type=pathlib.Path)
    parser.add_argument("--both", action="store_true")
    options = parser.parse_args()
    samples = samples_of(options.suite)
    ours = compared(OURS, samples, options.suite)
    theirs = compared(SYSTEM, samples, options.suite) if options.both else {}
    in_files = sum(len(part) for _, part in by_file(samples) if len(part) > 1)
    for name, wrong in ours.items():
        count = in_files if name == IN_FILES else len(samples)
        beside = f", {count - len(theirs[name])} over libjbig2dec0" if theirs else ""
        print(f"{name}: {count - len(wrong)} of {count} pages right{beside}")
        for label in wrong:
            print(f"{name}: {label} is drawn otherwise")
    return 1 if any(ours.values()) else 0


if __name__ == "__main__":
    sys.exit(main())
