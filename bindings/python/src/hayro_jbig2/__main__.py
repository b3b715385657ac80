"""python -m hayro_jbig2: writes pages of a JBIG2 file as pictures."""

from __future__ import annotations

import argparse
import pathlib
import sys
from dataclasses import replace
from typing import TYPE_CHECKING, Any

from . import Globals, Jbig2Error, LeftOut, Page, __version__, decode, sizes
from ._decode import pages_or_faults
from ._page import end_text

if TYPE_CHECKING:
    from collections.abc import Iterable

    from ._library import WorkLimit

_WRITERS = {".pbm": Page.to_pbm, ".png": Page.to_png}


def _parser() -> argparse.ArgumentParser:
    parser = argparse.ArgumentParser(
        prog="python -m hayro_jbig2",
        description="Writes a page of a JBIG2 file, or of the data of a PDF image, as a picture, PNG or PBM.",
        epilog="Status 0: written; messages say which pages are incomplete. 1: the input, or a page of it, can't be "
        "decoded (other pages are written), or a file can't be read or written. 2: wrong usage.",
    )
    parser.add_argument("input", metavar="IN", help="the file; - is standard input")
    parser.add_argument(
        "output", metavar="OUT", help="the picture, .png or .pbm; with {} in its name all pages, numbered from 0"
    )
    parser.add_argument("--page", metavar="INDEX", type=int, help="which page, from 0 (default: 0)")
    parser.add_argument("--globals", metavar="FILE", help="what IN shares with other images of its PDF file")
    reading = parser.add_mutually_exclusive_group()
    reading.add_argument("--strict", action="store_true", help="refuse whatever is damaged")
    reading.add_argument("--salvage", action="store_true", help="draw what is left of damaged data")
    parser.add_argument(
        "--work-limit",
        metavar="UNITS",
        type=_work_limit,
        default="default",
        help="how much work a page may take, or none (default: 100 for each pixel, and 2^24 at least)",
    )
    parser.add_argument("--version", action="version", version=__version__)
    return parser


def _work_limit(word: str) -> WorkLimit:
    if word in ("default", "none"):
        return "default" if word == "default" else None
    if not word.isdecimal():
        raise argparse.ArgumentTypeError("a number of units, or none")
    return int(word)


class _FaultOfGlobals(Exception):
    """Why the globals can't be decoded."""


def _globals_of(words: argparse.Namespace, how: dict[str, Any]) -> Globals:
    """The globals, after a message where their list of segments ends early."""
    try:
        shared = Globals(words.globals, **how)
    except Jbig2Error as error:
        raise _FaultOfGlobals(str(error)) from error
    for text in shared.left_out.texts:
        print(f"{words.globals}: {text}", file=sys.stderr)
    return shared


def _page_with_globals(words: argparse.Namespace, data: bytes, how: dict[str, Any]) -> Page:
    """The page, which says of its own list of segments alone where that ends early."""
    shared = _globals_of(words, how)
    page = decode(data, globals=shared, page=words.page or 0, **how, warn=False)
    if page.left_out.cut_off is not shared.left_out.cut_off:
        return page
    return replace(page, left_out=replace(page.left_out, cut_off=None))


def _standard_input() -> bytes:
    if sys.stdin is None:
        raise OSError("standard input is closed")
    return sys.stdin.buffer.read()


def _chosen_pages(words: argparse.Namespace) -> Iterable[tuple[int, Page | Jbig2Error, LeftOut]]:
    """The pages to be written, or the faults of those that can't be decoded, with their indices and what was left out of the
    file."""
    data = _standard_input() if words.input == "-" else pathlib.Path(words.input).read_bytes()
    how: dict[str, Any] = {"strict": words.strict, "salvage": words.salvage, "work_limit": words.work_limit}
    if "{}" in words.output:
        return pages_or_faults(data, **how)
    index = words.page or 0
    if words.globals is not None:
        page = _page_with_globals(words, data, how)
        return [(index, page, page.left_out)]
    if words.page is None and len(sizes(data, **how)) > 1:
        print(f"{words.input}: only the first of several pages is written", file=sys.stderr)
    page = decode(data, page=index, **how, warn=False)
    return [(index, page, page.left_out)]


def _said_of(index: int, page: Page | Jbig2Error) -> list[str]:
    if isinstance(page, Jbig2Error):
        return [f"page {index}: {page}"]
    return [f"page {index} is incomplete: {text}" for text in page.lacks]


def _is_written(words: argparse.Namespace, index: int, page: Page) -> bool:
    """Writes a page, and returns whether there is memory for its picture."""
    output = pathlib.Path(words.output.replace("{}", str(index)))
    try:
        picture = _WRITERS[output.suffix.lower()](page)
    except MemoryError:
        print(f"{words.input}: page {index}: out of memory", file=sys.stderr)
        return False
    output.write_bytes(picture)
    return True


def _write_pages(words: argparse.Namespace) -> int:
    """Writes the pages that can be decoded, and returns the status."""
    told: set[str] = set()
    status = 0
    for index, page, left_out in _chosen_pages(words):
        for text in _said_of(index, page):
            print(f"{words.input}: {text}", file=sys.stderr)
        # Of a file as a whole: once.
        for text in left_out.texts:
            if text not in told:
                print(f"{words.input}: {text}", file=sys.stderr)
        told.update(left_out.texts)
        # A page that can't begin is one of them all, and salvage leaves it out.
        if left_out.pages and "{}" in words.output:
            status = 1
        if isinstance(page, Jbig2Error) or not _is_written(words, index, page):
            status = 1
        # The next page may need its memory.
        del page
    return status


def main() -> int:
    """Runs the command, and returns its status."""
    parser = _parser()
    words = parser.parse_args()
    if pathlib.Path(words.output).suffix.lower() not in _WRITERS:
        parser.error("the name of OUT must end in .png or .pbm")
    if "{}" in words.output and (words.page, words.globals) != (None, None):
        parser.error("--page and --globals are for one page, without {} in OUT")
    try:
        return _write_pages(words)
    except _FaultOfGlobals as error:
        print(f"{words.globals}: {error}", file=sys.stderr)
    except Jbig2Error as error:
        print(f"{words.input}: {error}", file=sys.stderr)
        if error.cut_off:
            print(f"{words.input}: {end_text(error.cut_off)}", file=sys.stderr)
    except OSError as error:
        print(error, file=sys.stderr)
    except MemoryError:
        print("out of memory", file=sys.stderr)
    return 1


if __name__ == "__main__":
    sys.exit(main())
