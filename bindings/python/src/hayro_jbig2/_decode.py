"""The calls of this package."""

from __future__ import annotations

import copy
import operator
import warnings
from collections.abc import Iterator
from typing import TYPE_CHECKING

from . import _library
from ._data import bytes_of
from ._library import Reading, Size
from ._page import LeftOut, Page
from .errors import IncompletePageWarning, Jbig2Error

if TYPE_CHECKING:
    from ._data import Data
    from ._library import WorkLimit

# What the identification of a file begins with (T.88, D.4.1). The rest of it tells files that were damaged on the way.
_BEGINNING = b"\x97JB2"


class Globals:
    """Segments that several embedded pages share, decoded once: of a PDF file the stream of /JBIG2Globals.

    May be used by several threads at once. Raises the first fault of the segments, as `decode` does; with `salvage` no
    fault of theirs, and `left_out` tells what they lack. `work_limit` is how many units of work they may take.
    """

    def __init__(
        self, data: Data, *, strict: bool = False, salvage: bool = False, work_limit: WorkLimit = "default"
    ) -> None:
        self._inner = _library.globals_of(bytes_of(data), _reading(strict, salvage), work_limit)

    @property
    def left_out(self) -> LeftOut:
        """What was left out of them."""
        return self._inner.left_out


def decode(
    data: Data,
    *,
    globals: Data | Globals | None = None,
    page: int = 0,
    strict: bool = False,
    salvage: bool = False,
    work_limit: WorkLimit = "default",
    warn: bool = True,
) -> Page:
    """Decodes one page.

    `data` is bytes, the path of a file, or a file that is open in binary mode. It is a whole file, of which `page` is
    an index from 0, or an embedded page: the bytes of a /JBIG2Decode stream of a PDF file. `globals` are then the bytes
    of its /JBIG2Globals stream, or `Globals` made of them. Data that begins as a file does, with the bytes 97 4A 42 32,
    is a file, unless there are globals.

    A lenient decoder passes over a segment that is cut off, an immediate region that fails, a number that names
    nothing, and an extension that it should understand, and draws what it can of some faulty data; with `strict` the
    first fault is raised. With `salvage`, for viewers of damaged files, whatever a lenient decoder refuses is left out:
    only a page without a size and a damaged file header are raised. Of a region that is cut off the rows, cells or
    symbols that are whole are drawn.

    Where `Page.is_complete` is false, an `IncompletePageWarning` is given, unless `warn` is false or a filter of
    `warnings` says otherwise. `Page.passed_over` and `Page.left_out` say what the page lacks: each segment that is cut
    off, or that strict reading refuses.

    `work_limit` is how many units of work the page may take, and as many again what it shares with other pages; None is
    no limit. A unit is about a pixel that is decoded, cleared or combined. The default is 100 for each pixel of the
    page, 1024 for each byte of what is shared, but 2**30 at most, and 2**24 at least: more than what scanners write
    takes.

    Raises `DecodeError` for a fault of the data, `NoSuchPage` (an IndexError) for a page that the file hasn't,
    `WorkLimitReached`, and `OutOfMemory` (a MemoryError).
    """
    content, reading, page = bytes_of(data), _reading(strict, salvage), operator.index(page)
    if globals is None and content.startswith(_BEGINNING):
        with _library.File(content, reading, work_limit) as file:
            return checked(_page_of(file, page, work_limit), warn)
    if page != 0:
        raise _library.no_such_page()
    if globals is not None and not isinstance(globals, Globals):
        globals = Globals(globals, strict=strict, salvage=salvage, work_limit=work_limit)
    inner = None if globals is None else globals._inner
    with _library.embedded_page(content, inner, reading) as embedded:
        return checked(embedded.draw(work_limit), warn)


def pages(
    data: Data, *, strict: bool = False, salvage: bool = False, work_limit: WorkLimit = "default", warn: bool = True
) -> Iterator[Page]:
    """All pages of a file in order, each decoded when it is asked for. The limit of work is that of each page.

    Raises and warns as `decode` does: the first fault of the file at once, that of a page when it is asked for. That ends
    the pages: `decode` has those after it. Where the file has no page, or none that can begin, asking for the first one
    raises why.
    """
    file = _library.File(bytes_of(data), _reading(strict, salvage), work_limit)
    return _pages_of(file, work_limit, warn)


def pages_or_faults(
    data: bytes, *, strict: bool, salvage: bool, work_limit: WorkLimit
) -> Iterator[tuple[int, Page | Jbig2Error, LeftOut]]:
    """All pages of a file in order, and in the place of one that can't be decoded its fault, each with its index and what was
    left out of the file; or an embedded page. Gives no warning. Where there is no page, it raises why."""
    content = bytes_of(data)
    if not content.startswith(_BEGINNING):
        page = decode(content, strict=strict, salvage=salvage, work_limit=work_limit, warn=False)
        yield 0, page, page.left_out
        return
    with _library.File(content, _reading(strict, salvage), work_limit) as file:
        if not file.sizes:
            # It raises why.
            _page_of(file, 0, work_limit)
        for index in range(len(file.sizes)):
            try:
                yield index, file.draw(index, work_limit), file.left_out
            except Jbig2Error as error:
                yield index, error, file.left_out


def sizes(
    data: Data, *, strict: bool = False, salvage: bool = False, work_limit: WorkLimit = "default"
) -> list[Size]:
    """Number, width and height of each page of a file or of an embedded page, none of which is decoded. Where a file has no
    page, or none that can begin, the list is empty; `decode` says why.

    What the pages of a file share is decoded, within the limit of work.
    """
    content, reading = bytes_of(data), _reading(strict, salvage)
    if content.startswith(_BEGINNING):
        with _library.File(content, reading, work_limit) as file:
            return file.sizes
    with _library.EmbeddedPage(content, None, reading) as embedded:
        return [embedded.size]


def _reading(strict: bool, salvage: bool) -> Reading:
    if strict and salvage:
        raise ValueError("strict or salvage, not both")
    return Reading.SALVAGE if salvage else Reading.STRICT if strict else Reading.LENIENT


def checked(page: Page, warn: bool = True) -> Page:
    """The page, after a warning at the caller's caller where it is incomplete."""
    if warn and not page.is_complete:
        text = f"page {page.number} is incomplete: {'; '.join(page.lacks)}"
        warnings.warn(text, IncompletePageWarning, stacklevel=3)
    return page


def _pages_of(file: _library.File, work_limit: WorkLimit, warn: bool) -> Iterator[Page]:
    with file:
        # Where there is no page, asking for one raises why.
        for index in range(max(len(file.sizes), 1)):
            yield checked(_page_of(file, index, work_limit), warn)


def _page_of(file: _library.File, index: int, work_limit: WorkLimit) -> Page:
    try:
        if not 0 <= index < len(file.sizes):
            raise _missing_page(file, index)
        return file.draw(index, work_limit)
    except Jbig2Error as error:
        error.cut_off = file.left_out.cut_off
        raise


def _missing_page(file: _library.File, index: int) -> Jbig2Error:
    """Why a file hasn't a page. Where salvage leaves out all of them, the first one's fault is known."""
    fault = file.left_out.first_page if index == 0 else None
    # A copy: what is raised keeps the file by its frames, so the file must not keep it.
    return copy.copy(fault) or _library.no_such_page()
