"""The trials of pairs: the least limits that are enough for both pages differ by what the table of prices says."""
from __future__ import annotations

from collections.abc import Callable

from conformance.runner.embedding import Embedded

from .library import NO_LIMIT, OK, Context, Library, Made, Page
from .pairs import Pair, all_pairs
from .prices import rows
from .trials import Found, least


def least_by(answer: Callable[[int], int]) -> int:
    """The least limit for a call, by its answer within each limit."""
    if answer(NO_LIMIT) != OK:
        raise ValueError(f"a page of a pair is refused without a limit: {answer(NO_LIMIT)}")
    return least(lambda work: answer(work) == OK)


class Reading:
    """Strict or lenient reading, or salvage, and the least limits that are enough in it."""

    def __init__(self, library: Library, name: str) -> None:
        self.library, self.is_salvage = library, name == "salvage"
        self.words = () if self.is_salvage else (name == "strict",)

    def globals(self, shared: bytes, work: int = NO_LIMIT) -> Made:
        """Decodes globals within a limit."""
        call = "globals_new_salvaged" if self.is_salvage else "globals_new_within"
        return self.library.made("globals", call, None, *self.words, work, shared, len(shared))

    def page(self, stream: bytes, shared: Made | None) -> Made:
        """Reads a page."""
        call = "page_new_salvaged" if self.is_salvage else "page_new"
        return self.library.made("page", call, None, *self.words, shared and shared.handle, stream, len(stream))

    def least_for_globals(self, shared: bytes) -> int:
        """The least limit within which globals are decoded."""

        def answer(work: int) -> int:
            with self.globals(shared, work) as made:
                return made.answer

        return least_by(answer)

    def least_for_page(self, stream: bytes, shared: Made | None) -> int:
        """The least limit within which a page is drawn."""
        with self.page(stream, shared) as made, self.library.made("context", "context_new", None) as context:
            page = Page(made)
            return least_by(lambda work: Context(context).within(page, work)[0])

    def least_for(self, page: Embedded) -> int:
        """The least limits for a page and for its globals, added up."""
        if not page.shared:
            return self.least_for_page(page.stream, None)
        with self.globals(page.shared) as shared:
            return self.least_for_globals(page.shared) + self.least_for_page(page.stream, shared)


def try_pair(found: Found, library: Library, pair: Pair) -> None:
    """Compares what the pages of a pair take in each reading of it."""
    for name in ("salvage",) if pair.salvaged else ("strict", "lenient"):
        reading = Reading(library, name)
        less, more = reading.least_for(pair.less), reading.least_for(pair.more)
        what = f"{pair.row}, {name}: {less} and {more} units are enough for two pages, which do not differ by {pair.units}"
        found.check(more - less == pair.units, what)


def tried_pairs(path: str) -> Found:
    """What the trials of all pairs find. Each row of the table has one."""
    library, found, pairs = Library(path), Found(), all_pairs()
    for row in rows().keys() ^ {pair.row for pair in pairs}:
        found.check(False, f"{row}: a row of docs/FORMAT.md, 12.6 without a pair of pages, or a pair without a row")
    for pair in pairs:
        try_pair(found, library, pair)
    print(f"{len(pairs)} pairs of pages differ by one row of the prices each")
    return found
