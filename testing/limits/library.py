"""The calls on handles of the shared library, with limits of work."""
from __future__ import annotations

import ctypes
import dataclasses
from collections.abc import Callable
from ctypes import byref, c_uint64, c_void_p

from bindings.c.tests.bindings import STRUCTURES, loaded

OK, NO_SUCH_PAGE, WORK_LIMIT = 0, 101, 103
NO_LIMIT = 2**64 - 1
Info, PassedOver = STRUCTURES["page_info"], STRUCTURES["passed_over"]


class Library:
    """The library's calls by their names without `hayro_jbig2_`."""

    def __init__(self, path: str) -> None:
        self._library = loaded(path)

    def __getattr__(self, name: str) -> Callable:
        return getattr(self._library, f"hayro_jbig2_{name}")

    def made(self, kind: str, call: str, *arguments: object) -> Made:
        """What a call makes whose last argument is where the handle goes; `kind` names the call that frees it."""
        handle = c_void_p()
        answer = getattr(self, call)(*arguments, byref(handle))
        return Made(self, kind, answer, handle)

    def text(self, answer: int) -> str:
        """The text of an answer."""
        return self.error_text(answer).decode()


@dataclasses.dataclass
class Made:
    """The answer of a call that makes a handle, and the handle, null where it was refused."""

    library: Library
    kind: str
    answer: int
    handle: c_void_p

    def __enter__(self) -> Made:
        return self

    def __exit__(self, *_: object) -> None:
        getattr(self.library, f"{self.kind}_free")(self.handle)


@dataclasses.dataclass(frozen=True)
class Drawn:
    """What drawing a page came to: the answer, what the limit had left, and what the context holds of it."""

    answer: int
    left: int
    number: int = 0
    size: tuple[int, int] = (0, 0)
    rows: bytes = b""
    passed_over: tuple[int, int, int] = (0, 0, 0)

    def is_same(self, other: Drawn) -> bool:
        """Whether it is the same but for what is left."""
        return dataclasses.replace(self, left=0) == dataclasses.replace(other, left=0)


class Page:
    """A page that is read: the page of a file at an index, or an embedded page where there is no index."""

    def __init__(self, made: Made, index: int | None = None) -> None:
        self.library = made.library
        self.call, self.words = ("page", (made.handle,)) if index is None else ("file", (made.handle, index))
        self.info = Info()
        getattr(self.library, f"{self.call}_get_info")(*self.words, byref(self.info))

    def draw(self, context: c_void_p) -> int:
        """Draws the page, and returns the answer."""
        return getattr(self.library, f"{self.call}_draw")(*self.words, context)


class Context:
    """A context, which draws pages within limits."""

    def __init__(self, made: Made) -> None:
        if made.answer != OK:
            raise MemoryError("no context could be made")
        self.library, self.handle = made.library, made.handle

    def within(self, page: Page, work: int) -> tuple[int, int]:
        """Draws a page within a limit: the answer, and what is left."""
        left = c_uint64(7)
        self.library.context_set_work_limit(self.handle, work)
        answer = page.draw(self.handle)
        self.library.context_get_work_left(self.handle, byref(left))
        return answer, left.value

    def drawn(self, page: Page, work: int = NO_LIMIT) -> Drawn:
        """Draws a page within a limit, and reads what the context holds of it. After an error that isn't a page."""
        answer, left = self.within(page, work)
        passed = PassedOver()
        self.library.context_get_passed_over(self.handle, byref(passed))
        info = page.info
        rows = ctypes.create_string_buffer((info.width + 7) // 8 * info.height if answer == OK else 0)
        if answer == OK and self.library.context_rows(self.handle, 0, rows, len(rows)) != OK:
            raise MemoryError("a page that is drawn has no rows")
        size, passed_over = (info.width, info.height), (passed.count, passed.segment, passed.error)
        return Drawn(answer, left, info.number, size, rows.raw, passed_over)
