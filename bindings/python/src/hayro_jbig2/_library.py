"""The calls of the shared library, as bindings/c/hayro_jbig2.h declares them. ctypes gives up the GIL during each but one.

Signal handlers and finalizers, which may decode too, run before a call of their thread or after it, and never in the
middle of one. No lock is held here that they can't take again, so none of them waits for what it has interrupted.
"""

from __future__ import annotations

import contextlib
import ctypes
import enum
import operator
import os
import sys
import threading
from ctypes import POINTER, Structure, byref, c_bool, c_char_p, c_size_t, c_uint8, c_uint32, c_uint64, c_void_p
from typing import TYPE_CHECKING, NamedTuple, TypeVar, Union

from ._made import PORTABLE
from ._page import LeftOut, Page, PassedOver, PassedSegment
from ._processor import check_processor
from .errors import Jbig2Error, WorkLimitReached, error_of

if TYPE_CHECKING:
    from collections.abc import Callable
    from typing import ContextManager, Literal, NoReturn

    WorkLimit = Union[int, None, Literal["default"]]

_OUT_OF_MEMORY = 41
_NO_SUCH_PAGE = 101
_WORK_LIMIT = 103
_NO_WORK_LIMIT = 2**64 - 1
_UNEXPECTED_EOF = 1
_NO_SEGMENT_NUMBER = 2**32 - 1
_LONGEST_LINE_END = 2
# The limit of work where none is set: more than what scanners write takes (docs/USING.md, "Files that take long"). What
# pages share can be long without being large where it was: a PDF file packs it.
_UNITS_FOR_A_PIXEL = 100
_UNITS_FOR_A_BYTE = 1024
_UNITS_AT_LEAST = 1 << 24
_UNITS_TO_SHARE_AT_MOST = 1 << 30


class _Info(Structure):
    _fields_ = [("number", c_uint32), ("width", c_uint32), ("height", c_uint32)]


class _PassedOver(Structure):
    _fields_ = [("count", c_size_t), ("segment", c_uint32), ("error", c_uint32)]


class _LeftOut(Structure):
    _fields_ = [
        ("segments", c_size_t),
        ("segment", c_uint32),
        ("error", c_uint32),
        ("pages", c_size_t),
        ("page_error", c_uint32),
        ("list_segment", c_uint32),
        ("list_error", c_uint32),
    ]


class _WriteSettings(Structure):
    _fields_ = [(name, c_uint32) for name in ("template_number", "x_resolution", "y_resolution")]
    _fields_ += [(name, c_bool) for name in ("typical", "whole_file", "mmr")]


class Reading(enum.Enum):
    """How bytes are read."""

    STRICT = "strict"
    LENIENT = "lenient"
    SALVAGE = "salvage"


class Size(NamedTuple):
    """What is known of a page before it is decoded."""

    number: int
    """The number that the segments name the page by."""
    width: int
    """The width in pixels, from 1 to 65535."""
    height: int
    """The height in pixels, from 1 to 65535."""


def _load() -> ctypes.CDLL:
    if not PORTABLE:
        check_processor()
    path = os.path.join(os.path.dirname(__file__), "libhayro_jbig2.so")
    try:
        library = ctypes.CDLL(path)
    except OSError as error:
        raise ImportError(f"the library that pip compiles or installs does not load: {error}") from error
    # Keeps the GIL, where there is one, so that one thread at a time uses the handle of globals.
    setattr(library, "hayro_jbig2_globals_share", ctypes.PyDLL(path).hayro_jbig2_globals_share)
    # The memory, null for malloc and free; then strict.
    made = (c_void_p, c_bool)
    data = (c_char_p, c_size_t)
    handle = POINTER(c_void_p)
    left_out = (c_void_p, POINTER(_LeftOut))
    arguments = {
        "globals_new_within": (*made, c_uint64, *data, handle),
        "globals_new_salvaged": (c_void_p, c_uint64, *data, handle),
        "globals_share": (c_void_p, c_void_p, handle),
        "globals_get_left_out": left_out,
        "globals_free": (c_void_p,),
        "context_new": (c_void_p, handle),
        "context_set_work_limit": (c_void_p, c_uint64),
        "context_rows": (c_void_p, c_size_t, POINTER(c_uint8), c_size_t),
        "context_get_passed_over": (c_void_p, POINTER(_PassedOver)),
        "context_free": (c_void_p,),
        "page_new": (*made, c_void_p, *data, handle),
        "page_new_salvaged": (c_void_p, c_void_p, *data, handle),
        "page_get_left_out": left_out,
        "page_get_info": (c_void_p, POINTER(_Info)),
        "page_draw": (c_void_p, c_void_p),
        "page_free": (c_void_p,),
        "file_new_within": (*made, c_uint64, *data, handle),
        "file_new_salvaged": (c_void_p, c_uint64, *data, handle),
        "file_get_left_out": left_out,
        "file_page_count": (c_void_p,),
        "file_get_info": (c_void_p, c_size_t, POINTER(_Info)),
        "file_draw": (c_void_p, c_size_t, c_void_p),
        "file_free": (c_void_p,),
        "written_new": (c_void_p, *data, c_uint32, c_uint32, POINTER(_WriteSettings), handle),
        "written_length": (c_void_p,),
        "written_bytes": (c_void_p, POINTER(c_uint8), c_size_t),
        "written_free": (c_void_p,),
        "error_text": (c_uint32,),
    }
    for name, types in arguments.items():
        call = getattr(library, "hayro_jbig2_" + name)
        call.argtypes = types
        call.restype = None if name.endswith("_free") else c_uint32
    library.hayro_jbig2_file_page_count.restype = c_size_t
    library.hayro_jbig2_written_length.restype = c_size_t
    library.hayro_jbig2_error_text.restype = c_char_p
    return library


_LIBRARY = _load()
# A build for free threads may have a GIL for a while, as other modules are loaded.
_HAS_GIL = "free-threading" not in sys.version


def _error(number: int) -> Jbig2Error:
    return error_of(number, _LIBRARY.hayro_jbig2_error_text(number).decode())


def no_such_page() -> Jbig2Error:
    """The error for a page that a file hasn't."""
    return _error(_NO_SUCH_PAGE)


def _check(number: int) -> None:
    if number != 0:
        raise _error(number)


def _units(limit: WorkLimit, usual: int) -> int:
    """How many units of work are allowed; where no limit is set, as many as usual."""
    if limit is None:
        return _NO_WORK_LIMIT
    if limit == "default":
        return max(usual, _UNITS_AT_LEAST)
    units = operator.index(limit)
    if units < 0:
        raise ValueError("a limit of work is not negative")
    return min(units, _NO_WORK_LIMIT)


def _work_limit_reached(units: int) -> WorkLimitReached:
    text = f"the limit of {units} units of work is reached"
    return WorkLimitReached(text, _WORK_LIMIT, WorkLimitReached.__name__)


def _segment(number: int, error: int) -> PassedSegment:
    return PassedSegment(None if number == _NO_SEGMENT_NUMBER else number, _error(error))


def _passed_over(count: int, segment: int, error: int) -> PassedOver:
    return PassedOver(count, _segment(segment, error) if count else None)


_AnyHandle = TypeVar("_AnyHandle", bound="_Handle")


class _Handle(c_void_p):
    """What the library made, until it is closed or nothing refers to it. It serves one call at a time.

    weakref.finalize would free it at exit, where a daemon thread or an atexit handler may still use it, and before the
    __del__ of what is collected with it.
    """

    def __init__(self, kind: str, *arguments: object, call: str = "new") -> None:
        super().__init__()
        self._kind = kind
        self._free = getattr(_LIBRARY, f"hayro_jbig2_{kind}_free")
        # The library writes to the object that frees it: a signal handler that raises after the call loses nothing.
        _check(getattr(_LIBRARY, f"hayro_jbig2_{kind}_{call}")(None, *arguments, byref(self)))

    def __enter__(self: _AnyHandle) -> _AnyHandle:
        return self

    def __exit__(self, *_: object) -> None:
        self.close()

    def __del__(self) -> None:
        self.close()

    def __reduce__(self) -> NoReturn:
        raise TypeError("what the library holds can't be copied or pickled: hand on the bytes that it was made of")

    def close(self) -> None:
        """Frees it. No other thread may be in a call with it."""
        address, self.value = self.value, None
        if address:
            self._free(address)

    def _opened(self: _AnyHandle) -> _AnyHandle:
        """Itself, unless it is closed."""
        if not self:
            raise ValueError("freed already: its __del__ ran before the one that uses it")
        return self

    def _call(self, name: str, *arguments: object) -> int:
        """Calls the library with this handle, and returns what it returns."""
        number: int = getattr(_LIBRARY, f"hayro_jbig2_{self._kind}_{name}")(self._opened(), *arguments)
        return number

    def _left_out(self) -> LeftOut:
        """What was left out of globals, a page or a file."""
        raw = _LeftOut()
        _check(self._call("get_left_out", raw))
        passed_over = _passed_over(raw.segments, raw.segment, raw.error)
        first_page = _error(raw.page_error) if raw.page_error else None
        cut_off = _segment(raw.list_segment, raw.list_error) if raw.list_error else None
        return LeftOut(passed_over, raw.pages, first_page, cut_off)


class _ReadWithin(_Handle):
    """What is read within a limit of work: globals or a file."""

    def __init__(self, kind: str, data: bytes, reading: Reading, limit: WorkLimit) -> None:
        units = _units(limit, min(_UNITS_FOR_A_BYTE * len(data), _UNITS_TO_SHARE_AT_MOST))
        inputs = (units, data, len(data))
        try:
            if reading is Reading.SALVAGE:
                super().__init__(kind, *inputs, call="new_salvaged")
            else:
                super().__init__(kind, reading is Reading.STRICT, *inputs, call="new_within")
        except Jbig2Error as error:
            if error.number == _WORK_LIMIT:
                raise _work_limit_reached(units) from None
            raise
        self.left_out = self._left_out()


class Globals(_ReadWithin):
    """Segments that embedded pages share, decoded. May be used by several threads at once."""

    def __init__(self, data: bytes, reading: Reading, limit: WorkLimit) -> None:
        super().__init__("globals", data, reading, limit)
        self._sharing: ContextManager[object] = threading.RLock()
        if _HAS_GIL:
            self._sharing = contextlib.nullcontext()


class _OwnGlobals(_Handle):
    """The same globals in a handle of its own, for a call without the GIL."""

    def __init__(self, globals: Globals) -> None:
        with globals._sharing:
            super().__init__("globals", globals._opened(), call="share")


class _Context(_Handle):
    """Room to draw a page of this size in, within a limit of work."""

    def __init__(self, size: Size, limit: WorkLimit) -> None:
        super().__init__("context")
        self._size = size
        self._units = _units(limit, _UNITS_FOR_A_PIXEL * size.width * size.height)
        _check(self._call("set_work_limit", self._units))

    def page(self, drawn: int, left_out: LeftOut) -> Page:
        """The page, of whose list of segments this was left out, where drawing it returned no error."""
        if drawn == _WORK_LIMIT:
            raise _work_limit_reached(self._units)
        _check(drawn)
        try:
            rows = bytearray((self._size.width + 7) // 8 * self._size.height)
        except MemoryError:
            raise _error(_OUT_OF_MEMORY) from None
        _check(self._call("rows", 0, byref(c_uint8.from_buffer(rows)), len(rows)))
        raw = _PassedOver()
        _check(self._call("get_passed_over", raw))
        passed_over = _passed_over(raw.count, raw.segment, raw.error)
        return Page(*self._size, memoryview(rows).toreadonly(), passed_over, left_out)


class EmbeddedPage(_Handle):
    """A page as a PDF file keeps it, read but not decoded."""

    def __init__(self, stream: bytes, globals: Globals | None, reading: Reading) -> None:
        # The library keeps a copy of the stream, and what it needs of the globals.
        own = None if globals is None else _OwnGlobals(globals)
        if reading is Reading.SALVAGE:
            super().__init__("page", own, stream, len(stream), call="new_salvaged")
        else:
            super().__init__("page", reading is Reading.STRICT, own, stream, len(stream))
        # Where its own segments end. Those of the globals may end elsewhere.
        self.left_out = self._left_out()
        self._shared = None if globals is None else globals.left_out
        info = _Info()
        _check(self._call("get_info", info))
        self.size = Size(info.number, info.width, info.height)

    def draw(self, limit: WorkLimit) -> Page:
        """Decodes the page."""
        left_out = self.left_out.joined(self._shared) if self._shared else self.left_out
        with _Context(self.size, limit) as context:
            return context.page(self._call("draw", context), left_out)


class File(_ReadWithin):
    """A file, read but not decoded."""

    def __init__(self, data: bytes, reading: Reading, limit: WorkLimit) -> None:
        # The library borrows it until the file is closed.
        self._data = data
        super().__init__("file", data, reading, limit)
        count = self._call("page_count")
        self.sizes = [self._size(index) for index in range(count)]

    def _size(self, index: int) -> Size:
        info = _Info()
        _check(self._call("get_info", index, info))
        return Size(info.number, info.width, info.height)

    def draw(self, index: int, limit: WorkLimit) -> Page:
        """Decodes the page at an index."""
        with _Context(self.sizes[index], limit) as context:
            return context.page(self._call("draw", index, context), self.left_out)


class OpenFile:
    """A file that is read once for pages that are drawn one by one. Several threads may draw: each has a file of its own."""

    def __init__(self, data: bytes, reading: Reading, limit: WorkLimit) -> None:
        self._inputs = (data, reading, limit)
        file = File(*self._inputs)
        self.sizes = file.sizes
        self._idle = [file]

    def draw(self, index: int, limit: WorkLimit) -> Page:
        """Decodes the page at an index."""
        try:
            file = self._idle.pop()
        except IndexError:
            file = File(*self._inputs)
        try:
            return file.draw(index, limit)
        finally:
            self._idle.append(file)


_Read = TypeVar("_Read", bound="Union[Globals, EmbeddedPage]")


def _without_line_end(read: Callable[[bytes], _Read], data: bytes) -> _Read:
    """What is read of a stream. PDF files may count in the end of a line after the last segment; the library takes it
    for a segment that is cut off within its number."""
    for end in range(len(data), len(data) - _LONGEST_LINE_END, -1):
        made = read(data[:end])
        cut_off = made.left_out.cut_off
        is_in_number = cut_off and cut_off.segment_number is None and cut_off.error.number == _UNEXPECTED_EOF
        if not is_in_number or data[end - 1 : end] not in (b"\n", b"\r"):
            return made
        made.close()
    return read(data[:-_LONGEST_LINE_END])


def globals_of(data: bytes, reading: Reading, limit: WorkLimit) -> Globals:
    """The globals of a stream."""
    return _without_line_end(lambda bytes: Globals(bytes, reading, limit), data)


def embedded_page(stream: bytes, globals: Globals | None, reading: Reading) -> EmbeddedPage:
    """The page of a stream."""
    return _without_line_end(lambda bytes: EmbeddedPage(bytes, globals, reading), stream)


def written(rows: bytes, width: int, height: int, settings: tuple[int, int, int, bool, bool, bool]) -> bytes:
    """A page that is written. The rows have the size of these sides; the settings are those of the structure."""
    with _Handle("written", rows, len(rows), width, height, _WriteSettings(*settings)) as handle:
        try:
            copy = bytearray(handle._call("length"))
            _check(handle._call("bytes", byref(c_uint8.from_buffer(copy)), len(copy)))
            return bytes(copy)
        except MemoryError:
            raise _error(_OUT_OF_MEMORY) from None
