"""A page that is decoded."""

from __future__ import annotations

import struct
import zlib
from dataclasses import dataclass, field, replace
from typing import TYPE_CHECKING

if TYPE_CHECKING:
    from typing import Any

    from PIL import Image

    from .errors import Jbig2Error

# PNG files, PDF files and Pillow have 1 for white.
INVERTED = bytes(range(255, -1, -1))


@dataclass(frozen=True)
class PassedSegment:
    """A segment that was passed over."""

    segment_number: int | None
    """The segment's number; None where it isn't known, as where the data ends within it."""
    error: Jbig2Error
    """The fault for which it was passed over, or for which strict reading refuses it. It was not raised."""


@dataclass(frozen=True)
class PassedOver:
    """What a page, or what pages share, lacks: segments that are cut off, and those that strict reading refuses, also
    where they are drawn or kept all the same."""

    count: int
    """How many segments these are."""
    first: PassedSegment | None
    """The first of them."""

    def __str__(self) -> str:
        if self.first is None:
            return "nothing"
        others = f", and {self.count - 1} more" if self.count > 1 else ""
        return f"{_described(self.first)}{others}"


@dataclass(frozen=True)
class LeftOut:
    """What reading left out besides what was passed over of a page; nothing by strict reading."""

    passed_over: PassedOver
    """Of globals, or of the segments that the pages of a file share: what these lack."""
    pages: int
    """How many pages of a file can't begin, which salvage leaves out."""
    first_page: Jbig2Error | None
    """Why the first of these can't."""
    cut_off: PassedSegment | None
    """The segment at which the list of segments ends early: the data is cut off there, or salvage leaves out the rest.
    Of a page of a file this is the file's; the page counts it in `Page.passed_over` where it may lack it."""

    @property
    def texts(self) -> list[str]:
        """What a file, or a list of segments, lacks as a whole, as texts."""
        texts = []
        if self.pages:
            texts.append(f"pages of the file are left out, {self.pages} of them: {self.first_page}")
        if self.cut_off:
            texts.append(end_text(self.cut_off))
        return texts

    def joined(self, globals: LeftOut) -> LeftOut:
        """What was left out of a page and of its globals."""
        return replace(self, passed_over=globals.passed_over, cut_off=self.cut_off or globals.cut_off)


@dataclass(frozen=True)
class Page:
    """A page that is decoded.

    `rows` are its packed rows from the top, without a copy: a bit for each pixel, 1 is black, the leftmost the highest
    of its byte. A row has `row_bytes` bytes, whose last bits are 0 after the width. That is the form of PBM.

    For numpy a page is an array of its height and width, True where it is black: `numpy.asarray(page)`.
    """

    number: int
    """The number that the segments name the page by."""
    width: int
    """The width in pixels, from 1 to 65535."""
    height: int
    """The height in pixels, from 1 to 65535."""
    rows: memoryview = field(repr=False)
    """The packed rows, `row_bytes * height` bytes that can only be read."""
    passed_over: PassedOver = field(repr=False, compare=False)
    """What the page lacks."""
    left_out: LeftOut = field(repr=False, compare=False)
    """What was left out of the page's list of segments and of its globals, or of its file."""

    def __hash__(self) -> int:
        return hash((self.number, self.width, self.height, bytes(self.rows)))

    # A memoryview can't be pickled.
    def __reduce__(self) -> tuple[object, ...]:
        return _restored, (self.number, self.width, self.height, bytes(self.rows), self.passed_over, self.left_out)

    @property
    def is_complete(self) -> bool:
        """Whether nothing is known to be missing: no segment of the page is cut off, and strict reading refuses none; nor
        of its globals, or of what the pages of its file share. Of globals that are cut off a page lacks something only if
        it refers to the segment that is.

        So faults that lenient reading forgives count: rows of MMR data after a fault, gray values without a pattern, ids
        without a symbol, references to what isn't there. Damage within arithmetic data can't be known: the format has no
        checksum. Not counted are a file's counts of pages and of ends of pages, an unknown length of another type than
        38, a region of page 0, and segments that are missing as a whole.
        """
        return not self.lacks

    @property
    def lacks(self) -> list[str]:
        """What the page is known to lack, as texts; empty for a complete page."""
        lacks = [str(self.passed_over)] if self.passed_over.count else []
        shared = self.left_out.passed_over
        return [*lacks, f"what pages share: {shared}"] if shared.count else lacks

    @property
    def row_bytes(self) -> int:
        """How many bytes a row has."""
        return (self.width + 7) // 8

    def to_pbm(self) -> bytes:
        """The page as a file of the PBM format (P4)."""
        return b"P4\n%d %d\n" % (self.width, self.height) + self.rows

    def to_png(self) -> bytes:
        """The page as a file of the PNG format, of one bit for each pixel."""
        white = bytes(self.rows).translate(INVERTED)
        # Each row begins with its filter: none.
        starts = range(0, len(white), self.row_bytes)
        lines = b"".join(b"\0" + white[start : start + self.row_bytes] for start in starts)
        header = struct.pack(">IIBBBBB", self.width, self.height, 1, 0, 0, 0, 0)
        chunks = _chunk(b"IHDR", header) + _chunk(b"IDAT", zlib.compress(lines)) + _chunk(b"IEND", b"")
        return b"\x89PNG\r\n\x1a\n" + chunks

    # numpy calls this, so it is installed.
    def __array__(self, dtype: Any = None, copy: bool | None = None) -> Any:
        import numpy

        if copy is False:
            raise ValueError("a page has a bit for each pixel, so an array of it is a copy")
        rows = numpy.frombuffer(self.rows, numpy.uint8).reshape(self.height, self.row_bytes)
        array = numpy.unpackbits(rows, axis=1, count=self.width).view(numpy.bool_)
        return array if dtype is None else array.astype(dtype, copy=False)

    def to_image(self) -> Image.Image:
        """The page as an image of Pillow, of mode "1". Raises ImportError where Pillow isn't installed."""
        from PIL import Image

        return Image.frombytes("1", (self.width, self.height), bytes(self.rows), "raw", "1;I")


def end_text(cut_off: PassedSegment) -> str:
    """That a list of segments ends early, as messages have it."""
    return f"the segments end early: {_described(cut_off)}"


def _described(segment: PassedSegment) -> str:
    """The segment and its fault, as messages have them."""
    where = "" if segment.segment_number is None else f"segment {segment.segment_number}: "
    return f"{where}{segment.error}"


def _chunk(name: bytes, content: bytes) -> bytes:
    """A part of a PNG file."""
    return struct.pack(">I", len(content)) + name + content + struct.pack(">I", zlib.crc32(name + content))


def _restored(
    number: int, width: int, height: int, rows: bytes, passed_over: PassedOver, left_out: LeftOut
) -> Page:
    """The page that was pickled or copied."""
    return Page(number, width, height, memoryview(rows), passed_over, left_out)
