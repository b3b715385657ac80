"""Files under way: segments in their order, and the pictures that their pages are meant to show."""
from __future__ import annotations

import dataclasses
from collections.abc import Sequence

from . import framing
from .bitmap import Bitmap
from .fields import field
from .framing import UNKNOWN, page_information, region_information, segment_header


@dataclasses.dataclass
class Segment:
    """A segment. `hides_length` writes its length as unknown (7.2.7); `kept` None sets its flags of retention by what
    later segments refer to, and otherwise it and `long_form` are as in `framing.segment_header`."""

    at: int
    kind: int
    data: bytes
    referred: tuple[int, ...] = ()
    page: int = 1
    hides_length: bool = False
    long_form: bool = False
    kept: int | None = None


class Page:
    """A page of a document: what is drawn on it, and the segments that do so."""

    def __init__(self, document: Document, number: int, picture: Bitmap) -> None:
        self.document = document
        self.number = number
        self.picture = picture

    def put(self, kind: int, data: bytes, referred: Sequence[int] = (), **more) -> int:
        """Adds a segment of this page and returns its number."""
        return self.document.put(kind, data, referred, self.number, **more)

    def draw(
        self, kind: int, bitmap: Bitmap, data: bytes, x: int = 0, y: int = 0, operator: int = 0,
        referred: Sequence[int] = (), **more
    ) -> int:
        """Adds an immediate region with these data after its region information, and draws it."""
        self.picture.combine(bitmap, x, y, operator)
        return self.keep(kind, bitmap, data, x, y, operator, referred, **more)

    def keep(
        self, kind: int, bitmap: Bitmap, data: bytes, x: int = 0, y: int = 0, operator: int = 0,
        referred: Sequence[int] = (), **more
    ) -> int:
        """Adds a region that is not drawn."""
        information = region_information(bitmap.width, bitmap.height, x, y, operator)
        return self.put(kind, information + data, referred, **more)

    def end(self) -> int:
        return self.put(framing.END_OF_PAGE, b"")

    def end_stripe(self, last_row: int) -> int:
        return self.put(framing.END_OF_STRIPE, field("stripe end", last_row))


class Document:
    """Segments with rising numbers, and pages."""

    def __init__(self, first: int = 0) -> None:
        self.next = first
        self.segments = []
        self.pages = []

    def put(
        self, kind: int, data: bytes, referred: Sequence[int] = (), page: int = 0, at: int | None = None, **more
    ) -> int:
        """Adds a segment, of no page where none is named, and returns its number."""
        at = self.next if at is None else at
        self.segments.append(Segment(at, kind, data, tuple(referred), page, **more))
        self.next = at + 1
        return at

    def start_page(
        self, width: int, height: int, black: int = 0, operator: int = 0, number: int | None = None,
        unknown_height: bool = False, **more
    ) -> Page:
        """Adds a page with its information."""
        page = Page(self, len(self.pages) + 1 if number is None else number, Bitmap(width, height, black))
        self.pages.append(page)
        written_height = UNKNOWN if unknown_height else height
        page.put(framing.PAGE, page_information(width, written_height, black, operator, **more))
        return page

    def headers(self) -> list[bytes]:
        """The header of each segment."""
        last_uses = {number: place for place, segment in enumerate(self.segments) for number in segment.referred}
        headers = []
        for place, segment in enumerate(self.segments):
            kept = segment.kept
            if kept is None:
                used = [last_uses.get(number, -1) > place for number in (segment.at, *segment.referred)]
                kept = sum(bit << at for at, bit in enumerate(used))
            length = UNKNOWN if segment.hides_length else len(segment.data)
            more = (segment.referred, segment.page, segment.long_form, kept)
            headers.append(segment_header(segment.at, segment.kind, length, *more))
        return headers

    def end_file(self) -> int:
        return self.put(framing.END_OF_FILE, b"")

    def sequential(self, pages: int | None = -1, more_flags: int = 0) -> bytes:
        """The file with each segment's data after its header; `pages` None leaves their number unknown."""
        header = framing.file_header(len(self.pages) if pages == -1 else pages, more_flags=more_flags)
        return header + b"".join(head + segment.data for head, segment in zip(self.headers(), self.segments))

    def random_access(self, pages: int | None = -1) -> bytes:
        """The file with all headers first."""
        header = framing.file_header(len(self.pages) if pages == -1 else pages, random_access=True)
        return header + b"".join(self.headers()) + b"".join(segment.data for segment in self.segments)

    def embedded(self) -> tuple[bytes, bytes]:
        """The stream of the page's segments and that of the global ones, as PDF has them, without ends."""
        ends = (framing.END_OF_PAGE, framing.END_OF_FILE)
        streams = [b"", b""]
        for head, segment in zip(self.headers(), self.segments):
            if segment.kind not in ends:
                streams[segment.page == 0] += head + segment.data
        return tuple(streams)
