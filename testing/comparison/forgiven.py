"""What lenient reading forgives without a report, since it costs no pixel (docs/FORMAT.md, 12.2): it is mended in a file, one
thing after the other, until strict reading reads the page."""
from __future__ import annotations

import dataclasses
from collections.abc import Callable
from conformance.runner.segments import END_OF_FILE, END_OF_PAGE, END_OF_STRIPE, PAGE_INFORMATION, CutOff, Segment
from conformance.runner.segments import header_at, header_length, pages_of, segments_of_file

# Of page 0 these are globals that nothing uses: regions, page information, ends of pages and of stripes.
OF_A_PAGE = {4, 6, 7, 20, 22, 23, 36, 38, 39, 40, 42, 43, 48, 49, 50}
ENDS = (END_OF_PAGE, END_OF_FILE)
# These tell a page's size from any place among its segments.
OF_SIZE = (PAGE_INFORMATION, END_OF_STRIPE)
IN_SEQUENCE, UNKNOWN_COUNT = 1, 2


@dataclasses.dataclass(frozen=True)
class File:
    """The segments of a file that are whole, sorted by their numbers. `count` is its count of pages, or nothing."""

    segments: list[Segment]
    identification: bytes
    count: bytes

    def bytes(self) -> bytes:
        """The file with its segments one after the other."""
        flags = IN_SEQUENCE | (0 if self.count else UNKNOWN_COUNT)
        parts = [segment.on_page(segment.page) for segment in self.segments]
        return self.identification + bytes([flags]) + self.count + b"".join(parts)

    def with_segments(self, segments: list[Segment]) -> File:
        """The same with other segments."""
        return dataclasses.replace(self, segments=segments)

    def end_of(self, number: int) -> int:
        """How many segments come before what ends a page, or all."""
        ends = [at for at, one in enumerate(self.segments) if one.kind in ENDS and one.page == number]
        return ends[0] if ends else len(self.segments)

    def read_of(self, number: int) -> list[Segment]:
        """The segments of a page that are read, without what ends it."""
        end = self.end_of(number)
        return [one for at, one in enumerate(self.segments) if one.page == number and (at < end or one.kind in OF_SIZE)]


def file_of(data: bytes) -> File:
    """The file that bytes are, without the end of the file: where that stands doesn't matter any more."""
    segments = [segment for segment in segments_of_file(data) if segment.kind != END_OF_FILE or segment.page != 0]
    segments.sort(key=lambda segment: segment.number)
    return File(segments, data[:8], data[9 : header_length(data)])


def with_ends(file: File, number: int) -> File:
    """The file with one end of each page, which comes after all else of the page, and nothing that came after its end."""
    pages = pages_of(file.segments)
    kept = [one for one in file.segments if one.page == 0] + [one for page in pages for one in file.read_of(page)]
    last = min(1 + max((segment.number for segment in kept), default=0), (1 << 32) - 1)
    beginning = last.to_bytes(4, "big") + bytes([END_OF_PAGE | 0x40, 0])
    return file.with_segments(kept + [Segment(last, END_OF_PAGE, beginning, page, bytes(4)) for page in pages])


def without_globals_of_a_page(file: File, number: int) -> File:
    """The file without segments of page 0 that belong to a page."""
    return file.with_segments([one for one in file.segments if one.page != 0 or one.kind not in OF_A_PAGE])


def with_lengths(file: File, number: int) -> File:
    """The file with the lengths that were searched."""
    return file.with_segments(
        [dataclasses.replace(one, length=len(one.data).to_bytes(4, "big")) for one in file.segments]
    )


def alone(file: File, number: int) -> File:
    """The page up to its end, with what the pages share."""
    shared, end = [one for one in file.segments if one.page == 0], file.end_of(number)
    own = shared + file.read_of(number) + file.segments[end : end + 1]
    return dataclasses.replace(file, segments=own, count=b"")


Mend = Callable[[File, int], File]
# By the fault for which strict reading refuses the file or the page.
MENDS: dict[str, tuple[str, Mend]] = {
    "PageCountMismatch": ("the count of pages", lambda file, _: dataclasses.replace(file, count=b"")),
    "InvalidEndOfPage": ("ends of pages", with_ends),
    "MissingPageAssociation": ("a region, or type 48 to 50, of page 0", without_globals_of_a_page),
    "InvalidUnknownLength": ("an unknown length of another type than 38", with_lengths),
}
ELSEWHERE = ("another page, or what follows the page's end", alone)


def may_lack(data: bytes, file: File, number: int) -> bool:
    """Whether a page may lack the segment that is cut off: nothing ends the page, and the segment is not of another one."""
    whole = segments_of_file(data)
    place = header_length(data) + sum(len(one.on_page(one.page)) for one in whole)
    is_cut = place < len(data) and not any(one.kind == END_OF_FILE for one in whole)
    if not is_cut or file.end_of(number) < len(file.segments):
        return False
    try:
        return not data[8] & IN_SEQUENCE or header_at(data, place)[0].page in (0, number)
    except CutOff:
        return True


def reasons_of(data: bytes, page, fault: str, strictly: Callable[[bytes, int], object]) -> str | None:
    """The reasons for which strict reading refuses a page that is complete, where it reads the same page once they are
    mended; else None. `strictly` reads a page strictly, or returns its fault."""
    file = file_of(data)
    if may_lack(data, file, page.number):
        return None
    reasons: list[str] = []
    while True:
        reason, mend = MENDS.get(fault, ELSEWHERE)
        if reason in reasons:
            return None
        reasons.append(reason)
        file = mend(file, page.number)
        pages = pages_of(file.segments)
        read = strictly(file.bytes(), pages.index(page.number)) if page.number in pages else None
        if not isinstance(read, str):
            return "; ".join(sorted(reasons)) if read == page else None
        fault = read
