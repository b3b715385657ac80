"""An embedded page whose segments are repeated, so that what one of them takes and asks for shows."""
from __future__ import annotations

import dataclasses

from conformance.runner.embedding import Embedded
from conformance.runner.segments import END_OF_FILE, END_OF_PAGE, PAGE_INFORMATION, Segment, sequential
from testing.jbig2_encoder.framing import reference_size


def referred(segment: Segment) -> tuple[bytes, list[int]]:
    """The count of a segment's references as it is written, and the numbers that it refers to."""
    fields = segment.beginning[5:]
    count, place = fields[0] >> 5, 1
    if count == 7:
        count = int.from_bytes(fields[:4], "big") & 0x1FFFFFFF
        place = 4 + (count + 8) // 8
    size = reference_size(segment.number)
    places = range(place, place + size * count, size)
    return fields[:place], [int.from_bytes(fields[at : at + size], "big") for at in places]


def moved(segment: Segment, by: int, own: set[int]) -> bytes:
    """A segment with a number that is greater by this, and so the references to the page's own segments."""
    count, numbers = referred(segment)
    number = segment.number + by
    written = [other + by if other in own else other for other in numbers]
    fields = b"".join(other.to_bytes(reference_size(number), "big") for other in written)
    beginning = number.to_bytes(4, "big") + segment.beginning[4:5] + count + fields
    return dataclasses.replace(segment, beginning=beginning).on_page(segment.page)


def repeated(page: Embedded, times: int) -> Embedded | None:
    """A page with its segments this many times, each time with other numbers; None where numbers would be too large."""
    segments = sequential(page.stream)
    own = {segment.number for segment in segments}
    step = max(own, default=0) + 1
    if step * (times + 1) >> 32:
        return None
    once = [segment for segment in segments if segment.kind == PAGE_INFORMATION]
    often = [segment for segment in segments if segment.kind not in (PAGE_INFORMATION, END_OF_PAGE, END_OF_FILE)]
    stream = b"".join(moved(segment, 0, own) for segment in once)
    for time in range(times):
        stream += b"".join(moved(segment, step * (time + 1), own) for segment in often)
    return Embedded(stream, page.shared)
