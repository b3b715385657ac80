"""Brings a page into the forms that decoders take: streams as PDF has them, a PDF file, a file of its own."""
from __future__ import annotations

import dataclasses

from . import pdf
from .pdf import Image
from .segments import END_OF_FILE, END_OF_PAGE, IDENTIFICATION, PAGE_INFORMATION, TABLES_AND_DICTIONARIES, Segment
from .segments import pages_of, segments_of_file, sequential

# What a page without a size gets in a PDF file, and the largest side of one there.
SOME_SIDE, LARGEST_SIDE = 64, 65535
# The stream of a page of 8 by 1 with nothing on it.
SMALL = bytes.fromhex("00000000 30 00 01 00000013 00000008 00000001 00000000 00000000 00 0000")


@dataclasses.dataclass(frozen=True)
class Embedded:
    """A page as a PDF file has it: its own segments and those that it shares, both without a file header (D.3)."""

    stream: bytes
    shared: bytes = b""


def embedded_page(file: bytes, index: int) -> Embedded:
    """Page `index` of a file, as page 1 of its stream; what no page owns is shared. Segments that end a page or the
    file stand in no PDF file. Of a file that can't be cut all that follows its header is the stream."""
    segments = segments_of_file(file)
    pages = pages_of(segments)
    if index >= len(pages):
        return Embedded(file[13:])
    own, shared = b"", b""
    for segment in segments:
        if segment.kind in (END_OF_PAGE, END_OF_FILE):
            continue
        if segment.page == 0:
            shared += segment.on_page(0)
        elif segment.page == pages[index]:
            own += segment.on_page(1)
    return Embedded(own, shared)


def file_of(page: Embedded) -> bytes:
    """A sequential file of one page. The page gets an end where it has none, as a file asks for one."""
    own = sequential(page.stream)
    end = b""
    if own and not any(segment.kind == END_OF_PAGE for segment in own):
        number = 1 + max(segment.number for segment in own)
        end = number.to_bytes(4, "big") + bytes([END_OF_PAGE, 0, page_number(own)]) + bytes(4)
    return IDENTIFICATION + b"\x01" + (1).to_bytes(4, "big") + page.shared + page.stream + end


def page_number(segments: list[Segment]) -> int:
    """The page that the first page information is of."""
    return next((segment.page for segment in segments if segment.kind == PAGE_INFORMATION), 1)


def size_in_pdf(page: Embedded, height: int | None = None) -> tuple[int, int]:
    """The page's width and height for its PDF file; `height` is taken where the page doesn't say its own."""
    for segment in sequential(page.stream):
        if segment.kind == PAGE_INFORMATION and len(segment.data) >= 8:
            sides = [int.from_bytes(segment.data[at : at + 4], "big") for at in (0, 4)]
            if sides[1] == 0xFFFFFFFF:
                sides[1] = height or SOME_SIDE
            return tuple(min(max(1, side), LARGEST_SIDE) for side in sides)
    return SOME_SIDE, SOME_SIDE


def pdf_of(page: Embedded, height: int | None = None) -> bytes:
    """A PDF file of one page, a point for each pixel of the image."""
    return pdf.pdf_of([Image(*size_in_pdf(page, height), page.stream, page.shared)])


def image_of(page: Embedded, height: int | None = None) -> Image:
    """A page with its dictionaries and tables in the globals; `height` is taken where the page doesn't say its own. A
    stream that isn't made of whole segments stays as it is."""
    width, height = size_in_pdf(page, height)
    own, shared = b"", page.shared
    for segment in sequential(page.stream):
        if segment.kind in TABLES_AND_DICTIONARIES:
            shared += segment.on_page(0)
        else:
            own += segment.on_page(segment.page)
    is_whole = len(own) + len(shared) == len(page.stream) + len(page.shared)
    return Image(width, height, own, shared) if is_whole else Image(width, height, page.stream, page.shared)
