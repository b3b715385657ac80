"""The frame of a file: its header (D.4), segments (7.2), page information (7.4.8) and region information (7.4.1)."""
from __future__ import annotations

from collections.abc import Sequence

from .fields import field

IDENTIFICATION = bytes.fromhex("974A42320D0A1A0A")
UNKNOWN = 0xFFFFFFFF
# Segment types (7.3).
SYMBOL_DICTIONARY, PATTERN_DICTIONARY, TABLE, EXTENSION = 0, 16, 53, 62
TEXT, HALFTONE, GENERIC, REFINEMENT = 6, 22, 38, 42
PAGE, END_OF_PAGE, END_OF_STRIPE, END_OF_FILE = 48, 49, 50, 51
# The page flag that regions may have other operators than the page's.
OTHER_OPERATORS = 64


def file_header(pages: int | None = 1, random_access: bool = False, more_flags: int = 0) -> bytes:
    """A file's header; `pages` None leaves the number of pages out."""
    flags = (not random_access) | (pages is None) << 1 | more_flags
    count = b"" if pages is None else field("number of pages", pages)
    return IDENTIFICATION + field("file flags", flags, 1) + count


# The header of a sequential file with one page.
HEADER = file_header()


def reference_size(at: int) -> int:
    """How many bytes a referred number has in segment `at` (7.2.5)."""
    return 1 if at <= 256 else 2 if at <= 65536 else 4


def segment_header(
    at: int, kind: int, length: int, referred: Sequence[int] = (), page: int = 1, long_form: bool = False,
    kept: int = 0
) -> bytes:
    """The header of segment `at`. `long_form` writes the count of references as more than 4 of them need it.

    Bit 0 of `kept` says that a later segment refers to this one, and the next bits say so of those that it refers to.
    """
    wide = page > 255
    head = field("segment number", at) + field("segment flags", kind | wide << 6, 1)
    count = len(referred)
    if count <= 4 and not long_form:
        head += field("referred count", count << 5 | kept, 1)
    else:
        size = count // 8 + 1
        head += field("long referred count", 7 << 29 | count)
        head += field("retention flags", retention_flags(kept, size), size)
    head += b"".join(field("referred number", other, reference_size(at)) for other in referred)
    return head + field("page association", page, 4 if wide else 1) + field("data length", length)


def retention_flags(bits: int, size: int) -> int:
    """Flags whose bit 0 is in the first byte, as a number of `size` bytes with the high byte first."""
    return int.from_bytes(bits.to_bytes(size, "little"), "big")


def segment(at: int, kind: int, data: bytes, referred: Sequence[int] = (), page: int = 1) -> bytes:
    """Segment `at` with its header and its data, one after the other."""
    return segment_header(at, kind, len(data), referred, page) + data


def page_information(
    width: int, height: int, black: int = 0, operator: int = 0, stripes: int = 0, resolution: int = 0,
    flags: int = OTHER_OPERATORS
) -> bytes:
    """The data of a page information segment.

    `stripes` is the most rows of a stripe, 0 for a page without stripes. `flags` are those beside colour and operator.
    """
    flags |= 4 * black | 8 * operator
    size = field("page width", width) + field("page height", height)
    size += field("horizontal resolution", resolution) + field("vertical resolution", resolution)
    return size + field("page flags", flags, 1) + field("striping", 0x8000 | stripes if stripes else 0, 2)


def region_information(width: int, height: int, x: int = 0, y: int = 0, operator: int = 0) -> bytes:
    """The 17 bytes that the data of each region starts with."""
    names = ("region width", "region height", "region x", "region y")
    place = b"".join(map(field, names, (width, height, x, y)))
    return place + field("region flags", operator, 1)
