"""Pairs of pages for each row of the table of prices in docs/FORMAT.md, 12.6: the second page takes more, by what the row
says. So a price that is lower than its row, and one that isn't paid, both show.
"""
from __future__ import annotations

import dataclasses
from collections.abc import Iterator, Sequence

from conformance.runner.embedding import Embedded
from testing.jbig2_encoder.bitmap import Bitmap
from testing.jbig2_encoder.dictionary import MMR, PLAIN, HeightClass, NewSymbol, SymbolDictionary, dictionary_data
from testing.jbig2_encoder.framing import GENERIC, HALFTONE, PAGE, PATTERN_DICTIONARY, REFINEMENT, SYMBOL_DICTIONARY, TABLE, TEXT
from testing.jbig2_encoder.framing import page_information, region_information, segment, segment_header
from testing.jbig2_encoder.generic import GenericForm, generic_data
from testing.jbig2_encoder.halftone import Grid, HalftoneForm, halftone_data, pattern_data
from testing.jbig2_encoder.prefix import custom_table, table_data
from testing.jbig2_encoder.refinement import RefinementForm, refinement_data
from testing.jbig2_encoder.text import Instance, Settings, Strip, Text, TextForm, text_data

from .prices import BITMAP, BYTES, CLASS, COPIED, CUT_OFF, DICTIONARY, INSTANCE, NEW, NUMBER, REFERRED, RUN, SEGMENT
from .prices import TABLE_BYTE, WORD, bitmap, price

PROFILES = 52
# A segment: its type, its data, and the numbers that it refers to. The page information is number 0.
Part = tuple[int, bytes, Sequence[int]]
# The bytes before the coded ones: with those of the region information, 17.
GENERIC_HEADER, HALFTONE_HEADER = 26, 38
NOTHING: Part = PROFILES, b"", ()


@dataclasses.dataclass(frozen=True)
class Pair:
    """Two pages, and how many units the second takes more. `row` is the name of a row of the table."""

    row: str
    less: Embedded
    more: Embedded
    units: int
    salvaged: bool = False


def page(*parts: Part, size: tuple[int, int] = (200, 4), cut: int = 0) -> Embedded:
    """A page with these segments. The last one states `cut` bytes more than it has."""
    stream = segment(0, PAGE, page_information(*size))
    for at, (kind, data, referred) in enumerate(parts, 1):
        missing = cut if at == len(parts) else 0
        stream += segment_header(at, kind, len(data) + missing, referred) + data
    return Embedded(stream)


def region(kind: int, width: int, data: bytes, referred: Sequence[int] = ()) -> Part:
    """A region of one row at the page's origin."""
    return kind, region_information(width, 1) + data, referred


def generic(width: int, more: bytes = b"") -> Part:
    """A white generic region, with these bytes after its data."""
    return region(GENERIC, width, generic_data(Bitmap(width, 1), GenericForm()) + more)


def symbols(
    *classes: Sequence[int], height: int = 1, collective: str = PLAIN, referred: Sequence[int] = (), **more
) -> Part:
    """A symbol dictionary whose classes have white symbols of these widths."""
    made = [HeightClass(height, [NewSymbol(Bitmap(width, height)) for width in one], collective) for one in classes]
    return SYMBOL_DICTIONARY, dictionary_data(SymbolDictionary(made, **more)), referred


def text(count: int, width: int = 8, referred: Sequence[int] = (1,), refined: Bitmap | None = None) -> Part:
    """A text region with this many instances of the first symbol, of this width. All can be refined."""
    instances = [Instance(at, 0, refined=refined) for at in range(count)]
    known = [Bitmap(width, 1)] * len(referred)
    data = text_data(Text([Strip(0, instances)]), Settings(refined=True), known, TextForm())
    return region(TEXT, 100, data, referred)


def patterns(count: int, more: bytes = b"") -> Part:
    """A pattern dictionary with white patterns of 8 by 1, in as many coded bytes whatever their count."""
    data = pattern_data([Bitmap(8, 1)] * count, GenericForm())
    return PATTERN_DICTIONARY, data[:7].ljust(16, b"\0") + more, ()


def halftone(columns: int, count: int, more: bytes = b"") -> Part:
    """A halftone region of one row with this many cells, for that many patterns."""
    grid = Grid(columns, 1, right=8 << 8)
    data = halftone_data([[0] * columns], grid, [Bitmap(8, 1)] * count, HalftoneForm(), (100, 1))
    return region(HALFTONE, 100, data[:21].ljust(30, b"\0") + more, (1,))


def refinement(width: int) -> Part:
    """A refinement of the white page."""
    data = refinement_data(Bitmap(width, 1), Bitmap(width, 1), (0, 0), RefinementForm())
    return region(REFINEMENT, width, data)


def of_regions() -> Iterator[Pair]:
    """Of the page, its segments and its regions but for texts."""
    word = price(WORD)
    yield Pair("a page", page(size=(64, 3)), page(size=(64, 4)), 2 * word)
    yield Pair(SEGMENT, page(), page(NOTHING), price(SEGMENT))
    shared = (Embedded(page().stream, segment(0, PROFILES, b"", page=0) * count) for count in (1, 2))
    yield Pair(SEGMENT, *shared, price(SEGMENT))
    table = TABLE, table_data(custom_table(0, [(1, 4)], upper=1)), ()
    for stored in ((), (table,)):
        numbers = (page(*stored, (PROFILES, b"", referred)) for referred in ((), (0,)))
        yield Pair(NUMBER, *numbers, price(NUMBER) + len(stored))
    yield Pair(TABLE_BYTE, page(table), page((TABLE, table[1] + b"\0", ())), price(TABLE_BYTE))
    yield Pair("a region", page(generic(64)), page(generic(65)), 2 * word)
    yield Pair("a region", page(generic(64), size=(64, 1)), page(generic(65), size=(65, 1)), 3 * word)
    yield Pair("a refinement of the page", page(refinement(64)), page(refinement(65)), 3 * word)
    yield Pair(BYTES, page(generic(64)), page(generic(64, b"\0")), 1)
    yield Pair(BYTES, page(patterns(2)), page(patterns(2, b"\0")), 1)
    yield Pair(BYTES, page(patterns(2), halftone(2, 2)), page(patterns(2), halftone(2, 2, b"\0")), 1)
    yield Pair("a pattern of a pattern dictionary", page(patterns(3)), page(patterns(4)), 2 * bitmap(8))
    yield Pair("a cell of a halftone", page(patterns(2), halftone(2, 2)), page(patterns(2), halftone(3, 2)), bitmap(8))
    planes = (page(patterns(count), halftone(2, count)) for count in (2, 3))
    yield Pair("a halftone's planes", *planes, 2 * bitmap(8) + bitmap(2))


def of_symbols() -> Iterator[Pair]:
    """Of symbol dictionaries."""
    yield Pair(DICTIONARY, page(NOTHING), page(symbols()), price(DICTIONARY))
    yield Pair(NEW, page(symbols([8])), page(symbols([8, 8])), price(NEW) + bitmap(8))
    without_rows = (page(symbols(widths, height=0)) for widths in ([8], [8, 8]))
    yield Pair(BITMAP, *without_rows, price(NEW) + price(BITMAP))
    for row in ("a symbol", WORD):
        yield Pair(row, page(symbols([64])), page(symbols([65])), price(WORD))
    yield Pair(CLASS, page(symbols([8, 8])), page(symbols([8], [8])), price(CLASS))
    runs = (page(symbols([8, 8], runs=runs)) for runs in ([0, 2], [0, 1, 0, 1]))
    yield Pair(RUN, *runs, 2 * price(RUN))
    first, known = symbols([8]), Bitmap(8, 1)
    copies = (page(first, symbols([8], inputs=[known], runs=runs, referred=[1])) for runs in ([1, 1], [0, 2]))
    yield Pair(COPIED, *copies, 2 * bitmap(8))
    numbers = (page(first, symbols([8], inputs=[known] * count, referred=[1] * count)) for count in (1, 2))
    yield Pair(REFERRED, *numbers, price(NUMBER) + 1 + price(REFERRED))
    plain = (page(symbols(widths, prefix=True)) for widths in ([32, 32], [32, 33]))
    yield Pair("a collective bitmap", *plain, price(WORD))
    coded = [symbols([8], prefix=True, collective=collective) for collective in (PLAIN, MMR)]
    # A plain row of 8 pixels has one byte.
    units = len(coded[1][1]) - len(coded[0][1]) + 1
    yield Pair("a collective bitmap", *map(page, coded), units)


def of_texts() -> Iterator[Pair]:
    """Of text regions."""
    one, twice = (page(symbols([8]), text(1, referred=numbers)) for numbers in ([1], [1, 1]))
    yield Pair(REFERRED, one, twice, price(NUMBER) + 1 + price(REFERRED))
    yield Pair(INSTANCE, one, page(symbols([8]), text(2)), price(INSTANCE) + bitmap(8))
    widths = (page(symbols([width]), text(1, width)) for width in (64, 65))
    yield Pair("drawing an instance", *widths, 2 * price(WORD))
    yield Pair("a refined instance", one, page(symbols([8]), text(1, refined=Bitmap(8, 1))), bitmap(8))


def of_parts() -> Iterator[Pair]:
    """Of regions that are cut off. All that these show is there."""

    def cut(row: str, units: int, *parts: Part) -> Pair:
        return Pair(row, page(*parts), page(*parts, cut=1), units, salvaged=True)

    rows_of_pixels, rows_of_cells = generic(64, bytes(20)), halftone(2, 2, bytes(20))
    yield cut(CUT_OFF, bitmap(64) + len(rows_of_pixels[1]) - GENERIC_HEADER, rows_of_pixels)
    yield cut(CUT_OFF, bitmap(100) + price(INSTANCE) + bitmap(8), symbols([8]), text(1))
    yield cut("a refinement that is cut off", 4 * bitmap(64), refinement(64))
    cells = bitmap(2) + 2 * bitmap(8) + len(rows_of_cells[1]) - HALFTONE_HEADER
    yield cut("a halftone that is cut off", bitmap(100) + cells, patterns(2), rows_of_cells)


def all_pairs() -> list[Pair]:
    """The pairs of all rows."""
    return [*of_regions(), *of_symbols(), *of_texts(), *of_parts()]
