"""The fewest bytes that the crate hayro-jbig2 0.4.0 has alive at once while it goes through segments, from their headers.

A bitmap there has a word of 4 bytes for each 32 pixels of a row. What needs decoding is left out: prefix tables, and the bitmaps
of symbols and of refined instances, if these are not counted. So is what the crate asks for after a segment that may have failed.
"""
from testing.comparison.model.answers import Fault, Refused, TooMuch, refuse_if
from testing.comparison.model.bitmap import refuse_large
from testing.comparison.model.bits import Reader
from testing.comparison.model.page import (
    END_OF_FILE, END_OF_PAGE, EXTENSION, GENERIC, HALFTONE, INTERMEDIATE, KEPT, PATTERNS, REGIONS, SYMBOLS, TABLES, TEXT,
)
from testing.comparison.model.prefix import custom_table
from testing.comparison.model.regions import Halftone, adaptive_pixels, refinement_pixels, region_information, text_region
from testing.comparison.model.symbols import Dictionary, DictionaryReader, code_length

# The bytes of a bitmap without its pixels, of a reference to one, of a number, and of the contexts of coded integers.
STRUCT, REFERENCE, NUMBER, INTEGERS = 48, 8, 4, 512
# The contexts of each template, of generic regions and of refinements: a byte each.
CONTEXTS, REFINING = (1 << 16, 1 << 13, 1 << 10, 1 << 10), (1 << 13, 1 << 10)


def bitmap_bytes(width, height):
    refuse_large(width, height)
    return wide_bytes(width, height)


def wide_bytes(width, height):
    """Those of a bitmap that may be wider than 65535."""
    return 4 * ((width + 31) // 32) * height


class SymbolCounter(DictionaryReader):
    """Decodes a symbol dictionary, and counts the bitmaps that the crate has alive."""

    alive = most = copied = 0

    def decoded(self):
        """The dictionary; None where it is refused, or takes more work than is done here."""
        dictionary = None
        try:
            dictionary = self.decode()
            self.copied = sum(bitmap_bytes(symbol.width, symbol.height) for symbol in dictionary.symbols)
        except (Refused, TooMuch):
            pass
        self.count(0)
        return dictionary

    def count(self, more):
        """Counts the new symbols, and bytes besides."""
        self.alive = sum(bitmap_bytes(symbol.width, symbol.height) for symbol in self.symbols[self.inputs :])
        self.most = max(self.most, self.alive + more)

    def read_collective(self, widths, height):
        before, size = len(self.symbols), wide_bytes(sum(widths), height)
        try:
            super().read_collective(widths, height)
        except TooMuch:
            self.count(size)
            raise
        finally:
            if len(self.symbols) > before:
                self.count(size)

    def plain_rows(self, width, height):
        self.count(wide_bytes(width, height))
        return super().plain_rows(width, height)


class Walk:
    """Goes through segments, and counts what the crate has alive, with its symbols if there is `work` to decode them.

    `first` is the number of the first segment that was passed over, or -1; `drawn` says that all others but regions were
    decoded.
    """

    def __init__(self, names, alive, strict, work):
        self.work = work
        self.names = names
        self.alive = self.most = alive
        self.strict = strict
        self.page = self.black = None
        self.is_pristine = True

    def go(self, segments, first, drawn):
        """Counts each segment that the crate gets to; whether it gets through all."""
        is_sure = drawn or first >= 0
        for segment in segments:
            if self.page and segment.kind in (END_OF_PAGE, END_OF_FILE):
                break
            is_shown = segment.kind in REGIONS and segment.kind not in INTERMEDIATE
            passes = is_shown and not self.strict or segment.kind == EXTENSION
            if 0 <= first <= segment.number:
                is_sure = False
            if segment.kind in KEPT or self.page and segment.kind in REGIONS:
                decoded = self.count(segment, is_sure or drawn and not passes)
                if not (is_sure or decoded or drawn or passes):
                    return False
            self.is_pristine = self.is_pristine and not is_shown
        return True

    def count(self, segment, is_sure):
        """Counts what a segment has alive at once, and keeps what it leaves; whether it was decoded here."""
        try:
            together, left, kind, value = self.needs(segment, is_sure)
        except Refused:
            return False
        self.most = max(self.most, self.alive + together)
        self.alive += left
        if value is not None:
            self.names.keep(segment, kind, value)
        return kind == TABLES or kind == SYMBOLS and value is not None and self.work is not None

    def needs(self, segment, is_sure):
        """The bytes that a segment has alive at once and those that stay, and what is kept of it under a kind."""
        if segment.kind == SYMBOLS:
            return self.symbols(segment, is_sure)
        if segment.kind == PATTERNS:
            return self.patterns(segment, is_sure)
        if segment.kind == TABLES:
            return 0, 0, TABLES, custom_table(segment.data)
        if segment.kind not in REGIONS:
            return 0, 0, None, None
        for kinds, method in ((TEXT, self.text), (HALFTONE, self.halftone), (GENERIC, self.generic)):
            if segment.kind in kinds:
                return self.left(segment, *method(segment, is_sure))
        return self.left(segment, *self.refinement(segment))

    def left(self, segment, region, more, black, reads_page=False):
        """What a region has alive besides its own bitmap, and the bitmap, if it isn't drawn on the page at once."""
        size = bitmap_bytes(region.width, region.height)
        if segment.kind in INTERMEDIATE:
            return size + more, size + STRUCT, "region", region
        if not reads_page and self.is_direct(region, black):
            return more, 0, None, None
        return size + more, 0, None, None

    def is_direct(self, region, black):
        """Whether a region is drawn on the page without a bitmap of its own."""
        covers = (region.x, region.y, region.width, region.height) == (0, 0, *self.page)
        operators = (1, 3, 4) if self.black else (0, 2, 4)
        return self.is_pristine and covers and bool(black) == bool(self.black) and region.operator in operators

    def symbols(self, segment, is_sure):
        """The lists of a symbol dictionary, of the sizes that its header says, its contexts, and its symbols if counted."""
        referred, tables = self.names.referred(segment, self.strict)
        try:
            reader = SymbolCounter(self.work, segment.data, referred, tables, self.strict)
        except Refused as refused:
            refuse_if(refused.fault is not Fault.MISSING_TABLES, refused.fault)
            # The contexts are made before tables are looked for.
            flags = int.from_bytes(segment.data[:2], "big")
            return CONTEXTS[flags >> 10 & 3] + REFINING[flags >> 12 & 1], 0, SYMBOLS, None
        contexts = CONTEXTS[reader.templates[0]] + REFINING[reader.templates[1]]
        together = contexts + 4 * INTEGERS + REFERENCE * reader.inputs + (STRUCT + NUMBER) * reader.new
        exported, keeps = STRUCT * reader.exported, reader.flags >> 9 & 1
        if self.work is None:
            value = Dictionary(range(reader.exported), reader.templates, (b"", b"") if keeps else None)
            return together + exported * is_sure, exported + contexts * keeps, SYMBOLS, value
        value = reader.decoded()
        # Exported symbols are copied, while the new ones are still there.
        exported += reader.copied
        return together + max(reader.most, reader.alive + exported), exported + contexts * keeps, SYMBOLS, value

    def patterns(self, segment, is_sure):
        """The collective bitmap, then each pattern, and its words in all places that it may have in a word."""
        reader = Reader(segment.data)
        flags, width, height, count = reader.number(1), reader.number(1), reader.number(1), reader.number(4) + 1
        refuse_if(width * height == 0, Fault.UNEXPECTED_EOF)
        refuse_if(count >> 32, Fault.BITMAP_DIMENSION)
        collective = bitmap_bytes(width * count, height)
        kept = count * (STRUCT + bitmap_bytes(width, height))
        if width <= 32 and height <= 32:
            kept += 256 * height * count
        contexts = 0 if flags & 1 else CONTEXTS[flags >> 1 & 3]
        return collective + contexts + kept * is_sure, kept, PATTERNS, [None] * count

    def generic(self, segment, is_sure):
        reader = Reader(segment.data)
        region = region_information(reader)
        flags = reader.number(1)
        template = flags >> 1 & 3
        if not flags & 1:
            adaptive_pixels(reader, template, bool(flags & 16) and template == 0)
        if segment.length is None and segment.kind in GENERIC[1:]:
            region.height = min(region.height, int.from_bytes(segment.data[-4:], "big"))
        return region, 0 if flags & 1 else CONTEXTS[template], 0

    def text(self, segment, is_sure):
        """A text region; the codes of its symbols may be refused before its bitmap is made. It has one refined symbol at a
        time."""
        referred, tables = self.names.referred(segment, self.strict)
        count = sum(len(dictionary.symbols) for dictionary in referred)
        reader = Reader(segment.data)
        region = region_information(reader)
        flags = reader.number(2)
        reader.take(2 * (flags & 1) + 4 * (flags >> 1 & 1 and not flags >> 15) + 4)
        refuse_if(flags & 1 and not is_sure, Fault.INVALID_CODE)
        more = REFERENCE * count + REFINING[flags >> 15]
        if self.work and flags & 2:
            more += self.largest_refined(segment, [symbol for dictionary in referred for symbol in dictionary.symbols], tables)
        return region, more + (0 if flags & 1 else 1 << code_length(count)), flags >> 9 & 1

    def largest_refined(self, segment, symbols, tables):
        """The bytes of the largest symbol that is refined for an instance."""
        self.work.refined = 0
        try:
            text_region(self.work, segment.data, symbols, tables, self.strict)
        except (Refused, TooMuch):
            pass
        return 4 * self.work.refined

    def halftone(self, segment, is_sure):
        """The values of a grid, two of its planes, and what is skipped."""
        found = self.names.find(PATTERNS, segment.referred[0]) if segment.referred else None
        refuse_if(found is None, Fault.MISSING_PATTERN_DICTIONARY)
        read = Halftone(None, segment.data, found, self.strict)
        plane = bitmap_bytes(read.columns, read.rows)
        more = NUMBER * read.columns * read.rows + (3 if read.flags & 8 else 2) * plane
        return read.region, more + (0 if read.flags & 1 else CONTEXTS[read.flags >> 1 & 3]), read.flags >> 7

    def refinement(self, segment):
        """A refinement of another region, or of the page's area, which is copied."""
        reader = Reader(segment.data)
        region = region_information(reader)
        flags = reader.number(1)
        if not flags & 1:
            refinement_pixels(reader)
        reference = self.names.own.get(("region", segment.referred[0])) if segment.referred else None
        refuse_if(self.strict and reference is None and segment.referred, Fault.INVALID_REFERENCE)
        area = bitmap_bytes(region.width, region.height) if reference is None else 0
        return region, area + REFINING[flags & 1], 0, reference is None
