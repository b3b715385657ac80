"""The segments of regions, and pattern dictionaries: from their data to bitmaps (7.4.1, 7.4.3 to 7.4.7)."""
import dataclasses

from . import t6
from .answers import Fault, Refused, refuse_if
from .bitmap import Bitmap, refuse_large
from .bits import Reader
from .coder import Coder, Integers
from .generic import NOMINAL, Generic, Refinement
from .prefix import STANDARD, symbol_codes
from .text import CoderSource, PrefixSource, Settings, TextReader

LARGEST_PLACE = 1 << 31
REPLACE = 4
# The tables of a text region's numbers by their selections, and the mask of these, from the lowest bit on.
TEXT_CHOICES = (
    ("IAFS", 3, {0: 6, 1: 7}), ("IADS", 3, {0: 8, 1: 9, 2: 10}), ("IADT", 3, {0: 11, 1: 12, 2: 13}),
    ("IARDW", 3, {0: 14, 1: 15}), ("IARDH", 3, {0: 14, 1: 15}), ("IARDX", 3, {0: 14, 1: 15}),
    ("IARDY", 3, {0: 14, 1: 15}), ("size", 1, {0: 1}),
)


@dataclasses.dataclass
class Region:
    """A region's information, and its bitmap when it is decoded; x and y as they are written, without a sign."""

    width: int
    height: int
    x: int
    y: int
    operator: int
    bitmap: object = None

    def with_bitmap(self, bitmap):
        return dataclasses.replace(self, height=bitmap.height, bitmap=bitmap)


def region_information(reader):
    fields = [reader.number(4) for _ in range(4)]
    flags = reader.number(1)
    refuse_if(flags & 7 > 4, Fault.INVALID_COMBINATION_OPERATOR)
    refuse_if(flags & 8, Fault.UNSUPPORTED)
    return Region(*fields, flags & 7)


def pair(reader):
    return reader.number(1, signed=True), reader.number(1, signed=True)


def adaptive_pixels(reader, template, extended=False):
    """The adaptive pixels of a generic region, each before the pixel that is decoded."""
    pairs = []
    for _ in range((12 if extended else 4) if template == 0 else 1):
        x, y = pair(reader)
        refuse_if(y > 0 or y == 0 and x >= 0, Fault.INVALID_AT_PIXEL)
        pairs.append((x, y))
    return pairs


def refinement_pixels(reader):
    """Those of a refinement, which may lie anywhere."""
    return pair(reader), pair(reader)


def generic_header(reader):
    """The region, whether it is coded by MMR, and otherwise how it is coded (7.4.6)."""
    region = region_information(reader)
    flags = reader.number(1)
    if flags & 1:
        return region, True, None
    template = flags >> 1 & 3
    extended = bool(flags & 16) and template == 0
    return region, False, Generic(template, adaptive_pixels(reader, template, extended), bool(flags & 8), extended)


def with_row_count(region, rest):
    """The region with the rows that are counted after its data, and the data (7.4.6.4)."""
    refuse_if(len(rest) < 4, Fault.UNEXPECTED_EOF)
    rows = int.from_bytes(rest[-4:], "big")
    refuse_if(rows > region.height, Fault.INVALID_DIMENSION)
    return dataclasses.replace(region, height=rows), rest[:-4]


def information_of(data, kind, has_unknown_length):
    """The information of an immediate region of any kind that is not too large."""
    reader = Reader(data)
    if has_unknown_length and kind in (38, 39):
        region, _ = with_row_count(generic_header(reader)[0], reader.rest())
    else:
        region = region_information(reader)
    refuse_large(region.width, region.height)
    return region


def generic_region(work, data, kind, has_unknown_length, strict, is_cut=False):
    """A generic region (7.4.6); of one whose data is cut off the rows that are whole."""
    reader = Reader(data)
    region, is_mmr, coded = generic_header(reader)
    rest = reader.rest()
    if has_unknown_length and kind in (38, 39):
        region, rest = with_row_count(region, rest)
    refuse_large(region.width, region.height)
    if is_mmr:
        return region.with_bitmap(t6.decode(work, rest, region.width, region.height, strict, is_cut)[0])
    return region.with_bitmap(coded.decode(work, Coder(rest), bytearray(1 << 16), region.width, region.height, is_cut))


def refinement_region(work, data, reference, page, is_cut=False):
    """A refinement of another region, or of the page's area where that is None. Of one whose data is cut off the rows that
    are whole, and below them the reference."""
    reader = Reader(data)
    region = region_information(reader)
    flags = reader.number(1)
    pixels = refinement_pixels(reader) if flags & 1 == 0 else ()
    refuse_large(region.width, region.height)
    if reference is None:
        x, y = signed(region.x), signed(region.y)
        area = page.part(work, x, y, region.width, region.height)
        reference = dataclasses.replace(region, bitmap=area)
    is_larger = region.width > reference.bitmap.width or region.height > reference.bitmap.height
    refuse_if(is_larger, Fault.INVALID_DIMENSION)
    places = (reference.x, region.x, reference.y, region.y)
    refuse_if(max(places) >= LARGEST_PLACE, Fault.REFERENCE_OFFSET)
    shift = reference.x - region.x, reference.y - region.y
    coded = Refinement(flags & 1, pixels, bool(flags & 2))
    size = region.width, region.height
    bitmap = coded.decode(work, Coder(reader.rest()), bytearray(1 << 13), size, reference.bitmap, shift, is_cut)
    if is_cut:
        whole_rows, bitmap = bitmap, Bitmap(work, *size)
        bitmap.combine(work, reference.bitmap, *shift, REPLACE)
        bitmap.combine(work, whole_rows, 0, 0, REPLACE)
    return region.with_bitmap(bitmap)


def signed(value):
    """A number of 32 bits read as one with a sign."""
    return value - (1 << 32) if value >> 31 else value


def patterns(work, data, strict):
    """The patterns of a dictionary (7.4.4)."""
    reader = Reader(data)
    flags, width = reader.number(1), reader.number(1)
    refuse_if(width == 0, Fault.UNEXPECTED_EOF)
    height = reader.number(1)
    refuse_if(height == 0, Fault.UNEXPECTED_EOF)
    count = reader.number(4) + 1
    refuse_if(count * width > 65535, Fault.BITMAP_DIMENSION)
    template = flags >> 1 & 3
    if flags & 1:
        together, _ = t6.decode(work, reader.rest(), count * width, height, strict)
    else:
        pixels = [(-width, 0), (-3, -1), (2, -2), (-2, -2)]
        coded = Generic(template, pixels)
        together = coded.decode(work, Coder(reader.rest()), bytearray(1 << 16), count * width, height)
    return [together.part(work, at * width, 0, width, height) for at in range(count)]


class Halftone:
    """Reads a halftone region (7.4.5), or the part of one whose data is cut off."""

    def __init__(self, work, data, of_patterns, strict, is_cut=False):
        self.work = work
        self.patterns = of_patterns
        self.strict = strict
        self.is_cut = is_cut
        reader = Reader(data)
        self.region = region_information(reader)
        self.flags = reader.number(1)
        refuse_if(self.flags >> 4 & 7 > 4, Fault.INVALID_COMBINATION_OPERATOR)
        self.columns, self.rows = reader.number(4), reader.number(4)
        refuse_if(max(self.columns, self.rows) > 65535, Fault.GRID_DIMENSION)
        self.place = reader.number(4, signed=True), reader.number(4, signed=True)
        self.vector = reader.number(2), reader.number(2)
        refuse_large(self.region.width, self.region.height)
        self.data = reader.rest()

    def cell(self, row, column):
        """Where a cell's pattern stands."""
        (x, y), (right, down) = self.place, self.vector
        return (x + row * down + column * right) >> 8, (y + row * right - column * down) >> 8

    def is_outside(self, row, column):
        x, y = self.cell(row, column)
        pattern, region = self.patterns[0], self.region
        return x + pattern.width <= 0 or x >= region.width or y + pattern.height <= 0 or y >= region.height

    def planes(self):
        """The coded planes, from the highest; of data that is cut off the last one has the rows that are whole."""
        cuts = [False] * (len(self.patterns) - 1).bit_length()
        cuts[-1:] = [self.is_cut] * len(cuts[-1:])
        self.work.draw(self.columns * self.rows)
        if self.flags & 1:
            data = self.data
            for is_cut in cuts:
                plane, used = t6.decode(self.work, data, self.columns, self.rows, self.strict, is_cut)
                data = data[used:]
                yield plane
            return
        skipped = None
        if self.flags & 8:
            skipped = [[self.is_outside(row, column) for column in range(self.columns)] for row in range(self.rows)]
        template = self.flags >> 1 & 3
        coded = Generic(template, NOMINAL[template], skipped=skipped)
        coder, contexts = Coder(self.data), bytearray(1 << 16)
        for is_cut in cuts:
            yield coded.decode(self.work, coder, contexts, self.columns, self.rows, is_cut)

    def decode(self):
        bitmap = Bitmap(self.work, self.region.width, self.region.height, self.flags >> 7)
        planes = list(self.planes())
        for row in range(planes[-1].height if planes else self.rows):
            self.work.decide(self.columns)
            for column in range(self.columns):
                value = bit = 0
                for plane in planes:
                    bit ^= plane.rows[row][column]
                    value = value << 1 | bit
                if value >= len(self.patterns):
                    refuse_if(self.strict, Fault.GRAY_SCALE_OUT_OF_RANGE)
                    value = len(self.patterns) - 1
                bitmap.combine(self.work, self.patterns[value], *self.cell(row, column), self.flags >> 4 & 7)
        return self.region.with_bitmap(bitmap)


def text_region(work, data, symbols, customs, strict, is_cut=False):
    """A text region (7.4.3), or the part of one whose data is cut off."""
    reader = Reader(data)
    region = region_information(reader)
    flags = reader.number(2)
    is_prefix, refined = flags & 1, flags >> 1 & 1
    choices = reader.number(2) if is_prefix else 0
    template = flags >> 15
    pixels = refinement_pixels(reader) if refined and template == 0 else ((-1, -1), (-1, -1))
    settings = Settings(
        count=reader.number(4), most=32 * len(data), refinement=Refinement(template, pixels), refined=bool(refined),
        strip_log=flags >> 2 & 3, corner=flags >> 4 & 3, transposed=bool(flags >> 6 & 1), operator=flags >> 7 & 3,
        colour=flags >> 9 & 1, offset=(flags >> 10 & 31) - (flags >> 9 & 32),
    )
    ids = symbol_codes(reader, len(symbols)) if is_prefix else None
    refuse_large(region.width, region.height)
    refining = bytearray(1 << 13)
    if is_prefix:
        source = PrefixSource(work, reader, text_tables(choices, list(customs)), ids, refining)
    else:
        length = max(0, len(symbols) - 1).bit_length()
        source = CoderSource(work, Integers(Coder(reader.rest()), work), length, refining)
    text = TextReader(work, settings, source, symbols, strict)
    return region.with_bitmap((text.decode_part if is_cut else text.decode)(region.width, region.height))


def text_tables(choices, customs):
    """The tables that a text region's Huffman flags choose."""
    tables = {}
    for name, mask, standard in TEXT_CHOICES:
        selection = choices & mask
        choices >>= mask.bit_length()
        if selection in standard:
            tables[name] = STANDARD[standard[selection]]
        else:
            refuse_if(selection != mask, Fault.INVALID_SELECTION)
            if not customs:
                raise Refused(Fault.MISSING_TABLES)
            tables[name] = customs.pop(0)
    return tables
