"""Symbol dictionaries (6.5, 7.4.2)."""
import dataclasses

from . import t6
from .answers import Fault, in_unsigned, refuse_if
from .bitmap import LARGEST, Bitmap, refuse_large
from .bits import Reader
from .coder import Coder, Integers
from .generic import Generic, Refinement
from .prefix import STANDARD, ids_table
from .regions import adaptive_pixels, refinement_pixels
from .text import CoderSource, PrefixSource, Settings, TextReader

MOST_SYMBOLS = MOST_EMPTY = 1 << 20
# The tables of each number by the selections of its bits, the place of these, and their mask.
CHOICES = (("IADH", 2, 3, {0: 4, 1: 5}), ("IADW", 4, 3, {0: 2, 1: 3}), ("size", 6, 1, {0: 1}), ("IAAI", 7, 1, {0: 1}))
AGGREGATE_TABLES = {
    "IAFS": STANDARD[6], "IADS": STANDARD[8], "IADT": STANDARD[11], "IARDW": STANDARD[15], "IARDH": STANDARD[15],
    "IARDX": STANDARD[15], "IARDY": STANDARD[15], "size": STANDARD[1],
}


def code_length(count):
    """The least number of bits for this many values."""
    return max(0, count - 1).bit_length()


@dataclasses.dataclass
class Dictionary:
    """Exported symbols, the templates, and the contexts that are kept or None."""

    symbols: list
    templates: tuple
    kept: object


class DictionaryReader:
    """Reads one dictionary; `referred` are the dictionaries that it refers to, `tables` the custom tables."""

    def __init__(self, work, data, referred, tables, strict):
        self.work = work
        self.strict = strict
        self.symbols = [symbol for dictionary in referred for symbol in dictionary.symbols]
        self.inputs = len(self.symbols)
        self.read_header(Reader(data), referred, list(tables))

    def read_header(self, reader, referred, customs):
        flags = self.flags = reader.number(2)
        self.prefix, self.aggregates = flags & 1, flags & 2
        for place in (2, 4):
            refuse_if(flags >> place & 3 == 2, Fault.INVALID_SELECTION)
        template, refinement = flags >> 10 & 3, flags >> 12 & 1
        pixels = () if self.prefix else adaptive_pixels(reader, template)
        refined_pixels = refinement_pixels(reader) if self.aggregates and refinement == 0 else ((-1, -1), (-1, -1))
        self.generic = None if self.prefix else Generic(template, pixels)
        self.refinement = Refinement(refinement, refined_pixels)
        self.exported, self.new = reader.number(4), reader.number(4)
        refuse_if(max(self.exported, self.new) > MOST_SYMBOLS, Fault.SYMBOL_COUNT)
        self.templates = template, refinement
        self.contexts, self.refining = bytearray(1 << 16), bytearray(1 << 13)
        if flags >> 8 & 1:
            self.take_over(referred)
        self.choose_tables(customs)
        self.start(reader)

    def take_over(self, referred):
        last = referred[-1] if referred else None
        refuse_if(last is None or last.kept is None or last.templates != self.templates, Fault.INVALID_SYMBOL)
        self.contexts, self.refining = (bytearray(contexts) for contexts in last.kept)

    def choose_tables(self, customs):
        self.tables = {"IAEX": STANDARD[1]}
        for name, place, mask, standard in CHOICES:
            selection = self.flags >> place & mask
            if selection in standard:
                self.tables[name] = STANDARD[standard[selection]]
            else:
                refuse_if(not customs, Fault.MISSING_TABLES)
                self.tables[name] = customs.pop(0)

    def start(self, reader):
        """The sources of numbers over the coded data, which is the rest."""
        self.data = reader.rest()
        self.reader = Reader(self.data)
        count = self.inputs + self.new
        self.id_length = max(1, code_length(count)) if self.prefix else code_length(count)
        if self.prefix:
            self.source = PrefixSource(self.work, self.reader, AGGREGATE_TABLES, None, self.refining)
        else:
            self.coder = Coder(self.data)
            self.integers = Integers(self.coder, self.work)
            self.source = CoderSource(self.work, self.integers, self.id_length, self.refining)

    def number(self, name):
        self.work.decide(2)
        return self.tables[name].read(self.reader) if self.prefix else self.integers.read(name)

    def decode(self):
        height = empty = 0
        total = self.inputs + self.new
        while len(self.symbols) < total:
            delta = self.number("IADH")
            refuse_if(delta is None, Fault.CODER_OUT_OF_BAND)
            height = in_unsigned(height + delta, Fault.BITMAP_DIMENSION)
            widths = self.read_class(height, total)
            empty += not widths
            refuse_if(empty > MOST_EMPTY, Fault.INVALID_SYMBOL)
            if self.prefix and not self.aggregates:
                self.read_collective(widths, height)
        exported = self.exports(total)
        kept = (bytes(self.contexts), bytes(self.refining)) if self.flags >> 9 & 1 else None
        return Dictionary(exported, self.templates, kept)

    def read_class(self, height, total):
        """The widths of a class; its symbols are read where they are coded one by one."""
        widths, width = [], 0
        while (delta := self.number("IADW")) is not None:
            so_far = self.inputs + self.new_so_far(widths)
            refuse_if(so_far >= total, Fault.TOO_MANY_SYMBOLS)
            width = in_unsigned(width + delta, Fault.BITMAP_DIMENSION)
            widths.append(width)
            in_unsigned(sum(widths), Fault.BITMAP_DIMENSION)
            if self.aggregates:
                self.symbols.append(self.aggregate(width, height))
            elif not self.prefix:
                refuse_large(width, height)
                self.symbols.append(self.generic.decode(self.work, self.coder, self.contexts, width, height))
        return widths

    def new_so_far(self, widths):
        """How many new symbols there are; those of a class with one bitmap are not cut out of it yet."""
        waiting = len(widths) if self.prefix and not self.aggregates else 0
        return len(self.symbols) - self.inputs + waiting

    def read_collective(self, widths, height):
        """A class's bitmap, as plain rows or as MMR data, and its symbols."""
        size = self.number("size")
        refuse_if(size is None, Fault.PREFIX_OUT_OF_BAND)
        refuse_if(size < 0, Fault.BITMAP_DIMENSION)
        self.reader.align()
        width = sum(widths)
        data = self.reader.take(size)
        refuse_if(width * height > LARGEST**2, Fault.BITMAP_DIMENSION)
        if size:
            bitmap, _ = t6.decode(self.work, data, width, height, self.strict)
        else:
            bitmap = self.plain_rows(width, height)
        left = 0
        for width in widths:
            refuse_large(width, height)
            self.symbols.append(bitmap.part(self.work, left, 0, width, height))
            left += width

    def plain_rows(self, width, height):
        stride = (width + 7) // 8
        data = self.reader.take(stride * height)
        bitmap = Bitmap(self.work, width, height)
        for y, row in enumerate(bitmap.rows):
            for x in range(width):
                row[x] = data[stride * y + x // 8] >> (7 - x % 8) & 1
        return bitmap

    def aggregate(self, width, height):
        count = self.number("IAAI")
        refuse_if(count is None, Fault.CODER_OUT_OF_BAND)
        refuse_if(count < 1, Fault.INVALID_SYMBOL)
        if count == 1:
            return self.refined(width, height)
        refuse_large(width, height)
        settings = Settings(count, 32 * len(self.data), self.refinement)
        if self.prefix:
            self.source.ids = ids_table([self.id_length] * (self.inputs + self.new))
        return TextReader(self.work, settings, self.source, self.symbols, self.strict).decode(width, height)

    def refined(self, width, height):
        if self.prefix:
            at = self.reader.bits(self.id_length, Fault.UNEXPECTED_EOF)
            shift = [STANDARD[15].read(self.reader) for _ in "xy"]
        else:
            at = self.integers.read_id(self.id_length)
            shift = [self.source.needed(name) for name in ("IARDX", "IARDY")]
        refuse_if(at >= len(self.symbols), Fault.SYMBOL_OUT_OF_RANGE)
        refuse_large(width, height)
        return self.source.refined(self.refinement, (width, height), self.symbols[at], shift)

    def exports(self, total):
        chosen, empty, taken = [], 0, False
        while len(chosen) < total:
            run = self.number("IAEX")
            refuse_if(run is None, Fault.PREFIX_OUT_OF_BAND)
            refuse_if(run < 0, Fault.INVALID_CODE)
            empty += run == 0
            refuse_if(empty > MOST_EMPTY, Fault.INVALID_SYMBOL)
            refuse_if(len(chosen) + run > total, Fault.SYMBOL_OUT_OF_RANGE)
            chosen += [taken] * run
            taken = not taken
        refuse_if(sum(chosen) != self.exported, Fault.NO_SYMBOLS)
        return [symbol for symbol, is_taken in zip(self.symbols, chosen) if is_taken]
