"""Text regions (6.4): the instances of symbols, by either coding."""
import dataclasses

from .answers import Fault, Refused, in_signed, refuse_if
from .bitmap import Bitmap, refuse_large
from .coder import Coder
from .generic import Refinement

BOTTOM_LEFT, TOP_LEFT, BOTTOM_RIGHT, TOP_RIGHT = range(4)
RIGHT, BOTTOM = (BOTTOM_RIGHT, TOP_RIGHT), (BOTTOM_LEFT, BOTTOM_RIGHT)


@dataclasses.dataclass
class Settings:
    """What a text region's flags say. `most` is the limit on instances."""

    count: int
    most: int
    refinement: Refinement
    refined: bool = True
    strip_log: int = 0
    corner: int = TOP_LEFT
    transposed: bool = False
    operator: int = 0
    colour: int = 0
    offset: int = 0


class CoderSource:
    """Numbers by the arithmetic coder."""

    out_of_band = Fault.CODER_OUT_OF_BAND

    def __init__(self, work, integers, id_length, refining):
        self.work = work
        self.integers = integers
        self.id_length = id_length
        self.refining = refining

    def number(self, name):
        return self.integers.read(name)

    def needed(self, name):
        value = self.number(name)
        refuse_if(value is None, self.out_of_band)
        return value

    def place_in_strip(self, strip_log):
        return self.needed("IAIT") if strip_log else 0

    def symbol_id(self):
        return self.integers.read_id(self.id_length)

    def is_refined(self):
        return self.needed("IARI") & 255 != 0

    def is_past_end(self):
        return self.integers.coder.is_past_end

    def refined(self, refinement, size, reference, shift):
        return refinement.decode(self.work, self.integers.coder, self.refining, size, reference, shift)


class PrefixSource:
    """Numbers by prefix codes; each refinement has a coder of its own."""

    out_of_band = Fault.PREFIX_OUT_OF_BAND

    def __init__(self, work, reader, tables, ids, refining):
        self.work = work
        self.reader = reader
        self.tables = tables
        self.ids = ids
        self.refining = refining

    def number(self, name):
        self.work.decide(4)
        return self.tables[name].read(self.reader)

    def needed(self, name):
        value = self.number(name)
        refuse_if(value is None, self.out_of_band)
        return value

    def place_in_strip(self, strip_log):
        return self.reader.bits(strip_log, Fault.INVALID_CODE)

    def symbol_id(self):
        return self.ids.read(self.reader)

    def is_refined(self):
        return self.reader.bits(1, Fault.UNEXPECTED_EOF) == 1

    def is_past_end(self):
        """Prefix codes are not read beyond the data: that is an error."""
        return False

    def refined(self, refinement, size, reference, shift):
        count = self.needed("size")
        self.reader.align()
        refuse_if(count < 0, Fault.UNEXPECTED_EOF)
        coder = Coder(self.reader.take(count))
        return refinement.decode(self.work, coder, self.refining, size, reference, shift)


class TextReader:
    """Reads instance after instance, and draws them on a bitmap."""

    def __init__(self, work, settings, source, symbols, strict):
        self.work = work
        self.settings = settings
        self.source = source
        self.symbols = symbols
        self.strict = strict

    def strip_delta(self):
        product = self.source.needed("IADT") << self.settings.strip_log
        return in_signed(product, Fault.INVALID_STRIP_DELTA)

    def decode(self, width, height):
        settings = self.settings
        refuse_if(settings.count > settings.most, Fault.TOO_MANY_INSTANCES)
        bitmap = Bitmap(self.work, width, height, settings.colour)
        for placed in self.instances(self.initial_strip()):
            self.draw(bitmap, placed)
        return bitmap

    def decode_part(self, width, height):
        """Of data that is cut off the instances that are whole: those before the first one that has an error, or at whose
        end the coder is past the data. An error in the initial strip is the region's."""
        settings = self.settings
        bitmap = Bitmap(self.work, width, height, settings.colour)
        strip = self.initial_strip()
        try:
            for _, placed in zip(range(settings.most), self.instances(strip)):
                if self.source.is_past_end():
                    break
                self.draw(bitmap, placed)
        except Refused:
            pass
        return bitmap

    def draw(self, bitmap, placed):
        if placed is not None:
            bitmap.combine(self.work, *placed, self.settings.operator)

    def initial_strip(self):
        return in_signed(-self.strip_delta(), Fault.PLACEMENT_COORDINATE)

    def instances(self, strip):
        """Each instance when it is read: its symbol with left and top, or None where nothing is drawn."""
        settings, source = self.settings, self.source
        left, first = settings.count, 0
        while left:
            strip = in_signed(strip + self.strip_delta(), Fault.PLACEMENT_COORDINATE)
            first = in_signed(first + source.needed("IAFS"), Fault.PLACEMENT_COORDINATE)
            s = first
            while s is not None:
                s, placed = self.instance(s, strip)
                yield placed
                left -= 1
                if not left:
                    self.read_end()
                    break
                s = self.next_s(s)

    def next_s(self, s):
        delta = self.source.number("IADS")
        if delta is None:
            return None
        s = in_signed(s + delta, Fault.PLACEMENT_COORDINATE)
        return in_signed(s + self.settings.offset, Fault.PLACEMENT_COORDINATE)

    def read_end(self):
        """The delta of S after the last instance, which only strict reading judges."""
        try:
            refuse_if(self.source.number("IADS") is not None, Fault.TOO_MANY_INSTANCES)
        except Refused:
            if self.strict:
                raise

    def instance(self, s, strip):
        """S after an instance, and the instance."""
        t = in_signed(strip + self.source.place_in_strip(self.settings.strip_log), Fault.PLACEMENT_COORDINATE)
        at = self.source.symbol_id()
        is_refined = self.settings.refined and self.source.is_refined()
        if at >= len(self.symbols):
            refuse_if(is_refined or self.strict, Fault.SYMBOL_OUT_OF_RANGE)
            return s, None
        symbol = self.symbols[at]
        return self.placed(self.refined(symbol) if is_refined else symbol, s, t)

    def refined(self, symbol):
        grown, higher, x, y = (self.source.needed(name) for name in ("IARDW", "IARDH", "IARDX", "IARDY"))
        size = symbol.width + grown, symbol.height + higher
        for side in size:
            refuse_if(not 0 <= side < 1 << 31, Fault.BITMAP_DIMENSION)
        shift = [in_signed(delta // 2 + place, Fault.REFERENCE_OFFSET) for delta, place in ((grown, x), (higher, y))]
        refuse_large(*size)
        self.work.refine(*size)
        return self.source.refined(self.settings.refinement, size, symbol, shift)

    def placed(self, symbol, s, t):
        settings, fault = self.settings, Fault.PLACEMENT_COORDINATE
        growth = (symbol.height if settings.transposed else symbol.width) - 1
        grows_before = settings.corner in (BOTTOM if settings.transposed else RIGHT)
        if grows_before:
            s = in_signed(s + growth, fault)
        x, y = (t, s) if settings.transposed else (s, t)
        left = in_signed(x - (symbol.width - 1), fault) if settings.corner in RIGHT else x
        top = in_signed(y - (symbol.height - 1), fault) if settings.corner in BOTTOM else y
        return s if grows_before else in_signed(s + growth, fault), (symbol, left, top)
