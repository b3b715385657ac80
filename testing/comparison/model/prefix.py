"""Prefix codes (Annex B): tables, numbers, custom tables, and the codes of symbol ids."""
import dataclasses

from testing.jbig2_encoder.prefix import LOWER, OUT_OF_BAND, STANDARD as STANDARD_TABLES, UPPER

from .answers import Fault, Refused, in_signed, refuse_if
from .bits import Reader


@dataclasses.dataclass(frozen=True)
class Line:
    """A line of a table; `kind` is None, or the name of the lower, the upper or the out-of-band line."""

    prefix: int
    range: int
    low: int
    kind: object = None


class Table:
    """Lines with codes; refused where they do not fit."""

    def __init__(self, lines):
        longest = max((line.prefix for line in lines), default=0)
        room = sum(1 << longest - line.prefix for line in lines if line.prefix)
        refuse_if(room > 1 << longest, Fault.INVALID_CODE)
        self.codes, code = {}, 0
        for length in range(1, longest + 1):
            code <<= 1
            for line in lines:
                if line.prefix == length:
                    self.codes[length, code] = line
                    code += 1
        self.beginnings = {(k, code >> length - k) for length, code in self.codes for k in range(1, length + 1)}

    def line(self, reader):
        """The line whose code comes next."""
        length = code = 0
        while True:
            code = code << 1 | reader.bits(1, Fault.UNEXPECTED_EOF)
            length += 1
            if (length, code) in self.codes:
                return self.codes[length, code]
            refuse_if((length, code) not in self.beginnings, Fault.INVALID_CODE)

    def read(self, reader):
        """A number, or None for out of band."""
        line = self.line(reader)
        if line.kind == OUT_OF_BAND:
            return None
        more = reader.bits(line.range, Fault.INVALID_CODE)
        return in_signed(line.low - more if line.kind == LOWER else line.low + more, Fault.INVALID_CODE)


STANDARD = {name: Table([Line(*line) for line in table.lines]) for name, table in STANDARD_TABLES.items()}


def custom_table(data):
    """The table of a segment's data (B.2)."""
    reader = Reader(data)
    flags = reader.number(1)
    low, most = reader.number(4, signed=True), reader.number(4, signed=True)
    least = low
    prefix_bits, range_bits = (flags >> 1 & 7) + 1, (flags >> 4 & 7) + 1
    lines = []
    while low < most:
        prefix = reader.bits(prefix_bits, Fault.INVALID_CODE)
        count = reader.bits(range_bits, Fault.INVALID_CODE)
        refuse_if(count >= 32, Fault.INVALID_CODE)
        lines.append(Line(prefix, count, low))
        low = in_signed(low + (1 << count), Fault.INVALID_CODE)
    lines.append(Line(reader.bits(prefix_bits, Fault.INVALID_CODE), 32, least - 1, LOWER))
    lines.append(Line(reader.bits(prefix_bits, Fault.INVALID_CODE), 32, most, UPPER))
    if flags & 1:
        lines.append(Line(reader.bits(prefix_bits, Fault.INVALID_CODE), 0, 0, OUT_OF_BAND))
    return Table(lines)


def ids_table(lengths):
    """The code of ids by their lengths."""
    return Table([Line(length, 0, at) for at, length in enumerate(lengths)])


def symbol_codes(reader, count):
    """The code of a text region's ids, by run codes (7.4.3.1.7)."""
    runs = ids_table([reader.bits(4, Fault.INVALID_CODE) for _ in range(35)])
    lengths = []
    while len(lengths) < count:
        run = runs.read(reader)
        if run < 32:
            lengths.append(run)
        elif run == 32:
            more = reader.bits(2, Fault.INVALID_CODE)
            if not lengths:
                raise Refused(Fault.INVALID_CODE)
            lengths += [lengths[-1]] * (3 + more)
        else:
            least, count_bits = (3, 3) if run == 33 else (11, 7)
            lengths += [0] * (least + reader.bits(count_bits, Fault.INVALID_CODE))
        refuse_if(len(lengths) > count, Fault.INVALID_CODE)
    reader.align()
    return ids_table(lengths)
