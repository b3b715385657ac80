"""The arithmetic encoder of T.88, E.2, and the integers and symbol ids of Annex A."""
from __future__ import annotations

from collections.abc import Iterable

from .fields import settled

# Qe, the next row after a likely symbol, after an unlikely one, and whether that turns the likely symbol (Table E.1).
ROWS = (
    (0x5601, 1, 1, 1), (0x3401, 2, 6, 0), (0x1801, 3, 9, 0), (0x0AC1, 4, 12, 0), (0x0521, 5, 29, 0),
    (0x0221, 38, 33, 0), (0x5601, 7, 6, 1), (0x5401, 8, 14, 0), (0x4801, 9, 14, 0), (0x3801, 10, 14, 0),
    (0x3001, 11, 17, 0), (0x2401, 12, 18, 0), (0x1C01, 13, 20, 0), (0x1601, 29, 21, 0), (0x5601, 15, 14, 1),
    (0x5401, 16, 14, 0), (0x5101, 17, 15, 0), (0x4801, 18, 16, 0), (0x3801, 19, 17, 0), (0x3401, 20, 18, 0),
    (0x3001, 21, 19, 0), (0x2801, 22, 19, 0), (0x2401, 23, 20, 0), (0x2201, 24, 21, 0), (0x1C01, 25, 22, 0),
    (0x1801, 26, 23, 0), (0x1601, 27, 24, 0), (0x1401, 28, 25, 0), (0x1201, 29, 26, 0), (0x1101, 30, 27, 0),
    (0x0AC1, 31, 28, 0), (0x09C1, 32, 29, 0), (0x08A1, 33, 30, 0), (0x0521, 34, 31, 0), (0x0441, 35, 32, 0),
    (0x02A1, 36, 33, 0), (0x0221, 37, 34, 0), (0x0141, 38, 35, 0), (0x0111, 39, 36, 0), (0x0085, 40, 37, 0),
    (0x0049, 41, 38, 0), (0x0025, 42, 39, 0), (0x0015, 43, 40, 0), (0x0009, 44, 41, 0), (0x0005, 45, 42, 0),
    (0x0001, 45, 43, 0), (0x5601, 46, 46, 0),
)
FRESH = (0, 0)
# For the number of each context that is not fresh: its row, and its likely symbol.
Contexts = dict[int, tuple[int, int]]
# The prefix of an integer, its value bits, and the least number that they stand for (Table A.1).
INTEGER_RANGES = (("0", 2, 0), ("10", 4, 4), ("110", 6, 20), ("1110", 8, 84), ("11110", 12, 340), ("11111", 32, 4436))


class ArithmeticEncoder:
    """Codes decisions. Contexts are a dictionary from a number to a row of the table and a likely symbol."""

    def __init__(self) -> None:
        self.bytes = bytearray()
        self.interval = 0x8000
        self.low = 0
        self.shifts = 12

    def decide(self, contexts: Contexts, context: int, bit: int) -> None:
        self.decide_all(contexts, (context,), (bit,))

    def decide_all(self, contexts: Contexts, numbers: Iterable[int], bits: Iterable[int]) -> None:
        """Codes a decision in each of these contexts, one after the other."""
        interval, known = self.interval, contexts.get
        for context, bit in zip(numbers, bits):
            row, likely = known(context, FRESH)
            size, after_likely, after_unlikely, turns = ROWS[row]
            interval -= size
            if bit == likely:
                if interval >= 0x8000:
                    self.low += size
                    continue
                if interval < size:
                    interval = size
                else:
                    self.low += size
                contexts[context] = (after_likely, likely)
            else:
                if interval < size:
                    self.low += size
                else:
                    interval = size
                contexts[context] = (after_unlikely, likely ^ turns)
            interval = self.renormalized(interval)
        self.interval = interval

    def renormalized(self, interval: int) -> int:
        """Shifts an interval until it is 0x8000 or more, and writes the bytes that are full then."""
        while interval < 0x8000:
            interval <<= 1
            self.low <<= 1
            self.shifts -= 1
            if self.shifts == 0:
                self.put_byte()
        return interval

    def put_byte(self) -> None:
        if self.bytes and self.bytes[-1] != 0xFF and self.low >= 1 << 27:
            self.bytes[-1] += 1
            self.low &= (1 << 27) - 1
        if self.bytes and self.bytes[-1] == 0xFF:
            self.bytes.append(self.low >> 20)
            self.low &= (1 << 20) - 1
            self.shifts = 7
        else:
            self.bytes.append(self.low >> 19 & 0xFF)
            self.low &= (1 << 19) - 1
            self.shifts = 8

    def finished(self) -> bytes:
        """The bytes of all decisions, with the marker that closes them."""
        top = self.low + self.interval
        self.low |= 0xFFFF
        if self.low >= top:
            self.low -= 0x8000
        for _ in range(2):
            self.low <<= self.shifts
            self.put_byte()
        if self.bytes[-1] != 0xFF:
            self.bytes.append(0xFF)
        self.bytes.append(0xAC)
        return bytes(self.bytes)


class Procedures:
    """The integer procedures of T.88 under their names, and the one of symbol ids, over one encoder."""

    def __init__(self, encoder: ArithmeticEncoder) -> None:
        self.encoder = encoder
        self.contexts = {}

    def integer(self, name: str, value: int | None) -> None:
        """Codes a number, or out of band where it is None (A.2)."""
        value = settled(name, value)
        size = abs(value or 0)
        prefix, count, least = next(line for line in reversed(INTEGER_RANGES) if line[2] <= size)
        sign = "1" if value is None or value < 0 else "0"
        contexts = self.contexts.setdefault(name, {})
        before = 1
        for bit in map(int, sign + prefix + format(size - least, f"0{count}b")):
            self.encoder.decide(contexts, before, bit)
            longer = before << 1 | bit
            before = longer if before < 256 else longer & 511 | 256

    def symbol_id(self, value: int, length: int) -> None:
        """Codes an id of `length` bits (A.3)."""
        value = settled("symbol id", value, length)
        contexts = self.contexts.setdefault("IAID", {})
        before = 1
        for place in reversed(range(length)):
            bit = value >> place & 1
            self.encoder.decide(contexts, before, bit)
            before = before << 1 | bit
