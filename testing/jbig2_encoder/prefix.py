"""Prefix codes of T.88, Annex B: bits, the standard tables, custom tables and the codes of symbol ids."""
from __future__ import annotations

import itertools
from collections.abc import Sequence
from typing import Optional

from .fields import settled

# A line of a table: prefix length, range length, least number (of a lower line, the greatest), and kind.
Line = tuple[int, int, int, Optional[str]]
OUT_OF_BAND = "out of band"
LOWER = "lower"
UPPER = "upper"


class Bits:
    """Bits that are written one after the other."""

    def __init__(self) -> None:
        self.digits = []

    def put(self, value: int, count: int) -> None:
        if count:
            self.digits.append(format(value % (1 << count), f"0{count}b"))

    def align(self) -> None:
        length = sum(map(len, self.digits))
        self.put(0, -length % 8)

    def put_bytes(self, data: bytes) -> None:
        for byte in data:
            self.put(byte, 8)

    def bytes(self) -> bytes:
        self.align()
        digits = "".join(self.digits)
        return int("1" + digits, 2).to_bytes(len(digits) // 8 + 1, "big")[1:]


def codes_of(lengths: Sequence[int]) -> dict[int, int]:
    """The code of each line with a prefix length, by the lengths in their order (B.3)."""
    codes = {}
    code = 0
    for length in range(1, max(lengths, default=0) + 1):
        code <<= 1
        for line, its_length in enumerate(lengths):
            if its_length == length:
                codes[line] = code
                code += 1
    return codes


class Table:
    """Lines of a prefix length, a range length, the least number (of a lower line, the greatest) and a kind."""

    def __init__(self, lines: list[Line]) -> None:
        self.lines = lines
        self.codes = codes_of([line[0] for line in lines])

    def line_of(self, value: int | None) -> int | None:
        for at, (length, count, low, kind) in enumerate(self.lines):
            if length == 0:
                continue
            if value is None or kind == OUT_OF_BAND:
                found = value is None and kind == OUT_OF_BAND
            elif kind == LOWER:
                found = value <= low
            elif kind == UPPER:
                found = value >= low
            else:
                found = low <= value < low + (1 << count)
            if found:
                return at
        return None

    def takes(self, value: int | None) -> bool:
        return self.line_of(value) is not None

    def put(self, bits: Bits, value: int | None) -> None:
        at = self.line_of(value)
        length, count, low, kind = self.lines[at]
        bits.put(self.codes[at], length)
        if value is not None:
            bits.put(abs(value - low), count)


def line(word: str) -> Line:
    """A line as it is written below: L is the lower one, U the upper one, O out of band."""
    kind = {"L": LOWER, "U": UPPER, "O": OUT_OF_BAND}.get(word[0])
    numbers = [int(number) for number in word.lstrip("LUO").split("/")]
    if kind == OUT_OF_BAND:
        return (numbers[0], 0, 0, kind)
    if kind:
        return (numbers[0], 32, numbers[1], kind)
    return (*numbers, None)


# The standard tables of B.5: prefix length, range length and least number of each line.
STANDARD = {
    name: Table([line(word) for word in words.split()])
    for name, words in {
        1: "1/4/0 2/8/16 3/16/272 U3/65808",
        2: "1/0/0 2/0/1 3/0/2 4/3/3 5/6/11 U6/75 O6",
        3: "8/8/-256 1/0/0 2/0/1 3/0/2 4/3/3 5/6/11 L8/-257 U7/75 O6",
        4: "1/0/1 2/0/2 3/0/3 4/3/4 5/6/12 U5/76",
        5: "7/8/-255 1/0/1 2/0/2 3/0/3 4/3/4 5/6/12 L7/-256 U6/76",
        6: "5/10/-2048 4/9/-1024 4/8/-512 4/7/-256 5/6/-128 5/5/-64 4/5/-32 2/7/0 3/7/128 3/8/256 4/9/512 4/10/1024 "
        "L6/-2049 U6/2048",
        7: "4/9/-1024 3/8/-512 4/7/-256 5/6/-128 5/5/-64 4/5/-32 4/5/0 5/5/32 5/6/64 4/7/128 3/8/256 3/9/512 "
        "3/10/1024 L5/-1025 U5/2048",
        8: "8/3/-15 9/1/-7 8/1/-5 9/0/-3 7/0/-2 4/0/-1 2/1/0 5/0/2 6/0/3 3/4/4 6/1/20 4/4/22 4/5/38 5/6/70 5/7/134 "
        "6/7/262 7/8/390 6/10/646 L9/-16 U9/1670 O2",
        9: "8/4/-31 9/2/-15 8/2/-11 9/1/-7 7/1/-5 4/1/-3 3/1/-1 3/1/1 5/1/3 6/1/5 3/5/7 6/2/39 4/5/43 4/6/75 5/7/139 "
        "5/8/267 6/8/523 7/9/779 6/11/1291 L9/-32 U9/3339 O2",
        10: "7/4/-21 8/0/-5 7/0/-4 5/0/-3 2/2/-2 5/0/2 6/0/3 7/0/4 8/0/5 2/6/6 5/5/70 6/5/102 6/6/134 6/7/198 6/8/326 "
        "6/9/582 6/10/1094 7/11/2118 L8/-22 U8/4166 O2",
        11: "1/0/1 2/1/2 4/0/4 4/1/5 5/1/7 5/2/9 6/2/13 7/2/17 7/3/21 7/4/29 7/5/45 7/6/77 U7/141",
        12: "1/0/1 2/0/2 3/1/3 5/0/5 5/1/6 6/1/8 7/0/10 7/1/11 7/2/13 7/3/17 7/4/25 8/5/41 U8/73",
        13: "1/0/1 3/0/2 4/0/3 5/0/4 4/1/5 3/3/7 6/1/15 6/2/17 6/3/21 6/4/29 6/5/45 7/6/77 U7/141",
        14: "3/0/-2 3/0/-1 1/0/0 3/0/1 3/0/2",
        15: "7/4/-24 6/2/-8 5/1/-4 4/0/-2 3/0/-1 1/0/0 3/0/1 4/0/2 5/1/3 6/2/5 7/4/9 L7/-25 U7/25",
    }.items()
}


def code_length(count: int) -> int:
    """The least number of bits that names `count` members."""
    return max(0, count - 1).bit_length()


def even_lengths(count: int) -> list[int]:
    """Lengths of a code that uses all of its room, as equal as can be; one member alone has one bit."""
    longest = max(1, code_length(count))
    shorter = (1 << longest) - count if count > 1 else 0
    return [longest - 1] * shorter + [longest] * (count - shorter)


def custom_table(
    start: int, ranges: Sequence[tuple[int, int]], lower: int = 0, upper: int = 0, out_of_band: int | None = None
) -> Table:
    """A custom table (B.2).

    `ranges` has a prefix length and a range length for each range from the least number `start` on. Then there are the
    prefix lengths of the lower line, of the upper one and of out of band, where there is one.
    """
    lines, low = [], start
    for length, count in ranges:
        lines.append((length, count, low, None))
        low += 1 << count
    lines += [(lower, 32, start - 1, LOWER), (upper, 32, low, UPPER)]
    if out_of_band is not None:
        lines.append((out_of_band, 0, 0, OUT_OF_BAND))
    return Table(lines)


def field_sizes(table: Table, prefix_bits: int | None = None, range_bits: int | None = None) -> tuple[int, int]:
    """The bits of a custom table's prefix lengths and of its range lengths: as given, or as few as can be."""
    ranges = [line[1] for line in table.lines if line[3] is None]
    prefix_bits = prefix_bits or max(1, max(line[0] for line in table.lines).bit_length())
    return prefix_bits, range_bits or max(1, max(ranges, default=0).bit_length())


def bits_of_table(table: Table, prefix_bits: int | None = None, range_bits: int | None = None) -> int:
    """How many bits the data of a custom table has."""
    prefix_bits, range_bits = field_sizes(table, prefix_bits, range_bits)
    ranges = sum(line[3] is None for line in table.lines)
    return 72 + prefix_bits * len(table.lines) + range_bits * ranges


def table_data(table: Table, prefix_bits: int | None = None, range_bits: int | None = None) -> bytes:
    """The data of the segment of a custom table, with fields as in `field_sizes`."""
    lower, upper = (next(line for line in table.lines if line[3] == kind) for kind in (LOWER, UPPER))
    prefix_bits, range_bits = field_sizes(table, prefix_bits, range_bits)
    flags = (range_bits - 1) << 4 | (prefix_bits - 1) << 1 | (table.lines[-1][3] == OUT_OF_BAND)
    bits = Bits()
    for name, value, count in (("flags", flags, 8), ("minimum", lower[2] + 1, 32), ("maximum", upper[2], 32)):
        bits.put(settled(f"table {name}", value, count), count)
    for length, count, _, kind in table.lines:
        bits.put(settled("prefix length", length, prefix_bits), prefix_bits)
        if kind is None:
            bits.put(settled("range length", count, range_bits), range_bits)
    return bits.bytes()


def runs_of(lengths: Sequence[int]) -> list[tuple[int, int, int]]:
    """The run codes of the symbols' code lengths, each with its further bits (7.4.3.1.7)."""
    runs = []
    for length, group in itertools.groupby(lengths):
        left = len(list(group))
        if length == 0:
            while left >= 3:
                taken = min(left, 138)
                runs.append((33, taken - 3, 3) if taken < 11 else (34, taken - 11, 7))
                left -= taken
        else:
            runs.append((length, 0, 0))
            left -= 1
            while left >= 3:
                taken = min(left, 6)
                runs.append((32, taken - 3, 2))
                left -= taken
        runs += [(length, 0, 0)] * left
    return runs


def put_symbol_codes(bits: Bits, lengths: Sequence[int], run_lengths: Sequence[int] | None = None) -> None:
    """Writes the code lengths of the symbols' ids; `run_lengths` are those of the run codes, None for even ones."""
    runs = runs_of(lengths)
    used = sorted({run for run, _, _ in runs})
    of_runs = [0] * 35
    for run, length in zip(used, run_lengths or even_lengths(len(used))):
        of_runs[run] = length
    codes = codes_of(of_runs)
    for length in of_runs:
        bits.put(settled("run code length", length, 4), 4)
    for run, further, count in runs:
        run = settled("run code", run)
        bits.put(codes[run], of_runs[run])
        bits.put(further, count)
    bits.align()
