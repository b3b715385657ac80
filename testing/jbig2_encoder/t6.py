"""T.6 as MMR data has it: pictures coded row by row by vertical, horizontal and pass modes."""
from __future__ import annotations

from .bitmap import Bitmap, Row
from .prefix import Bits

# Codes of the runs 0 to 63 and of 64, 128 and so on to 1728, in white and in black, and of 1792 to 2560 in both.
WHITE = (
    "00110101 000111 0111 1000 1011 1100 1110 1111 10011 10100 00111 01000 001000 000011 110100 110101 "
    "101010 101011 0100111 0001100 0001000 0010111 0000011 0000100 0101000 0101011 0010011 0100100 "
    "0011000 00000010 00000011 00011010 00011011 00010010 00010011 00010100 00010101 00010110 00010111 "
    "00101000 00101001 00101010 00101011 00101100 00101101 00000100 00000101 00001010 00001011 01010010 "
    "01010011 01010100 01010101 00100100 00100101 01011000 01011001 01011010 01011011 01001010 01001011 "
    "00110010 00110011 00110100"
).split()
WHITE_MAKE_UP = (
    "11011 10010 010111 0110111 00110110 00110111 01100100 01100101 01101000 01100111 011001100 011001101 "
    "011010010 011010011 011010100 011010101 011010110 011010111 011011000 011011001 011011010 011011011 "
    "010011000 010011001 010011010 011000 010011011"
).split()
BLACK = (
    "0000110111 010 11 10 011 0011 0010 00011 000101 000100 0000100 0000101 0000111 00000100 00000111 "
    "000011000 0000010111 0000011000 0000001000 00001100111 00001101000 00001101100 00000110111 "
    "00000101000 00000010111 00000011000 000011001010 000011001011 000011001100 000011001101 000001101000 "
    "000001101001 000001101010 000001101011 000011010010 000011010011 000011010100 000011010101 "
    "000011010110 000011010111 000001101100 000001101101 000011011010 000011011011 000001010100 "
    "000001010101 000001010110 000001010111 000001100100 000001100101 000001010010 000001010011 "
    "000000100100 000000110111 000000111000 000000100111 000000101000 000001011000 000001011001 "
    "000000101011 000000101100 000001011010 000001100110 000001100111"
).split()
BLACK_MAKE_UP = (
    "0000001111 000011001000 000011001001 000001011011 000000110011 000000110100 000000110101 "
    "0000001101100 0000001101101 0000001001010 0000001001011 0000001001100 0000001001101 0000001110010 "
    "0000001110011 0000001110100 0000001110101 0000001110110 0000001110111 0000001010010 0000001010011 "
    "0000001010100 0000001010101 0000001011010 0000001011011 0000001100100 0000001100101"
).split()
LONG_MAKE_UP = (
    "00000001000 00000001100 00000001101 000000010010 000000010011 000000010100 000000010101 000000010110 "
    "000000010111 000000011100 000000011101 000000011110 000000011111"
).split()
VERTICAL = {0: "1", 1: "011", 2: "000011", 3: "0000011", -1: "010", -2: "000010", -3: "0000010"}
PASS = "0001"
HORIZONTAL = "001"
END_OF_BLOCK = "000000000001" * 2


def run_code(length: int, colour: int) -> str:
    """Make-up codes of a run, and then the one that ends it."""
    short, make_up = (BLACK, BLACK_MAKE_UP) if colour else (WHITE, WHITE_MAKE_UP)
    words = []
    while length >= 2560:
        words.append(LONG_MAKE_UP[-1])
        length -= 2560
    if length >= 64:
        words.append((make_up + LONG_MAKE_UP)[length // 64 - 1])
    return "".join(words) + short[length % 64]


def next_change(row: Row, start: int, colour: int) -> int:
    """The first place from `start` on whose pixel is not of the colour."""
    try:
        return row.index(1 - colour, start)
    except ValueError:
        return len(row)


def reference_change(above: Row, start: int, colour: int) -> int:
    """The first place from `start` on in the row above that has the other colour, and not the one before it."""
    if (above[start - 1] if start else 0) != colour:
        start = next_change(above, start, 1 - colour)
    return next_change(above, start, colour)


def row_codes(row: Row, above: Row) -> list[str]:
    width = len(row)
    at, colour = -1, 0
    words = []
    while at < width:
        here = max(at, 0)
        first = next_change(row, here, colour)
        b1 = reference_change(above, at + 1, colour)
        b2 = next_change(above, b1, 1 - colour)
        if b2 < first:
            words.append(PASS)
            at = b2
        elif abs(first - b1) <= 3:
            words.append(VERTICAL[first - b1])
            at, colour = first, 1 - colour
        else:
            second = next_change(row, first, 1 - colour)
            words += [HORIZONTAL, run_code(first - here, colour), run_code(second - first, 1 - colour)]
            at = second
    return words


def encoded(bitmap: Bitmap, ends_block: bool) -> bytes:
    """A bitmap's MMR data, with the code that ends a block or without it."""
    bits = Bits()
    above = [0] * bitmap.width
    for row in bitmap.rows:
        bits.digits += row_codes(row, above)
        above = row
    if ends_block:
        bits.digits.append(END_OF_BLOCK)
    return bits.bytes()
