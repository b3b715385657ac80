"""Bitmaps: their pixels, how they are combined, and what lies around a pixel."""
from __future__ import annotations

import operator as operators
from collections.abc import Iterator, Sequence

# A row of pixels, and a place or an offset, to the right and down.
Row = list[int]
Place = tuple[int, int]
# The combination operators of 7.4.1.5 by their numbers.
OR, AND, XOR, XNOR, REPLACE = range(5)
OPERATORS = (
    operators.or_,
    operators.and_,
    operators.xor,
    lambda below, above: 1 ^ below ^ above,
    lambda below, above: above,
)


class Bitmap:
    """Rows of pixels, 0 for white and 1 for black; outside all is white."""

    def __init__(self, width: int, height: int, colour: int = 0) -> None:
        self.width = width
        self.height = height
        self.rows = [[colour] * width for _ in range(height)]

    def pixel(self, x: int, y: int) -> int:
        inside = 0 <= x < self.width and 0 <= y < self.height
        return self.rows[y][x] if inside else 0

    def combine(self, other: Bitmap, left: int, top: int, operator: int) -> None:
        """Draws another bitmap; what falls outside this one is dropped."""
        first, end = max(0, -left), min(other.width, self.width - left)
        if first >= end:
            return
        for y in range(max(0, -top), min(other.height, self.height - top)):
            row, above = self.rows[top + y], other.rows[y][first:end]
            row[left + first : left + end] = map(OPERATORS[operator], row[left + first : left + end], above)

    def part(self, left: int, top: int, width: int, height: int) -> Bitmap:
        """The pixels of an area, as a bitmap of their own."""
        part = Bitmap(width, height)
        rows = (self.rows[y] if 0 <= y < self.height else [] for y in range(top, top + height))
        part.rows = [window(row, left, width) for row in rows]
        return part

    def copy(self) -> Bitmap:
        return self.part(0, 0, self.width, self.height)

    def numbers(self) -> list[int]:
        """Each row as a number, the leftmost pixel its highest bit."""
        return [int(bytes(row).hex()[1::2] or "0", 2) for row in self.rows]

    def packed(self) -> bytes:
        """Plain bytes, each row padded to whole ones."""
        stride = (self.width + 7) // 8
        padding = 8 * stride - self.width
        return b"".join((number << padding).to_bytes(stride, "big") for number in self.numbers())


def side_by_side(bitmaps: Sequence[Bitmap]) -> Bitmap:
    """One bitmap of several of one height, from the left."""
    whole = Bitmap(sum(bitmap.width for bitmap in bitmaps), bitmaps[0].height if bitmaps else 0)
    whole.rows = [sum((bitmap.rows[y] for bitmap in bitmaps), []) for y in range(whole.height)]
    return whole


def window(row: Row, start: int, width: int) -> Row:
    """`width` pixels of a row from `start` on, white where the row has none."""
    before = min(width, max(0, -start))
    inside = row[max(0, start) : max(0, start + width)]
    return [0] * before + inside + [0] * (width - before - len(inside))


def context_rows(width: int, height: int, pixels: Sequence[tuple[Bitmap, Place]]) -> Iterator[list[int]]:
    """For each row the contexts of its pixels.

    `pixels` has a bitmap and an offset for each of up to 16 bits, bit 0 first. A row is held as one number with 16
    bits for each pixel, so that a whole row of contexts is made by a few shifts.
    """
    spread = {bitmap: [spread_row(row) for row in bitmap.rows] for bitmap in {bitmap for bitmap, _ in pixels}}
    lanes = (1 << 16 * width) - 1
    for y in range(height):
        contexts = 0
        for place, (bitmap, (right, down)) in enumerate(pixels):
            if 0 <= y + down < bitmap.height:
                row = spread[bitmap][y + down]
                moved = row >> 16 * right if right >= 0 else row << 16 * -right
                contexts |= (moved & lanes) << place
        halves = contexts.to_bytes(2 * width, "little")
        yield [low | high << 8 for low, high in zip(halves[::2], halves[1::2])]


def spread_row(row: Row) -> int:
    """A row as a number whose 16 lowest bits are its leftmost pixel."""
    halves = bytearray(2 * len(row))
    halves[::2] = bytes(row)
    return int.from_bytes(halves, "little")


def settled(pixels: Sequence[Place | int], adaptive: Sequence[Place]) -> list[Place]:
    """A context's offsets with the adaptive pixels in their places; a number n stands for the one of that place."""
    return [adaptive[pixel] if isinstance(pixel, int) else pixel for pixel in pixels]
