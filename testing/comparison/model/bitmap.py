"""Bitmaps and how they are combined (7.4.1.5)."""
from .answers import Fault, refuse_if

LARGEST = 65535
OPERATORS = (
    lambda below, above: below | above,
    lambda below, above: below & above,
    lambda below, above: below ^ above,
    lambda below, above: 1 ^ below ^ above,
    lambda below, above: above,
)


class Bitmap:
    """Rows of pixels, a byte each: 1 for black. Outside all is white."""

    def __init__(self, work, width, height, colour=0):
        work.draw(width * height + height)
        self.width = width
        self.height = height
        self.rows = [bytearray([colour]) * width for _ in range(height)]

    def pixel(self, x, y):
        return self.rows[y][x] if 0 <= x < self.width and 0 <= y < self.height else 0

    def combine(self, work, other, left, top, operator):
        """Combines another bitmap at a place; what falls outside is dropped."""
        join = OPERATORS[operator]
        first_x, end_x = max(0, -left), min(other.width, self.width - left)
        first_y, end_y = max(0, -top), min(other.height, self.height - top)
        if first_x >= end_x or first_y >= end_y:
            return
        work.draw((end_x - first_x) * (end_y - first_y))
        for y in range(first_y, end_y):
            row, above = self.rows[top + y], other.rows[y]
            for x in range(first_x, end_x):
                row[left + x] = join(row[left + x], above[x])

    def part(self, work, left, top, width, height):
        """A part of this bitmap, white outside it."""
        found = Bitmap(work, width, height)
        found.combine(work, self, -left, -top, 0)
        return found

    def packed(self):
        """The rows as PBM has them."""
        stride, padding = (self.width + 7) // 8, -self.width % 8
        digits = bytes.maketrans(b"\0\1", b"01")
        numbers = (int(bytes(row).translate(digits) or b"0", 2) for row in self.rows)
        return b"".join((number << padding).to_bytes(stride, "big") for number in numbers)


def refuse_large(width, height):
    """Refuses a bitmap that is too large."""
    refuse_if(width > LARGEST or height > LARGEST, Fault.BITMAP_DIMENSION)
