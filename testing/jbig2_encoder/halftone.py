"""Pattern dictionaries (6.7, 7.4.4) and halftone regions (6.6, 7.4.5) of gray values."""
from __future__ import annotations

import dataclasses
from collections.abc import Sequence

from . import t6
from .arithmetic import ArithmeticEncoder
from .bitmap import Bitmap, side_by_side
from .fields import field
from .generic import NOMINAL, GenericForm, encode_generic
from .prefix import code_length

# Gray values, row by row.
Values = Sequence[Sequence[int]]


@dataclasses.dataclass
class Grid:
    """A halftone grid: its size in cells, the place of the first one and the vector to the next, in 1/256 pixels."""

    width: int
    height: int
    x: int = 0
    y: int = 0
    right: int = 0
    down: int = 0

    def place(self, column: int, row: int) -> tuple[int, int]:
        """The top left corner of a cell (6.6.5.2)."""
        x = self.x + row * self.down + column * self.right
        y = self.y + row * self.right - column * self.down
        return x >> 8, y >> 8


@dataclasses.dataclass
class HalftoneForm:
    """How a halftone region is coded and drawn."""

    template: int = 0
    mmr: bool = False
    skips: bool = False
    operator: int = 0
    colour: int = 0

    def flags(self) -> int:
        return self.mmr | self.template << 1 | self.skips << 3 | self.operator << 4 | self.colour << 7


def pattern_data(patterns: Sequence[Bitmap], form: GenericForm) -> bytes:
    """The data of a pattern dictionary; of the form the template, or MMR with its end of block, counts."""
    width, height = patterns[0].width, patterns[0].height
    head = field("pattern flags", form.mmr | form.template << 1, 1)
    head += field("pattern width", width, 1) + field("pattern height", height, 1)
    head += field("largest gray value", len(patterns) - 1)
    collective = side_by_side(patterns)
    if form.mmr:
        return head + t6.encoded(collective, form.ends_block)
    pixels = ((-width, 0),) + NOMINAL[form.template][1:]
    encoder = ArithmeticEncoder()
    encode_generic(encoder, {}, collective, GenericForm(form.template, pixels))
    return head + encoder.finished()


def planes_of(values: Values, grid: Grid, count: int) -> list[Bitmap]:
    """The planes of gray values as they are coded, from the highest (Annex C).

    The bits of each but the first one are joined by exclusive or with those of the plane above.
    """
    planes = []
    for bit in reversed(range(count)):
        plane = Bitmap(grid.width, grid.height)
        plane.rows = [[(value ^ value >> 1) >> bit & 1 for value in row] for row in values]
        planes.append(plane)
    return planes


def skipped_cells(grid: Grid, pattern: Bitmap, width: int, height: int) -> Bitmap:
    """The cells whose patterns lie wholly outside a region of that size (6.6.5.1)."""
    skipped = Bitmap(grid.width, grid.height)
    for row in range(grid.height):
        for column in range(grid.width):
            x, y = grid.place(column, row)
            outside = x + pattern.width <= 0 or x >= width or y + pattern.height <= 0 or y >= height
            skipped.rows[row][column] = int(outside)
    return skipped


def draw_halftone(
    values: Values, grid: Grid, patterns: Sequence[Bitmap], form: HalftoneForm, width: int, height: int
) -> Bitmap:
    """The bitmap that a region of that size shows."""
    bitmap = Bitmap(width, height, form.colour)
    for row, line in enumerate(values):
        for column, value in enumerate(line):
            bitmap.combine(patterns[value], *grid.place(column, row), form.operator)
    return bitmap


def halftone_data(
    values: Values, grid: Grid, patterns: Sequence[Bitmap], form: HalftoneForm, size: tuple[int, int]
) -> bytes:
    """The data of a halftone region of that size after its region information."""
    head = field("halftone flags", form.flags(), 1)
    head += field("grid width", grid.width) + field("grid height", grid.height)
    head += field("grid x", grid.x) + field("grid y", grid.y)
    head += field("grid vector x", grid.right, 2) + field("grid vector y", grid.down, 2)
    skipped = skipped_cells(grid, patterns[0], *size) if form.skips else Bitmap(grid.width, grid.height)
    values = [[0 if skip else value for value, skip in zip(*rows)] for rows in zip(values, skipped.rows)]
    planes = planes_of(values, grid, code_length(len(patterns)))
    if form.mmr:
        return head + b"".join(t6.encoded(plane, True) for plane in planes)
    encoder, contexts = ArithmeticEncoder(), {}
    for plane in planes:
        encode_generic(encoder, contexts, plane, GenericForm(form.template), skipped)
    return head + encoder.finished()
