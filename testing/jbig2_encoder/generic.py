"""Generic regions (6.2, 7.4.6): pictures by the arithmetic coder with each template, and by MMR."""
from __future__ import annotations

import dataclasses
from collections.abc import Sequence

from . import t6
from .arithmetic import ArithmeticEncoder, Contexts
from .bitmap import Bitmap, Place, context_rows, settled
from .fields import field, pairs

# Offsets of a context's pixels, bit 0 first (Figures 3 to 6); a number n stands for the adaptive pixel of that place.
TEMPLATES = (
    ((-1, 0), (-2, 0), (-3, 0), (-4, 0), 0, (2, -1), (1, -1), (0, -1), (-1, -1), (-2, -1), 1, 2, (1, -2), (0, -2),
     (-1, -2), 3),
    ((-1, 0), (-2, 0), (-3, 0), 0, (2, -1), (1, -1), (0, -1), (-1, -1), (-2, -1), (2, -2), (1, -2), (0, -2), (-1, -2)),
    ((-1, 0), (-2, 0), 0, (1, -1), (0, -1), (-1, -1), (-2, -1), (1, -2), (0, -2), (-1, -2)),
    ((-1, 0), (-2, 0), (-3, 0), (-4, 0), 0, (1, -1), (0, -1), (-1, -1), (-2, -1), (-3, -1)),
)
NOMINAL = (((3, -1), (-3, -1), (2, -2), (-2, -2)), ((3, -1),), ((2, -1),), ((2, -1),))
# Template 0 with twelve adaptive pixels.
EXTENDED = ((-1, 0), 0, 6, 7, 9, 5, (1, -1), (0, -1), (-1, -1), 2, 11, 8, 4, 1, 3, 10)
NOMINAL_EXTENDED = (
    (-2, 0), (0, -2), (-2, -1), (-1, -2), (1, -2), (2, -1), (-3, 0), (-4, 0), (2, -2), (3, -1), (-2, -2), (-3, -1)
)
# The contexts of the decisions that begin the rows with typical prediction (Figures 8 to 11).
TYPICAL = (0x9B25, 0x0795, 0x00E5, 0x0195)


@dataclasses.dataclass
class GenericForm:
    """How a generic region is coded; `pixels` None are the nominal adaptive pixels."""

    template: int = 0
    pixels: Sequence[Place] | None = None
    typical: bool = False
    extended: bool = False
    mmr: bool = False
    ends_block: bool = True

    @property
    def places(self) -> Sequence[Place]:
        if self.pixels is not None:
            return self.pixels
        return NOMINAL_EXTENDED if self.extended else NOMINAL[self.template]

    def flags(self) -> int:
        return self.mmr | self.template << 1 | self.typical << 3 | self.extended << 4


def encode_generic(
    encoder: ArithmeticEncoder, contexts: Contexts, bitmap: Bitmap, form: GenericForm, skipped: Bitmap | None = None
) -> None:
    """Codes a bitmap; pixels that are black in `skipped` take no decision."""
    offsets = settled(EXTENDED if form.extended else TEMPLATES[form.template], form.places)
    before, was_typical = [0] * bitmap.width, 0
    rows = context_rows(bitmap.width, bitmap.height, [(bitmap, offset) for offset in offsets])
    for y, (row, numbers) in enumerate(zip(bitmap.rows, rows)):
        if form.typical:
            is_typical = int(row == before)
            encoder.decide(contexts, TYPICAL[form.template], is_typical ^ was_typical)
            before, was_typical = row, is_typical
            if is_typical:
                continue
        if skipped is not None:
            coded_ones = [x for x, skip in enumerate(skipped.rows[y]) if not skip]
            numbers, row = [numbers[x] for x in coded_ones], [row[x] for x in coded_ones]
        encoder.decide_all(contexts, numbers, row)


def coded(bitmap: Bitmap, form: GenericForm) -> bytes:
    """The coded data of a region alone."""
    if form.mmr:
        return t6.encoded(bitmap, form.ends_block)
    encoder = ArithmeticEncoder()
    encode_generic(encoder, {}, bitmap, form)
    return encoder.finished()


def generic_data(bitmap: Bitmap, form: GenericForm) -> bytes:
    """The data of a generic region after its region information."""
    head = field("generic flags", form.flags(), 1)
    if not form.mmr:
        head += pairs("adaptive pixel", form.places)
    return head + coded(bitmap, form)


def row_count(rows: int, is_mmr: bool) -> bytes:
    """What follows the data of a region of unknown length: for MMR its marker, and the number of rows (7.2.7)."""
    return (b"\0\0" if is_mmr else b"") + field("row count", rows)
