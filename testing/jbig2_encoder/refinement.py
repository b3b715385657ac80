"""Refinements (6.3, 7.4.7): a picture coded by its differences from a reference."""
from __future__ import annotations

import dataclasses
from collections.abc import Iterator

from .arithmetic import ArithmeticEncoder, Contexts
from .bitmap import Bitmap, Place, context_rows, settled
from .fields import field, pairs

# Of a context, first the pixels of the reference, bit 0 first, then those of the region (Figures 12 and 13).
REFERENCE = (
    ((1, 1), (0, 1), (-1, 1), (1, 0), (0, 0), (-1, 0), (1, -1), (0, -1), 1),
    ((1, 1), (0, 1), (1, 0), (0, 0), (-1, 0), (0, -1)),
)
REGION = (((-1, 0), (1, -1), (0, -1), 0), ((-1, 0), (1, -1), (0, -1), (-1, -1)))
NOMINAL = ((-1, -1), (-1, -1))
# The contexts of the decisions that begin the rows with typical prediction (Figures 14 and 15).
TYPICAL = (0x0010, 0x0008)
NEIGHBOURS = [(x, y) for y in (-1, 0, 1) for x in (-1, 0, 1)]


@dataclasses.dataclass
class RefinementForm:
    """How a refinement is coded: `pixels` are A1, in the region, and A2, in the reference, and count at template 0."""

    template: int = 0
    pixels: tuple[Place, Place] = NOMINAL
    typical: bool = False

    def pixel_bytes(self) -> bytes:
        return pairs("refinement pixel", self.pixels) if self.template == 0 else b""


def predictions(reference: Bitmap, shift: Place, width: int, height: int) -> Iterator[list[int | None]]:
    """For each row what typical prediction says of the pixels: a colour, or None for those to be coded."""
    around = [(reference, (right - shift[0], down - shift[1])) for right, down in NEIGHBOURS]
    for numbers in context_rows(width, height, around):
        yield [{0: 0, 511: 1}.get(number) for number in numbers]


def encode_refinement(
    encoder: ArithmeticEncoder, contexts: Contexts, bitmap: Bitmap, reference: Bitmap, shift: Place,
    form: RefinementForm
) -> None:
    """Codes a bitmap by a reference that lies `shift` to the right of it and below it."""
    below = settled(REFERENCE[form.template], form.pixels)
    pixels = [(reference, (right - shift[0], down - shift[1])) for right, down in below]
    pixels += [(bitmap, offset) for offset in settled(REGION[form.template], form.pixels)]
    rows = context_rows(bitmap.width, bitmap.height, pixels)
    if not form.typical:
        for row, numbers in zip(bitmap.rows, rows):
            encoder.decide_all(contexts, numbers, row)
        return
    was_typical = 0
    predicted_rows = predictions(reference, shift, bitmap.width, bitmap.height)
    for row, numbers, predicted in zip(bitmap.rows, rows, predicted_rows):
        is_typical = int(all(colour in (None, bit) for colour, bit in zip(predicted, row)))
        encoder.decide(contexts, TYPICAL[form.template], is_typical ^ was_typical)
        was_typical = is_typical
        if is_typical:
            coded_ones = [x for x, colour in enumerate(predicted) if colour is None]
            numbers, row = [numbers[x] for x in coded_ones], [row[x] for x in coded_ones]
        encoder.decide_all(contexts, numbers, row)


def refinement_data(bitmap: Bitmap, reference: Bitmap, shift: Place, form: RefinementForm) -> bytes:
    """The data of a refinement region after its region information."""
    encoder = ArithmeticEncoder()
    encode_refinement(encoder, {}, bitmap, reference, shift, form)
    return field("refinement flags", form.template | form.typical << 1, 1) + form.pixel_bytes() + encoder.finished()
