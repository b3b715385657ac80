"""Cases of pattern dictionaries and halftone regions."""
from __future__ import annotations

import itertools
from collections.abc import Iterator, Sequence

from testing.jbig2_encoder.bitmap import Bitmap
from testing.jbig2_encoder.document import Page
from testing.jbig2_encoder.framing import HALFTONE, PATTERN_DICTIONARY
from testing.jbig2_encoder.generic import GenericForm
from testing.jbig2_encoder.halftone import Grid, HalftoneForm, draw_halftone, halftone_data, pattern_data

from .case import Case, Features, one_page
from .drawing import dots, gray_ramp

OPERATORS = ("or", "and", "xor", "xnor", "replace")
SQUARE = Grid(16, 10, right=4 * 256)
# Grids of cells of 4 by 4 pixels on a page of 64 by 40: steps along slanted lines, that leave the page on all sides.
ROTATED = {
    "little": Grid(18, 14, -2 * 256, 6 * 256, 1000, 220),
    "half": Grid(20, 20, -8 * 256, 24 * 256, 724, 724),
    "steep": Grid(14, 22, -4 * 256, 38 * 256, 260, 990),
}


def halftone(
    name: str, features: Features, patterns: Sequence[Bitmap], grid: Grid, form: HalftoneForm,
    pattern_form: GenericForm = GenericForm(), kind: int = HALFTONE, **more
) -> Case:
    """A page of 64 by 40 that is one halftone region, a ramp of these patterns."""
    values = ramp(grid, len(patterns))

    def draw(page: Page) -> None:
        referred = [page.put(PATTERN_DICTIONARY, pattern_data(patterns, pattern_form))]
        size = (page.picture.width, page.picture.height)
        bitmap = draw_halftone(values, grid, patterns, form, *size)
        page.draw(kind, bitmap, halftone_data(values, grid, patterns, form, size), referred=referred)
    return one_page(name, features, draw, **more)


def ramp(grid: Grid, count: int) -> list[list[int]]:
    return gray_ramp(grid.width, grid.height, count)


def templates() -> Iterator[Case]:
    for template, count in itertools.product(range(4), (5, 16)):
        name = f"halftone-{template}-of-{count}-patterns"
        form = HalftoneForm(template)
        yield halftone(name, "halftone-template", dots(4, 4, count), SQUARE, form)
    for template, (width, height) in itertools.product(range(4), ((4, 4), (1, 1), (8, 8), (3, 5), (16, 2), (5, 17))):
        grid = Grid(64 // width, 40 // height, right=256 * width) if width == height else SQUARE
        name = f"patterns-{template}-{width}-by-{height}"
        form = GenericForm(template)
        yield halftone(name, "pattern-dictionary", dots(width, height, 6), grid, HalftoneForm(), form)
    for kind, name in ((HALFTONE, "immediate"), (HALFTONE + 1, "lossless")):
        features = ("halftone-template", "region-type")
        yield halftone(f"halftone-{name}", features, dots(4, 4, 9), SQUARE, HalftoneForm(), kind=kind)


def by_mmr() -> Iterator[Case]:
    for count in (2, 3, 9, 17):
        name = f"halftone-mmr-of-{count}-patterns"
        form = HalftoneForm(mmr=True)
        yield halftone(name, "halftone-mmr", dots(4, 4, count), SQUARE, form)
    for (width, height), ends_block in itertools.product(((4, 4), (7, 3), (1, 9), (32, 20)), (False, True)):
        name = f"patterns-mmr-{width}-by-{height}{'-end-of-block' * ends_block}"
        form = GenericForm(mmr=True, ends_block=ends_block)
        yield halftone(name, "pattern-mmr", dots(width, height, 5), SQUARE, HalftoneForm(), form)
    form, pattern_form = HalftoneForm(mmr=True), GenericForm(mmr=True)
    grid = ROTATED["little"]
    features = ("halftone-mmr", "halftone-rotated")
    yield halftone("halftone-mmr-rotated", features, dots(4, 4, 9), grid, form, pattern_form)


def planes() -> Iterator[Case]:
    """Each number of planes, with the least and the greatest number of patterns for it."""
    for count in (2, 3, 4, 5, 8, 9, 16, 17, 32, 33, 64, 65, 128, 129, 256):
        name = f"halftone-planes-of-{count}-patterns"
        yield halftone(name, "halftone-planes", dots(4, 4, count), SQUARE, HalftoneForm())
    for mmr in (False, True):
        form, pattern = HalftoneForm(mmr=mmr), dots(4, 4, 3)[1:2]
        name = f"halftone-one-pattern{'-mmr' * mmr}"
        yield halftone(name, "halftone-one-pattern", pattern, SQUARE, form)


def grids() -> Iterator[Case]:
    straight = {
        "inside": Grid(9, 6, 10 * 256, 5 * 256, 5 * 256),
        "over-the-edges": Grid(20, 14, -6 * 256, -7 * 256, 4 * 256),
        "fractions": Grid(17, 11, -300, 130, 3 * 256 + 77),
        "overlapping": Grid(30, 18, 0, 0, 2 * 256),
        "one-cell": Grid(1, 1, 20 * 256, 11 * 256, 256),
        "one-row": Grid(16, 1, 0, 18 * 256, 4 * 256),
        "no-step": Grid(3, 3, 30 * 256, 20 * 256),
        "largest-step": Grid(2, 2, 20 * 256, 10 * 256, 65535, 65535),
    }
    for name, grid in straight.items():
        form = HalftoneForm(operator=2)
        yield halftone(f"halftone-grid-{name}", "halftone-grid", dots(4, 4, 9), grid, form)
    for (name, grid), template in itertools.product(ROTATED.items(), (0, 3)):
        form = HalftoneForm(template)
        yield halftone(f"halftone-{template}-rotated-{name}", "halftone-rotated", dots(4, 4, 9), grid, form)
    for (name, grid), template in itertools.product(ROTATED.items(), range(4)):
        form = HalftoneForm(template, skips=True)
        features = ("halftone-skip", "halftone-rotated")
        yield halftone(f"halftone-{template}-skip-{name}", features, dots(4, 4, 9), grid, form)
    for name in ("inside", "over-the-edges", "largest-step"):
        form = HalftoneForm(skips=True)
        grid = straight[name]
        yield halftone(f"halftone-skip-{name}", "halftone-skip", dots(4, 4, 9), grid, form)


def operators() -> Iterator[Case]:
    """Patterns of 6 by 6 on cells of 4 by 4, so that neighbours overlap."""
    for (operator, name), colour in itertools.product(enumerate(OPERATORS), range(2)):
        form = HalftoneForm(operator=operator, colour=colour)
        name = f"halftone-{name}-on-{('white', 'black')[colour]}"
        yield halftone(name, "halftone-operator", dots(6, 6, 9), SQUARE, form)


def cases() -> Iterator[Case]:
    for make in (templates, by_mmr, planes, grids, operators):
        yield from make()
