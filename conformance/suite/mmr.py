"""Cases of generic regions by MMR."""
from __future__ import annotations

from collections.abc import Callable, Iterator, Sequence

from testing.jbig2_encoder.bitmap import Bitmap
from testing.jbig2_encoder.generic import GenericForm

from .case import Case
from .drawing import PICTURES, enlarged, page_picture, shapes
from .regions import region

WITHOUT, WITH = GenericForm(mmr=True, ends_block=False), GenericForm(mmr=True)


def both(name: str, feature: str, bitmap: Bitmap) -> Iterator[Case]:
    """Two cases of a picture, without an end of block and with one."""
    yield region(f"mmr-{name}", (feature, "mmr"), bitmap, WITHOUT)
    yield region(f"mmr-{name}-end-of-block", ("mmr-end-of-block", feature), bitmap, WITH)


def rows_of_runs(width: int, height: int, runs_of: Callable[[int], Sequence[int]]) -> Bitmap:
    """A bitmap whose row y has the runs `runs_of(y)`, white and black by turns; what is left is of the next colour."""
    bitmap = Bitmap(width, height)
    for y in range(height):
        row, colour = [], 0
        for run in runs_of(y):
            row += [colour] * run
            colour = 1 - colour
        bitmap.rows[y] = (row + [colour] * width)[:width]
    return bitmap


def short_runs(y: int) -> Sequence[int]:
    """A white and a black run of y pixels each; every second row is white, so that none is coded by the one above."""
    return (y // 2, y // 2, 200) if y % 2 else (200,)


def long_runs(y: int) -> Sequence[int]:
    return (64 * (y // 2) + 3, 64 * (y // 2) + 5, 6000) if y % 2 else (6000,)


def slanted(y: int) -> Sequence[int]:
    """Edges that move by one to three pixels a row, to either side."""
    return 10 + y % 20, 20, 2 + 2 * (y % 7), 30 - 3 * (y % 9), 9 + 3 * (y % 5), 12


def passing(y: int) -> Sequence[int]:
    """Black blocks that end above white rows, which pass them."""
    return (5, 10, 7, 12, 9, 3, 60) if y % 3 == 0 else (40, 4 + y, 60)


def cases() -> Iterator[Case]:
    for name, make in PICTURES.items():
        yield from both(name, "mmr", make())
    for name, colour in (("white", 0), ("black", 1)):
        yield from both(f"all-{name}", "mmr", Bitmap(70, 9, colour))
    yield from both("one-pixel", "mmr", Bitmap(1, 1, 1))
    yield from both("one-column", "mmr", rows_of_runs(1, 20, lambda y: (y // 3 % 2, 1)))
    yield from both("one-row", "mmr", shapes(129, 1))
    yield from both("enlarged", "mmr", enlarged(page_picture(), 3))
    yield from both("runs-0-to-63", "mmr-runs", rows_of_runs(130, 128, short_runs))
    yield from both("runs-64-to-2560", "mmr-runs", rows_of_runs(5200, 82, long_runs))
    yield from both("runs-above-2560", "mmr-runs", rows_of_runs(5300, 4, lambda y: (5200 - 2570 * (y % 2), 65, 20)))
    yield from both("black-run-above-2560", "mmr-runs", rows_of_runs(5300, 3, lambda y: (y, 5190 - 70 * y, 40)))
    yield from both("vertical-modes", "mmr-modes", rows_of_runs(120, 40, slanted))
    yield from both("pass-modes", "mmr-modes", rows_of_runs(110, 30, passing))
    yield from both("horizontal-modes", "mmr-modes", rows_of_runs(96, 16, lambda y: (1 + 37 * y % 50, 9, 11, 6, 80)))
