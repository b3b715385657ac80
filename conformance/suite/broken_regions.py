"""Files that must be refused: faults of generic regions, of MMR data, of refinements, and of halftones."""
from __future__ import annotations

import itertools
from collections.abc import Callable, Iterator, Sequence

from testing.jbig2_encoder import t6
from testing.jbig2_encoder.bitmap import Bitmap
from testing.jbig2_encoder.document import Page
from testing.jbig2_encoder.fields import Change
from testing.jbig2_encoder.framing import GENERIC, HALFTONE, PATTERN_DICTIONARY, REFINEMENT
from testing.jbig2_encoder.generic import GenericForm, generic_data, row_count
from testing.jbig2_encoder.halftone import HalftoneForm, draw_halftone, halftone_data, pattern_data
from testing.jbig2_encoder.prefix import Bits
from testing.jbig2_encoder.refinement import RefinementForm, refinement_data

from . import breaking as errors
from .breaking import Fault, broken_page, meant, setting
from .case import Case
from .drawing import changed, dots, page_picture, shapes
from .files import draw_halftone_ramp, draw_refined
from .halftones import SQUARE, ramp
from .pages import put_generic
from .refinements import INTERMEDIATE, keep_picture
from .typesetting import Alphabet, put_dictionary

GENERIC_FAULT, MMR, REFINED, HALFTONES = "broken-generic", "broken-mmr", "broken-refinement", "broken-halftone"


def adaptive_pixels() -> Iterator[Case]:
    """Adaptive pixels that do not lie before the pixel that is decoded."""
    rule = "adaptive pixels lie before the pixel (6.2.5.4)"
    places = {"here": (0, 0), "right": (1, 0), "below": (0, 1), "below-left": (-1, 1)}
    for template, (name, (x, y)) in itertools.product(range(4), places.items()):
        def draw(page: Page) -> None:
            put_generic(page, page_picture(), template=template)
            # The header's fields are changed, and the data is of the nominal places.
            segment = page.document.segments[-1]
            segment.data = segment.data[:18] + bytes([x % 256, y % 256]) + segment.data[20:]
        yield broken_page(Fault(f"generic-{template}-pixel-{name}", GENERIC_FAULT, rule, errors.INVALID_PIXEL), draw)
    for at, extended in ((2, False), (4, False), (1, True), (12, True)):
        def draw_last(page: Page) -> None:
            data = bytearray(generic_data(page_picture(), GenericForm(extended=extended)))
            data[2 * at - 1 : 2 * at + 1] = bytes(2)
            page.draw(GENERIC, page_picture(), bytes(data))
        name = f"generic-{'extended-' * extended}pixel-{at}-here"
        yield broken_page(Fault(name, GENERIC_FAULT, rule, errors.INVALID_PIXEL), draw_last)


def row_counts() -> Iterator[Case]:
    rule = "a row count is at most the region's height (7.2.7)"
    for mmr in (False, True):
        def draw(page: Page) -> None:
            form = GenericForm(mmr=mmr)
            data = generic_data(page_picture(), form) + row_count(41, mmr)
            page.draw(GENERIC, page_picture(), data, hides_length=True)
        name = f"generic-row-count-41{'-mmr' * mmr}"
        yield broken_page(Fault(name, GENERIC_FAULT, rule, errors.INVALID_DIMENSION), draw)


def rows_then(rows: int, words: Sequence[str]) -> bytes:
    """MMR data of the first rows of a picture, and then these bits."""
    bits, above = Bits(), [0] * 64
    for row in page_picture().rows[:rows]:
        bits.digits += t6.row_codes(row, above)
        above = row
    bits.digits += words
    return bits.bytes()


def first_rows(rows: int) -> Callable[[Page], Bitmap]:
    """A page that shows the first rows of the picture."""
    def shows(page: Page) -> Bitmap:
        bitmap = Bitmap(64, 40)
        bitmap.combine(page_picture().part(0, 0, 64, rows), 0, 0, 0)
        return bitmap
    return shows


MMR_FAULTS = {
    "bits-that-are-no-code": ["0000000000000001"], "extension": ["0000001111"],
    "t4-end-of-line": ["000000000001", "1"],
    "end-of-block-too-early": [t6.END_OF_BLOCK], "data-ends": [], "no-black-run": ["001", "00110101", "0000000000"],
    "run-past-the-width": ["001", t6.run_code(60, 0), t6.run_code(5, 1)],
    "run-far-past-the-width": ["001", t6.run_code(2560, 0), t6.run_code(0, 1)],
}


def mmr_faults() -> Iterator[Case]:
    """Faults after the first 0, 7 or 39 rows; lenient reading keeps these rows."""
    rule = "MMR data is that of T.6, of all rows (6.2.6)"
    for (name, words), rows in itertools.product(MMR_FAULTS.items(), (0, 7, 39)):
        def draw(page: Page) -> None:
            page.draw(GENERIC, page_picture(), b"\1" + rows_then(rows, words))
        shows = first_rows(rows)
        yield broken_page(Fault(f"mmr-{name}-after-{rows}-rows", MMR, rule, errors.INVALID_MMR), draw, shows=shows)

    def draw_left(page: Page) -> None:
        """The first row's second edge lies left of its first one: at 5, after a run to 8."""
        words = ["001", t6.run_code(3, 0), t6.run_code(5, 1), "1"]
        second = ["001", t6.run_code(0, 0), t6.run_code(7, 1), "0000010", "010"]
        page.draw(GENERIC, page_picture(), b"\1" + rows_then(0, words + second))

    def shows_first(page: Page) -> Bitmap:
        bitmap = Bitmap(64, 40)
        bitmap.rows[0][3:8] = [1] * 5
        return bitmap
    yield broken_page(Fault("mmr-edge-left-of-the-last", MMR, rule, errors.INVALID_MMR), draw_left, shows=shows_first)


def mmr_elsewhere() -> Iterator[Case]:
    """Faults in MMR data of patterns and planes; lenient reading takes what is not there as white."""
    rule = "MMR data is that of T.6, of all rows (6.2.6)"
    patterns = dots(4, 4, 5)

    def draw_patterns(page: Page) -> None:
        white = [Bitmap(4, 4) for _ in patterns]
        data = pattern_data(patterns, GenericForm(mmr=True))[:7] + b"\0\0\0"
        referred = [page.put(PATTERN_DICTIONARY, data)]
        size, values = (64, 40), ramp(SQUARE, 5)
        bitmap = draw_halftone(values, SQUARE, white, HalftoneForm(), *size)
        page.draw(HALFTONE, bitmap, halftone_data(values, SQUARE, white, HalftoneForm(), size), referred=referred)

    def draw_planes(page: Page) -> None:
        form = HalftoneForm(mmr=True)
        referred = [page.put(PATTERN_DICTIONARY, pattern_data(patterns, GenericForm()))]
        values = [[0] * 16 for _ in range(10)]
        bitmap = draw_halftone(values, SQUARE, patterns, form, 64, 40)
        data = halftone_data(values, SQUARE, patterns, form, (64, 40))[:21] + b"\0\0\0\0"
        page.draw(HALFTONE, bitmap, data, referred=referred)

    yield broken_page(Fault("mmr-patterns", MMR, rule, errors.INVALID_MMR), draw_patterns, shows=meant)
    yield broken_page(Fault("mmr-planes", MMR, rule, errors.INVALID_MMR), draw_planes, shows=meant)


def refinements() -> Iterator[Case]:
    rule = "a refinement refers to an intermediate region (7.4.7)"
    for name in ("missing", "immediate"):
        def draw(page: Page) -> None:
            """The page shows the reference, so refining the page's area gives the same picture."""
            reference = page_picture()
            shown = put_generic(page, reference)
            bitmap = changed(reference)
            data = refinement_data(bitmap, reference, (0, 0), RefinementForm())
            if name == "missing":
                page.document.next += 3
            other = shown if name == "immediate" else shown + 1
            page.draw(REFINEMENT, bitmap, data, operator=4, referred=[other])
        yield broken_page(
            Fault(f"refinement-of-{name}-region", REFINED, rule, errors.INVALID_REFERENCE), draw, shows=meant
        )

    def draw_intermediate(page: Page) -> None:
        put_generic(page, page_picture())
        data = refinement_data(shapes(), page_picture(), (0, 0), RefinementForm())
        page.keep(REFINEMENT + INTERMEDIATE, shapes(), data)
    rule = "an intermediate refinement refers to a region (7.4.7.5)"
    yield broken_page(
        Fault("refinement-intermediate-of-page", REFINED, rule, errors.INVALID_REFERENCE), draw_intermediate,
        shows=meant
    )
    rule = "a refinement is no larger than its reference (7.4.7.5)"
    for field, value in (("width", 65), ("height", 41)):
        change = setting(f"region {field}", value, 1)
        yield broken_page(
            Fault(f"refinement-{field}-{value}-of-less", REFINED, rule, errors.INVALID_DIMENSION), draw_refined,
            change=change
        )
    rule = "a limit of this decoder: places of refinements are below 2^31"
    for field, turn in itertools.product("xy", (0, 1)):
        change = setting(f"region {field}", 1 << 31, turn)
        name = f"refinement-{('reference', 'region')[turn]}-{field}-2147483648"
        yield broken_page(Fault(name, REFINED, rule, errors.REFERENCE_PLACE), draw_refined, change=change)


def patterns() -> Iterator[Case]:
    """A page's answer is the pattern dictionary's in both modes."""
    def case(name: str, rule: str, change: Change, error: str) -> Case:
        return broken_page(
            Fault(f"patterns-{name}", HALFTONES, rule, error, error), draw_halftone_ramp, change=change
        )
    rule = "patterns have pixels (7.4.4.1)"
    yield case("width-0", rule, setting("pattern width", 0), errors.ENDS)
    yield case("height-0", rule, setting("pattern height", 0), errors.ENDS)
    rule = "a limit of this decoder: all patterns together are up to 65535 wide"
    for value in (16384, 65535, (1 << 31) - 1, (1 << 32) - 1):
        yield case(f"largest-gray-value-{value}", rule, setting("largest gray value", value), errors.BITMAP_SIZE)


def halftones() -> Iterator[Case]:
    rule = "a halftone region refers to a pattern dictionary (7.4.5)"
    for name in ("nothing", "symbols", "region"):
        def draw(page: Page) -> None:
            values, form = ramp(SQUARE, 9), HalftoneForm()
            data = halftone_data(values, SQUARE, dots(4, 4, 9), form, (64, 40))
            referred = []
            if name == "symbols":
                referred = [put_dictionary(page, Alphabet().dictionary())]
            elif name == "region":
                referred = [keep_picture(page, shapes())]
            page.draw(HALFTONE, Bitmap(64, 40), data, referred=referred)
        yield broken_page(Fault(f"halftone-refers-to-{name}", HALFTONES, rule, errors.MISSING_PATTERNS), draw)

    def case(name: str, rule: str, change: Change, error: str) -> Case:
        return broken_page(Fault(f"halftone-{name}", HALFTONES, rule, error), draw_halftone_ramp, change=change)
    for value in (5, 6, 7):
        rule = "operators are 0 to 4 (7.4.5.1.1)"
        yield case(f"operator-{value}", rule, setting("halftone flags", value << 4), errors.INVALID_OPERATOR)
    for field, value in itertools.product(("width", "height"), (65536, (1 << 32) - 1)):
        rule = "a limit of this decoder: grids of up to 65535 by 65535"
        yield case(f"grid-{field}-{value}", rule, setting(f"grid {field}", value), errors.GRID_SIZE)


def gray_values() -> Iterator[Case]:
    rule = "gray values are below the number of patterns (6.6.5)"
    for coding, form in (("coder", HalftoneForm()), ("mmr", HalftoneForm(mmr=True))):
        def draw_value(page: Page) -> None:
            """Values up to 6 of 5 patterns; lenient reading takes the last one for 5 and 6."""
            patterns = dots(4, 4, 5)
            referred = [page.put(PATTERN_DICTIONARY, pattern_data(patterns, GenericForm()))]
            shown = [[min(value, 4) for value in row] for row in ramp(SQUARE, 7)]
            bitmap = draw_halftone(shown, SQUARE, patterns, form, 64, 40)
            data = halftone_data(ramp(SQUARE, 7), SQUARE, dots(4, 4, 8), form, (64, 40))
            page.draw(HALFTONE, bitmap, data, referred=referred)
        yield broken_page(
            Fault(f"halftone-value-without-pattern-{coding}", HALFTONES, rule, errors.GRAY_VALUE), draw_value,
            shows=meant
        )


def cut_halftones() -> Iterator[Case]:
    for length in (17, 18, 22, 26, 30, 34, 37):
        def draw_cut(page: Page) -> None:
            draw_halftone_ramp(page)
            page.document.segments[-1].data = page.document.segments[-1].data[:length]
        rule = "a region's data has all of its header (7.4.5)"
        yield broken_page(Fault(f"halftone-of-{length}-bytes", HALFTONES, rule, errors.ENDS), draw_cut)


def cases() -> Iterator[Case]:
    for make in (
        adaptive_pixels, row_counts, mmr_faults, mmr_elsewhere, refinements, patterns, halftones, gray_values,
        cut_halftones
    ):
        yield from make()
