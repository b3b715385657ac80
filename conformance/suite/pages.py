"""Cases of pages: operators and places of regions, page information, stripes, and pages of unknown height."""
from __future__ import annotations

import itertools
from collections.abc import Iterator, Sequence

from testing.jbig2_encoder.bitmap import Bitmap
from testing.jbig2_encoder.document import Page
from testing.jbig2_encoder.fields import number
from testing.jbig2_encoder.framing import EXTENSION, GENERIC, HALFTONE, OTHER_OPERATORS, PATTERN_DICTIONARY
from testing.jbig2_encoder.generic import GenericForm, generic_data
from testing.jbig2_encoder.halftone import HalftoneForm, draw_halftone, halftone_data, pattern_data
from testing.jbig2_encoder.text import Settings, TextForm

from .case import Case, one_page
from .drawing import dithered, dots, page_picture, shapes
from .halftones import OPERATORS, SQUARE, ramp
from .typesetting import WORDS, Alphabet, put_dictionary, put_text, set_words

PROFILES, COLOUR_PALETTE = 52, 54
COLOURS = ("white", "black")


def put_generic(
    page: Page, bitmap: Bitmap, x: int = 0, y: int = 0, operator: int = 0, kind: int = GENERIC, template: int = 0,
    **more
) -> int:
    return page.draw(kind, bitmap, generic_data(bitmap, GenericForm(template)), x, y, operator, **more)


def operators() -> Iterator[Case]:
    """Two regions that overlap, by each operator; regions of the whole page, and of a part of it."""
    for (operator, name), colour, whole in itertools.product(enumerate(OPERATORS), range(2), (False, True)):
        def draw(page: Page) -> None:
            put_generic(page, page_picture(), operator=2)
            bitmap = shapes() if whole else shapes(40, 24)
            put_generic(page, bitmap, *((0, 0) if whole else (13, 9)), operator)
        case_name = f"region-{name}-on-{COLOURS[colour]}{'-whole-page' * whole}"
        yield one_page(case_name, "region-operator", draw, black=colour, operator=operator % 4)
    for (operator, name), colour in itertools.product(enumerate(OPERATORS), range(2)):
        def draw_first(page: Page) -> None:
            put_generic(page, page_picture(), operator=operator)
        yield one_page(f"region-first-{name}-on-{COLOURS[colour]}", "region-operator", draw_first, black=colour)
    for (operator, name), colour in itertools.product(enumerate(OPERATORS), range(2)):
        def draw_text(page: Page) -> None:
            put_generic(page, dithered(), operator=4)
            alphabet = Alphabet()
            settings = Settings(colour=colour, operator=2)
            text = set_words([alphabet.ids(word) for word in WORDS], alphabet.symbols, settings)
            referred = [put_dictionary(page, alphabet.dictionary())]
            put_text(page, text, settings, alphabet.symbols, referred, TextForm(), operator=operator)
        yield one_page(f"region-text-{name}-of-{COLOURS[colour]}", ("region-operator", "text-operator"), draw_text)


def places() -> Iterator[Case]:
    """Regions over each edge of the page, and outside it."""
    corners = {
        "left": (-20, 5), "top": (9, -13), "right": (50, 9), "bottom": (5, 31), "all-sides": (-10, -10),
        "beyond": (64, 0), "far-left": (-64, 0), "farthest": (-(1 << 31), (1 << 31) - 1),
    }
    for name, (x, y) in corners.items():
        def draw(page: Page) -> None:
            put_generic(page, shapes(20, 12), 40, 3)
            put_generic(page, shapes(90, 70) if name == "all-sides" else page_picture(), x, y, 2)
        # T.88 calls other fields of four bytes signed, and not these.
        rule = "a region's place is below 0" if min(x, y) < 0 else "-"
        yield one_page(f"region-outside-{name}", "region-outside", draw, rule=rule)
    for x in range(1, 9):
        def draw_at(page: Page) -> None:
            put_generic(page, dithered(), operator=4)
            put_generic(page, shapes(30 + x, 20), x, x, 2)
        yield one_page(f"region-at-column-{x}", "region-outside", draw_at, (71, 40))


def types() -> Iterator[Case]:
    for kind, name in ((GENERIC, "immediate"), (GENERIC + 1, "lossless")):
        for template in range(4):
            def draw(page: Page) -> None:
                put_generic(page, page_picture(), kind=kind, template=template)
            yield one_page(f"generic-{template}-{name}", ("region-type", f"generic-template-{template}"), draw)


def information() -> Iterator[Case]:
    """Fields of the page information that do not change the picture, and empty pages of either colour."""
    for colour in range(2):
        yield one_page(f"page-without-regions-{COLOURS[colour]}", "page", lambda page: None, (61, 5), black=colour)
    for operator in range(4):
        def draw(page: Page) -> None:
            put_generic(page, page_picture(), operator=operator)
        yield one_page(f"page-operator-{OPERATORS[operator]}", "page", draw, operator=operator)

    def draw_plain(page: Page) -> None:
        put_generic(page, page_picture())
    yield one_page("page-resolution", "page", draw_plain, resolution=11811)
    for flag, name in ((1, "lossless"), (2, "refinements"), (32, "auxiliary-buffers")):
        yield one_page(f"page-flag-{name}", "page", draw_plain, flags=OTHER_OPERATORS | flag)
    for width, height in ((1, 1), (1, 40), (65535, 1), (1, 65535), (8, 8), (2600, 3)):
        def draw_sized(page: Page) -> None:
            put_generic(page, shapes(min(width, 64), min(height, 40)))
        yield one_page(f"page-{width}-by-{height}", "page", draw_sized, (width, height))


def striped(name: str, feature: str, ends: Sequence[int], unknown_height: bool, most: int) -> Case:
    """A page in stripes, each with a region of its own; the last one ends the page."""
    picture = page_picture(64, ends[-1] + 1)

    def draw(page: Page) -> None:
        start = 0
        for end in ends:
            put_generic(page, picture.part(0, start, 64, end + 1 - start), 0, start)
            page.end_stripe(end)
            start = end + 1

    options = {"stripes": most, "unknown_height": unknown_height}
    return one_page(name, feature, draw, (64, ends[-1] + 1), **options)


def stripes() -> Iterator[Case]:
    for name, ends in {"one": (39,), "two": (19, 39), "four": (9, 19, 29, 39), "uneven": (4, 31, 32, 49)}.items():
        most = max(end - before for before, end in zip((-1, *ends), ends))
        yield striped(f"stripes-{name}", "stripes", ends, False, most)
        yield striped(f"page-unknown-height-{name}-stripes", "page-unknown-height", ends, True, most)
    for colour in range(2):
        def draw(page: Page) -> None:
            put_generic(page, shapes(64, 20), 0, 0, 2)
            page.end_stripe(19)
            page.end_stripe(33)
        options = {"stripes": 20, "unknown_height": True}
        name = f"page-unknown-height-empty-stripe-{COLOURS[colour]}"
        yield one_page(name, "page-unknown-height", draw, (64, 34), black=colour, **options)

    def draw_over(page: Page) -> None:
        """A region that starts in the first stripe and is sent with the second one."""
        page.end_stripe(15)
        put_generic(page, page_picture(64, 32))
        page.end_stripe(31)
    yield one_page("stripes-region-of-two", "stripes", draw_over, (64, 32), stripes=16)


def extensions() -> Iterator[Case]:
    """Comments and unknown extensions that need not be understood, and segments that change nothing."""
    ascii_comment = number(0x20000000) + b"Author\0Nobody\0Title\0Comments\0\0"
    wide = "".join(f"{word}\0" for word in ("Titel", "Prüfung", "")).encode("utf-16-be")
    kinds = {
        "ascii-comment": (EXTENSION, ascii_comment), "unicode-comment": (EXTENSION, number(0x20000002) + wide),
        "unknown": (EXTENSION, number(0x20ABCDEF) + bytes(range(40))),
        "dependent": (EXTENSION, number(0x60000000) + b"Title\0Dependent\0\0"), "without-text": (EXTENSION, number(0)),
        "profiles": (PROFILES, number(1) + number(1)),
    }
    for name, (kind, data) in kinds.items():
        def draw(page: Page) -> None:
            page.put(kind, data)
            put_generic(page, page_picture())
            page.put(kind, data)
        yield one_page(f"extension-{name}", "extension", draw)

    def draw_referring(page: Page) -> None:
        region = put_generic(page, page_picture())
        page.put(EXTENSION, ascii_comment, [region])
    yield one_page("extension-of-a-region", "extension", draw_referring)


def several_regions() -> Iterator[Case]:
    """One page of regions of each kind."""
    patterns, form = dots(4, 4, 9), HalftoneForm()

    def draw(page: Page) -> None:
        put_generic(page, page_picture())
        referred = [page.put(PATTERN_DICTIONARY, pattern_data(patterns, GenericForm()))]
        bitmap = draw_halftone(ramp(SQUARE, 9), SQUARE, patterns, form, 64, 40)
        data = halftone_data(ramp(SQUARE, 9), SQUARE, patterns, form, (64, 40))
        page.draw(HALFTONE, bitmap, data, 70, 3, referred=referred)
        alphabet = Alphabet()
        text = set_words([alphabet.ids(word) for word in WORDS], alphabet.symbols, Settings())
        symbols = [put_dictionary(page, alphabet.dictionary())]
        put_text(page, text, Settings(), alphabet.symbols, symbols, size=(64, 40), x=3, y=44)
        put_generic(page, shapes(), 70, 44)
    yield one_page("page-of-all-kinds", "page", draw, (140, 90))


def cases() -> Iterator[Case]:
    for make in (operators, places, types, information, stripes, extensions, several_regions):
        yield from make()
