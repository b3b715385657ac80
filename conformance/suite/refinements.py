"""Cases of refinement regions."""
from __future__ import annotations

import itertools
from collections.abc import Iterator

from testing.jbig2_encoder.bitmap import OR, REPLACE, Bitmap
from testing.jbig2_encoder.document import Page
from testing.jbig2_encoder.framing import GENERIC, HALFTONE, PATTERN_DICTIONARY, REFINEMENT, TEXT
from testing.jbig2_encoder.generic import GenericForm, generic_data
from testing.jbig2_encoder.halftone import Grid, HalftoneForm, draw_halftone, halftone_data, pattern_data
from testing.jbig2_encoder.refinement import RefinementForm, refinement_data
from testing.jbig2_encoder.text import Settings, TextForm, text_data

from .case import Case, Features, one_page
from .drawing import PICTURES, changed, dots, gray_ramp, grown, page_picture, shapes
from .typesetting import WORDS, Alphabet, put_dictionary, set_words, text_bitmap

INTERMEDIATE = -2
MOVED = (((-2, 0), (1, 1)), ((2, -1), (-3, 2)), ((-128, -1), (-128, -128)), ((127, -128), (127, 127)))


def keep_picture(page: Page, bitmap: Bitmap, x: int = 0, y: int = 0) -> int:
    """Adds an intermediate generic region of a bitmap."""
    return page.keep(GENERIC + INTERMEDIATE, bitmap, generic_data(bitmap, GenericForm()), x, y)


def refinement(
    name: str, features: Features, bitmap: Bitmap, reference: Bitmap, form: RefinementForm, of_page: bool = False
) -> Case:
    """A page that is one refinement: of a region that is kept, or, by Or, of what the page shows already."""
    def draw(page: Page) -> None:
        data = refinement_data(bitmap, reference, (0, 0), form)
        if of_page:
            page.draw(GENERIC, reference, generic_data(reference, GenericForm()))
            page.draw(REFINEMENT, bitmap, data)
        else:
            page.draw(REFINEMENT, bitmap, data, referred=[keep_picture(page, reference)])
    front = (features,) if isinstance(features, str) else features
    more = "refinement-of-page" if of_page else "refinement-of-region"
    name += "-of-page" if of_page else "-of-region"
    return one_page(name, (*front, more), draw, (bitmap.width, bitmap.height))


def templates() -> Iterator[Case]:
    for template, typical, of_page in itertools.product(range(2), (False, True), (False, True)):
        feature = "refinement-typical-prediction" if typical else f"refinement-template-{template}"
        form, ending = RefinementForm(template, typical=typical), "-typical" * typical
        for picture, make in PICTURES.items():
            reference = make()
            # On the page pixels are added alone, so that Or shows the refinement.
            bitmap = grown(reference) if of_page else changed(reference)
            name = f"refinement-{template}-{picture}{ending}"
            yield refinement(name, feature, bitmap, reference, form, of_page)
        name = f"refinement-{template}-nothing-changed{ending}"
        yield refinement(name, feature, page_picture(), page_picture(), form, of_page)
        name = f"refinement-{template}-all-changed{ending}"
        reference = Bitmap(64, 40) if of_page else page_picture()
        yield refinement(name, feature, shapes(), reference, form, of_page)


def adaptive_pixels() -> Iterator[Case]:
    feature = "refinement-adaptive-pixels"
    parts = itertools.product(enumerate(MOVED, 1), (False, True), (False, True))
    for (at, pixels), typical, of_page in parts:
        reference = page_picture()
        bitmap = grown(reference) if of_page else changed(reference)
        name = f"refinement-0-moved-{at}{'-typical' * typical}"
        yield refinement(name, feature, bitmap, reference, RefinementForm(0, pixels, typical), of_page)


def page_parts() -> Iterator[Case]:
    """Refinements of the page and of parts of it, at its edges too; those by Replace also turn black pixels white."""
    places = {
        "whole": (0, 0, 64, 40), "inner": (11, 7, 30, 20), "left-edge": (0, 5, 17, 30),
        "right-bottom": (40, 25, 24, 15),
    }
    operators = {"or": (OR, grown), "replace": (REPLACE, changed)}
    parts = itertools.product(places.items(), range(2), operators.items())
    for (name, (x, y, width, height)), template, (operation, (operator, alter)) in parts:
        def draw(page: Page) -> None:
            whole = page_picture()
            page.draw(GENERIC, whole, generic_data(whole, GenericForm()))
            reference = page.picture.part(x, y, width, height)
            bitmap = alter(reference, 3)
            data = refinement_data(bitmap, reference, (0, 0), RefinementForm(template))
            page.draw(REFINEMENT, bitmap, data, x, y, operator)
        yield one_page(f"refinement-{template}-of-page-{name}-by-{operation}", "refinement-of-page", draw)


def offsets() -> Iterator[Case]:
    """Refinements smaller than the region that they refer to, which lies at another place."""
    places = {"inside": (0, 0, 9, 6, 40, 20), "moved": (5, 3, 12, 13, 40, 24), "same-place": (4, 6, 4, 6, 30, 20)}
    for (name, (kept_x, kept_y, x, y, width, height)), template in itertools.product(places.items(), range(2)):
        def draw(page: Page) -> None:
            reference = page_picture()
            kept = keep_picture(page, reference, kept_x, kept_y)
            shift = (kept_x - x, kept_y - y)
            bitmap = changed(reference.part(-shift[0], -shift[1], width, height), 3)
            data = refinement_data(bitmap, reference, shift, RefinementForm(template))
            page.draw(REFINEMENT, bitmap, data, x, y, referred=[kept])
        rule = "the region that is referred to has another place or size"
        yield one_page(f"refinement-{template}-offset-{name}", "refinement-offset", draw, rule=rule)


def keep_text(page: Page) -> tuple[Bitmap, int]:
    alphabet = Alphabet()
    referred = [put_dictionary(page, alphabet.dictionary())]
    text = set_words([alphabet.ids(word) for word in WORDS], alphabet.symbols, Settings())
    bitmap = text_bitmap(text, Settings(), alphabet.symbols, (64, 40))
    data = text_data(text, Settings(), alphabet.symbols, TextForm())
    return bitmap, page.keep(TEXT + INTERMEDIATE, bitmap, data, referred=referred)


def keep_halftone(page: Page) -> tuple[Bitmap, int]:
    patterns, grid, form = dots(4, 4, 9), Grid(16, 10, right=1024), HalftoneForm()
    referred = [page.put(PATTERN_DICTIONARY, pattern_data(patterns, GenericForm()))]
    values = gray_ramp(16, 10, 9)
    bitmap = draw_halftone(values, grid, patterns, form, 64, 40)
    data = halftone_data(values, grid, patterns, form, (64, 40))
    return bitmap, page.keep(HALFTONE + INTERMEDIATE, bitmap, data, referred=referred)


def keep_refinement(page: Page) -> tuple[Bitmap, int]:
    reference = page_picture()
    bitmap = changed(reference)
    data = refinement_data(bitmap, reference, (0, 0), RefinementForm(1))
    return bitmap, page.keep(REFINEMENT + INTERMEDIATE, bitmap, data, referred=[keep_picture(page, reference)])


def keep_mmr(page: Page) -> tuple[Bitmap, int]:
    bitmap = page_picture()
    return bitmap, page.keep(GENERIC + INTERMEDIATE, bitmap, generic_data(bitmap, GenericForm(mmr=True)))


def kinds() -> Iterator[Case]:
    """Refinements of an intermediate region of each kind, as immediate and as lossless regions."""
    makers = {"text": keep_text, "halftone": keep_halftone, "refinement": keep_refinement, "mmr": keep_mmr}
    for (name, keep), template, kind in itertools.product(makers.items(), range(2), (REFINEMENT, REFINEMENT + 1)):
        def draw(page: Page) -> None:
            reference, kept = keep(page)
            bitmap = changed(reference, 5)
            data = refinement_data(bitmap, reference, (0, 0), RefinementForm(template))
            page.draw(kind, bitmap, data, referred=[kept])
        lossless = "-lossless" * (kind - REFINEMENT)
        features = ("refinement-of-region", "region-type")
        yield one_page(f"refinement-{template}-of-{name}{lossless}", features, draw)


def unused() -> Iterator[Case]:
    """Intermediate regions that nothing refers to are not drawn."""
    makers = {"text": keep_text, "halftone": keep_halftone, "refinement": keep_refinement, "mmr": keep_mmr}
    for name, keep in makers.items():
        def draw(page: Page) -> None:
            keep(page)
            shown = shapes(30, 30)
            page.draw(GENERIC, shown, generic_data(shown, GenericForm()), 3, 4)
        yield one_page(f"intermediate-{name}-not-drawn", "region-type", draw)


def cases() -> Iterator[Case]:
    for make in (templates, adaptive_pixels, page_parts, offsets, kinds, unused):
        yield from make()
