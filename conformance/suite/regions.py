"""Cases of generic regions."""
from __future__ import annotations

import itertools
from collections.abc import Iterator

from testing.jbig2_encoder.bitmap import Bitmap
from testing.jbig2_encoder.document import Page
from testing.jbig2_encoder.framing import GENERIC
from testing.jbig2_encoder.generic import NOMINAL, NOMINAL_EXTENDED, GenericForm, generic_data, row_count

from .case import Case, Features, one_page
from .drawing import PICTURES, dithered, page_picture, shapes

# For each template places that a scan of screened pictures might have, and places at the ends of what a byte holds.
MOVED = (
    (
        ((-8, 0), (0, -8), (4, -3), (-5, -1)),
        ((-128, 0), (127, -1), (0, -128), (-128, -128)),
        ((-1, 0), (-1, 0), (0, -1), (3, -2)),
    ),
    (((-8, 0),), ((127, -128),), ((-6, -3),)),
    (((-8, 0),), ((-128, -1),), ((4, -1),)),
    (((-8, 0),), ((127, -1),), ((0, -4),)),
)


def region(name: str, features: Features, bitmap: Bitmap, form: GenericForm, kind: int = GENERIC, **more) -> Case:
    """A page that is one generic region."""
    def draw(page: Page) -> None:
        page.draw(kind, bitmap, generic_data(bitmap, form))
    return one_page(name, features, draw, (bitmap.width, bitmap.height), **more)


def templates() -> Iterator[Case]:
    for template, (picture, make) in itertools.product(range(4), PICTURES.items()):
        yield region(f"generic-{template}-{picture}", f"generic-template-{template}", make(), GenericForm(template))
    for template, (picture, make) in itertools.product(range(4), PICTURES.items()):
        form = GenericForm(template, typical=True)
        features = ("generic-typical-prediction", f"generic-template-{template}")
        yield region(f"generic-{template}-{picture}-typical", features, make(), form)
    for template, colour in itertools.product(range(4), range(2)):
        bitmap = Bitmap(70, 9, colour)
        name = f"generic-{template}-all-{('white', 'black')[colour]}"
        yield region(name, f"generic-template-{template}", bitmap, GenericForm(template))
        features = ("generic-typical-prediction", f"generic-template-{template}")
        yield region(f"{name}-typical", features, bitmap, GenericForm(template, typical=True))


def adaptive_pixels() -> Iterator[Case]:
    feature = "generic-adaptive-pixels"
    for template, places in enumerate(MOVED):
        for at, pixels in enumerate(places, 1):
            for typical in (False, True):
                form = GenericForm(template, pixels, typical)
                name = f"generic-{template}-moved-{at}{'-typical' * typical}"
                yield region(name, (feature, f"generic-template-{template}"), dithered(150, 20), form)
    for at in range(4):
        pixels = tuple((-7, -2) if place == at else pixel for place, pixel in enumerate(NOMINAL[0]))
        yield region(f"generic-0-moved-only-{at + 1}", feature, page_picture(), GenericForm(0, pixels))


def extended() -> Iterator[Case]:
    feature = "generic-extended-template"
    moved = tuple((x - 4, y - 1) for x, y in NOMINAL_EXTENDED)
    for (name, pixels), typical in itertools.product((("nominal", None), ("moved", moved)), (False, True)):
        form = GenericForm(0, pixels, typical, extended=True)
        yield region(f"generic-extended-{name}{'-typical' * typical}", feature, page_picture(), form)
    for at in range(12):
        pixels = tuple((-9, -3) if place == at else pixel for place, pixel in enumerate(NOMINAL_EXTENDED))
        form = GenericForm(0, pixels, extended=True)
        yield region(f"generic-extended-moved-only-{at + 1}", feature, dithered(), form)


def sizes() -> Iterator[Case]:
    for width in (1, 2, 7, 8, 9, 15, 16, 17, 31, 32, 33, 63, 64, 65, 127, 128, 129):
        yield region(f"generic-width-{width}", "generic-size", shapes(width, 11), GenericForm(0))
    for height, template in itertools.product((1, 2, 3), range(4)):
        name = f"generic-{template}-height-{height}"
        yield region(name, "generic-size", dithered(50, height), GenericForm(template))


def unknown_lengths() -> Iterator[Case]:
    """Regions of unknown length; the number of rows that follows the data may be less than the region's height."""
    feature = "generic-unknown-length"
    forms = {f"template-{template}": GenericForm(template) for template in range(4)}
    forms["extended"] = GenericForm(0, extended=True)
    forms["typical"] = GenericForm(1, typical=True)
    forms["mmr"] = GenericForm(mmr=True)
    forms["mmr-without-end"] = GenericForm(mmr=True, ends_block=False)
    for (name, form), rows in itertools.product(forms.items(), (40, 23)):
        bitmap = page_picture()
        shown = bitmap.part(0, 0, 64, rows)
        data = generic_data(shown, form) + row_count(rows, form.mmr)

        def draw(page: Page) -> None:
            page.picture.combine(shown, 0, 0, 0)
            page.keep(GENERIC, bitmap, data, hides_length=True)

        front = "mmr-unknown-length" if form.mmr else feature
        yield one_page(f"unknown-length-{name}-{rows}-rows", front, draw)


def cases() -> Iterator[Case]:
    for make in (templates, adaptive_pixels, extended, sizes, unknown_lengths):
        yield from make()
