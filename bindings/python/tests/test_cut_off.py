"""Regions whose data is cut off: what salvage draws of each kind, beside a model, and what lenient reading draws."""

from __future__ import annotations

import itertools
import unittest

import hayro_jbig2
from conformance.suite.drawing import changed, dots, page_picture, shapes
from conformance.suite.texts import refined_text
from conformance.suite.typesetting import WORDS, Alphabet, Layout, put_dictionary, set_words, text_bitmap
from testing.jbig2_encoder.bitmap import REPLACE
from testing.jbig2_encoder.document import Document
from testing.jbig2_encoder.framing import GENERIC, HALFTONE, PATTERN_DICTIONARY, REFINEMENT, TEXT
from testing.jbig2_encoder.generic import GenericForm, generic_data
from testing.jbig2_encoder.halftone import Grid, HalftoneForm, draw_halftone, halftone_data, pattern_data
from testing.jbig2_encoder.refinement import NOMINAL, RefinementForm, refinement_data
from testing.jbig2_encoder.text import Settings, TextForm, text_data
from testing.comparison.model.answers import Work
from testing.comparison.model.salvage import embedded_page, page_of_file

SIZE = (80, 40)
INFORMATION = 17  # the bytes of a region's information
REFINED = ((1, 0, 0, 0), (-1, 1, 1, 0), (2, -2, 0, 1))
# Adaptive pixels of a refinement, and what makes an immediate region an intermediate one.
MOVED = ((2, -1), (-3, 1))
KEPT = -2
INTERMEDIATE = tuple(kind + KEPT for kind in (TEXT, HALFTONE, GENERIC, REFINEMENT))
# Grids of cells of 2 by 2 pixels; the second one leaves the page on all sides.
STRAIGHT = Grid(40, 20, right=2 * 256)
TURNED = Grid(38, 28, -2 * 256, 6 * 256, 500, 110)


def put_generic(form, kind=GENERIC):
    def put(page):
        put_region(page, kind, page_picture(*SIZE), generic_data(page_picture(*SIZE), form))

    return put


def put_region(page, kind, bitmap, data, referred=()):
    """A region by Replace, which is drawn if it is an immediate one."""
    (page.keep if kind in INTERMEDIATE else page.draw)(kind, bitmap, data, operator=REPLACE, referred=referred)


def put_words(prefix, refined=False, colour=0, kind=TEXT):
    """Words by a dictionary, by Xor on white or on black: some with every second letter refined, or many lines of them."""

    def put(page):
        alphabet, settings = Alphabet(), Settings(refined=refined, colour=colour, operator=2)
        referred = [put_dictionary(page, alphabet.dictionary())]
        if refined:
            text = refined_text(alphabet, settings, REFINED, prefix)
        else:
            lines = [alphabet.ids(word) for word in 8 * WORDS]
            text = set_words(lines, alphabet.symbols, settings, Layout(step=1), prefix)
        bitmap = text_bitmap(text, settings, alphabet.symbols, SIZE)
        put_region(page, kind, bitmap, text_data(text, settings, alphabet.symbols, TextForm(prefix)), referred)

    return put


def put_halftone(form, count=9, kind=HALFTONE, grid=STRAIGHT):
    """A region of so many patterns, each row of its grid another one."""

    def put(page):
        patterns = dots(2, 2, count)
        referred = [page.put(PATTERN_DICTIONARY, pattern_data(patterns, GenericForm()))]
        values = [[(7 * x * x + 5 * y * y + x * y) // 11 % count for x in range(grid.width)] for y in range(grid.height)]
        bitmap = draw_halftone(values, grid, patterns, form, *SIZE)
        put_region(page, kind, bitmap, halftone_data(values, grid, patterns, form, SIZE), referred)

    return put


def put_refinement(form, place=None, kind=REFINEMENT):
    """A refinement of what the page shows, or of a region at a place."""

    def put(page):
        reference, referred, shift = page.picture, [], (0, 0)
        if place is not None:
            reference, shift = page_picture(*SIZE), place
            data = generic_data(reference, GenericForm())
            referred = [page.keep(GENERIC + KEPT, reference, data, *place)]
        bitmap = changed(reference.part(-shift[0], -shift[1], *SIZE), 3)
        put_region(page, kind, bitmap, refinement_data(bitmap, reference, shift, form), referred)

    return put


DRAWN_IN_PART = {
    **{
        f"generic region by template {template}, {'with' if typical else 'without'} prediction": put_generic(
            GenericForm(template, typical=typical), GENERIC + typical
        )
        for template, typical in itertools.product(range(4), (False, True))
    },
    "generic region by the extended template": put_generic(GenericForm(extended=True)),
    "generic region by MMR": put_generic(GenericForm(mmr=True)),
    "text by the coder": put_words(False),
    "text by the coder on black": put_words(False, colour=1),
    "text by the coder, refined": put_words(False, refined=True),
    "text by prefix codes": put_words(True),
    "text by prefix codes on black": put_words(True, colour=1),
    "text by prefix codes, refined": put_words(True, refined=True),
    **{
        f"refinement of {what}, {how}{', typical' * typical}": put_refinement(
            RefinementForm(template, pixels, typical), place, REFINEMENT + typical
        )
        for what, place in (("the page", None), ("a region", (0, 0)), ("a region beside it", (7, 5)))
        for how, template, pixels in (("template 0", 0, NOMINAL), ("other pixels", 0, MOVED), ("template 1", 1, NOMINAL))
        for typical in (False, True)
    },
    **{
        f"halftone region by {how}, {count} patterns": put_halftone(form, count, HALFTONE + form.skips, grid)
        for count in (2, 4, 5)
        for how, form, grid in (
            ("template 0", HalftoneForm(), STRAIGHT),
            ("template 3", HalftoneForm(3), STRAIGHT),
            ("MMR", HalftoneForm(mmr=True), STRAIGHT),
            ("MMR on black", HalftoneForm(mmr=True, operator=REPLACE, colour=1), STRAIGHT),
            ("template 1 with skipped cells", HalftoneForm(1, skips=True, operator=REPLACE, colour=1), TURNED),
        )
    },
}
DROPPED = {
    "generic region": put_generic(GenericForm(), GENERIC + KEPT),
    "generic region by MMR": put_generic(GenericForm(mmr=True), GENERIC + KEPT),
    "text by the coder": put_words(False, kind=TEXT + KEPT),
    "text by prefix codes": put_words(True, kind=TEXT + KEPT),
    "halftone region": put_halftone(HalftoneForm(), 5, HALFTONE + KEPT),
    "refinement of a region": put_refinement(RefinementForm(), (0, 0), REFINEMENT + KEPT),
}


def first_of(lacks):
    """The number and the name of the first fault that the model has."""
    number, fault = lacks[0]
    return number, fault.value.rstrip(")").split("(")[-1]


class CutOff(unittest.TestCase):
    def cuts_of(self, put):
        """A page of a file and embedded, cut off in its last region, and that region: its number and what is below it."""
        document = Document()
        page = document.start_page(*SIZE)
        page.draw(GENERIC, shapes(*SIZE), generic_data(shapes(*SIZE), GenericForm()))
        below = page.picture.packed()
        put(page)
        region = document.segments[-1]
        whole, (stream, _) = document.sequential(), document.embedded()
        self.assertEqual(bytes(hayro_jbig2.decode(stream, salvage=True).rows), page.picture.packed())
        for left in INFORMATION, len(region.data) // 3, len(region.data) // 2, len(region.data) - 1:
            missing = len(region.data) - left
            yield left, whole[:-missing], stream[:-missing], region.at, below

    def check(self, data, meant, number):
        """What salvage draws is as the model means it, and the region is reported."""
        page = hayro_jbig2.decode(data, salvage=True, warn=False)
        self.assertEqual(bytes(page.rows), meant.bitmap.packed())
        passed_over, cut_off = page.passed_over, page.left_out.cut_off
        self.assertEqual(passed_over.count, len(meant.lacks))
        self.assertEqual((passed_over.first.segment_number, passed_over.first.error.variant), first_of(meant.lacks))
        self.assertEqual((cut_off.segment_number, cut_off.error.variant), (number, "UnexpectedEof"))
        self.assertEqual(first_of(meant.lacks[-1:]), (number, "UnexpectedEof"))

    def check_kind(self, put):
        """Whether anything of the region is drawn where half of its data is there, and where its last byte isn't."""
        shown = []
        for left, file, stream, number, below in self.cuts_of(put):
            with self.subTest(left=left):
                meant = embedded_page(None, stream, Work(10**6, 10**8))
                self.check(stream, meant, number)
                self.check(file, page_of_file(file, 0, Work(10**6, 10**8)), number)
                for data in file, stream:
                    page = hayro_jbig2.decode(data, warn=False)
                    passed = page.passed_over.first
                    self.assertEqual((bytes(page.rows), passed.segment_number), (below, number))
                    self.assertEqual(passed.error.variant, "UnexpectedEof")
                shown.append(meant.bitmap.packed() != below)
        return shown[-2:]

    def test_regions_that_are_drawn_in_part(self):
        for name, put in DRAWN_IN_PART.items():
            with self.subTest(name):
                self.assertEqual(self.check_kind(put), [True, True])

    def test_a_halftone_region_of_one_pattern(self):
        """It has no plane, and half of its data is less than its header."""
        self.assertEqual(self.check_kind(put_halftone(HalftoneForm(colour=1), 1)), [False, True])

    def test_intermediate_regions_are_dropped(self):
        for name, put in DROPPED.items():
            with self.subTest(name):
                self.assertEqual(self.check_kind(put), [False, False])


if __name__ == "__main__":
    unittest.main()
