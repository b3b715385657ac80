"""The model's salvage of pages that are cut off: worked examples, and cuts of what the encoder writes."""
import dataclasses
import itertools
import random
import unittest

from testing.comparison.model.answers import Fault, Refused, Work
from testing.comparison.model.coder import Coder
from testing.comparison.model.generic import NOMINAL, Generic
from testing.comparison.model.page import page_of_file as read_page
from testing.comparison.model.salvage import embedded_page, page_of_file
from testing.comparison.symbols import random_document
from testing.jbig2_encoder.bitmap import REPLACE, Bitmap
from testing.jbig2_encoder.document import Document
from testing.jbig2_encoder.framing import GENERIC, HALFTONE, HEADER, PATTERN_DICTIONARY, REFINEMENT
from testing.jbig2_encoder.framing import page_information, region_information, segment
from testing.jbig2_encoder.generic import GenericForm, generic_data
from testing.jbig2_encoder.halftone import Grid, HalftoneForm, draw_halftone, halftone_data, pattern_data
from testing.jbig2_encoder.refinement import RefinementForm, refinement_data

PAGE = segment(0, 48, page_information(8, 4))
# A generic region of 32 bytes at the most: its header, and then what is coded.
REGION = bytes.fromhex("00000001 26 00 01 00000020") + region_information(8, 4) + bytes.fromhex("00 03FF FDFF 02FE FEFE")
ROWS = ("#.#..#.#", "..####..", "##..#.#.", ".#.#.##.")
CUT = [(1, Fault.UNEXPECTED_EOF)]


SIZE = (18, 12)
REFINED = [
    RefinementForm(template, pixels, typical)
    for template, pixels in ((0, ((-1, -1), (-1, -1))), (0, ((2, -1), (-3, 1))), (1, ((-1, -1), (-1, -1))))
    for typical in (False, True)
]


def noise(seed):
    bitmap, chance = Bitmap(*SIZE), random.Random(seed)
    bitmap.rows = [[chance.randrange(2) for _ in row] for row in bitmap.rows]
    return bitmap


def altered(bitmap):
    """A bitmap with some other pixels in each row."""
    other, chance = bitmap.copy(), random.Random(2)
    for row in other.rows:
        for x in chance.sample(range(len(row)), 5):
            row[x] ^= 1
    return other


def striped(seed):
    """Noise of which some rows are as the ones above them."""
    bitmap = noise(seed)
    for y in range(1, bitmap.height, 3):
        bitmap.rows[y] = list(bitmap.rows[y - 1])
    return bitmap


def drawn(bitmap):
    return tuple("".join(".#"[pixel] for pixel in row) for row in bitmap.rows)


class ExampleTest(unittest.TestCase):
    def test_the_end_of_the_data(self):
        """Whether the byte read last is none of the data's, or an FF at their end: at the beginning and in the end."""
        for data, begins, ends in (
            ("", True, True), ("FF", True, True), ("84", True, True), ("84FF", True, True),
            ("84C7", False, True), ("84C7FF", False, True), ("84C7FFAC", False, False),
        ):
            with self.subTest(data):
                coder, contexts = Coder(bytes.fromhex(data)), bytearray(1)
                is_past_end = coder.is_past_end
                for _ in range(99):
                    coder.decide(contexts, 0)
                self.assertEqual((is_past_end, coder.is_past_end), (begins, ends))

    def test_the_byte_that_is_read_last(self):
        coder, contexts, places = Coder(bytes.fromhex("BE3C87")), bytearray(1 << 16), []
        rows = [bytearray(8 + 512) for _ in range(4)]
        for y in range(4):
            Generic(0, NOMINAL[0]).decode_row(Work(), coder, contexts, rows, y)
            places.append(coder.place)
        self.assertEqual(places[:2], [2, 3])

    def test_whole_rows(self):
        for coded, count in (("", 0), ("BE", 0), ("BE3C87", 1), ("BE3C8727", 2), ("BE3C8727FF", 2)):
            with self.subTest(coded):
                page = embedded_page(None, PAGE + REGION + bytes.fromhex(coded))
                self.assertEqual(drawn(page.bitmap), ROWS[:count] + ("." * 8,) * (4 - count))
                self.assertEqual(page.lacks, CUT)

    def test_rows_that_are_not_whole_stay_as_they_are(self):
        """A region that replaces what is below it, on a black page."""
        black = segment(0, 48, page_information(8, 4, 1))
        page = embedded_page(None, black + REGION[:27] + b"\4" + REGION[28:] + bytes.fromhex("BE3C87"))
        self.assertEqual(drawn(page.bitmap), ROWS[:1] + ("#" * 8,) * 3)

    def test_headers_that_are_cut_off(self):
        for length in range(len(REGION)):
            with self.subTest(length):
                page = embedded_page(None, PAGE + REGION[:length])
                number = 1 if length >= 4 else None
                self.assertEqual(drawn(page.bitmap), ("." * 8,) * 4)
                self.assertEqual(page.lacks, [(number, Fault.UNEXPECTED_EOF)] * (length > 0))

    def test_a_region_that_fails_counts_once(self):
        """Its information is bad or too large, or what it refers to is not there."""
        bad = region_information(8, 4)[:16] + b"\x05"
        for kind, region in itertools.product((6, 7, 22, 23, 38, 39, 42, 43), (bad, region_information(65536, 4))):
            with self.subTest(kind=kind, region=region):
                part = segment(1, kind, region + REGION[28:] + bytes(9))[:-1]
                page = embedded_page(None, PAGE + part)
                self.assertEqual((drawn(page.bitmap), page.lacks), (("." * 8,) * 4, CUT))
        for kind in 6, 22:
            part = segment(1, kind, region_information(8, 4) + REGION[28:] + bytes(90), (0,))[:-1]
            self.assertEqual(embedded_page(None, PAGE + part).lacks, CUT)


class PartTest(unittest.TestCase):
    """A region of each kind, cut off after each of its bytes: rows of the whole one above rows of something else."""

    def page_of_noise(self):
        document = Document()
        page = document.start_page(*SIZE)
        page.draw(GENERIC, noise(1), generic_data(noise(1), GenericForm()), operator=REPLACE)
        return page

    def put(self, page, kind, bitmap, data, header, rest=None, step=1, referred=()):
        """Draws a region over all of the page, and cuts it off. Nothing of it is drawn without its header, and then the
        page has some of its rows above those of `rest`, of which none is one of the region's. The rows are counted by
        `step`, and how many there are is returned for each byte, the last one first."""
        below = drawn(page.picture)
        rest = below if rest is None else drawn(rest)
        number = page.draw(kind, bitmap, data, operator=REPLACE, referred=referred)
        stream, _ = page.document.embedded()
        coded, counts = len(page.document.segments[-1].data) - header, []
        for cut in range(coded + header + 1):
            shown = embedded_page(None, stream[: len(stream) - cut], Work(10**6, 10**8))
            self.assertEqual(shown.lacks, [(number, Fault.UNEXPECTED_EOF)] * (cut > 0))
            rows = [drawn(bitmap)[:y] + rest[y:] for y in range(0, SIZE[1] + 1, step)]
            if cut > coded:
                self.assertEqual(drawn(shown.bitmap), below)
            else:
                counts.append(rows.index(drawn(shown.bitmap)))
        self.assertEqual(counts, sorted(counts, reverse=True))
        self.assertEqual((counts[0], counts[-1]), (len(rows) - 1, 0))
        self.assertGreaterEqual(counts[1], len(rows) // 2)
        self.assertGreater(len(set(counts)), 4)
        return counts

    def test_generic_regions(self):
        forms = [GenericForm(template, typical=typical) for template in range(4) for typical in (False, True)]
        for form in (*forms, GenericForm(extended=True), GenericForm(mmr=True), GenericForm(mmr=True, ends_block=False)):
            with self.subTest(form):
                bitmap, header = striped(2), 18 if form.mmr else 18 + 2 * len(form.places)
                self.put(self.page_of_noise(), GENERIC, bitmap, generic_data(bitmap, form), header)

    def test_refinements_of_the_page(self):
        for form in REFINED:
            with self.subTest(form):
                page = self.page_of_noise()
                bitmap = altered(page.picture)
                data = refinement_data(bitmap, page.picture, (0, 0), form)
                self.put(page, REFINEMENT, bitmap, data, 18 + len(form.pixel_bytes()))

    def test_refinements_of_a_region(self):
        """The reference lies at another place, and is white where it doesn't reach."""
        for form, place in itertools.product(REFINED, ((0, 0), (5, 3))):
            with self.subTest(form=form, place=place):
                page, reference, moved = self.page_of_noise(), noise(3), Bitmap(*SIZE)
                at = page.keep(36, reference, generic_data(reference, GenericForm()), *place)
                moved.combine(reference, *place, REPLACE)
                bitmap = altered(moved)
                data = refinement_data(bitmap, reference, place, form)
                self.put(page, REFINEMENT, bitmap, data, 18 + len(form.pixel_bytes()), moved, referred=[at])

    def test_halftones(self):
        """Cells of 2 by 2 pixels, with values of three planes."""
        patterns = [Bitmap(2, 2) for _ in range(5)]
        for value, pattern in enumerate(patterns):
            pattern.rows = [[int(value > 2 * y + x) for x in range(2)] for y in range(2)]
        # A row and a column of cells lie outside.
        grid = Grid(SIZE[0] // 2 + 1, SIZE[1] // 2 + 1, right=512)
        chance = random.Random(3)
        values = [[chance.randrange(4) + (y > 0) for _ in range(grid.width)] for y in range(grid.height)]
        forms = [HalftoneForm(template, False, skips) for template in range(4) for skips in (False, True)]
        for form, colour in itertools.product((*forms, HalftoneForm(mmr=True)), range(2)):
            form = dataclasses.replace(form, operator=REPLACE, colour=colour)
            with self.subTest(form):
                page = self.page_of_noise()
                at = page.put(PATTERN_DICTIONARY, pattern_data(patterns, GenericForm()))
                bitmap = draw_halftone(values, grid, patterns, form, *SIZE)
                data = halftone_data(values, grid, patterns, form, SIZE)
                counts = self.put(page, HALFTONE, bitmap, data, 38, Bitmap(*SIZE, colour), 2, [at])
                # The planes before the last one are more than half of the data.
                self.assertEqual(set(counts[len(counts) // 2 :]), {0})


class PageTest(unittest.TestCase):
    def test_an_unknown_height_is_that_of_the_part(self):
        unknown = segment(0, 48, page_information(8, 0xFFFFFFFF))
        page = embedded_page(None, unknown + REGION + bytes.fromhex("BE3C87"))
        self.assertEqual(drawn(page.bitmap), ROWS[:1] + ("." * 8,) * 3)
        # Its information is enough, which takes 28 bytes with the header.
        self.assertEqual(drawn(embedded_page(None, unknown + REGION[:28]).bitmap), ("." * 8,) * 4)
        with self.assertRaises(Refused):
            embedded_page(None, unknown + REGION[:27])

    def test_the_end_of_its_page_comes_first(self):
        """A page that has its end in the file doesn't lack a segment of another page."""
        first, end = segment(0, 48, page_information(8, 4)), segment(2, 49, b"")
        second = segment(3, 48, page_information(8, 4), page=2)
        part = b"\0\0\0\4" + REGION[4:6] + b"\2" + REGION[7:] + bytes.fromhex("BE3C87")
        data = HEADER + first + end + second + part
        pages = [page_of_file(data, index) for index in range(2)]
        self.assertEqual([page.lacks for page in pages], [[], [(4, Fault.UNEXPECTED_EOF)]])
        self.assertEqual([drawn(page.bitmap)[0] for page in pages], ["." * 8, ROWS[0]])

    def test_whole_documents_lack_nothing(self):
        for seed, kind in enumerate(("coder", "prefix", "refined", "tables", "aggregates", "more")):
            document = random_document(random.Random(seed), kind)
            with self.subTest(kind):
                page = page_of_file(document.finished(), 0, Work(10**7, 10**8))
                self.assertEqual((page.bitmap.packed(), page.lacks), (document.page.packed(), []))

    def test_lenient_reading_draws_nothing_of_the_part(self):
        data = HEADER + PAGE + REGION + bytes.fromhex("BE3C87")
        self.assertEqual(drawn(read_page(data, 0, False)), ("." * 8,) * 4)


if __name__ == "__main__":
    unittest.main()
