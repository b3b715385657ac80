"""The trials of the limit of work, as far as they need no library."""
import unittest

from testing.limits.bounds import Bound
from testing.limits.pairs import all_pairs
from testing.limits.prices import bitmap, price, rows
from testing.limits.repeated import referred, repeated
from testing.limits.subjects import forms_of
from testing.limits.trials import SMALL, SPREAD, Taken, least, limits_below
from conformance.runner.embedding import Embedded
from conformance.runner.segments import sequential
from testing.jbig2_encoder.framing import HEADER, page_information, segment

PAGE = segment(1, 48, page_information(8, 1))
# A region that refers to one of the page's own segments and to one that is shared.
REFERRING = segment(5, 6, b"data", referred=(0, 3))
OWN = segment(3, 0, b"symbols")


class LimitedTest(unittest.TestCase):
    def test_limits_are_spread_from_nothing_to_one_less(self):
        self.assertEqual([limits_below(units) for units in (0, 1, 2)], [[], [0], [0, 1]])
        for units in (SPREAD, SPREAD + 1, SMALL):
            limits = limits_below(units)
            self.assertEqual((limits[0], limits[-1], len(limits)), (0, units - 1, SPREAD))
        self.assertEqual(limits_below(1 << 40)[-1], (1 << 40) - 1)
        self.assertEqual(limits_below(SMALL, SMALL), list(range(SMALL)))

    def test_the_least_limit(self):
        for wanted in (0, 1, 2, 3, 63, 64, 65, 123456789):
            self.assertEqual(least(lambda work: work >= wanted), wanted)

    def test_repeated_segments_refer_to_their_own(self):
        segments = sequential(repeated(Embedded(PAGE + OWN + REFERRING, b"shared"), 2).stream)
        self.assertEqual([one.number for one in segments], [1, 9, 11, 15, 17])
        self.assertEqual([referred(one)[1] for one in segments], [[], [], [0, 9], [], [0, 15]])
        self.assertEqual([one.data for one in segments[1:]], [b"symbols", b"data"] * 2)

    def test_numbers_that_are_too_large_are_not_repeated(self):
        self.assertIsNone(repeated(Embedded(segment(0xFFFFFFFF, 38, b"")), 1))

    def test_repeated_references_grow(self):
        segments = sequential(repeated(Embedded(PAGE + OWN + REFERRING), 100).stream)
        self.assertEqual(referred(segments[-1])[1], [0, 603])

    def test_a_file_has_its_pages_as_embedded_ones(self):
        table = segment(3, 53, bytes(7))
        file, page = forms_of("file", HEADER + PAGE + table, 1)
        self.assertEqual(file.length, len(HEADER + PAGE + table))
        self.assertEqual((page.page.stream, page.length), (PAGE + table, len(PAGE + table)))

    def test_what_is_asked_for_besides(self):
        bound = Bound(10, 3, 7)
        self.assertEqual(bound.most([Taken("less", 1, 3, 0), Taken("more", 4, 51, 2)]), (5, "more"))
        self.assertEqual(bound.most([])[0], 0)

    def test_each_row_of_the_prices_has_a_pair(self):
        self.assertEqual(rows().keys(), {pair.row for pair in all_pairs()})
        self.assertTrue(all(pair.units > 0 and pair.less != pair.more for pair in all_pairs()))

    def test_a_bitmap_is_priced_by_words(self):
        word = price("a word of a bitmap")
        for size, words in ((0, 1), 1), ((64, 3), 3), ((65, 2), 4), ((65, 0), 0):
            self.assertEqual(bitmap(*size), price("a bitmap") + words * word)


if __name__ == "__main__":
    unittest.main()
