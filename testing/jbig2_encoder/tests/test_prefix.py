"""Prefix codes and T.6: the standard tables fill their room, and known codes are as the standards print them."""
import unittest

from testing.jbig2_encoder import t6
from testing.jbig2_encoder.bitmap import Bitmap
from testing.jbig2_encoder.prefix import LOWER, STANDARD, UPPER, Bits, codes_of, even_lengths, runs_of


class PrefixTest(unittest.TestCase):
    def test_codes_by_length_and_place(self):
        self.assertEqual(codes_of([2, 0, 1, 3, 3]), {0: 2, 2: 0, 3: 6, 4: 7})

    def test_standard_tables_are_whole(self):
        for name, table in STANDARD.items():
            with self.subTest(table=name):
                self.assertEqual(sum(2.0 ** -length for length, *_ in table.lines if length), 1)
                ranges = [(low, count) for _, count, low, kind in table.lines if kind is None]
                upper = [low for _, _, low, kind in table.lines if kind == UPPER]
                ends = [low + (1 << count) for low, count in ranges]
                self.assertEqual(ends, [low for low, _ in ranges[1:]] + (upper or ends[-1:]))
                for low in (low for _, _, low, kind in table.lines if kind == LOWER):
                    self.assertEqual(low, ranges[0][0] - 1)

    def test_value_bits(self):
        bits = Bits()
        STANDARD[1].put(bits, 5)
        STANDARD[1].put(bits, 19)
        self.assertEqual("".join(bits.digits), "00101" + "1000000011")

    def test_codes_of_ids(self):
        for count in range(1, 40):
            self.assertEqual(sum(2.0 ** -length for length in even_lengths(count)), 1 if count > 1 else 0.5)
        runs = runs_of([3, 3, 3, 3, 0, 0, 0, 5] + [0] * 140)
        self.assertEqual(runs, [(3, 0, 0), (32, 0, 2), (33, 0, 3), (5, 0, 0), (34, 127, 7), (0, 0, 0), (0, 0, 0)])


class RowsOfT6Test(unittest.TestCase):
    def test_black_row_of_eight(self):
        for ends_block, data in ((False, "26A280"), (True, "26A280080080")):
            self.assertEqual(t6.encoded(Bitmap(8, 1, 1), ends_block), bytes.fromhex(data))

    def test_row_like_the_one_above(self):
        self.assertEqual(t6.encoded(Bitmap(8, 2, 1), False), bytes.fromhex("26A2E0"))

    def test_codes_begin_no_other_code(self):
        for short, make_up in ((t6.WHITE, t6.WHITE_MAKE_UP), (t6.BLACK, t6.BLACK_MAKE_UP)):
            words = short + make_up + t6.LONG_MAKE_UP
            self.assertEqual(len(words), 64 + 27 + 13)
            words.sort()
            self.assertFalse([word for word, following in zip(words, words[1:]) if following.startswith(word)])


if __name__ == "__main__":
    unittest.main()
