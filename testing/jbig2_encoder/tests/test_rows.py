"""What the encoder writes, compared with the bytes of crates/jbig2_rows/README.md. Their results are proved or tested
of the decoder."""
import unittest

from testing.jbig2_encoder.bitmap import Bitmap
from testing.jbig2_encoder.dictionary import HeightClass, NewSymbol, SymbolDictionary, Templates, dictionary_data
from testing.jbig2_encoder.generic import GenericForm, generic_data
from testing.jbig2_encoder.halftone import Grid, HalftoneForm, draw_halftone, halftone_data
from testing.jbig2_encoder.prefix import custom_table, table_data
from testing.jbig2_encoder.text import Instance, Settings, Strip, Text, TextForm, text_data

BLACK, WHITE = Bitmap(1, 1, 1), Bitmap(1, 1)


def dictionary_of(symbol, **form):
    return SymbolDictionary([HeightClass(1, [NewSymbol(symbol)])], **form)


def text_of(settings, form, start=0, symbol=WHITE, refined=None):
    text = Text([Strip(0, [Instance(0, 0, 0, refined)])], start)
    return text_data(text, settings, [symbol], form)


class RowsTest(unittest.TestCase):
    def assert_bytes(self, data, text):
        self.assertEqual(data.hex().upper(), text.replace(" ", ""))

    def test_black_mmr_row_of_row_10(self):
        data = generic_data(Bitmap(8, 1, 1), GenericForm(mmr=True))
        self.assert_bytes(data, "01 26A280 080080")

    def test_symbol_by_prefix_codes(self):
        self.assert_bytes(dictionary_data(dictionary_of(BLACK, prefix=True)), "0001 00000001 00000001 5F8080 0040")

    def test_symbol_and_text_by_the_coder_of_row_r8_6(self):
        form = Templates(GenericForm(2))
        data = dictionary_data(dictionary_of(BLACK, templates=form))
        self.assert_bytes(data, "0800 02FF 00000001 00000001 93FC7FFFAC")
        self.assert_bytes(text_of(Settings(), TextForm()), "0010 00000001 A943FFAC")

    def test_refined_instance_of_row_r8_2(self):
        data = text_of(Settings(refined=True, template=1), TextForm(), refined=BLACK)
        self.assert_bytes(data, "8012 00000001 A96CB7EBDFFFAC")

    def test_skipped_cells_of_row_r7_3(self):
        patterns = []
        for first, second in ((0, 0), (0, 1), (1, 0), (1, 1)):
            pattern = Bitmap(2, 1)
            pattern.rows = [[first, second]]
            patterns.append(pattern)
        grid, form, values = Grid(4, 1, -320, 0, 512), HalftoneForm(skips=True), [[0, 2, 3, 1]]
        data = halftone_data(values, grid, patterns, form, (6, 1))
        self.assert_bytes(data, "08 00000004 00000001 FFFFFEC0 00000000 0200 0000 DDFFAC")
        self.assertEqual(draw_halftone(values, grid, patterns, form, 6, 1).rows, [[1, 0, 1, 1, 0, 1]])

    def test_table_of_row_r5_2(self):
        self.assert_bytes(table_data(custom_table(0, [], 1, 1)), "00 00000000 00000000 C0")


if __name__ == "__main__":
    unittest.main()
