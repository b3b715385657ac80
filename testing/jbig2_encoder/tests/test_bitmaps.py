"""Bitmaps, and what the regions make of them, beside plain readings of the standard."""
import unittest

from testing.jbig2_encoder.bitmap import AND, OR, REPLACE, XNOR, XOR, Bitmap, context_rows, side_by_side
from testing.jbig2_encoder.dictionary import HeightClass, NewSymbol, SymbolDictionary
from testing.jbig2_encoder.generic import NOMINAL, TEMPLATES, TYPICAL
from testing.jbig2_encoder.halftone import Grid, planes_of
from testing.jbig2_encoder.refinement import predictions
from testing.jbig2_encoder.text import BOTTOM_LEFT, BOTTOM_RIGHT, TOP_LEFT, TOP_RIGHT, Instance, Settings, Strip, Text
from testing.jbig2_encoder.text import draw_text


def bitmap_of(*rows):
    bitmap = Bitmap(len(rows[0]), len(rows))
    bitmap.rows = [[int(pixel == "#") for pixel in row] for row in rows]
    return bitmap


class BitmapTest(unittest.TestCase):
    def test_operators(self):
        for operator, row in ((OR, ".###"), (AND, "...#"), (XOR, ".##."), (XNOR, "#..#"), (REPLACE, ".#.#")):
            below = bitmap_of("..##")
            below.combine(bitmap_of(".#.#"), 0, 0, operator)
            self.assertEqual(below.rows, bitmap_of(row).rows)

    def test_what_falls_outside_is_dropped(self):
        for left, top in ((-3, 0), (3, 0), (0, -1), (0, 1), (-9, -9), (9, 9)):
            below, above = bitmap_of("....", "...."), bitmap_of("####", "####")
            below.combine(above, left, top, OR)
            meant = [[above.pixel(x - left, y - top) for x in range(4)] for y in range(2)]
            self.assertEqual(below.rows, meant)

    def test_parts_and_bytes(self):
        bitmap = bitmap_of("#.#......", ".........", "........#")
        self.assertEqual(bitmap.part(-1, 1, 3, 3).rows, [[0, 0, 0], [0, 0, 0], [0, 0, 0]])
        self.assertEqual(bitmap.part(7, 2, 3, 1).rows, [[0, 1, 0]])
        self.assertEqual(bitmap.packed(), bytes.fromhex("A000 0000 0080"))
        self.assertEqual(side_by_side([bitmap_of("#."), bitmap_of(".##")]).rows, [[1, 0, 0, 1, 1]])

    def test_contexts_pixel_by_pixel(self):
        bitmap = bitmap_of("#.##..#", "..#.#.#", "##..##.", "#.#.#.#")
        for template, pixels in enumerate(TEMPLATES):
            offsets = [NOMINAL[template][pixel] if isinstance(pixel, int) else pixel for pixel in pixels]
            rows = list(context_rows(7, 4, [(bitmap, offset) for offset in offsets]))
            for y in range(4):
                for x in range(7):
                    bits = (bitmap.pixel(x + right, y + down) << at for at, (right, down) in enumerate(offsets))
                    self.assertEqual(rows[y][x], sum(bits))

    def test_each_context_has_a_place_for_typical_prediction(self):
        for pixels, context in zip(TEMPLATES, TYPICAL):
            self.assertLess(context, 1 << len(pixels))

    def test_prediction_of_refinements(self):
        reference = bitmap_of("####", "####", "####", "....")
        rows = list(predictions(reference, (0, 0), 4, 4))
        self.assertEqual(rows[1], [None, 1, 1, None])
        self.assertEqual(rows[0], [None] * 4)


class RegionTest(unittest.TestCase):
    def test_planes_are_joined_from_the_highest(self):
        values = [[0, 1, 2, 3, 4, 5, 6, 7]]
        read, above = [0] * 8, [0] * 8
        for plane in planes_of(values, Grid(8, 1), 3):
            above = [bit ^ before for bit, before in zip(plane.rows[0], above)]
            read = [2 * value + bit for value, bit in zip(read, above)]
        self.assertEqual(read, values[0])

    def test_places_of_a_rotated_grid(self):
        grid = Grid(2, 2, 256, -256, 512, 256)
        self.assertEqual([grid.place(*cell) for cell in ((0, 0), (1, 0), (0, 1))], [(1, -1), (3, -2), (2, 1)])

    def test_corners(self):
        symbol = bitmap_of("##", "##", "##")
        corners = {TOP_LEFT: (4, 5), BOTTOM_LEFT: (4, 3), TOP_RIGHT: (4, 5), BOTTOM_RIGHT: (4, 3)}
        for corner, (left, top) in corners.items():
            page, meant = Bitmap(12, 12), Bitmap(12, 12)
            draw_text(Text([Strip(5, [Instance(4, 0)])]), Settings(corner=corner), [symbol], page)
            meant.combine(symbol, left, top, OR)
            self.assertEqual(page.rows, meant.rows)

    def test_exports(self):
        new = [Bitmap(1, 1), Bitmap(2, 1), Bitmap(3, 1)]
        dictionary = SymbolDictionary([HeightClass(1, [NewSymbol(symbol) for symbol in new])], runs=[1, 1, 0, 1])
        self.assertEqual(dictionary.exported(), new[1:])


if __name__ == "__main__":
    unittest.main()
