"""Pages that are written: decoding gives each picture back."""

from __future__ import annotations

import io
import math
import random
import struct
import unittest
import warnings

import hayro_jbig2
from pages import EXAMPLE

LETTER = bytes([0xF0, 0x88, 0x88, 0x88, 0xF0, 0x80, 0x80, 0x80])
# As another encoder writes the letter: by template 0 with typical prediction, and by MMR.
LETTER_PAGE = bytes.fromhex(
    "00000000 70 00 00000001 00000013 00000005 00000008 0000000000000000 01 0000"
    "00000001 66 00 00000001 00000020 00000005 00000008 000000000000000000 08 03FFFDFF02FEFEFE 082E04D7FFAC"
)
LETTER_BY_MMR = bytes.fromhex(
    "00000000 70 00 00000001 00000013 00000005 00000008 0000000000000000 01 0000"
    "00000001 66 00 00000001 0000001D 00000005 00000008 000000000000000000 01 26AF04BFF0782FE0020020"
)


def noise(width: int, height: int) -> bytes:
    """Rows of which some are as the one above. The bits past the width are 0."""
    chance = random.Random(1000 * width + height)
    rows: list[bytes] = []
    stride = (width + 7) // 8
    for _ in range(height):
        row = chance.getrandbits(width) << 8 * stride - width
        rows.append(rows[-1] if rows and chance.random() < 0.5 else row.to_bytes(stride, "big"))
    return b"".join(rows)


class Encoding(unittest.TestCase):
    def compare(self, coded: bytes, width: int, height: int, rows: bytes) -> None:
        page = hayro_jbig2.decode(coded, strict=True)
        self.assertEqual((page.width, page.height, bytes(page.rows)), (width, height, rows))

    def test_rows_read_back(self):
        for number, (width, height) in enumerate([(1, 1), (8, 1), (9, 2), (64, 64), (65, 3), (300, 41)]):
            rows = noise(width, height)
            for typical in False, True:
                for file in False, True:
                    coded = hayro_jbig2.encode(rows, width, height, template=number % 4, typical=typical, file=file)
                    self.assertIs(type(coded), bytes)
                    self.assertEqual(coded.startswith(b"\x97JB2"), file)
                    self.compare(coded, width, height, rows)
            for file in False, True:
                coded = hayro_jbig2.encode(rows, width, height, coding="mmr", file=file)
                self.compare(coded, width, height, rows)

    def test_as_another_encoder(self):
        for rows in LETTER, bytearray(LETTER), memoryview(LETTER), bytes(byte | 7 for byte in LETTER):
            self.assertEqual(hayro_jbig2.encode(rows, 5, 8), LETTER_PAGE)
            self.assertEqual(hayro_jbig2.encode(rows, 5, 8, coding="arithmetic"), LETTER_PAGE)
            self.assertEqual(hayro_jbig2.encode(rows, 5, 8, coding="mmr"), LETTER_BY_MMR)
        self.assertEqual(hayro_jbig2.encode(LETTER, 5, 8, coding="mmr", template=3, typical=False), LETTER_BY_MMR)

    def test_a_page(self):
        for page in hayro_jbig2.pages(EXAMPLE):
            self.compare(hayro_jbig2.encode(page), page.width, page.height, bytes(page.rows))

    def test_resolution(self):
        for resolution, numbers in (300, (11811, 11811)), ((72, 600.0), (2835, 23622)), (None, (0, 0)), (0, (0, 0)):
            coded = hayro_jbig2.encode(LETTER, 5, 8, resolution=resolution)
            self.assertEqual(struct.unpack(">II", coded[22:30]), numbers)
            self.compare(coded, 5, 8, LETTER)
        for resolution in -1, 2**40, (300, -2), math.nan, math.inf:
            with self.assertRaises(ValueError):
                hayro_jbig2.encode(LETTER, 5, 8, resolution=resolution)

    def test_refused(self):
        for width, height, rows in (0, 8, b""), (8, 0, b""), (65536, 1, bytes(8192)), (1, 65536, bytes(65536)):
            with self.assertRaises(ValueError):
                hayro_jbig2.encode(rows, width, height)
        for rows in b"", bytes(7), bytes(9):
            with self.assertRaises(ValueError):
                hayro_jbig2.encode(rows, 5, 8)
        for template in -1, 4:
            with self.assertRaises(ValueError):
                hayro_jbig2.encode(LETTER, 5, 8, template=template)
        for coding in "huffman", "MMR", None:
            with self.assertRaises(ValueError):
                hayro_jbig2.encode(LETTER, 5, 8, coding=coding)
        for words in (LETTER,), (LETTER, 5), ("text", 5, 8), (LETTER, 5.0, 8), (next(hayro_jbig2.pages(EXAMPLE)), 64, 56):
            with self.assertRaises(TypeError):
                hayro_jbig2.encode(*words)


class Images(unittest.TestCase):
    def setUp(self):
        try:
            from PIL import Image
            from PIL.TiffImagePlugin import IFDRational
        except ImportError:
            self.skipTest("Pillow is not installed")
        self.Image, self.Fraction = Image, IFDRational

    def test_images(self):
        page = hayro_jbig2.decode(EXAMPLE)
        image = page.to_image()
        for picture in image, image.convert("L"):
            again = hayro_jbig2.decode(hayro_jbig2.encode(picture))
            self.assertEqual((again.width, again.height, again.rows), (page.width, page.height, page.rows))

    def test_resolution_of_an_image(self):
        image = self.Image.new("1", (5, 8))
        image.info["dpi"] = (72, 600)
        self.assertEqual(struct.unpack(">II", hayro_jbig2.encode(image)[22:30]), (2835, 23622))
        self.assertEqual(struct.unpack(">II", hayro_jbig2.encode(image, resolution=300)[22:30]), (11811, 11811))

    def test_an_image_may_state_nonsense(self):
        image = self.Image.new("1", (5, 8))
        # Pillow makes such a fraction of a TIFF picture's.
        for dpi in (self.Fraction(1, 0), self.Fraction(0, 0)), (-1, 72), (math.inf, 72), (2**40, 72), 72j, "none":
            image.info["dpi"] = dpi
            self.assertEqual(hayro_jbig2.encode(image)[22:30], bytes(8), dpi)

    def test_a_tiff_picture_may_state_none(self):
        for dpi, numbers in (None, (0, 0)), ((300, 300), (11811, 11811)):
            file = io.BytesIO()
            self.Image.new("1", (5, 8)).save(file, "TIFF", **({"dpi": dpi} if dpi else {}))
            with self.Image.open(file) as image:
                self.assertEqual(struct.unpack(">II", hayro_jbig2.encode(image)[22:30]), numbers)

    def test_others_are_refused(self):
        gray = self.Image.new("L", (5, 8), 1)
        for image in gray, gray.convert("RGB"), gray.convert("P"):
            with self.assertRaises(ValueError):
                hayro_jbig2.encode(image)


class Arrays(unittest.TestCase):
    def setUp(self):
        try:
            import numpy
        except ImportError:
            self.skipTest("numpy is not installed")
        self.numpy = numpy

    def test_arrays(self):
        page = hayro_jbig2.decode(EXAMPLE, page=2)
        array = self.numpy.asarray(page)
        for picture in array, array.astype("uint8"), array.astype("float32"), self.numpy.asfortranarray(array):
            again = hayro_jbig2.decode(hayro_jbig2.encode(picture))
            self.assertEqual((again.width, again.height, again.rows), (page.width, page.height, page.rows))

    def test_others_are_refused(self):
        nested = self.numpy.empty((1, 2), object)
        nested[0, 0], nested[0, 1] = self.numpy.zeros(2), 0
        others = [["0", "1"]], [[b"0", b"1"]], [[None, 1]], [[self.numpy.datetime64(0, "s")] * 2]
        for array in (
            self.numpy.full((2, 2), 255),
            self.numpy.zeros((2, 2, 3), bool),
            self.numpy.zeros(4, bool),
            self.numpy.zeros((2, 2), [("black", bool)]),
            *map(self.numpy.array, others),
            self.numpy.ma.array([[0, 7]], mask=[[False, True]]),
            nested,
        ):
            # Older versions of numpy warn of an object that they can't compare.
            with self.assertRaises(ValueError), warnings.catch_warnings():
                warnings.simplefilter("ignore", DeprecationWarning)
                hayro_jbig2.encode(array)
        for shape in (0, 4), (4, 0), (1, 65536):
            with self.assertRaises(ValueError):
                hayro_jbig2.encode(self.numpy.zeros(shape, bool))


if __name__ == "__main__":
    unittest.main()
