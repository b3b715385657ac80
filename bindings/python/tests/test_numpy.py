"""Pages as arrays of numpy."""

from __future__ import annotations

import unittest

import numpy

import hayro_jbig2
from pages import EXAMPLE


class Arrays(unittest.TestCase):
    def test_a_page_is_an_array(self):
        for page in hayro_jbig2.pages(EXAMPLE):
            array = numpy.asarray(page)
            self.assertEqual((array.shape, array.dtype), ((page.height, page.width), numpy.bool_))
            self.assertEqual(numpy.packbits(array, axis=1).tobytes(), bytes(page.rows))
            # Its own memory, of a byte for each pixel.
            array[0, 0] = not array[0, 0]
            self.assertEqual(page, hayro_jbig2.decode(EXAMPLE, page=page.number - 1))

    def test_black_is_true(self):
        array = numpy.asarray(hayro_jbig2.decode(EXAMPLE, page=2))
        self.assertEqual(array[0, :8].tolist(), [False, True, True, True, True, False, False, False])
        self.assertEqual(array[:, 36].tolist(), [False, True, False, False, True, False, False, False])

    def test_other_types(self):
        page = hayro_jbig2.decode(EXAMPLE, page=2)
        for kind in numpy.uint8, numpy.int64, numpy.float32:
            array = numpy.asarray(page, dtype=kind)
            self.assertEqual((array.dtype, int(array.sum())), (numpy.dtype(kind), 83))
        self.assertEqual(numpy.array(page, copy=True).shape, (8, 37))
        with self.assertRaises(ValueError):
            page.__array__(copy=False)


if __name__ == "__main__":
    unittest.main()
