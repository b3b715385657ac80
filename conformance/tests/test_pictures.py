"""Pictures of decoders in one form."""
import time
import unittest

from conformance.runner.pictures import NoPicture, of_numbers, pictures_of, plain

NINE = of_numbers([0b100000001, 0b011111111], 9)


class PicturesTest(unittest.TestCase):
    def test_forms_of_one_picture(self):
        outputs = {
            "as it is": NINE.pbm,
            "comments": b"P4\n# made by hand\n9 # wide\n2\n" + NINE.rows,
            "padding": b"P4 9 2\n\x80\xff\x7f\xff",
            "digits": b"P1\n9 2\n100000001\n0 1 1 1 1 1 1 1 1\n",
            "calls": b"push_pixel true\n" + b"push_pixel false\n" * 7 + b"push_pixel true\nnext_line\n"
            b"push_pixel false\n" + b"push_pixel true\n" * 8 + b"next_line\n",
        }
        for name, output in outputs.items():
            with self.subTest(name):
                self.assertEqual(pictures_of(output), [NINE])

    def test_several_pictures(self):
        self.assertEqual(pictures_of(NINE.pbm + plain(3, 1, 1).pbm), [NINE, plain(3, 1, 1)])
        self.assertEqual(pictures_of(b""), [])

    def test_many_pictures_take_a_time_in_proportion(self):
        began = time.process_time()
        self.assertEqual(len(pictures_of(b"P4\n1 1\n\x80" * 100_000 + b" \n")), 100_000)
        self.assertLess(time.process_time() - began, 10)

    def test_a_row_has_as_many_pixels_as_a_page_at_most(self):
        widest = b"push_pixel_chunk true 8191\n"
        [picture] = pictures_of(widest + b"push_pixel true\n" * 7 + b"next_line\n")
        self.assertEqual(picture, plain(65535, 1, 1))
        with self.assertRaises(NoPicture):
            pictures_of(widest * 100_000 + b"next_line\n")

    def test_chunks(self):
        output = b"push_pixel_chunk true 2\npush_pixel false\nnext_line\n"
        self.assertEqual(pictures_of(output), [of_numbers([(1 << 17) - 2], 17)])

    def test_what_is_no_picture(self):
        pictures = (b"P5\n1 1\n255\n\0", b"P4\n9\n", b"P4\n9 2\n\0", b"P1\n2 2\n101", b"P4\n0 999999\n")
        pictures += (b"P4\n" + b"1" * 5000 + b" 1\n",)
        chunk = b"push_pixel_chunk true "
        calls = (chunk + b"9" * 20 + b"\nnext_line\n", chunk + b"9" * 5000 + b"\n", chunk + b"8192\nnext_line\n", b"next_line\n")
        for output in (*pictures, *calls, b"push_pixel true\n", b"next_line\nx"):
            with self.subTest(output), self.assertRaises(NoPicture):
                pictures_of(output)

    def test_plain_pictures(self):
        self.assertTrue(plain(9, 2, 0).is_plain and plain(9, 2, 1).is_plain)
        self.assertFalse(NINE.is_plain)
        self.assertEqual(plain(9, 1, 1).rows, b"\xff\x80")


if __name__ == "__main__":
    unittest.main()
