"""Headers of segments and files as bytes, documents, and pictures."""
import unittest

from conformance.runner.segments import segments_of_file
from testing.jbig2_encoder import fields
from testing.jbig2_encoder.bitmap import Bitmap
from testing.jbig2_encoder.document import Document
from testing.jbig2_encoder.framing import EXTENSION, page_information, segment_header
from testing.jbig2_encoder.pictures import pbm, pixels


class FramingTest(unittest.TestCase):
    def test_example_headers_of_the_standard(self):
        """The two examples of 7.2.8, but for their flags of retention."""
        header = segment_header(32, 6, 16, (2, 30, 5), page=4)
        self.assertEqual(header, bytes.fromhex("00000020 06 60 021E05 04 00000010"))
        header = segment_header(564, 0, 32, (256, 2, 30, 5, 512, 513, 514, 515, 516), page=1025)
        numbers = "0100 0002 001E 0005 0200 0201 0202 0203 0204"
        self.assertEqual(header, bytes.fromhex("00000234 40 E0000009 0000" + numbers + "00000401 00000020"))

    def test_a_field_may_be_changed(self):
        seen = []

        def change(name, value, bits):
            seen.append((name, value, bits))
            return 7 if name == "page width" else value

        with fields.changed_by(change):
            self.assertEqual(page_information(8, 1)[:4], b"\0\0\0\7")
        self.assertIn(("striping", 0, 16), seen)
        self.assertEqual(page_information(8, 1)[:4], b"\0\0\0\x08")

    def test_pictures(self):
        bitmap = Bitmap(9, 2)
        bitmap.rows[1][8] = 1
        self.assertEqual(pbm(bitmap), b"P4\n9 2\n\0\0\0\x80")
        self.assertEqual(pixels(pbm(bitmap)), (9, 2, [0, 1]))
        self.assertNotEqual(pixels(pbm(Bitmap(9, 2))), pixels(pbm(Bitmap(10, 2))))
        for length in 1, 2, 3:
            self.assertNotEqual(pixels(pbm(Bitmap(9, 2))), pixels(pbm(Bitmap(9, 2))[:-length]))


class DocumentTest(unittest.TestCase):
    def test_flags_of_retention_follow_from_later_references(self):
        document = Document()
        page = document.start_page(8, 1)
        first = page.put(EXTENSION, b"")
        page.put(EXTENSION, b"", [first])
        page.put(EXTENSION, b"", [first])
        counts = [part.beginning[5] for part in segments_of_file(document.sequential())]
        self.assertEqual(counts, [0x00, 0x01, 0x22, 0x20])

    def test_every_header_field_has_a_name(self):
        names = []
        with fields.changed_by(lambda name, value, bits: names.append(name) or value):
            document = Document()
            document.start_page(8, 1).end()
            document.sequential()
        self.assertEqual(names[:3], ["page width", "page height", "horizontal resolution"])
        self.assertEqual(names.count("segment number"), 2)


if __name__ == "__main__":
    unittest.main()
