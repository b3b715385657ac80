"""What lenient reading and salvage forgive counts, by the model: what strict reading refuses a segment for."""
import unittest

from testing.comparison.model import salvage
from testing.comparison.model.answers import Fault, Refused
from testing.comparison.model.page import read_embedded, read_file
from testing.jbig2_encoder.framing import HEADER, page_information, region_information, segment

AREA = region_information(8, 1)
PAGE = segment(0, 48, page_information(8, 1))
END = segment(9, 49, b"")
# An immediate generic region without coded bytes; by MMR one with a fault.
REGION = segment(1, 38, AREA + bytes.fromhex("00 03FFFDFF02FEFEFE"))
MMR = AREA + bytes.fromhex("01 26")
# A symbol dictionary of prefix codes, and the same with MMR data that has a fault.
SYMBOL = bytes.fromhex("0001 00000001 00000001 5F80800040")
MMR_SYMBOL = bytes.fromhex("0001 00000001 00000001 5F84 00 0040")
THREE_PATTERNS = segment(1, 16, bytes.fromhex("00 01 01 00000002"))
CELL = AREA + bytes.fromhex("01 00000001 00000001") + bytes(12)
# Text regions of one instance: by the coder, and by prefix codes; the second has another delta S after it.
TEXT = AREA + bytes.fromhex("0010 00000001 A943FFAC")
TOO_LONG_TEXT = AREA + bytes.fromhex("0011 0000 00000001 01") + bytes(17) + b"\0\0"
EXTENSION = segment(1, 62, bytes.fromhex("80000000"))
# What is forgiven: the segments, the number of the one that counts, and the fault.
FORGIVEN = {
    "MMR data of a region": (segment(1, 38, MMR), 1, Fault.INVALID_MMR_DATA),
    "of an intermediate region": (segment(1, 36, MMR), 1, Fault.INVALID_MMR_DATA),
    "of patterns": (segment(1, 16, bytes.fromhex("01 08 01 00000000 26")), 1, Fault.INVALID_MMR_DATA),
    "of symbols": (segment(1, 0, MMR_SYMBOL), 1, Fault.INVALID_MMR_DATA),
    "of cells": (THREE_PATTERNS + segment(2, 22, CELL + b"\x26\xa8", (1,)), 2, Fault.INVALID_MMR_DATA),
    "gray value": (THREE_PATTERNS + segment(2, 22, CELL + b"\x26\xa8\x80", (1,)), 2, Fault.GRAY_SCALE_OUT_OF_RANGE),
    "id": (segment(2, 6, TEXT), 2, Fault.SYMBOL_OUT_OF_RANGE),
    "delta S": (segment(1, 0, SYMBOL) + segment(2, 6, TOO_LONG_TEXT, (1,)), 2, Fault.TOO_MANY_INSTANCES),
    "extension": (EXTENSION, 1, Fault.UNSUPPORTED),
    "short extension": (segment(1, 62, bytes(3)), 1, Fault.UNEXPECTED_EOF),
    "unknown type": (segment(1, 63, b""), 1, Fault.UNKNOWN_TYPE),
    "refinement of nothing": (segment(1, 40, AREA + b"\1"), 1, Fault.INVALID_REFERENCE),
    "number": (segment(1, 42, AREA + b"\1", (0,)), 1, Fault.INVALID_REFERENCE),
}


def read(stream, shared=None):
    """An embedded page by both readings."""
    return [read_embedded(shared, stream, False), salvage.embedded_page(shared, stream)]


class CountsTest(unittest.TestCase):
    def refused(self, reading, *words):
        with self.assertRaises(Refused) as refused:
            reading(*words)
        return refused.exception.fault

    def test_what_is_forgiven_counts(self):
        for name, (segments, number, fault) in FORGIVEN.items():
            with self.subTest(name):
                self.assertIs(self.refused(read_embedded, None, PAGE + segments, True), fault)
                pages = read(PAGE + segments) + read(PAGE + segments + END + segment(10, 63, b""))
                self.assertEqual([page.lacks for page in pages], [[(number, fault)]] * 4)
                self.assertEqual({page.bitmap.packed() for page in pages}, {pages[0].bitmap.packed()})

    def test_of_globals(self):
        for name in ("of patterns", "of symbols", "extension", "short extension", "unknown type"):
            segments, number, fault = FORGIVEN[name]
            with self.subTest(name):
                self.assertIs(self.refused(read_embedded, segments, PAGE, True), fault)
                pages = read(PAGE, segments)
                self.assertEqual([(page.lacks, page.shared_lacks) for page in pages], [([], [(number, fault)])] * 2)

    def test_each_counts_once_in_order(self):
        bad = AREA[:16] + b"\5"
        stream = PAGE + EXTENSION + segment(2, 38, bad + MMR[17:]) + segment(3, 38, MMR) + segment(4, 6, TEXT, (0, 0))
        lacks = [
            (1, Fault.UNSUPPORTED), (2, Fault.INVALID_COMBINATION_OPERATOR), (3, Fault.INVALID_MMR_DATA),
            (4, Fault.INVALID_REFERENCE),
        ]
        cut = [(5, Fault.UNEXPECTED_EOF)]
        self.assertEqual([page.lacks for page in read(stream)], [lacks] * 2)
        self.assertEqual([page.lacks for page in read(stream + segment(5, 38, MMR)[:-1])], [lacks + cut] * 2)

    def test_the_lenient_fault_is_that_of_what_is_passed_over(self):
        """Strict reading refuses the text region for its number, and lenient reading for its operator."""
        bad = segment(2, 6, AREA[:16] + b"\5" + TEXT[17:], (0,))
        self.assertEqual([page.lacks for page in read(PAGE + bad)], [[(2, Fault.INVALID_COMBINATION_OPERATOR)]] * 2)
        # A dictionary is passed over in salvage alone.
        bad = segment(1, 0, b"\0\x09" + SYMBOL[2:], (0,))
        self.assertEqual(salvage.embedded_page(None, PAGE + bad).lacks, [(1, Fault.INVALID_SELECTION)])
        self.assertIs(self.refused(read_embedded, None, PAGE + bad, False), Fault.INVALID_SELECTION)

    def test_what_does_not_count(self):
        """Sound segments; those after the end of a page; an unknown length of another type than 38; and of a file a wrong
        count of pages, a page with two ends, and a region of page 0."""
        unknown = REGION[:4] + b"\x27" + REGION[5:7] + b"\xff" * 4 + REGION[11:] + bytes.fromhex("FFAC 00000001")
        for stream in PAGE + REGION, PAGE + END + segment(10, 38, MMR), PAGE + unknown:
            self.assertEqual([page.lacks for page in read(stream)], [[], []])
        region = segment(1, 38, MMR, page=0)
        data = HEADER[:9] + bytes.fromhex("00000007") + PAGE + region + END + segment(10, 49, b"")
        self.assertIs(self.refused(read_file, data, 0, True), Fault.MISSING_PAGE_ASSOCIATION)
        for page in read_file(data, 0, False), salvage.page_of_file(data, 0):
            self.assertEqual((page.lacks, page.shared_lacks), ([], []))

    def test_a_segment_of_no_page(self):
        data = HEADER + PAGE + segment(1, 62, b"\x80" + bytes(3), page=0) + END
        for page in read_file(data, 0, False), salvage.page_of_file(data, 0):
            self.assertEqual((page.lacks, page.shared_lacks), ([], [(1, Fault.UNSUPPORTED)]))


if __name__ == "__main__":
    unittest.main()
