"""Pages that are cut off, that refer to what isn't there, or whose faults are forgiven: `Page.is_complete`, and a warning."""

from __future__ import annotations

import copy
import pickle
import unittest
import warnings

import hayro_jbig2
from pages import EXAMPLE, GLOBALS, HEADER, PAGE, TEXT
from testing.error_texts import TEXTS

BOOK = EXAMPLE.read_bytes()
# Regions of one black pixel, numbers 2 to 5.
REGION = "000000%02X 26 00 01 0000001A 00000001 00000001 000000000000000000 00 03FFFDFF02FEFEFE"
REGIONS = b"".join(bytes.fromhex(REGION % number) for number in range(2, 6))
# The text region of TEXT, which refers to number 0 besides: no dictionary.
OTHER_TEXT = TEXT.replace(bytes.fromhex("06 20 01 01"), bytes.fromhex("06 40 00 01 01"))
READINGS = {"lenient": {}, "salvage": {"salvage": True}}
AREA = "00000008 00000001 0000000000000000 00"
# A halftone region of one cell, number 2, by MMR, and its three patterns, number 1.
CELL = (
    "00000001 10 00 01 00000007 00 01 01 00000002"
    f"00000002 16 20 01 01 00000029 {AREA} 01 00000001 00000001" + "00" * 12
)
# Faults that are forgiven: segments, the number of the one that counts, its error, and the row.
FORGIVEN = {
    "MMR data": (f"00000001 26 00 01 00000013 {AREA} 01 26", 1, "InvalidMmrData", b"\0"),
    "MMR data of an intermediate region": (f"00000001 24 00 01 00000013 {AREA} 01 26", 1, "InvalidMmrData", b"\0"),
    "MMR data of patterns": ("00000001 10 00 01 00000008 01 08 01 00000000 26", 1, "InvalidMmrData", b"\0"),
    "a gray value without a pattern": (f"{CELL} 26A880", 2, "GrayScaleOutOfRange", b"\x80"),
    "an id without a symbol": (f"00000002 06 00 01 0000001B {AREA} 0010 00000001 A943FFAC", 2, "OutOfRange", b"\0"),
    "a delta S after the last instance": (
        (GLOBALS + TEXT[30:-2]).hex() + "0000", 2, "TooManyInstances", b"\x80"
    ),
    "an extension": ("00000001 3E 00 01 00000004 80000000", 1, "Unsupported", b"\0"),
    "an extension that is too short": ("00000001 3E 00 01 00000003 800000", 1, "UnexpectedEof", b"\0"),
    "a type that is not listed": ("00000001 3F 00 01 00000000", 1, "UnknownType", b"\0"),
    "an intermediate refinement of no region": (f"00000001 28 00 01 00000012 {AREA} 01", 1, "InvalidReference", b"\0"),
}


class Incomplete(unittest.TestCase):
    def decoded(self, data, **how):
        """The page of data that is incomplete, with its warning."""
        with self.assertWarns(hayro_jbig2.IncompletePageWarning) as caught:
            page = hayro_jbig2.decode(data, **how)
        self.assertEqual(caught.filename, __file__)
        self.assertFalse(page.is_complete)
        self.assertEqual(str(caught.warning), f"page {page.number} is incomplete: {page.passed_over}")
        self.assertNotIn("4294967295", str(caught.warning))
        with warnings.catch_warnings():
            warnings.simplefilter("error")
            self.assertEqual(hayro_jbig2.decode(data, **how, warn=False), page)
        with self.assertRaises(hayro_jbig2.DecodeError):
            hayro_jbig2.decode(data, **{**how, "salvage": False}, strict=True)
        return page

    def setUp(self):
        warnings.simplefilter("error")
        self.addCleanup(warnings.resetwarnings)

    def test_each_cut(self):
        data = PAGE.read_bytes() + REGIONS
        for name, how in READINGS.items():
            self.assertTrue(hayro_jbig2.decode(data, **how).is_complete)
            for cut, segment, row in (len(data) // 3, 2, b"\0"), (len(data) // 2, 3, b"\x80"), (-1, 5, b"\x80"):
                with self.subTest(reading=name, cut=cut):
                    page = self.decoded(data[:cut], **how)
                    first = page.passed_over.first
                    self.assertEqual((page.passed_over.count, first.segment_number), (1, segment))
                    self.assertEqual((page.rows, first.error.variant), (row, "UnexpectedEof"))
                    self.assertEqual(page.left_out.cut_off.segment_number, segment)

    def test_a_cut_within_a_number(self):
        for how in READINGS.values():
            page = self.decoded(TEXT + b"\0\0\0", globals=GLOBALS, **how)
            self.assertEqual((page.rows, page.passed_over.count), (b"\x80", 1))
            self.assertIsNone(page.passed_over.first.segment_number)
            self.assertEqual(page.lacks, [TEXTS["Parse(UnexpectedEof)"]])
            for end in b"\n", b"\r\n":
                page = hayro_jbig2.decode(TEXT + end, globals=GLOBALS + end, **how)
                self.assertEqual((page.rows, page.left_out.cut_off), (b"\x80", None))
                self.assertTrue(page.is_complete)

    def test_globals_that_end_within_a_number(self):
        """The last byte of the page's data is the end of a line, and stays."""
        stream = PAGE.read_bytes() + bytes.fromhex(REGION % 2).replace(b"\0\0\0\x1a", b"\0\0\0\x1b", 1) + b"\n"
        for how in READINGS.values():
            page = hayro_jbig2.decode(stream, globals=GLOBALS + b"\0\0\0", **how)
            self.assertEqual((page, page.is_complete), (hayro_jbig2.decode(stream), True))
            self.assertIsNone(page.left_out.cut_off.segment_number)

    def test_symbols_that_are_not_there(self):
        for how in READINGS.values():
            page = self.decoded(TEXT, **how)
            self.assertEqual((page.rows, page.passed_over.first.segment_number), (b"\0", 2))
            page = self.decoded(OTHER_TEXT, globals=GLOBALS, **how)
            self.assertEqual((page.rows, page.passed_over.count), (b"\x80", 1))
            self.assertEqual(page.passed_over.first.error.variant, "InvalidReference")
            for other in pickle.loads(pickle.dumps(page)), copy.deepcopy(page):
                self.assertEqual((other, other.lacks), (page, page.lacks))

    def test_globals_that_are_cut_off(self):
        """The page lacks something where it refers to the dictionary that is cut off, and not where that is another."""
        other = bytes.fromhex("00000007") + GLOBALS[4:-1]
        for how in READINGS.values():
            page = hayro_jbig2.decode(TEXT, globals=GLOBALS + other, **how)
            self.assertEqual((page.rows, page.is_complete), (b"\x80", True))
            self.assertEqual(page.left_out.cut_off.segment_number, 7)
            page = self.decoded(TEXT, globals=GLOBALS[:-1], **how)
            self.assertEqual((page.rows, page.passed_over.first.segment_number), (b"\0", 2))
            self.assertEqual(page.left_out.cut_off.segment_number, 1)

    def test_globals_that_lack_something(self):
        """A dictionary that refers to number 0, which isn't there: the page finds it, and its symbols may be others."""
        lacking = GLOBALS.replace(bytes.fromhex("00000001 00 00"), bytes.fromhex("00000001 00 20 00"), 1)
        for how in READINGS.values():
            shared = hayro_jbig2.Globals(lacking, **how)
            self.assertEqual(shared.left_out.passed_over.first.error.variant, "InvalidReference")
            page = hayro_jbig2.decode(TEXT, globals=shared, **how, warn=False)
            self.assertEqual((page.passed_over.count, page.is_complete), (0, False))
            self.assertEqual(page.lacks, [f"what pages share: segment 1: {TEXTS['Segment(InvalidReference)']}"])

    def test_what_is_forgiven_counts(self):
        end = bytes.fromhex("00000009 31 00 01 00000000")
        for name, (segments, number, variant, row) in FORGIVEN.items():
            stream = PAGE.read_bytes() + bytes.fromhex(segments)
            for reading, how in READINGS.items():
                for data in stream, HEADER + stream + end:
                    with self.subTest(name, reading=reading):
                        page = self.decoded(data, **how)
                        first = page.passed_over.first
                        self.assertEqual((page.rows, page.passed_over.count, first.segment_number), (row, 1, number))
                        self.assertEqual((first.error.variant, page.left_out.cut_off), (variant, None))

    def test_what_is_forgiven_counts_once_and_in_order(self):
        """A region that fails, one whose fault is forgiven, and one that is cut off."""
        bad = bytes.fromhex(REGION % 2).replace(b"\0\x03\xff\xfd", b"\0\x03\0\xfd")
        forgiven = bytes.fromhex(FORGIVEN["MMR data"][0])
        for how in READINGS.values():
            page = self.decoded(PAGE.read_bytes() + forgiven + bad + bytes.fromhex(REGION % 3)[:-1], **how)
            self.assertEqual((page.passed_over.count, page.passed_over.first.segment_number), (3, 1))
            self.assertEqual(page.passed_over.first.error.variant, "InvalidMmrData")

    def test_what_is_forgiven_of_globals(self):
        more = bytes.fromhex("00000003 3E 00 00 00000004 80000000")
        for how in READINGS.values():
            page = hayro_jbig2.decode(TEXT, globals=GLOBALS + more, **how, warn=False)
            self.assertEqual((page.rows, page.passed_over.count, page.is_complete), (b"\x80", 0, False))
            self.assertEqual(page.lacks, [f"what pages share: segment 3: {TEXTS['Unsupported']}"])

    def test_two_faults_of_one_kind_are_two(self):
        """A dictionary that lacks something, and a list that ends with the same error, in salvage."""
        lacking = GLOBALS.replace(bytes.fromhex("00000001 00 00 01"), bytes.fromhex("00000001 00 20 00 00"), 1)
        end = bytes.fromhex("00000004 31 00 01 00000000")
        segments = TEXT[:30] + lacking + TEXT[30:] + end + b" " * 16
        shared = hayro_jbig2.Globals(lacking + b" " * 16, salvage=True)
        for page in (
            hayro_jbig2.decode(TEXT, globals=shared, salvage=True, warn=False),
            hayro_jbig2.decode(HEADER + segments, salvage=True, warn=False),
            hayro_jbig2.decode(HEADER[:8] + b"\3" + segments, salvage=True, warn=False),
        ):
            self.assertEqual((page.passed_over.count, page.rows, page.is_complete), (0, b"\x80", False))
            self.assertEqual(page.lacks, [f"what pages share: segment 1: {TEXTS['Segment(InvalidReference)']}"])
            cut_off = page.left_out.cut_off
            self.assertEqual((cut_off.segment_number, cut_off.error.variant), (0x20202020, "InvalidReference"))

    def test_a_file_whose_second_page_is_cut_off(self):
        data = BOOK[: BOOK.index(bytes.fromhex("31 00 02 00000000")) - 5]
        for how in READINGS.values():
            first = hayro_jbig2.decode(data, **how)
            self.assertEqual((first, first.is_complete), (hayro_jbig2.decode(BOOK), True))
            second = self.decoded(data, page=1, **how)
            self.assertEqual(second.passed_over.count, 1)
            self.assertEqual(second.passed_over.first.segment_number, second.left_out.cut_off.segment_number)
            drawn = hayro_jbig2.pages(data, **how)
            self.assertEqual(next(drawn), first)
            with self.assertWarns(hayro_jbig2.IncompletePageWarning) as caught:
                next(drawn)
            self.assertEqual(caught.filename, __file__)

    def test_an_error_says_where_its_file_ends_early(self):
        """The page information is cut off, so there is no page that could say it."""
        for how in READINGS.values():
            with self.assertRaises(hayro_jbig2.NoSuchPage) as caught:
                hayro_jbig2.decode(HEADER + PAGE.read_bytes()[:-1], **how)
            cut_off = caught.exception.cut_off
            self.assertEqual((cut_off.segment_number, cut_off.error.variant), (0, "UnexpectedEof"))
            self.assertEqual(pickle.loads(pickle.dumps(caught.exception)).cut_off, cut_off)
            with self.assertRaises(hayro_jbig2.NoSuchPage) as caught:
                hayro_jbig2.decode(BOOK, page=3, **how)
            self.assertIsNone(caught.exception.cut_off)

    def test_a_whole_file_has_no_warning(self):
        for page in hayro_jbig2.pages(BOOK):
            self.assertEqual((page.is_complete, page.lacks, page.left_out.texts), (True, [], []))


if __name__ == "__main__":
    unittest.main()
