"""The package on the example of T.88 H.1, on worked rows and on made-up files."""

from __future__ import annotations

import os
import pathlib
import re
import threading
import unittest

import hayro_jbig2
from hayro_jbig2 import errors
from pages import EXAMPLE, GLOBALS, PAGE, PROGRAM, ROOT, TEXT, generic_page, run_program
from testing.error_texts import TEXTS

BOOK = EXAMPLE.read_bytes()


class Pages(unittest.TestCase):
    def test_the_pages_of_the_standard(self):
        for strict in False, True:
            drawn = list(hayro_jbig2.pages(BOOK, strict=strict))
            known = [(page.number, page.width, page.height) for page in drawn]
            self.assertEqual(known, [(1, 64, 56), (2, 64, 56), (3, 37, 8)])
            self.assertEqual(hayro_jbig2.sizes(BOOK, strict=strict), known)
            self.assertEqual(drawn[0].rows, drawn[1].rows)
            self.assertEqual(drawn[0].rows[8:16].hex(), "07878f0f0f000000")
            third = "7878f0f0f0 8404880908 807c88f900 8084890900 8484f10908 787c80f8f0 0000800000 0000800000"
            self.assertEqual(drawn[2].rows.hex(" ", 5), third)
            for index, page in enumerate(drawn):
                self.assertEqual(hayro_jbig2.decode(BOOK, page=index, strict=strict), page)

    def test_a_page_is_a_buffer_without_a_copy(self):
        page = hayro_jbig2.decode(BOOK, page=2)
        self.assertEqual(page.row_bytes, 5)
        self.assertEqual(len(page.rows), 40)
        self.assertTrue(page.rows.readonly and page.rows.c_contiguous)
        self.assertEqual(page.to_pbm(), b"P4\n37 8\n" + bytes(page.rows))
        self.assertEqual(repr(page), "Page(number=3, width=37, height=8)")

    def test_globals(self):
        shared = hayro_jbig2.Globals(GLOBALS)
        for globals in GLOBALS, memoryview(GLOBALS), shared, shared:
            page = hayro_jbig2.decode(TEXT, globals=globals)
            self.assertEqual((page.width, page.height, bytes(page.rows)), (8, 1, b"\x80"))
        page = hayro_jbig2.decode(PAGE.read_bytes(), globals=b"")
        self.assertEqual((page.number, page.to_pbm()), (1, b"P4\n8 1\n\0"))
        self.assertEqual(hayro_jbig2.sizes(TEXT), [(1, 8, 1)])

    def test_what_was_passed_over_is_reported(self):
        self.assertEqual(hayro_jbig2.decode(TEXT, globals=GLOBALS).passed_over, hayro_jbig2.PassedOver(0, None))
        # Row R2.1: the region, segment 1, has no operator.
        stream = bytes.fromhex(
            "00000000 30 00 01 00000013 00000008 00000001" + "00" * 11 + "00000001 26 00 01 0000001A"
            "00000001 00000001 0000000000000000 05 00 03FFFDFF02FEFEFE"
        )
        passed = hayro_jbig2.decode(stream, warn=False).passed_over
        self.assertEqual((passed.count, passed.first.segment_number), (1, 1))
        self.assertEqual(passed.first.error.variant, "InvalidCombinationOperator")
        with self.assertRaises(hayro_jbig2.RegionError):
            hayro_jbig2.decode(stream, strict=True)

    def test_salvage_draws_what_is_left(self):
        # A dictionary that wants a table which isn't there, and a header that refers to its own number.
        bad = bytes.fromhex("00000001 00 00 01 0000000F 0009 00000001 00000001 5F80800040")
        junk = b" " * 16
        # A region with one black pixel.
        region = bytes.fromhex("00000002 26 00 01 0000001A 00000001 00000001 000000000000000000 00 03FFFDFF02FEFEFE")
        data = PAGE.read_bytes()
        with self.assertRaises(hayro_jbig2.HuffmanError):
            hayro_jbig2.decode(data + bad + region)
        page = hayro_jbig2.decode(data + bad + region + junk, salvage=True, warn=False)
        self.assertEqual(page.rows, b"\x80")
        # The one at which the list ends counts too.
        self.assertEqual((page.passed_over.count, page.passed_over.first.segment_number), (2, 1))
        self.assertEqual(page.passed_over.first.error.variant, "InvalidSelection")
        cut_off = page.left_out.cut_off
        self.assertEqual((cut_off.segment_number, cut_off.error.variant), (0x20202020, "InvalidReference"))
        page = hayro_jbig2.decode(data[:15] + b"\xff" * 4 + data[19:] + region, salvage=True)
        self.assertEqual((page.height, page.rows), (1, b"\x80"))
        with self.assertRaises(hayro_jbig2.FormatError):
            hayro_jbig2.decode(b"", salvage=True)

    def test_salvage_keeps_of_globals_what_it_can(self):
        with self.assertRaises(hayro_jbig2.SegmentError):
            hayro_jbig2.Globals(GLOBALS + b" " * 16)
        shared = hayro_jbig2.Globals(GLOBALS + b" " * 16, salvage=True)
        self.assertEqual(shared.left_out.cut_off.error.variant, "InvalidReference")
        page = hayro_jbig2.decode(TEXT, globals=shared)
        self.assertEqual((page.rows, page.left_out, page.is_complete), (b"\x80", shared.left_out, True))
        page = hayro_jbig2.decode(TEXT, globals=b" " * 16, salvage=True, warn=False)
        self.assertEqual((page.rows, page.passed_over.count), (b"\0", 1))

    def test_salvage_leaves_out_pages_of_a_file(self):
        # The second page has no width, and a third one no information.
        empty = bytes.fromhex("00000000 30 00 02 00000013 00000000 00000001" + "00" * 11)
        end = bytes.fromhex("00000001 31 00 03 00000000")
        data = bytes.fromhex("974A42320D0A1A0A 03") + PAGE.read_bytes() + empty + end
        with self.assertRaises(hayro_jbig2.FormatError):
            hayro_jbig2.sizes(data)
        self.assertEqual(hayro_jbig2.sizes(data, salvage=True), [(1, 8, 1)])
        [page] = hayro_jbig2.pages(data, salvage=True)
        self.assertEqual((page.left_out.pages, page.left_out.first_page.variant), (2, "EmptyPage"))

    def test_a_page_that_fails_has_its_own_error(self):
        """Also where salvage leaves it out, as where its stream is embedded. A file that names no page has no such page."""
        information = "00000000 30 00 01 00000013 0000000%d 0000000%d" + "00" * 11
        end = "00000001 31 00 01 00000000"
        for segments, of_file, embedded in (
            ("", ["NoSuchPage"] * 3, ["MissingPageInfo"] * 3),
            (end, ["MissingPageInfo"] * 3, ["MissingPageInfo"] * 3),
            (information % (0, 1) + end, ["EmptyPage"] * 3, ["EmptyPage"] * 3),
            (information % (8, 0) + end, ["EmptyPage"] * 3, ["EmptyPage"] * 3),
            (
                (information % (8, 1))[:-2],
                ["UnexpectedEof", "NoSuchPage", "NoSuchPage"],
                ["UnexpectedEof", "MissingPageInfo", "MissingPageInfo"],
            ),
        ):
            stream = bytes.fromhex(segments)
            for data, meant in (bytes.fromhex("974A42320D0A1A0A 03") + stream, of_file), (stream, embedded):
                for how, variant in zip(({"strict": True}, {}, {"salvage": True}), meant):
                    with self.subTest(data=data, how=how):
                        with self.assertRaises(hayro_jbig2.Jbig2Error) as caught:
                            hayro_jbig2.decode(data, **how)
                        self.assertEqual(caught.exception.variant, variant)
                        if meant is of_file:
                            with self.assertRaises(hayro_jbig2.Jbig2Error) as caught:
                                list(hayro_jbig2.pages(data, **how))
                            self.assertEqual(caught.exception.variant, variant)

    def test_salvage_changes_nothing_of_whole_data(self):
        nothing = hayro_jbig2.LeftOut(hayro_jbig2.PassedOver(0, None), 0, None, None)
        for page, lenient in zip(hayro_jbig2.pages(BOOK, salvage=True), hayro_jbig2.pages(BOOK)):
            self.assertEqual(page, lenient)
            self.assertEqual((page.left_out, page.passed_over.count), (nothing, 0))
            self.assertEqual(lenient.left_out, nothing)
        with self.assertRaises(ValueError):
            hayro_jbig2.decode(BOOK, strict=True, salvage=True)


class Errors(unittest.TestCase):
    def test_each_fault_has_its_name(self):
        with self.assertRaises(hayro_jbig2.FormatError) as caught:
            hayro_jbig2.decode(b"")
        self.assertIsInstance(caught.exception, hayro_jbig2.DecodeError)
        self.assertEqual((caught.exception.variant, caught.exception.number), ("MissingPageInfo", 4))
        # A file that was handled as text.
        with self.assertRaises(hayro_jbig2.FormatError) as caught:
            hayro_jbig2.decode(BOOK.replace(b"\r\n", b"\n"))
        self.assertEqual(caught.exception.variant, "InvalidHeader")
        with self.assertRaises(hayro_jbig2.ParseError) as caught:
            hayro_jbig2.decode(BOOK[:9], page=0)
        self.assertEqual(caught.exception.variant, "UnexpectedEof")
        self.assertEqual(str(caught.exception), TEXTS["Parse(UnexpectedEof)"])
        with self.assertRaises(hayro_jbig2.SegmentError) as caught:
            hayro_jbig2.decode(TEXT, globals=bytes.fromhex("00000002 00 20 02"))
        self.assertEqual(caught.exception.variant, "InvalidReference")
        with self.assertRaises(hayro_jbig2.ParseError):
            hayro_jbig2.pages(BOOK[:9])

    def test_a_page_that_is_not_there(self):
        for index in 3, -1, 2**64:
            with self.assertRaises(IndexError) as caught:
                hayro_jbig2.decode(BOOK, page=index)
            self.assertIsInstance(caught.exception, hayro_jbig2.NoSuchPage)
            self.assertEqual(str(caught.exception), "no such page")
        with self.assertRaises(hayro_jbig2.NoSuchPage):
            hayro_jbig2.decode(TEXT, globals=GLOBALS, page=1)

    def test_numbers_and_names_are_those_of_the_header(self):
        header = (ROOT / "bindings" / "c" / "hayro_jbig2.h").read_text(encoding="utf-8")
        numbers = {name: int(number) for name, number in re.findall(r"HAYRO_JBIG2_(\w+) = (\d+)", header)}
        for number in range(1, 42):
            error = errors.error_of(number, "")
            kind = type(error).__name__.removesuffix("Error")
            names = [error.variant] if kind == error.variant else [kind, error.variant]
            name = "_".join(re.sub(r"(?<=[a-z])(?=[A-Z])", "_", name).upper() for name in names)
            self.assertEqual(numbers[name], number)
        self.assertEqual(numbers["NO_SUCH_PAGE"], 101)

    def test_want_of_memory_is_a_memory_error(self):
        self.assertIsInstance(errors.error_of(41, ""), MemoryError)


class Threads(unittest.TestCase):
    def test_others_run_while_a_page_is_decoded(self):
        thread = threading.Thread(target=hayro_jbig2.decode, args=(generic_page(4096, 4096),))
        turns = 0
        thread.start()
        while thread.is_alive():
            turns += 1
        self.assertGreater(turns, 1000)

    def test_globals_serve_several_threads(self):
        shared = hayro_jbig2.Globals(GLOBALS)
        wrong = []

        def decode():
            for _ in range(100):
                if bytes(hayro_jbig2.decode(TEXT, globals=shared).rows) != b"\x80":
                    wrong.append(1)

        threads = [threading.Thread(target=decode) for _ in range(4)]
        for thread in threads:
            thread.start()
        for thread in threads:
            thread.join()
        self.assertEqual(wrong, [])


@unittest.skipUnless(PROGRAM and "JBIG2_CORPUS" in os.environ, "JBIG2_DECODE or JBIG2_CORPUS is not set")
class Corpus(unittest.TestCase):
    def test_each_picture_is_that_of_the_program(self):
        files = sorted(pathlib.Path(os.environ["JBIG2_CORPUS"]).glob("*.jb2"))
        self.assertGreaterEqual(len(files), 100)
        for path in files:
            for words in (), ("--strict",):
                self.compare(path, words)

    def compare(self, path, words):
        data, strict = path.read_bytes(), bool(words)
        status, listed, message = run_program(*words, "pages", str(path))
        try:
            sizes = hayro_jbig2.sizes(data, strict=strict)
        except hayro_jbig2.Jbig2Error as error:
            self.assertEqual((status, message), (1, f"error: {error}\n"))
            return
        self.assertEqual((status, listed.decode()), (0, "".join("%d %d %d\n" % size for size in sizes)))
        for index in range(len(sizes)):
            status, pbm, message = run_program(*words, "pbm", str(path), str(index))
            try:
                drawn = hayro_jbig2.decode(data, page=index, strict=strict, warn=False).to_pbm()
                self.assertEqual((status, pbm), (0, drawn), path)
            except hayro_jbig2.DecodeError as error:
                self.assertEqual((status, message), (1, f"error: {error}\n"), path)


if __name__ == "__main__":
    unittest.main()
