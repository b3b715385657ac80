"""python -m hayro_jbig2."""

from __future__ import annotations

import contextlib
import io
import os
import pathlib
import subprocess
import sys
import tempfile
import tracemalloc
import unittest
import zlib
from unittest import mock

import hayro_jbig2
from hayro_jbig2 import __main__ as command
from hayro_jbig2 import _library
from pages import EXAMPLE, GLOBALS, HEADER, PAGE, TEXT
from test_limits import WIDE
from testing.error_texts import TEXTS

BOOK = EXAMPLE.read_bytes()
PNG = b"\x89PNG\r\n\x1a\n"
END, EMPTY_PAGE = TEXTS["Parse(UnexpectedEof)"], TEXTS["Format(EmptyPage)"]
INVALID_REFERENCE, INVALID_SELECTION = TEXTS["Segment(InvalidReference)"], TEXTS["Huffman(InvalidSelection)"]


def rows_of_png(data):
    """Width, height and packed rows of a PNG file as this package writes it, 1 for black."""
    assert data.startswith(PNG)
    chunks, place = {}, len(PNG)
    while place < len(data):
        length, name = int.from_bytes(data[place : place + 4], "big"), data[place + 4 : place + 8]
        content = data[place + 8 : place + 8 + length]
        place += length + 12
        assert data[place - 4 : place] == zlib.crc32(name + content).to_bytes(4, "big")
        chunks[name] = content
    assert list(chunks) == [b"IHDR", b"IDAT", b"IEND"]
    width, height, form = (int.from_bytes(chunks[b"IHDR"][at : at + 4], "big") for at in (0, 4, 8))
    assert (form, chunks[b"IHDR"][12:]) == (1 << 24, b"\0"), chunks
    lines, length = zlib.decompress(chunks[b"IDAT"]), (width + 7) // 8 + 1
    assert len(lines) == length * height and not any(lines[::length])
    starts = range(1, len(lines), length)
    rows = b"".join(lines[start : start + length - 1] for start in starts)
    return width, height, bytes(255 - byte for byte in rows)


class Command(unittest.TestCase):
    def setUp(self):
        folder = tempfile.TemporaryDirectory()
        self.addCleanup(folder.cleanup)
        self.addCleanup(os.chdir, os.getcwd())
        self.folder = pathlib.Path(folder.name)
        os.chdir(self.folder)
        for name, content in ("text", TEXT), ("globals", GLOBALS), ("wide", WIDE), ("pdf", b"%PDF-1.7\n"):
            (self.folder / name).write_bytes(content)

    def run_command(self, *words, data=b""):
        """Status, output and messages."""
        output, messages = io.StringIO(), io.StringIO()
        with contextlib.ExitStack() as stack:
            stack.enter_context(mock.patch.object(sys, "argv", ["hayro_jbig2", *map(str, words)]))
            stack.enter_context(mock.patch.object(sys, "stdin", io.TextIOWrapper(io.BytesIO(data))))
            stack.enter_context(contextlib.redirect_stdout(output))
            stack.enter_context(contextlib.redirect_stderr(messages))
            try:
                status = command.main()
            except SystemExit as end:
                status = end.code
        return status, output.getvalue(), messages.getvalue()

    def test_a_closed_standard_input_is_told(self):
        with mock.patch.object(sys, "stdin", None), contextlib.redirect_stderr(io.StringIO()) as said:
            with mock.patch.object(sys, "argv", ["hayro_jbig2", "-", os.devnull + ".png"]):
                self.assertEqual(command.main(), 1)
        self.assertEqual(said.getvalue(), "standard input is closed\n")

    def test_it_is_a_command(self):
        words = [sys.executable, "-m", "hayro_jbig2"]
        run = subprocess.run([*words, EXAMPLE, "page.pbm", "--page", "1"], capture_output=True, check=False)
        self.assertEqual((run.returncode, run.stdout, run.stderr), (0, b"", b""))
        self.assertEqual((self.folder / "page.pbm").read_bytes(), hayro_jbig2.decode(BOOK, page=1).to_pbm())
        run = subprocess.run([*words, "wide", "page.pbm"], capture_output=True, check=False)
        self.assertEqual((run.returncode, run.stderr), (1, b"wide: the limit of 16777216 units of work is reached\n"))

    def test_pages_are_written(self):
        first, second, third = hayro_jbig2.pages(BOOK)
        note = f"{EXAMPLE}: only the first of several pages is written\n"
        self.assertEqual(self.run_command(EXAMPLE, "page.png"), (0, "", note))
        written = rows_of_png((self.folder / "page.png").read_bytes())
        self.assertEqual(written, (first.width, first.height, bytes(first.rows)))
        self.assertEqual(self.run_command("-", "PAGE.PBM", "--page", "2", data=BOOK), (0, "", ""))
        self.assertEqual((self.folder / "PAGE.PBM").read_bytes(), third.to_pbm())
        self.assertEqual(self.run_command(EXAMPLE, "page-{}.png"), (0, "", ""))
        for index, page in enumerate((first, second, third)):
            self.assertEqual((self.folder / f"page-{index}.png").read_bytes(), page.to_png())
        self.assertEqual(self.run_command("text", "text.pbm", "--globals", "globals"), (0, "", ""))
        self.assertEqual((self.folder / "text.pbm").read_bytes(), b"P4\n8 1\n\x80")

    def test_all_pages_of_an_embedded_page_are_that_one(self):
        page = PAGE.read_bytes()
        self.assertEqual(self.run_command("-", "page-{}.pbm", data=page), (0, "", ""))
        self.assertEqual((self.folder / "page-0.pbm").read_bytes(), hayro_jbig2.decode(page).to_pbm())
        said = (1, "", f"-: {TEXTS['Format(MissingPageInfo)']}\n")
        for name in "page-{}.pbm", "page.pbm":
            self.assertEqual(self.run_command("-", name), said)
        self.assertIn("pikepdf", self.run_command("pdf", "page-{}.pbm")[2])

    def test_bits_after_the_width_are_white(self):
        page = hayro_jbig2.decode(BOOK, page=2)
        width, height, rows = rows_of_png(page.to_png())
        self.assertEqual((width, height, rows), (37, 8, bytes(page.rows)))

    def test_what_a_page_lacks_is_said(self):
        said = f"text: page 0 is incomplete: segment 2: {TEXTS['Huffman(InvalidCode)']}\n"
        self.assertEqual(self.run_command("text", "text.pbm"), (0, "", said))
        # The region is cut off, and refers to what isn't there: that counts once, also where salvage draws a part.
        why = f"segment 2: {END}\n"
        said = (0, "", f"-: page 0 is incomplete: {why}-: the segments end early: {why}")
        for data in TEXT[:-1], HEADER + TEXT[:-1]:
            for words in (), ("--salvage",):
                self.assertEqual(self.run_command("-", "text.pbm", *words, data=data), said)
        # The end of a line after a stream in a PDF file.
        self.assertEqual(self.run_command("-", "text.pbm", "--globals", "globals", data=TEXT + b"\r\n"), (0, "", ""))
        status, _, message = self.run_command("-", "text.pbm", "--salvage", data=TEXT + b" " * 16)
        self.assertEqual(status, 0)
        why = f"segment {0x20202020}: {INVALID_REFERENCE}\n"
        self.assertIn(f"-: the segments end early: {why}", message)
        self.assertEqual(self.run_command("text", "other.pbm", "--strict")[0], 1)
        self.assertFalse((self.folder / "other.pbm").exists())

    def test_a_page_that_fails_stops_no_other(self):
        pages = b"".join(
            bytes.fromhex(text)
            for text in (
                "974A42320D0A1A0A 03",
                "0000000A 30 00 01 00000013 00000008 00000001 0000000000000000000000 0000000C 31 00 01 00000000",
                # A dictionary that wants a table which isn't there.
                "00000014 30 00 02 00000013 00000008 00000001 0000000000000000000000",
                "00000015 00 00 02 0000000F 0009 00000001 00000001 5F80800040 00000016 31 00 02 00000000",
                "0000001E 30 00 03 00000013 00000008 00000001 0400000000000000000000 00000020 31 00 03 00000000",
            )
        )
        message = f"-: page 1: {INVALID_SELECTION}\n"
        self.assertEqual(self.run_command("-", "page-{}.pbm", data=pages), (1, "", message))
        written = {path.name: path.read_bytes()[-1:] for path in self.folder.glob("page-*")}
        self.assertEqual(written, {"page-0.pbm": b"\0", "page-2.pbm": b"\0"})
        self.assertEqual(self.run_command("-", "page-{}.pbm", "--salvage", data=pages)[0], 0)
        self.assertTrue((self.folder / "page-1.pbm").exists())

    def test_a_file_that_ends_early_is_told_where_no_page_can_be_decoded(self):
        data = bytes.fromhex(
            "974A42320D0A1A0A 03 00000001 30 00 01 00000013 00000008 00000001 0000000000000000000000"
            "00000002 00 00 01 0000000F 0009 00000001 00000001 5F80800040 00000003 31 00 01 00000000 000000"
        )
        end = f"-: the segments end early: {END}\n"
        said = f"-: page 0: {INVALID_SELECTION}\n{end}"
        self.assertEqual(self.run_command("-", "page-{}.pbm", data=data), (1, "", said))
        self.assertEqual(self.run_command("-", "page.pbm", data=data), (1, "", f"-: {INVALID_SELECTION}\n{end}"))

    def test_a_file_that_ends_early_is_told_where_no_page_begins(self):
        """Its page information is cut off, or its only page has no width."""
        empty = bytes.fromhex("00000000 30 00 01 00000013 00000000 00000001" + "00" * 11)
        end = f"-: the segments end early: segment 0: {END}\n"
        for data, words, said in (
            (HEADER + TEXT[:20], ("--strict",), f"-: {END}\n"),
            (HEADER + TEXT[:20], (), f"-: no such page\n{end}"),
            (HEADER + TEXT[:20], ("--salvage",), f"-: no such page\n{end}"),
            (HEADER + empty + TEXT[:20], ("--salvage",), f"-: {EMPTY_PAGE}\n{end}"),
        ):
            for name in "page-{}.pbm", "page.pbm":
                self.assertEqual(self.run_command("-", name, *words, data=data), (1, "", said))

    def test_a_file_without_pages(self):
        empty = bytes.fromhex("974A42320D0A1A0A 03")
        # A page that has no width, which salvage leaves out.
        page = bytes.fromhex("00000000 30 00 01 00000013 00000000 00000001" + "00" * 11)
        for data, words, said in (
            (empty, (), "no such page"),
            (empty, ("--salvage",), "no such page"),
            (empty + page, (), EMPTY_PAGE),
            (empty + page, ("--salvage",), EMPTY_PAGE),
        ):
            for name in "page-{}.pbm", "page.pbm":
                self.assertEqual(self.run_command("-", name, *words, data=data), (1, "", f"-: {said}\n"))

    def test_a_page_that_is_left_out_is_none_that_is_written(self):
        page = "0000000%d 30 00 0%d 00000013 0000000%d 00000001" + "00" * 11
        data = bytes.fromhex("974A42320D0A1A0A 03" + page % (1, 1, 0) + page % (2, 2, 8))
        said = f"-: pages of the file are left out, 1 of them: {EMPTY_PAGE}\n"
        self.assertEqual(self.run_command("-", "page-{}.pbm", "--salvage", data=data), (1, "", said))
        self.assertEqual((self.folder / "page-0.pbm").read_bytes(), b"P4\n8 1\n\0")
        self.assertEqual(self.run_command("-", "page.pbm", "--salvage", data=data), (0, "", said))

    def test_a_page_that_takes_too_much_memory_stops_no_other(self):
        third = hayro_jbig2.decode(BOOK, page=2)

        def to_png(page):
            if page == third:
                return b"PNG"
            raise MemoryError

        with mock.patch.dict(command._WRITERS, {".png": to_png}):
            message = "".join(f"{EXAMPLE}: page {index}: out of memory\n" for index in range(2))
            self.assertEqual(self.run_command(EXAMPLE, "page-{}.png"), (1, "", message))
        self.assertEqual([path.name for path in self.folder.glob("page-*")], ["page-2.png"])
        with mock.patch.object(pathlib.Path, "read_bytes", side_effect=MemoryError):
            self.assertEqual(self.run_command(EXAMPLE, "page.png"), (1, "", "out of memory\n"))

    def test_nothing_of_a_page_takes_memory_while_the_next_is_drawn(self):
        draw, taken = _library.File.draw, []

        def watched(*words):
            taken.append(tracemalloc.get_traced_memory()[0])
            return draw(*words)

        # Pages of 2^21 bytes.
        pages = ("000000%d0 30 00 0%d 00000013 00001000 00001000" % (number, number) + "00" * 11 for number in (1, 2, 3))
        data = bytes.fromhex("974A42320D0A1A0A 03" + "".join(pages))
        tracemalloc.start()
        self.addCleanup(tracemalloc.stop)
        with mock.patch.object(_library.File, "draw", watched):
            self.assertEqual(self.run_command("-", "page-{}.pbm", data=data), (0, "", ""))
        self.assertEqual(len(taken), 3)
        self.assertLess(max(taken), 1 << 20)

    def test_a_fault_of_the_globals_names_them(self):
        (self.folder / "globals").write_bytes(GLOBALS + b" " * 16)
        said = (1, "", f"globals: {INVALID_REFERENCE}\n")
        self.assertEqual(self.run_command("text", "text.pbm", "--globals", "globals"), said)

    def test_globals_and_pages_that_end_early_are_named(self):
        (self.folder / "globals").write_bytes(GLOBALS + b"\0\0\0")
        end = f"the segments end early: {END}\n"
        words = "-", "text.pbm", "--globals", "globals"
        self.assertEqual(self.run_command(*words, data=TEXT), (0, "", f"globals: {end}"))
        said = f"globals: {end}-: page 0 is incomplete: {END}\n-: {end}"
        self.assertEqual(self.run_command(*words, data=TEXT + b"\0\0\0"), (0, "", said))

    def test_faults(self):
        self.assertEqual(
            self.run_command("wide", "page.png"), (1, "", "wide: the limit of 16777216 units of work is reached\n")
        )
        self.assertEqual(self.run_command("wide", "page.png", "--work-limit", "7")[0], 1)
        self.assertIn("pikepdf", self.run_command("pdf", "page.png")[2])
        self.assertEqual(self.run_command(EXAMPLE, "page.png", "--page", "3"), (1, "", f"{EXAMPLE}: no such page\n"))
        for words in ("nothing", "page.png"), (EXAMPLE, "nowhere/page.png", "--page", "0"):
            status, _, message = self.run_command(*words)
            self.assertEqual((status, message.count("\n")), (1, 1))
            self.assertIn("No such file", message)
        for words in "", "text", "text page.jpg", "text page.png --work-limit -1", "text page-{}.png --page 0":
            self.assertEqual(self.run_command(*words.split())[0], 2, words)

    def test_help_is_there(self):
        status, output, message = self.run_command("--help")
        self.assertEqual((status, message), (0, ""))
        self.assertIn("--salvage", output)
        self.assertEqual(self.run_command("--version"), (0, f"{hayro_jbig2.__version__}\n", ""))


if __name__ == "__main__":
    unittest.main()
