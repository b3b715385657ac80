"""What the calls take: bytes, paths and open files; and what they say of a PDF file."""

from __future__ import annotations

import io
import mmap
import os
import pathlib
import pydoc
import subprocess
import sys
import tempfile
import unittest

import hayro_jbig2
from hayro_jbig2 import _library, _processor, errors
from pages import EXAMPLE, GLOBALS, TEXT

BOOK = EXAMPLE.read_bytes()


class Data(unittest.TestCase):
    def test_paths_and_open_files_are_data(self):
        page = hayro_jbig2.decode(BOOK)
        for data in str(EXAMPLE), EXAMPLE, io.BytesIO(BOOK), bytearray(BOOK):
            self.assertEqual(hayro_jbig2.decode(data), page)
        with open(EXAMPLE, "rb") as file, mmap.mmap(file.fileno(), 0, access=mmap.ACCESS_READ) as mapped:
            self.assertEqual(hayro_jbig2.decode(file), page)
            self.assertEqual(file.tell(), len(BOOK))
            self.assertEqual(hayro_jbig2.decode(mapped), page)
        self.assertEqual(len(list(hayro_jbig2.pages(EXAMPLE))), 3)
        self.assertEqual(len(hayro_jbig2.sizes(io.BytesIO(BOOK))), 3)
        stream = io.BytesIO(b"before" + TEXT)
        stream.seek(6)
        self.assertEqual(hayro_jbig2.decode(stream, globals=io.BytesIO(GLOBALS)).rows, b"\x80")
        with tempfile.TemporaryDirectory() as folder:
            path = pathlib.Path(folder, "globals")
            path.write_bytes(GLOBALS)
            self.assertEqual(hayro_jbig2.decode(TEXT, globals=path).rows, b"\x80")
            self.assertEqual(hayro_jbig2.decode(TEXT, globals=hayro_jbig2.Globals(str(path))).rows, b"\x80")

    def test_any_buffer_is_data(self):
        for data in bytearray(BOOK), memoryview(BOOK), memoryview(BOOK + b"x")[:-1]:
            self.assertEqual(hayro_jbig2.decode(data), hayro_jbig2.decode(BOOK))

    def test_what_files_and_paths_may_be(self):
        class Reader:
            def __init__(self, content):
                self.content = content

            def read(self):
                return self.content

        page = hayro_jbig2.decode(BOOK)
        for content in bytearray(BOOK), memoryview(BOOK):
            self.assertEqual(hayro_jbig2.decode(Reader(content)), page)
        with self.assertRaisesRegex(TypeError, "not NoneType"):
            hayro_jbig2.decode(Reader(None))
        with tempfile.TemporaryDirectory() as folder:
            # A name that is no UTF-8.
            pathlib.Path(folder, "caf\udce9 {}\n.jb2").write_bytes(BOOK)
            for place in folder, os.fsencode(folder):
                with os.scandir(place) as [entry]:
                    self.assertEqual(hayro_jbig2.decode(entry), page)

    def test_other_things_are_no_data(self):
        for name in "no such file", "":
            with self.assertRaises(FileNotFoundError):
                hayro_jbig2.decode(name)
        for nothing in None, 7, [1, 2]:
            with self.assertRaisesRegex(TypeError, "a path or an open file"):
                hayro_jbig2.decode(nothing)
        with self.assertRaisesRegex(TypeError, "binary mode"):
            hayro_jbig2.decode(io.StringIO("text"))

    def test_bytes_are_as_many_as_they_say(self):
        class Longer(bytes):
            def __len__(self):
                return 1 << 40

        self.assertEqual(hayro_jbig2.decode(Longer(BOOK)), hayro_jbig2.decode(BOOK))

    def test_an_index_is_any_integer(self):
        class Two:
            def __index__(self):
                return 2

        self.assertEqual(hayro_jbig2.decode(BOOK, page=Two()), hayro_jbig2.decode(BOOK, page=2))
        with self.assertRaises(TypeError):
            hayro_jbig2.decode(BOOK, page=0.5)

    def test_a_pdf_file_is_refused_with_advice(self):
        pdf = b"%PDF-1.7\n1 0 obj\nendobj\n"
        for call in hayro_jbig2.decode, hayro_jbig2.pages, hayro_jbig2.sizes, hayro_jbig2.Globals:
            for salvage in False, True:
                with self.assertRaisesRegex(hayro_jbig2.FormatError, "pikepdf"):
                    call(pdf, salvage=salvage)
        with self.assertRaisesRegex(hayro_jbig2.FormatError, "pikepdf"):
            hayro_jbig2.decode(TEXT, globals=pdf)


class Help(unittest.TestCase):
    def test_help_names_each_exception_once(self):
        text = pydoc.plain(pydoc.render_doc(hayro_jbig2))
        for name, kind in vars(errors).items():
            if isinstance(kind, type) and issubclass(kind, errors.Jbig2Error):
                self.assertIs(getattr(hayro_jbig2, name), kind)
                self.assertIn(f"    {name} ", text)
        self.assertNotIn("BaseException", text)
        # Of the exceptions alone there would be more than a thousand.
        self.assertLess(len(text.splitlines()), 700)


class Loading(unittest.TestCase):
    def test_a_processor_without_the_features_is_refused(self):
        flags = "fpu sse2 pni popcnt sse4_1 sse4_2 ssse3 cx16 lahf_lm avx"
        for lacking, features in (
            ("", flags),
            ("sse4_2", flags.replace("sse4_2 ", "")),
            ("popcnt, ssse3", flags.replace("ssse3 ", "").replace("popcnt ", "")),
            # glibc's loader refuses the library there.
            ("cx16", flags.replace("cx16 ", "")),
            ("lahf_lm", flags.replace("lahf_lm ", "")),
        ):
            text = f"processor\t: 0\nflags\t\t: {features}\nbugs\t\t:\n\nprocessor\t: 1\nflags\t\t: fpu\n"
            self.assertEqual(_processor.missing_features(text), lacking)
        self.assertEqual(_processor.missing_features("processor\t: 0\n"), "")

    def test_a_package_without_the_library_says_so(self):
        with tempfile.TemporaryDirectory() as folder:
            other = pathlib.Path(folder, "hayro_jbig2")
            other.mkdir()
            for path in pathlib.Path(_library.__file__).parent.glob("*.py"):
                (other / path.name).write_bytes(path.read_bytes())
            command = [sys.executable, "-c", "import hayro_jbig2"]
            run = subprocess.run(
                command, capture_output=True, text=True, check=False, env={**os.environ, "PYTHONPATH": folder}
            )
        self.assertIn("ImportError: the library that pip compiles or installs does not load", run.stderr)


if __name__ == "__main__":
    unittest.main()
