"""The decoder in the place of jbig2dec in pikepdf: images of PDF files come out without that program."""

from __future__ import annotations

import contextlib
import io
import os
import pathlib
import unittest
from unittest import mock

import pikepdf
from pikepdf import jbig2

import hayro_jbig2.pikepdf
from pages import GLOBALS, HEADER, TEXT
from test_limits import PATTERNS, WIDE

from conformance.runner import pdf
from conformance.runner.embedding import embedded_page, image_of


# A dictionary that refers to a number of segments for which there is no code.
REFUSED = bytes.fromhex("00000001 00 A0 00 00000000")


def pdf_of(data):
    """A PDF file of the first page of a file."""
    return pdf.pdf_of([image_of(embedded_page(data, 0))])


def images_of(data):
    """The images of a PDF file, by pikepdf."""
    with pikepdf.open(io.BytesIO(data)) as pdf:
        for page in pdf.pages:
            for image in page.images.values():
                yield pikepdf.PdfImage(image).as_pil_image()


class Images(unittest.TestCase):
    @classmethod
    def setUpClass(cls):
        # No program of any name is found.
        cls.path, os.environ["PATH"] = os.environ["PATH"], "/nonexistent"

    @classmethod
    def tearDownClass(cls):
        os.environ["PATH"] = cls.path

    def test_nothing_comes_out_without_a_decoder(self):
        self.addCleanup(setattr, jbig2, "_jbig2_decoder", jbig2._jbig2_decoder)
        jbig2._jbig2_decoder = jbig2.JBIG2Decoder()
        with self.assertRaises(jbig2.DependencyError):
            list(images_of(pdf_of(HEADER + TEXT)))

    def test_images_come_out(self):
        hayro_jbig2.pikepdf.install()
        self.assertTrue(jbig2.get_decoder().available())
        for file in self.files():
            [image] = images_of(pdf_of(file))
            page = hayro_jbig2.decode(file)
            self.assertEqual(image.size, (page.width, page.height))
            self.assertEqual(image.convert("1").tobytes(), page.to_image().tobytes())

    def files(self):
        """Files of one page: one with globals, and the made-up ones that a PDF file can hold."""
        yield HEADER + GLOBALS + TEXT
        folder = os.environ.get("JBIG2_CORPUS")
        for path in sorted(pathlib.Path(folder).glob("*.jb2")) if folder else []:
            data = path.read_bytes()
            # In sequential organisation, and without regions of unknown length.
            if data[8] & 1 and b"\xff\xff\xff\xff" not in data and len(hayro_jbig2.sizes(data)) == 1:
                yield data

    def test_damaged_images_come_out_in_salvage(self):
        hayro_jbig2.pikepdf.install(salvage=True)
        self.addCleanup(hayro_jbig2.pikepdf.install)
        page = hayro_jbig2.decode(TEXT, globals=GLOBALS)
        rows = jbig2.get_decoder().decode_jbig2(TEXT + b" " * 16, GLOBALS + b" " * 16)
        self.assertEqual(rows, bytes(255 - byte for byte in page.rows))

    def test_hostile_images_are_refused(self):
        self.addCleanup(hayro_jbig2.pikepdf.install)
        for how in {}, {"work_limit": 1 << 20}:
            hayro_jbig2.pikepdf.install(**how)
            with self.assertRaises(hayro_jbig2.WorkLimitReached):
                jbig2.get_decoder().decode_jbig2(WIDE, b"")

    def test_globals_are_decoded_once(self):
        self.addCleanup(hayro_jbig2.pikepdf.install)
        for globals, error in (GLOBALS, None), (PATTERNS, hayro_jbig2.WorkLimitReached), (REFUSED, hayro_jbig2.DecodeError):
            hayro_jbig2.pikepdf.install(work_limit=1 << 20)
            with mock.patch("hayro_jbig2.pikepdf.Globals", side_effect=hayro_jbig2.Globals) as made:
                for _ in range(3):
                    with self.assertRaises(error) if error else contextlib.nullcontext():
                        jbig2.get_decoder().decode_jbig2(TEXT, globals)
            self.assertEqual(made.call_count, 1)

    def test_a_fault_is_an_exception(self):
        hayro_jbig2.pikepdf.install()
        with self.assertRaises(hayro_jbig2.DecodeError):
            jbig2.get_decoder().decode_jbig2(b"nothing", b"")


if __name__ == "__main__":
    unittest.main()
