"""The JBIG2 images of PDF files: those of the tree's writer, and those that Debian's tools made of them."""
from __future__ import annotations

import dataclasses
import json
import re
import shutil
import subprocess
import unittest
import zlib

from support import BOOK, HAS_PDF, INCOMPLETE, NOT_DONE, SUITE, TOOL, WHOLE, Case, picture_of_png

from conformance.runner.embedding import embedded_page, image_of
from conformance.runner.manifest import read_manifest
from conformance.runner.pdf import Image, joined, pdf_of, stream_object
from testing.error_texts import TEXTS
from testing.samples import image_of_sample, samples_of


def needs(program):
    return unittest.skipUnless(shutil.which(program), f"{program} is not here")


def one_image(words: str, stream: bytes, shared: bytes, filters: str, extra: str = "") -> bytes:
    """A PDF file of one page, whose image has these filters and words."""
    image = "/Type /XObject /Subtype /Image /Width 64 /Height 56 /ColorSpace /DeviceGray /BitsPerComponent 1"
    image += f" {filters} {words}"
    return joined([
        b"<< /Type /Catalog /Pages 2 0 R >>",
        b"<< /Type /Pages /Kids [3 0 R] /Count 1 /Resources << /XObject << /Image 5 0 R >> >> >>",
        f"<< /Type /Page /Parent 2 0 R /MediaBox [0 0 64 56] /Contents 4 0 R {extra} >>".encode(),
        stream_object("", b"q 64 0 0 56 0 0 cm /Image Do Q"),
        stream_object(image, stream),
        stream_object("", shared),
    ])


@unittest.skipUnless(HAS_PDF, "libqpdf is not here")
class Pdf(Case):
    def setUp(self):
        super().setUp()
        self.images = [image_of(embedded_page(BOOK, index)) for index in range(3)]
        self.meant = [picture_of_png(self.drawn_alone(image)) for image in self.images]

    def drawn_alone(self, image: Image) -> bytes:
        stream, shared = self.made(image.stream, "a.jb2e"), self.made(image.shared, "a.jb2g")
        return self.run_here(stream, shared, "-o", "-").output

    def pages_of(self, name, *words, status=WHOLE, texts=()):
        ended = self.run_here(name, "-o", "out/", "--force", *words)
        self.assert_ends(ended, status, *texts)
        return [picture_of_png(path.read_bytes()) for path in sorted((self.room / "out").iterdir())]

    def test_pages_with_globals(self):
        self.made(pdf_of(self.images), "scan.pdf")
        self.assertEqual(self.pages_of("scan.pdf"), self.meant)
        self.assertEqual(self.files()[2:5], ["out/scan-1.png", "out/scan-2.png", "out/scan-3.png"])
        self.assertEqual(picture_of_png(self.run_here("scan.pdf", "-p", "2", "-o", "-").output), self.meant[1])
        ended = self.run_here("-", "-p", "2", input=(self.room / "scan.pdf").read_bytes())
        self.assertEqual(picture_of_png(ended.output), self.meant[1])
        for jobs in 1, 4:
            self.assertEqual(self.pages_of("scan.pdf", "-j", jobs), self.meant)

    def test_the_suite_in_one_file(self):
        samples = samples_of(SUITE)
        images = [image_of_sample(sample) for sample in samples]
        self.made(pdf_of(images), "suite.pdf")
        ended = self.run_here("suite.pdf", "-o", "out/")
        self.assert_ends(ended, WHOLE)
        names = sorted((self.room / "out").iterdir())
        self.assertEqual(len(names), len(samples))
        for path, sample in zip(names, samples):
            self.assertEqual(picture_of_png(path.read_bytes()).digest, sample.entry.picture, sample.entry.label)

    @needs("qpdf")
    def test_encrypted_and_packed(self):
        self.made(pdf_of(self.images), "scan.pdf")
        for words in (
            ["--encrypt", "secret", "own", "256", "--"],
            ["--allow-weak-crypto", "--encrypt", "secret", "own", "40", "--"],
            ["--object-streams=generate"],
            ["--linearize"],
        ):
            with self.subTest(words=words):
                subprocess.run(["qpdf", *words, "scan.pdf", "made.pdf"], cwd=self.room, check=True)
                is_locked = "secret" in words
                ended = self.run_here("made.pdf", "-o", "gone/")
                if is_locked:
                    text = "made.pdf: the PDF file is encrypted: give its password by --password"
                    self.assert_ends(ended, NOT_DONE, text)
                    self.assert_ends(self.run_here("made.pdf", "--password", "guess"), NOT_DONE, "encrypted")
                password = ["--password", "secret"] if is_locked else []
                self.assertEqual(self.pages_of("made.pdf", *password), self.meant)

    @needs("pdftocairo")
    def test_written_by_cairo(self):
        self.made(pdf_of(self.images), "scan.pdf")
        words = ["pdftocairo", "-pdf", "scan.pdf", "made.pdf"]
        subprocess.run(words, cwd=self.room, check=True, stderr=subprocess.DEVNULL)
        self.assertIn(b"JBIG2Decode", (self.room / "made.pdf").read_bytes())
        self.assertEqual(self.pages_of("made.pdf"), self.meant)

    def test_filters_before(self):
        image = self.images[1]
        packed = zlib.compress(image.stream)
        for data, filters, before in (
            (packed, "/FlateDecode", "null"),
            (image.stream.hex().encode() + b">", "/ASCIIHexDecode", "null"),
            (packed.hex().encode() + b">", "/AHx /FlateDecode", "null null"),
            (image.stream, "", ""),
        ):
            with self.subTest(filters=filters):
                words = f"/Filter [{filters} /JBIG2Decode] /DecodeParms [{before} << /JBIG2Globals 6 0 R >>]"
                self.made(one_image("", data, image.shared, words), "scan.pdf")
                self.assertEqual(self.pages_of("scan.pdf"), [self.meant[1]])
        unknown = "[/Crypto /JBIG2Decode]", "its filters can't be undone"
        for filters, reason in ("[/DCTDecode /JBIG2Decode]", ""), unknown:
            self.made(one_image("", image.stream, b"", f"/Filter {filters}"), "scan.pdf")
            self.assert_ends(self.run_here("scan.pdf"), NOT_DONE, f"scan.pdf: page 1: can't be read: {reason}")
            listed = self.run_here("info", "--json", "scan.pdf")
            self.assertEqual(json.loads(listed.output)[0]["pages"][0]["segments"], [])

    def test_what_unpacks_to_far_more_than_the_file_has_is_refused(self):
        """The list of its segments would take gigabytes."""
        image, zeros = self.images[1], zlib.compress(zlib.compress(bytes(1 << 25)))
        twice = "/Filter [/FlateDecode /FlateDecode /JBIG2Decode]"
        self.made(one_image("", zeros, b"", twice), "scan.pdf")
        shared = "/Filter /JBIG2Decode /DecodeParms << /JBIG2Globals 6 0 R >>"
        data, packed = one_image("", image.stream, zeros, shared), b"<<  /Length %d" % len(zeros)
        self.assertIn(packed, data)
        self.made(data.replace(packed, b"<< /Filter [/FlateDecode /FlateDecode] " + packed[4:]), "shared.pdf")
        for name, where in ("scan.pdf", ""), ("shared.pdf", "globals: "):
            ended = self.run_here(name, "-o", "page.png")
            texts = f"{name}: page 1: {where}can't be read: ", "it unpacks to 33554432 bytes"
            self.assert_ends(ended, NOT_DONE, *texts)
            self.assertLess(len(self.run_here("info", name).output), 1000)

    def test_notes(self):
        image = dataclasses.replace(self.images[1])
        parameters = "/Filter /JBIG2Decode /DecodeParms << /JBIG2Globals 6 0 R >>"
        self.made(one_image("/Decode [1 0] /ImageMask true", image.stream, image.shared, parameters), "scan.pdf")
        texts = ["page 1: note: the PDF file shows this image inverted (/Decode)"]
        texts += ["page 1: note: in the PDF file this image is a mask"]
        self.assertEqual(self.pages_of("scan.pdf", texts=texts), [self.meant[1]])
        self.assertEqual(self.pages_of("scan.pdf", "--quiet"), [self.meant[1]])
        self.made(one_image("", self.images[2].stream, self.images[2].shared, parameters), "small.pdf")
        text = "small.pdf: page 1: note: it has 37 by 8 pixels, and 64 by 56 by the PDF file"
        self.assert_ends(self.run_here("small.pdf"), WHOLE, text)
        listed = self.run_here("info", "scan.pdf").output.decode()
        self.assertIn("inverted (/Decode), a mask (/ImageMask)", listed)

    def test_several_images_on_a_page(self):
        image = self.images[1]
        words = "/Type /XObject /Subtype /Image /Width 64 /Height 56 /Filter /JBIG2Decode"
        words += " /DecodeParms << /JBIG2Globals 6 0 R >>"
        resources = "/Resources << /XObject << /A 5 0 R /B 7 0 R >> >>"
        form = "/Type /XObject /Subtype /Form /BBox [0 0 1 1] /Resources << /XObject << /C 8 0 R /D 5 0 R >> >>"
        masked = "/Type /XObject /Subtype /Image /Width 1 /Height 1 /ColorSpace /DeviceGray /BitsPerComponent 8"
        masked += " /Mask 9 0 R"
        self.made(joined([
            b"<< /Type /Catalog /Pages 2 0 R >>",
            b"<< /Type /Pages /Kids [3 0 R] /Count 1 >>",
            f"<< /Type /Page /Parent 2 0 R /MediaBox [0 0 64 56] /Contents 4 0 R {resources} >>".encode(),
            stream_object("", b""),
            stream_object(words, image.stream),
            stream_object("", image.shared),
            stream_object(form, b"/C Do"),
            stream_object(masked, b"\0"),
            stream_object(words + " /ImageMask true", image.stream),
        ]), "scan.pdf")
        ended = self.run_here("scan.pdf", "-o", "out/")
        self.assert_ends(ended, WHOLE, "page 1: image 2: note:")
        self.assertEqual([name for name in self.files() if "out" in name], ["out/scan-1-1.png", "out/scan-1-2.png"])

    def test_damage(self):
        first = self.images[1]
        cut = dataclasses.replace(first, stream=first.stream[:-9])
        cut_globals = dataclasses.replace(first, shared=first.shared[:-9])
        bad_globals = dataclasses.replace(first, shared=b"\0\0\0\0\0\0\1\0\0\0\1" + b"x")
        self.made(pdf_of([cut, first, cut_globals, bad_globals]), "scan.pdf")
        ended = self.run_here("scan.pdf", "-o", "out/")
        self.assertEqual(ended.status, NOT_DONE)
        end = re.escape(TEXTS["Parse(UnexpectedEof)"])
        for text in (
            rf"page 1: incomplete: segment \d+ \(immediate lossless halftone region\): {end}: cut off,",
            rf"page 3: incomplete: globals: segment \d+ \(.*\): {end}: cut off",
            rf"page 4: globals: segment 0 \(symbol dictionary\): {end}",
        ):
            self.assertRegex(ended.errors, f"scan.pdf: {text}")
        self.assertNotIn("page 2", ended.errors)
        ended = self.run_here("scan.pdf", "-o", "out/", "--salvage", "--force")
        self.assert_ends(ended, INCOMPLETE, "page 4: incomplete: globals: segment 0 (symbol dictionary)")

    def test_a_high_number_of_an_object_takes_no_memory(self):
        data, high = pdf_of(self.images[:1]), 1000000000
        image = int(re.search(rb"/Image (\d+) 0 R", data)[1])
        data = data.replace(b"/Image %d 0 R" % image, b"/Image %d 0 R" % high)
        data = data.replace(b"\n%d 0 obj" % image, b"\n%d 0 obj" % high)
        self.made(data.replace(b"startxref", b""), "scan.pdf")
        limited = ["sh", "-c", 'ulimit -v 1000000; exec "$@"', "sh", TOOL, "scan.pdf", "-j", "1", "-o", "page.png"]
        ended = subprocess.run(limited, cwd=self.room, capture_output=True, check=False)
        self.assertEqual(ended.returncode, INCOMPLETE, ended.stderr)
        self.assertEqual(picture_of_png((self.room / "page.png").read_bytes()), self.meant[0])

    def test_what_qpdf_mends_is_reported(self):
        """Pages of a damaged PDF file may be lost, so it is incomplete, though what is found is drawn."""
        data = pdf_of(self.images)
        self.made(re.sub(rb"startxref\n\d+", b"startxref\n1", data), "scan.pdf")
        self.assertEqual(self.pages_of("scan.pdf", status=INCOMPLETE, texts=["the PDF file is damaged: "]), self.meant)
        length = len(self.images[1].stream)
        self.made(data.replace(b"/Length %d >>" % length, b"/Length %d >>" % (length + 3), 1), "scan.pdf")
        texts = ["scan.pdf: the PDF file is damaged: expected endstream"]
        self.assertEqual(self.pages_of("scan.pdf", status=INCOMPLETE, texts=texts), self.meant)

    def test_no_text_of_a_pdf_file_adds_a_line(self):
        """libqpdf names the key that is there twice."""
        words = "/Filter /JBIG2Decode /A#0ascan.pdf:#20whole 1 /A#0ascan.pdf:#20whole 2"
        self.made(one_image("", self.images[2].stream, b"", words), "scan.pdf")
        ended = self.run_here("scan.pdf", "-f", "pbm", "-o", "-", "--quiet")
        self.assertRegex(ended.errors, r"^scan\.pdf: the PDF file is damaged: .*/A\?scan\.pdf: whole;.*\n")

    def test_a_page_without_an_image(self):
        data = pdf_of(self.images[:2])
        second = max(map(int, re.findall(rb"/Image (\d+) 0 R", data)))
        self.made(data.replace(b"/Image %d 0 R" % second, b"/Other 9 0 R  "[: len(b"/Image %d 0 R" % second)]), "scan.pdf")
        ended = self.run_here("scan.pdf", "-p", "2")
        self.assert_ends(ended, NOT_DONE, "scan.pdf: no JBIG2 image on these pages")
        self.assert_ends(self.run_here("scan.pdf", "-p", "3"), NOT_DONE, "scan.pdf: no page 3, the last is 2")

    def test_without_images(self):
        self.made(pdf_of([]), "none.pdf")
        ended = self.run_here("none.pdf")
        self.assertEqual(ended.status, NOT_DONE)
        flate = one_image("", zlib.compress(bytes(448)), b"", "/Filter /FlateDecode")
        self.made(flate, "flate.pdf")
        self.assert_ends(self.run_here("flate.pdf"), NOT_DONE, "flate.pdf: the PDF file has no JBIG2 image")
        self.made(b"%PDF-1.4\nnothing", "bad.pdf")
        self.assert_ends(self.run_here("bad.pdf"), NOT_DONE, "bad.pdf: the PDF file can't be read: ")
        self.assertTrue(read_manifest(SUITE / "manifest.tsv"))


if __name__ == "__main__":
    unittest.main()
