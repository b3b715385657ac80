"""The tree of pages of PDF files: what pages inherit, odd trees, and small files that ask for much."""
from __future__ import annotations

import dataclasses
import json
import random
import struct
import subprocess
import unittest

from support import BOOK, COUNTED, HAS_PDF, HAS_TIFF, INCOMPLETE, NOT_DONE, OVER_LIMIT, SANITIZED, TOOL, WHOLE, Case
from support import counted

from conformance.runner.embedding import embedded_page, image_of
from conformance.runner.pdf import Image, joined, pdf_of, stream_object

PAGE = image_of(embedded_page(BOOK, 1))
SECONDS = 200


def objects_of(first: list[str], shared: bytes = PAGE.shared, images: int = 2) -> bytes:
    """A PDF file whose first objects are these, from 1 on, and then globals and images that use them."""
    number = len(first) + 1
    words = "/Type /XObject /Subtype /Image /Width 64 /Height 56 /Filter /JBIG2Decode"
    words += f" /DecodeParms << /JBIG2Globals {number} 0 R >>"
    image = stream_object(words, PAGE.stream)
    return joined([*(one.encode() for one in first), stream_object("", shared), *[image] * images])


@unittest.skipUnless(HAS_PDF, "libqpdf is not here")
class PdfPages(Case):
    def listed(self, data: bytes, status: int = WHOLE) -> list[tuple[int, str]]:
        """The page and the object of each image."""
        self.made(data, "scan.pdf")
        ended = self.run_here("info", "--json", "scan.pdf", seconds=SECONDS)
        self.assertEqual(ended.status, status, ended.errors)
        [document] = json.loads(ended.output)
        self.pages = document["pdf_pages"]
        return [(page["page"], page["object"]) for page in document["pages"]]

    def test_resources_are_inherited(self):
        """A page without resources takes those of the nearest node above that has some."""
        both = ["<< /XObject << /A 10 0 R >> >>", "<< /XObject << /B 11 0 R >> >>"]
        data = objects_of([
            "<< /Type /Catalog /Pages 2 0 R >>",
            f"<< /Type /Pages /Count 5 /Kids [3 0 R 4 0 R 5 0 R] /Resources {both[0]} >>",
            "<< /Type /Page /Parent 2 0 R /Resources << >> >>",
            "<< /Type /Page /Parent 2 0 R >>",
            f"<< /Type /Pages /Parent 2 0 R /Count 3 /Kids [6 0 R 7 0 R 8 0 R] /Resources {both[1]} >>",
            f"<< /Type /Page /Parent 5 0 R /Resources {both[0]} >>",
            "<< /Type /Page /Parent 5 0 R >>",
            "<< /Type /Page /Parent 5 0 R >>",
        ])
        self.assertEqual(self.listed(data), [(2, "10 0"), (4, "11 0")])
        self.assertEqual(self.pages, 5)

    def test_odd_trees(self):
        """Direct kids, kids that are no dictionaries, a page that is there twice, and a page as the catalog's tree."""
        resources = "/Resources << /XObject << /A {} 0 R >> >>"
        kids = f"<< /Kids [<< /Type /Page {resources.format(5)} >> null 7 3 0 R 3 0 R] >> 9 0 R"
        data = objects_of([
            "<< /Type /Catalog /Pages 2 0 R >>",
            f"<< /Type /Pages /Count 3 /Kids [{kids}] >>",
            f"<< /Type /Page /Parent 2 0 R {resources.format(6)} >>",
        ])
        self.assertEqual(self.listed(data), [(1, "5 0"), (2, "6 0")])
        self.assertEqual(self.pages, 3)
        data = objects_of([
            "<< /Type /Catalog /Pages 3 0 R >>",
            "<< /Type /Pages /Count 1 /Kids [3 0 R] >>",
            f"<< /Type /Page /Parent 2 0 R {resources.format(5)} >>",
        ])
        self.assertEqual(self.listed(data), [(1, "5 0")])

    def test_a_tree_that_goes_round(self):
        data = objects_of([
            "<< /Type /Catalog /Pages 2 0 R >>",
            "<< /Type /Pages /Count 2 /Kids [3 0 R 2 0 R] >>",
            "<< /Type /Page /Parent 2 0 R /Resources << /XObject << /A 5 0 R >> >> >>",
        ])
        self.assertEqual(self.listed(data, INCOMPLETE), [(1, "5 0")])
        ended = self.run_here("scan.pdf")
        self.assert_ends(ended, INCOMPLETE, "the PDF file is damaged: a part of its tree of pages is there twice\n")
        self.made(data.replace(b"startxref", b""), "scan.pdf")
        texts = "is there twice; ", "scan.pdf: the PDF file is damaged: a part of its tree of pages"
        self.assert_ends(self.run_here("scan.pdf", "--force"), INCOMPLETE, *texts)

    def test_another_page_that_is_referred_to_is_no_part_of_a_page(self):
        image = "/Resources << /XObject << /A {} 0 R >> /More {} >>"
        data = objects_of([
            "<< /Type /Catalog /Pages 2 0 R >>",
            "<< /Type /Pages /Count 2 /Kids [3 0 R 4 0 R] >>",
            f"<< /Type /Page /Parent 2 0 R {image.format(6, '[4 0 R]')} >>",
            f"<< /Type /Page /Parent 2 0 R {image.format(7, 'null')} >>",
        ])
        self.assertEqual(self.listed(data), [(1, "6 0"), (2, "7 0")])

    def assert_soon(self, data: bytes) -> None:
        self.made(data, "scan.pdf")
        ended = self.run_here("scan.pdf", seconds=SECONDS)
        self.assert_ends(ended, NOT_DONE, "scan.pdf: the PDF file has no JBIG2 image")

    def test_small_files_that_ask_for_much(self):
        """A tree as deep as it has nodes, a page that is there often, and annotations that all pages share."""
        count = 20000
        chain = [f"<< /Type /Pages /Count 1 /Kids [{number} 0 R] >>" for number in range(3, count)]
        self.assert_soon(objects_of(["<< /Type /Catalog /Pages 2 0 R >>", *chain, "<< /Type /Page >>"], images=0))
        count = 3000
        self.assert_soon(objects_of([
            "<< /Type /Catalog /Pages 2 0 R >>",
            f"<< /Type /Pages /Count {count} /Kids [{'3 0 R ' * count}] >>",
            f"<< /Type /Page /Parent 2 0 R /Resources << /A [{'4 ' * count}] >> >>",
        ], images=0))
        pages = " ".join(f"{number} 0 R" for number in range(5, 5 + count))
        self.assert_soon(objects_of([
            "<< /Type /Catalog /Pages 2 0 R >>",
            f"<< /Type /Pages /Count {count} /Kids [{pages}] >>",
            "[" + "4 0 R " * count + "]",
            "<< /Type /Annot /Subtype /Link >>",
            *["<< /Type /Page /Parent 2 0 R /Annots 3 0 R >>"] * count,
        ], images=0))

    def test_images_that_lie_within_each_other(self):
        """The data of each are all that follow, and one at a time is in memory, also where other filters come first."""
        count, first = 3000, 4
        names = " ".join(f"/{number} {number} 0 R" for number in range(first, first + count))
        words = "/Subtype /Image /Width 8 /Height 8 /Filter [/ASCIIHexDecode /JBIG2Decode]"
        head = f"%d 0 obj\n<< {words} /Length %010d >>\nstream\n"
        size = len(head % (first, 0))
        out = bytearray(joined([
            b"<< /Type /Catalog /Pages 2 0 R >>",
            b"<< /Type /Pages /Count 1 /Kids [3 0 R] >>",
            f"<< /Type /Page /Parent 2 0 R /Resources << /XObject << {names} >> >> >>".encode(),
        ]).split(b"xref")[0])
        for number in range(first, first + count):
            out += f"{head % (number, (first + count - 1 - number) * size):{size}}".encode()
        out += b"\nendstream endobj\ntrailer << /Root 1 0 R >>\n%%EOF\n"
        self.made(out, "scan.pdf")
        limited = ["sh", "-c", 'ulimit -v 300000; exec "$@"', "sh", TOOL, "scan.pdf", "-j", "1", "-f", "pbm", "-o", "-"]
        ended = subprocess.run(limited, capture_output=True, check=False, cwd=self.room, timeout=20 * SECONDS)
        self.assertEqual(ended.returncode, NOT_DONE, ended.stderr[-300:])
        self.assertIn(b"scan.pdf: page 1: image %d: can't be read: " % count, ended.stderr)

    def test_many_images_whose_globals_have_many_segments(self):
        """What is wrong with globals is found once. The last segment, of no type, is."""
        header = struct.Struct(">I3BI")
        size = struct.pack(">4I3x", 8, 1, 0, 0)
        words = "/Type /XObject /Subtype /Image /Width 65535 /Height 65535 /Filter /JBIG2Decode"
        image = stream_object(words + " /DecodeParms << /JBIG2Globals 4 0 R >>", header.pack(0, 48, 0, 1, 19) + size)

        def run_on(count):
            segments = 25 * count
            shared = b"".join(header.pack(number, 62, 0, 0, 4) + b" \0\0\0" for number in range(segments))
            names = " ".join(f"/{number} {number} 0 R" for number in range(5, 5 + count))
            self.made(joined([
                b"<< /Type /Catalog /Pages 2 0 R >>",
                b"<< /Type /Pages /Count 1 /Kids [3 0 R] >>",
                f"<< /Type /Page /Parent 2 0 R /Resources << /XObject << {names} >> >> >>".encode(),
                stream_object("", shared + header.pack(segments, 63, 0, 0, 0)),
                *[image] * count,
            ]), "scan.pdf")
            ended = self.run_here("scan.pdf", "--quiet", "-f", "pbm", "-o", "-")
            text = f"image {count}: incomplete: globals: segment {segments} (unknown type)"
            self.assert_ends(ended, INCOMPLETE, text)

        self.assert_in_proportion(run_on, 20000)

    def test_empty_streams(self):
        """The decoder gets no null pointer: COUNTED stops there."""
        words = "/Type /XObject /Subtype /Image /Width 64 /Height 56 /Filter /JBIG2Decode"
        words += " /DecodeParms << /JBIG2Globals 4 0 R >>"
        self.made(joined([
            b"<< /Type /Catalog /Pages 2 0 R >>",
            b"<< /Type /Pages /Count 1 /Kids [3 0 R] >>",
            b"<< /Type /Page /Parent 2 0 R /Resources << /XObject << /A 5 0 R /B 6 0 R >> >> >>",
            stream_object("", b""),
            stream_object(words, b""),
            stream_object(words, PAGE.stream),
        ]), "scan.pdf")
        ended = self.run_here("scan.pdf", program=COUNTED)
        self.assert_ends(ended, NOT_DONE, "image 1: missing page information", "image 2: incomplete: segment 10")


@unittest.skipUnless(HAS_PDF, "libqpdf is not here")
class Damage(Case):
    WORDS = [b"0 R", b"2 0 R", b"3 0 R", b"null", b"[", b"]", b"<<", b">>", b"-1", b"9999999999", b"stream"]
    WORDS += [b"/Kids", b"/Parent", b"/Annots", b"/Filter", b"/FlateDecode", b"/DecodeParms", b"/JBIG2Globals"]
    WORDS += [b"/Length", b"endstream"]

    def damaged(self, chance: random.Random, data: bytes) -> bytes:
        out = bytearray(data)
        for _ in range(chance.randint(1, 12)):
            place, word = chance.randrange(len(out)), chance.choice(self.WORDS)
            size = chance.choice([0, len(word), chance.randint(1, 60)])
            out[place : place + size] = chance.choice([b" " + word + b" ", b"", bytes([chance.randrange(256)])])
        return bytes(out)

    def test_damaged_files(self):
        """By the build with sanitizers: each run ends with a status, and a message unless it is 0."""
        chance, data = random.Random(11), pdf_of([PAGE, PAGE, image_of(embedded_page(BOOK, 2))])
        ways = ["-q", "-f", "pbm"], ["-q", "--salvage", "-f", "tiff" if HAS_TIFF else "pbm"], ["info", "--json"]
        for number in range(60):
            words = ways[number % 3]
            bad = self.damaged(chance, data)
            ended = self.run_here(*words, "-", *([] if "info" in words else ["-o", "-"]), input=bad, program=SANITIZED)
            self.assertIn(ended.status, (WHOLE, NOT_DONE, INCOMPLETE, OVER_LIMIT), (bad, ended.errors))
            self.assertNotIn("Sanitizer", ended.errors)
            self.assertNotIn("runtime error", ended.errors)
            if "info" not in words:
                self.assertEqual(ended.status == WHOLE, ended.errors == "", bad)


@unittest.skipUnless(HAS_PDF, "libqpdf is not here")
class Globals(Case):
    def test_globals_are_decoded_once(self):
        """Of a PDF file by their object, and of embedded pages where all of them share them."""
        other = Image(PAGE.width, PAGE.height, PAGE.stream, PAGE.shared + bytes.fromhex("000000F0 34 00 00 00000000"))
        self.made(pdf_of([PAGE] * 100 + [other] * 100), "scan.pdf")
        pages = [self.made(PAGE.stream, f"page-{number:03}.jb2e") for number in range(200)]
        shared = self.made(PAGE.shared, "all.jb2g")
        for jobs in 1, 8:
            self.assertEqual(counted("scan.pdf", "-j", jobs, "-o", f"pdf-{jobs}/", cwd=self.room), (2, 200))
            self.assertEqual(counted(shared, *pages, "-j", jobs, "-o", f"first-{jobs}/", cwd=self.room), (1, 200))
            self.assertEqual(counted("-g", shared, *pages, "-j", jobs, "-o", f"word-{jobs}/", cwd=self.room), (1, 200))
        written = {path.read_bytes() for path in self.room.rglob("*.png")}
        self.assertEqual((len(written), len(list(self.room.rglob("*.png")))), (1, 1200))

    def test_no_number_of_images_lifts_the_limit_of_globals_above_that_of_the_largest_page(self):
        """A PDF file states sizes that no page has to have. COUNTED stops there."""
        data = pdf_of([dataclasses.replace(PAGE, width=65535, height=65535)] * 3)
        for words in ["-p", "1"], []:
            ended = self.run_here(self.made(data, "scan.pdf"), *words, "-q", "-f", "pbm", "-o", "-", program=COUNTED)
            self.assertEqual(ended.status, WHOLE, ended.errors)


if __name__ == "__main__":
    unittest.main()
