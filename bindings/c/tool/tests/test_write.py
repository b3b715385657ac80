"""The command `write`: pages and PDF files of pictures, which decode to these pictures again."""
from __future__ import annotations

import functools
import json
import os
import random
import resource
import shutil
import struct
import subprocess
import unittest
import zlib

from support import BARE, BOOK, COUNTED, HAS_PDF, HAS_PNG, NOT_DONE, PNG, SANITIZED, WHOLE, WRONG_WORDS
from support import Case, Picture, of_numbers, pictures_of

INCH = 0.0254


def noise(width: int, height: int, seed: int = 1) -> Picture:
    """A picture of lines that repeat now and then."""
    chance = random.Random(seed)
    rows = []
    for _ in range(height):
        rows.append(rows[-1] if rows and chance.random() < 0.5 else chance.getrandbits(width))
    return of_numbers(rows, width)


def p1(picture: Picture) -> bytes:
    digits = ("".join("01"[pixel] for pixel in row) for row in pixels_of(picture))
    return b"P1 # digits\n# and a comment\n%d\n%d\n" % (picture.width, picture.height) + "\n".join(digits).encode()


def pixels_of(picture: Picture) -> list[list[int]]:
    size = (picture.width + 7) // 8
    rows = (picture.rows[y * size : (y + 1) * size] for y in range(picture.height))
    return [[row[x // 8] >> (7 - x % 8) & 1 for x in range(picture.width)] for row in rows]


def chunk(name: bytes, data: bytes) -> bytes:
    return struct.pack(">I", len(data)) + name + data + struct.pack(">I", zlib.crc32(name + data))


def png(picture: Picture, depth: int = 1, kind: int = 0, shades=(0, None), chunks: bytes = b"") -> bytes:
    """A PNG picture of this depth and colour type, whose black and white samples these are."""
    most = (1 << depth) - 1
    black, white = shades[0], most if shades[1] is None else shades[1]
    samples = {0: 1, 2: 3, 3: 1, 4: 2}[kind]
    data = b""
    for row in pixels_of(picture):
        bits = "".join(f"{black if pixel else white:0{depth}b}" * samples for pixel in row)
        bits += "0" * (-len(bits) % 8)
        data += b"\0" + int(bits, 2).to_bytes(len(bits) // 8, "big")
    header = struct.pack(">IIBBBBB", picture.width, picture.height, depth, kind, 0, 0, 0)
    return PNG + chunk(b"IHDR", header) + chunks + chunk(b"IDAT", zlib.compress(data)) + chunk(b"IEND", b"")


class WritingCase(Case):
    """A test that reads back what was written."""

    def read_back(self, name: str) -> list[Picture]:
        """The pages of what was written, by the command itself, which draws what the proved program does."""
        self.assert_ends(self.run_here(name, "--strict", "-f", "pbm", "-o", "back.pbm", "--force"), WHOLE)
        return pictures_of((self.room / "back.pbm").read_bytes())


class Writing(WritingCase):
    def test_pages_read_back(self):
        for number, (width, height) in enumerate([(1, 1), (7, 3), (64, 64), (65, 9), (200, 77)]):
            picture = noise(width, height, number)
            self.made(picture.pbm, "scan.pbm")
            for words in ["-o", "scan.jb2"], ["-o", "scan.jb2e"], ["-o", "page.jb2", "--embedded"]:
                for options in [], ["--template", str(number % 4)], ["--no-typical"], ["--typical"], ["--coding", "mmr"]:
                    with self.subTest(width=width, words=words, options=options):
                        self.assert_ends(self.run_here("write", "scan.pbm", *words, *options, "--force"), WHOLE)
                        self.assertEqual(self.read_back(words[1]), [picture])

    def test_what_is_written(self):
        self.made(noise(30, 20).pbm, "scan.pbm")
        self.assert_ends(self.run_here("write", "scan.pbm"), WHOLE)
        self.assert_ends(self.run_here("write", "scan.pbm", "-o", "page.jb2e"), WHOLE)
        file, page = (self.room / "scan.jb2").read_bytes(), (self.room / "page.jb2e").read_bytes()
        self.assertTrue(file.startswith(b"\x97JB2\r\n\x1a\n\x01\x00\x00\x00\x01" + page))
        self.assert_ends(self.run_here("write", "scan.pbm", "-o", "page.jb2", "--embedded"), WHOLE)
        self.assertEqual((self.room / "page.jb2").read_bytes(), page)

    def test_codings(self):
        self.made(noise(30, 20).pbm, "scan.pbm")
        for options, said in {
            (): "arithmetic, template 0, typical prediction",
            ("--coding=mmr", "--coding=arithmetic", "--no-typical", "--template=1"): "arithmetic, template 1",
            ("--coding=mmr",): "MMR",
        }.items():
            self.assert_ends(self.run_here("write", "scan.pbm", *options, "--force"), WHOLE)
            listed = json.loads(self.run_here("info", "--json", "scan.jb2").output)
            self.assertIn(said, [segment.get("coding") for segment in listed[0]["segments"]], options)

    def test_other_readers(self):
        for seed, options in enumerate([[], ["--coding", "mmr"]]):
            picture = noise(70, 50, seed)
            self.made(picture.pbm, "scan.pbm")
            self.assert_ends(self.run_here("write", "scan.pbm", "-o", "scan.jb2", "--force", *options), WHOLE)
            self.assert_ends(self.run_here("write", "scan.pbm", "scan.pbm", "-o", "scan.pdf", "--force", *options), WHOLE)
            self.read_by_others(picture)

    def read_by_others(self, picture: Picture):
        readers = {
            "jbig2dec": (["-t", "pbm", "-o", "read.pbm", "scan.jb2"], ["read.pbm"]),
            "pdfimages": (["scan.pdf", "image"], ["image-000.pbm", "image-001.pbm"]),
            "gs": (["-q", "-dSAFER", "-dNOPAUSE", "-dBATCH", "-sDEVICE=pbmraw", "-r300", "-o", "gs-%d.pbm", "scan.pdf"],
                   ["gs-1.pbm", "gs-2.pbm"]),
            "mutool": (["draw", "-q", "-r", "300", "-o", "mu-%d.pbm", "scan.pdf"], ["mu-1.pbm", "mu-2.pbm"]),
        }
        for reader, (words, names) in readers.items():
            if shutil.which(reader) is None:
                print(f"skipped: {reader}, which is not installed")
                continue
            with self.subTest(reader):
                subprocess.run([reader, *words], cwd=self.room, check=True, stdout=subprocess.DEVNULL)
                for name in names:
                    self.assertEqual(pictures_of((self.room / name).read_bytes()), [picture])

    def test_pdf_pages(self):
        pictures = [noise(31 + number, 20, number) for number in range(12)]
        names = [f"{number}.pbm" for number in range(12)]
        for name, picture in zip(names, pictures):
            self.made(picture.pbm, name)
        self.assert_ends(self.run_here("write", *names, "-o", "all.pdf", "--dpi", "200"), WHOLE)
        data = (self.room / "all.pdf").read_bytes()
        self.assertIn(b"/MediaBox [0 0 11.1600 7.2000]", data)
        self.assertIn(b"/Count 12 ", data)
        if HAS_PDF:
            self.assertEqual(self.read_back("all.pdf"), pictures)
        if shutil.which("qpdf"):
            checked = subprocess.run(["qpdf", "--check", "all.pdf"], cwd=self.room, capture_output=True, check=False)
            self.assertEqual((checked.returncode, checked.stderr), (0, b""))

    def test_resolution(self):
        picture = noise(30, 20)
        self.made(picture.pbm, "scan.pbm")
        for dpi, number in (72, 2835), (300, 11811), (1200, 47244):
            self.assert_ends(self.run_here("write", "scan.pbm", "-o", "a.jb2e", "--dpi", str(dpi), "--force"), WHOLE)
            stated = struct.unpack(">II", (self.room / "a.jb2e").read_bytes()[22:30])
            self.assertEqual((stated, round(dpi / INCH)), ((number, number), number))
        self.assert_ends(self.run_here("write", "scan.pbm", "-o", "b.pdf", "--dpi", "72"), WHOLE)
        self.assertIn(b"/MediaBox [0 0 29.9963 19.9975]", (self.room / "b.pdf").read_bytes())
        if HAS_PNG:
            self.made(png(picture, chunks=chunk(b"pHYs", struct.pack(">IIB", 2, 1, 0))), "scan.png")
            self.assert_ends(self.run_here("write", "scan.png", "-o", "a.jb2e", "--force"), WHOLE)
            self.assertEqual((self.room / "a.jb2e").read_bytes()[22:30], bytes(8))
            self.made(png(picture, chunks=chunk(b"pHYs", struct.pack(">IIB", 7874, 3937, 1))), "scan.png")
            self.assert_ends(self.run_here("write", "scan.png", "-o", "a.jb2e", "--force", "--dpi", "72"), WHOLE)
            self.assertEqual(struct.unpack(">II", (self.room / "a.jb2e").read_bytes()[22:30]), (2835, 2835))
            self.assert_ends(self.run_here("write", "scan.png", "-o", "a.jb2e", "--force"), WHOLE)
            self.assertEqual(struct.unpack(">II", (self.room / "a.jb2e").read_bytes()[22:30]), (7874, 3937))
            self.assert_ends(self.run_here("write", "scan.png", "-o", "a.pdf"), WHOLE)
            self.assertIn(b"/MediaBox [0 0 10.8000 14.4000]", (self.room / "a.pdf").read_bytes())
            self.made(png(picture, chunks=chunk(b"pHYs", struct.pack(">IIB", 7874, 0, 1))), "scan.png")
            self.assert_ends(self.run_here("write", "scan.png", "-o", "a.pdf", "--force"), WHOLE)
            self.assertIn(b"/MediaBox [0 0 7.2000 4.8000]", (self.room / "a.pdf").read_bytes())

    def test_pbm_forms(self):
        picture = noise(37, 9)
        comment = picture.pbm.replace(b"37 9\n", b"37 9# and a comment\n", 1)
        forms = {"digits": p1(picture), "two": picture.pbm + picture.pbm, "comment": comment}
        forms["end"] = p1(picture) + b"# of digits\n#\n"
        forms["return"] = picture.pbm.replace(b"P4\n", b"P4\n# 1\r", 1)
        for name, data in forms.items():
            self.made(data, f"{name}.pbm")
            self.assert_ends(self.run_here("write", f"{name}.pbm", "-o", f"{name}.pdf"), WHOLE)
            if HAS_PDF:
                self.assertEqual(self.read_back(f"{name}.pdf"), [picture] * (1 + (name == "two")))
        for data in b"P4\n8 8\n1234567", b"P4\n8\n", b"P1\n2 2\n0 1 0", b"P1\n2 2\n0 1 0 2":
            self.made(data, "bad.pbm")
            self.assert_ends(self.run_here("write", "bad.pbm", "-o", "bad.jb2"), NOT_DONE, "bad.pbm: the ")
        for data in b"P4 8 1\nx P5", b"P4 8 1\nx#", b"P1 1 1 0#\n0":
            self.made(data, "bad.pbm")
            said = "bad.pbm: picture 2: after a picture of PBM comes something else"
            self.assert_ends(self.run_here("write", "bad.pbm", "-o", "bad.jb2"), NOT_DONE, said)
        for sides in b"0 8", b"8 0", b"65536 1", b"1 65536", b"99999999999999999999 1":
            self.made(b"P4 " + sides + b"\n" + bytes(70000), "bad.pbm")
            self.assert_ends(self.run_here("write", "bad.pbm", "-o", "bad.jb2"), NOT_DONE, "a page has 1 to 65535")
        self.made(b"P4 1000000 1\n", "bad.pbm")
        self.assert_ends(self.run_here("write", "bad.pbm", "-o", "bad.jb2"), NOT_DONE, "it has 1000000 by 1 pixels")
        self.assertNotIn("bad.jb2", self.files())

    @unittest.skipUnless(HAS_PNG, "built without libpng")
    def test_png_forms(self):
        picture = noise(37, 9)
        palette = chunk(b"PLTE", bytes([0, 0, 0, 255, 255, 255]))
        good = {
            **{f"depth {depth}": png(picture, depth) for depth in (1, 2, 4, 8, 16)},
            "a palette": png(picture, 1, 3, chunks=palette),
            "a palette of 8 bits": png(picture, 8, 3, (0, 1), palette),
            "a palette whose colour isn't used": png(picture, 2, 3, (2, 1), chunk(b"PLTE", b"abc" + b"\xff" * 3 + bytes(3))),
        }
        bad = {
            "shades of gray": png(picture, 8, 0, (0, 254)),
            "gray": png(picture, 16, 0, (0, 0xFFFE)),
            "the picture has shades": png(picture, 16, 0, (0, 0xFF00)),
            "colours": png(picture, 8, 2),
            "transparent": png(picture, 8, 4),
            "has colours;": png(picture, 1, 3, chunks=chunk(b"PLTE", bytes([0, 0, 0, 255, 255, 254]))),
            "has shades of gray;": png(picture, 1, 3, chunks=chunk(b"PLTE", bytes([0, 0, 0, 128, 128, 128]))),
            "a pixel has no colour in the palette": png(picture, 1, 3, chunks=chunk(b"PLTE", bytes(3))),
            "transparent pixels": png(picture, 1, 0, chunks=chunk(b"tRNS", b"\0\0")),
            "": png(picture)[:-30],
            "the PNG picture is cut off": png(picture)[:-6],
        }
        for name, data in good.items():
            with self.subTest(name):
                self.made(data, "scan.png")
                self.assert_ends(self.run_here("write", "scan.png", "-o", "scan.jb2", "--force"), WHOLE)
                self.assertEqual(self.read_back("scan.jb2"), [picture])
        for text, data in bad.items():
            with self.subTest(text):
                self.made(data, "bad.png")
                self.assert_ends(self.run_here("write", "bad.png", "-o", "bad.jb2"), NOT_DONE, "bad.png: ", text)
        self.assertNotIn("bad.jb2", self.files())

    @unittest.skipUnless(HAS_PNG, "built without libpng")
    def test_a_large_png_takes_no_more_memory_than_its_packed_rows(self):
        """12000 by 12000 pixels of a palette, which are 18 MB, and 144 MB as bytes."""
        side = 12000
        data = zlib.compress((b"\0" + b"\xff" * (side // 8)) * side)
        header = struct.pack(">IIBBBBB", side, side, 1, 3, 0, 0, 0)
        palette = chunk(b"PLTE", bytes([0, 0, 0, 255, 255, 255]))
        self.made(PNG + chunk(b"IHDR", header) + palette + chunk(b"IDAT", data) + chunk(b"IEND", b""), "scan.png")
        limit = functools.partial(resource.setrlimit, resource.RLIMIT_AS, (160 << 20, 160 << 20))
        self.assert_ends(self.run_here("write", "scan.png", preexec_fn=limit), WHOLE)

    @unittest.skipUnless(HAS_PNG, "built without libpng")
    def test_interlaced_png(self):
        picture = noise(37, 9)
        rows = pixels_of(picture)
        data = b""
        passes = (0, 0, 8, 8), (4, 0, 8, 8), (0, 4, 4, 8), (2, 0, 4, 4), (0, 2, 2, 4), (1, 0, 2, 2), (0, 1, 1, 2)
        for x, y, across, down in passes:
            for row in rows[y::down]:
                data += b"\0" + bytes(0 if pixel else 255 for pixel in row[x::across])
        header = struct.pack(">IIBBBBB", picture.width, picture.height, 8, 0, 0, 0, 1)
        self.made(PNG + chunk(b"IHDR", header) + chunk(b"IDAT", zlib.compress(data)) + chunk(b"IEND", b""), "scan.png")
        self.assert_ends(self.run_here("write", "scan.png"), WHOLE)
        self.assertEqual(self.read_back("scan.jb2"), [picture])

    def test_pdf_files_of_a_page(self):
        picture = noise(20, 20)
        self.made(picture.pbm, "a.pbm")
        self.made(picture.pbm * 2, "b.pbm")
        for words, folder in ([], ""), (["-o", "c/"], "c/"):
            ended = self.run_here("write", "a.pbm", "b.pbm", "-f", "pdf", *words)
            self.assertEqual((ended.status, ended.output, ended.errors), (WHOLE, b"", ""))
            for name in "a", "b-1", "b-2":
                self.assertIn(b"/Count 1 ", (self.room / f"{folder}{name}.pdf").read_bytes())
                if HAS_PDF:
                    self.assertEqual(self.read_back(f"{folder}{name}.pdf"), [picture])

    def test_no_page_of_a_pdf_file_is_without_a_size(self):
        self.made(noise(1, 1).pbm, "a.pbm")
        self.assert_ends(self.run_here("write", "a.pbm", "-o", "a.pdf", "--dpi", "100000000"), WHOLE)
        self.assertIn(b"/MediaBox [0 0 0.0001 0.0001]", (self.room / "a.pdf").read_bytes())

    def test_no_pdf_file_is_larger_than_its_table_of_objects_can_say(self):
        """Which has ten digits for each place. Its bytes before the pages are counted here, and not written."""
        self.made(noise(20, 20).pbm, "a.pbm")
        for begins, status in (9999990000, WHOLE), (9999999600, NOT_DONE):
            env = {**os.environ, "PDF_BEGINS": str(begins)}
            ended = self.run_here("write", "a.pbm", "-o", f"{begins}.pdf", program=COUNTED, env=env)
            self.assertEqual(ended.status, status, ended.errors)
        self.assertIn("hayro-jbig2: 9999999600.pdf: File too large\n", ended.errors)
        self.assertEqual(self.files(), ["9999990000.pdf", "a.pbm"])

    def test_a_file_that_can_not_be_made(self):
        self.made(noise(20, 20).pbm, "a.pbm")
        for name in "none/a.pdf", "none/a.jb2":
            ended = self.run_here("write", "a.pbm", "-o", name, program=SANITIZED)
            self.assertEqual((ended.status, ended.errors), (NOT_DONE, f"hayro-jbig2: {name}: No such file or directory\n"))
        self.made(noise(20, 20).pbm * 2, "b.pbm")
        ended = self.run_here("write", "b.pbm", "-o", "none/b.pdf", program=SANITIZED)
        self.assertEqual(ended.errors, "hayro-jbig2: none/b.pdf: No such file or directory\n")
        ended = self.run_here("write", "a.pbm", "gone.pbm", "-o", "none/a/", program=SANITIZED)
        said = "none/a/: the folder can't be made: No such file or directory\n"
        self.assertEqual((ended.status, ended.errors), (NOT_DONE, said))

    def test_several(self):
        picture = noise(20, 20)
        self.made(picture.pbm, "a.pbm")
        self.made(picture.pbm * 2, "b.pbm")
        said = "name a PDF file or a folder for several"
        self.assert_ends(self.run_here("write", "a.pbm", "b.pbm", "-o", "c.jb2"), NOT_DONE, said)
        self.assert_ends(self.run_here("write", "b.pbm", "-o", "c.jb2"), NOT_DONE, "b.pbm: a file that is written")
        self.assert_ends(self.run_here("write", "a.pbm", "b.pbm", "-o", "c/"), WHOLE)
        self.assertEqual(sorted(path.name for path in (self.room / "c").iterdir()), ["a.jb2", "b-1.jb2", "b-2.jb2"])
        self.assert_ends(self.run_here("write", "a.pbm", "./a.pbm", "-o", "d/"), NOT_DONE, "another of this run")
        # A PDF file that lacks pages doesn't appear.
        ended = self.run_here("write", "a.pbm", "none.pbm", "gone.pbm", "-o", "c.pdf")
        self.assertEqual((ended.status, ended.errors), (NOT_DONE, "hayro-jbig2: none.pbm: No such file or directory\n"))
        self.assertNotIn("c.pdf", self.files())
        self.assert_ends(self.run_here("write", "none.pbm", "a.pbm", "-o", "e/"), NOT_DONE, "none.pbm: ")
        self.assertIn("e/a.jb2", self.files())

    def test_nothing_is_overwritten(self):
        self.made(noise(20, 20).pbm, "a.pbm")
        for name in "a.jb2", "a.pdf":
            self.made(b"mine", name)
            self.assert_ends(self.run_here("write", "a.pbm", "-o", name), NOT_DONE, "--force overwrites it")
            self.assertEqual((self.room / name).read_bytes(), b"mine")
            self.assert_ends(self.run_here("write", "a.pbm", "-o", name, "--force"), WHOLE)
            self.assertNotEqual((self.room / name).read_bytes(), b"mine")

    def test_each_picture_that_has_a_file_of_its_own_is_tried(self):
        self.made(noise(20, 20).pbm * 4, "a.pbm")
        self.made(b"mine", "a-1.jb2")
        self.made(b"mine", "a-3.jb2")
        said = (f"hayro-jbig2: a-{number}.jb2: is there already; --force overwrites it\n" for number in (1, 3))
        ended = self.run_here("write", "a.pbm", program=SANITIZED)
        self.assertEqual((ended.status, ended.errors), (NOT_DONE, "".join(said)))
        self.assertEqual(self.files(), ["a-1.jb2", "a-2.jb2", "a-3.jb2", "a-4.jb2", "a.pbm"])

    def test_standard_streams(self):
        picture = noise(20, 20)
        ended = self.run_here("write", "-", input=picture.pbm)
        self.assertEqual((ended.status, ended.errors), (WHOLE, ""))
        (self.room / "a.jb2").write_bytes(ended.output)
        self.assertEqual(self.read_back("a.jb2"), [picture])
        self.made(picture.pbm, "standard input")
        self.assert_ends(self.run_here("write", "-", "standard input", "-o", "b/", input=picture.pbm), WHOLE)
        self.assertEqual(sorted(path.name for path in (self.room / "b").iterdir()), ["standard input.jb2", "stdin.jb2"])
        ended = self.run_here("write", "-", "-f", "pdf", "-o", "-", input=picture.pbm)
        self.assertTrue(ended.output.startswith(b"%PDF-1.4\n") and ended.output.endswith(b"%%EOF\n"))
        ended = self.run_here("write", "-", "-o", "/dev/full", input=picture.pbm)
        self.assertEqual((ended.status, ended.errors), (NOT_DONE, "hayro-jbig2: /dev/full: No space left on device\n"))
        ended = self.run_here("write", "-", "-f", "pdf", "-o", "/dev/full", input=picture.pbm)
        self.assertEqual((ended.status, ended.errors), (NOT_DONE, "hayro-jbig2: /dev/full: No space left on device\n"))

    def test_other_inputs(self):
        others = {
            "a JBIG2 file": BOOK,
            "text": b"words\n",
            "an empty file": b"",
            "a PGM picture": b"P5 1 1 255\n\0",
            "a BMP picture": b"BM" + struct.pack("<12I", 94, 0, 62, 40, 8, 8, 1 << 16 | 1, 0, 32, 0, 0, 2) + bytes(44),
            "nothing that this program knows": bytes(range(255, 200, -1)),
        }
        for said, data in others.items():
            self.made(data, "a")
            self.assert_ends(self.run_here("write", "a", "-o", "b.jb2"), NOT_DONE, f"a: this is {said}; write takes")
        self.assert_ends(self.run_here("write", "none.png", "-o", "b.jb2"), NOT_DONE, "none.png: No such file or directory")

    def test_words(self):
        self.made(noise(20, 20).pbm, "a.pbm")
        wrong = {
            "name a file": [],
            "not png": ["a.pbm", "-o", "a.png"],
            "no format for the ending of": ["a.pbm", "-o", "a.xyz"],
            "wrong word for --coding: huffman": ["a.pbm", "--coding", "huffman"],
            "--template is for the arithmetic coder, not for --coding=mmr": ["a.pbm", "--coding=mmr", "--template=0"],
            "--typical is for the arithmetic coder": ["a.pbm", "--typical", "--coding=mmr"],
            "--no-typical is for the arithmetic coder": ["a.pbm", "--coding", "mmr", "--no-typical"],
            "wrong word for --template: 4": ["a.pbm", "--template", "4"],
            "wrong word for --dpi: 0": ["a.pbm", "--dpi", "0"],
            "--embedded is not for PDF": ["a.pbm", "--embedded", "-o", "a.pdf"],
            "--salvage is for reading": ["a.pbm", "--salvage"],
            "--pages is for reading": ["a.pbm", "--pages", "1"],
            "--json is for info": ["a.pbm", "--json"],
        }
        for said, words in wrong.items():
            with self.subTest(said):
                self.assert_ends(self.run_here("write", *words), WRONG_WORDS, said)
        for words in ["--dpi", "300"], ["--no-typical"], ["--template=1"], ["--embedded"], ["--coding=mmr"]:
            self.assert_ends(self.run_here("a.jb2", *words), WRONG_WORDS, "is for the command write")
        self.assert_ends(self.run_here("a.jb2", "-o", "a.pdf"), WRONG_WORDS, "the command write makes files of pdf")

    def test_without_libraries(self):
        self.made(png(noise(20, 20)), "a.png")
        self.made(b"II*\0", "a.tiff")
        for name, library in ("a.png", "libpng"), ("a.tiff", "libtiff"):
            ended = self.run_here("write", name, "-o", "b.jb2", program=BARE)
            self.assertEqual(ended.status, NOT_DONE)
            self.assertIn(f"needs {library}", ended.errors)
            self.assertIn("PBM needs nothing", ended.errors)


if __name__ == "__main__":
    unittest.main()
