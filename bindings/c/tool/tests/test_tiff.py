"""The command `write` takes TIFF pictures: each form, each page, and no damage."""
from __future__ import annotations

import functools
import resource
import struct
import unittest
import zlib

from support import HAS_TIFF, NOT_DONE, SANITIZED, WHOLE, Picture
from test_output import strips_of_tiff
from test_write import WritingCase, noise, pixels_of

T6, LZW, DEFLATE = 4, 5, 8


def tiff(picture: Picture, rows: bytes | None = None, is_big: bool = False, order: str = "<", **others: int) -> bytes:
    """A TIFF picture of one bit for each pixel, or a BigTIFF one, with its rows coded so, its numbers in an order of bytes,
    and other numbers for some of its fields."""
    rows = picture.rows if rows is None else rows
    begins = 16 if is_big else 8
    fields = {"width": 256, "height": 257, "depth": 258, "coding": 259, "photometric": 262, "place": 273}
    fields |= {"orientation": 274, "samples": 277, "strip": 278, "size": 279, "tile": 322, "tile_height": 323}
    fields |= {"tile_place": 324, "tile_size": 325, "palette": 320, "x": 282, "y": 283, "unit": 296}
    numbers = {"width": picture.width, "height": picture.height, "depth": 1, "coding": 1, "photometric": 0}
    numbers |= {"place": begins, "samples": 1, "strip": picture.height, "size": len(rows), **others}
    listed = sorted((fields[name], number) for name, number in numbers.items())
    mark = b"II" if order == "<" else b"MM"
    if is_big:
        data = mark + struct.pack(order + "HHHQ", 43, 8, 0, begins + len(rows)) + rows + struct.pack(order + "Q", len(listed))
        entries = (struct.pack(order + "HHQI4x", field, 4, 1, number) for field, number in listed)
        return data + b"".join(entries) + bytes(8)
    data = mark + struct.pack(order + "HI", 42, begins + len(rows)) + rows + struct.pack(order + "H", len(listed))
    return data + b"".join(struct.pack(order + "HHII", field, 4, 1, number) for field, number in listed) + bytes(4)


@unittest.skipUnless(HAS_TIFF, "built without libtiff")
class Tiff(WritingCase):
    def test_tiff(self):
        pictures = [noise(37, 9, 2), noise(64, 5, 3), noise(8, 8, 4)]
        self.made(b"".join(picture.pbm for picture in pictures), "all.pbm")
        self.assert_ends(self.run_here("write", "all.pbm", "-o", "pages/"), WHOLE)
        self.assert_ends(self.run_here("pages/all-1.jb2", "pages/all-2.jb2", "pages/all-3.jb2", "-o", "all.tiff"), WHOLE)
        self.assert_ends(self.run_here("write", "all.tiff", "-o", "again/", "-f", "jb2e"), WHOLE)
        for number, picture in enumerate(pictures, 1):
            self.assertEqual(self.read_back(f"again/all-{number}.jb2e"), [picture])
        for short in range(8, 400, 37):
            self.made((self.room / "all.tiff").read_bytes()[:short], "bad.tiff")
            self.assertEqual(self.run_here("write", "bad.tiff", "-o", "bad.pdf").status, NOT_DONE)
        self.assertNotIn("bad.pdf", self.files())

    def test_tiff_forms(self):
        picture = noise(16, 16)
        self.made(tiff(picture), "scan.tiff")
        self.assert_ends(self.run_here("write", "scan.tiff"), WHOLE)
        self.assertEqual(self.read_back("scan.jb2"), [picture])
        tiles = {"tile": 16, "tile_height": 16, "tile_place": 8, "tile_size": 32}
        not_bilevel = "; write takes black and white alone, so make it bi-level first\n"
        bad = {
            "the picture has colours" + not_bilevel: {"photometric": 2, "samples": 3},
            "the picture has transparent pixels" + not_bilevel: {"samples": 2},
            "the picture has PhotometricInterpretation 4, which write doesn't take\n": {"photometric": 4},
            "its pixels have neither one bit nor eight" + not_bilevel: {"depth": 4},
            "the picture is in tiles; write takes TIFF in strips alone\n": tiles,
            "the picture is turned (Orientation); write takes it upright alone\n": {"orientation": 6},
            "the picture is coded by JBIG (Compression 34661), which write doesn't take\n": {"coding": 34661},
            "libtiff doesn't know here how the picture is coded (Compression 34712)\n": {"coding": 34712},
        }
        for text, numbers in bad.items():
            with self.subTest(text):
                self.made(tiff(picture, **numbers), "bad.tiff")
                self.assert_ends(self.run_here("write", "bad.tiff"), NOT_DONE, f"bad.tiff: {text}")

    def test_tiff_that_does_not_say_what_black_is(self):
        """Programs take 0 as black or as white there, but of codes of fax as white alone."""
        picture = noise(16, 16)
        number, other = (struct.pack("<HHII", field, 4, 1, 0) for field in (262, 60000))
        self.made(tiff(picture).replace(number, other), "bad.tiff")
        said = "bad.tiff: the picture doesn't say whether 0 is black (PhotometricInterpretation)\n"
        self.assert_ends(self.run_here("write", "bad.tiff"), NOT_DONE, said)
        self.made(picture.pbm, "a.pbm")
        self.assert_ends(self.run_here("write", "a.pbm"), WHOLE)
        self.assert_ends(self.run_here("a.jb2", "-o", "a.tiff"), WHOLE)
        [(_, _, rows)] = strips_of_tiff((self.room / "a.tiff").read_bytes())
        self.made(tiff(picture, rows, coding=T6).replace(number, other), "good.tiff")
        self.assert_ends(self.run_here("write", "good.tiff"), WHOLE)
        self.assertEqual(self.read_back("good.jb2"), [picture])

    def test_black_is_0_or_the_greatest_number(self):
        picture = noise(37, 9)
        pixels = bytes(255 * pixel for row in pixels_of(picture) for pixel in row)
        for depth, rows in (1, picture.rows), (8, pixels):
            for photometric in 0, 1:
                with self.subTest(depth=depth, photometric=photometric):
                    coded = bytes(byte ^ 255 * photometric for byte in rows)
                    self.made(tiff(picture, coded, depth=depth, photometric=photometric), "scan.tiff")
                    self.assert_ends(self.run_here("write", "scan.tiff", "--force"), WHOLE)
                    self.assertEqual(self.read_back("scan.jb2"), [picture])
        self.made(tiff(picture, pixels[:-1] + b"\1", depth=8), "bad.tiff")
        self.assert_ends(self.run_here("write", "bad.tiff"), NOT_DONE, "bad.tiff: the picture has shades of gray; ")

    def test_resolution(self):
        """Pixels for each inch, where nothing else is said, or each centimetre. Without a unit they are a ratio alone."""
        for numbers, stated in (
            ({"x": 300, "y": 200}, (11811, 7874)),
            ({"x": 72, "y": 72, "unit": 2}, (2835, 2835)),
            ({"x": 118, "y": 120, "unit": 3}, (11800, 12000)),
            ({"x": 2, "y": 1, "unit": 1}, (0, 0)),
        ):
            self.made(tiff(noise(16, 16), **numbers), "scan.tiff")
            self.assert_ends(self.run_here("write", "scan.tiff", "-o", "a.jb2e", "--force"), WHOLE)
            self.assertEqual(struct.unpack(">II", (self.room / "a.jb2e").read_bytes()[22:30]), stated)

    def test_tiff_with_a_palette(self):
        """It may be black and white, so nothing is said of colours. The palette's six numbers are bytes of the rows."""
        data = tiff(noise(16, 16), photometric=3, palette=8)
        self.made(data.replace(struct.pack("<HHI", 320, 4, 1), struct.pack("<HHI", 320, 3, 6)), "bad.tiff")
        said = "bad.tiff: the picture has a palette; write takes TIFF without one\n"
        self.assert_ends(self.run_here("write", "bad.tiff"), NOT_DONE, said)

    def test_all_pages_need_not_fit_into_memory(self):
        """Twenty pages of 8 MB each, whose rows are the same bytes of the file."""
        side, count, begins = 8000, 20, 8
        rows = zlib.compress(bytes(side * side // 8))
        fields = {256: side, 257: side, 258: 1, 259: DEFLATE, 262: 0, 273: begins, 277: 1, 278: side, 279: len(rows)}
        listed = b"".join(struct.pack("<HHII", field, 4, 1, number) for field, number in fields.items())
        first, size = begins + len(rows), 2 + len(listed) + 4
        data = b"II*\0" + struct.pack("<I", first) + rows
        for page in range(count):
            follower = first + (page + 1) * size if page + 1 < count else 0
            data += struct.pack("<H", len(fields)) + listed + struct.pack("<I", follower)
        self.made(data, "scan.tiff")
        limit = functools.partial(resource.setrlimit, resource.RLIMIT_AS, (120 << 20, 120 << 20))
        self.assert_ends(self.run_here("write", "scan.tiff", "-o", "scan.pdf", preexec_fn=limit), WHOLE)
        self.assertIn(b"/Count 20 ", (self.room / "scan.pdf").read_bytes())

    def test_damage_that_libtiff_passes_over(self):
        """It shows white rows, or others, and says so alone."""
        picture = noise(64, 60)
        self.made(picture.pbm, "a.pbm")
        self.assert_ends(self.run_here("write", "a.pbm"), WHOLE)
        self.assert_ends(self.run_here("a.jb2", "-o", "a.tiff"), WHOLE)
        [(_, _, rows)] = strips_of_tiff((self.room / "a.tiff").read_bytes())
        self.made(tiff(picture, rows, coding=T6), "good.tiff")
        self.assert_ends(self.run_here("write", "good.tiff"), WHOLE)
        self.assertEqual(self.read_back("good.jb2"), [picture])
        half = len(rows) // 2
        end = bytes.fromhex("001001")
        for bad in rows[:half], rows[:half] + bytes(half), rows[:half] + end, rows[:half] + b"\1\2\3" + rows[half + 3 :]:
            self.made(tiff(picture, bad, coding=T6), "bad.tiff")
            self.assert_ends(self.run_here("write", "bad.tiff"), NOT_DONE, "bad.tiff: the TIFF picture is damaged at row ")
        self.assertNotIn("bad.jb2", self.files())

    def test_rows_that_are_not_in_the_strip(self):
        """libtiff takes the bytes after it."""
        picture = noise(16, 16)
        said = "bad.tiff: the TIFF picture is damaged: it has other rows than it states (StripByteCounts)\n"
        for numbers in {"size": 30}, {"height": 17, "strip": 17}, {"width": 32}:
            self.made(tiff(picture, **numbers), "bad.tiff")
            self.assert_ends(self.run_here("write", "bad.tiff"), NOT_DONE, said)
        self.assertEqual(self.files(), ["bad.tiff"])

    def test_a_strip_whose_size_is_not_known(self):
        """Old programs wrote 0, or a number that is too large."""
        picture = noise(16, 16)
        for form in {}, {"is_big": True}, {"order": ">"}, {"is_big": True, "order": ">"}:
            for size in 0, 31, 33, 1000, (1 << 32) - 1:
                with self.subTest(form=form, size=size):
                    self.made(tiff(picture, **form, size=size), "scan.tiff")
                    ended = self.run_here("write", "scan.tiff", "--force", program=SANITIZED)
                    if size == 31:
                        self.assert_ends(ended, NOT_DONE, "has other rows than it states (StripByteCounts)\n")
                        continue
                    self.assert_ends(ended, WHOLE)
                    self.assertEqual(self.read_back("scan.jb2"), [picture])
        self.made(tiff(picture, height=400, strip=400, size=1000), "bad.tiff")
        self.assert_ends(self.run_here("write", "bad.tiff"), NOT_DONE, "bad.tiff: the TIFF picture is damaged at row 0\n")

    def test_lzw_of_the_old_form(self):
        """Codes of nine bits, the lowest first: clear, each byte as it is, and end. libtiff warns of this form."""
        picture = noise(16, 50)
        codes = [256, *picture.rows, 257]
        number = sum(code << 9 * place for place, code in enumerate(codes))
        self.made(tiff(picture, number.to_bytes((9 * len(codes) + 7) // 8, "little"), coding=LZW), "a.tiff")
        self.assert_ends(self.run_here("write", "a.tiff"), WHOLE)
        self.assertEqual(self.read_back("a.jb2"), [picture])

    def test_big_tiff(self):
        picture = noise(37, 9)
        self.made(tiff(picture, is_big=True), "a.tiff")
        self.assert_ends(self.run_here("write", "a.tiff"), WHOLE)
        self.assertEqual(self.read_back("a.jb2"), [picture])


if __name__ == "__main__":
    unittest.main()
