"""Pages as images of Pillow, and JBIG2 files as files of Pillow."""

from __future__ import annotations

import concurrent.futures
import copy
import io
import pickle
import tempfile
import unittest
import warnings
from unittest import mock

from PIL import Image, ImageSequence, UnidentifiedImageError

import hayro_jbig2.pillow
from pages import EXAMPLE, HEADER, TEXT
from test_limits import WIDE

BOOK = EXAMPLE.read_bytes()


class Images(unittest.TestCase):
    def test_a_page_is_an_image(self):
        page = hayro_jbig2.decode(BOOK, page=2)
        image = page.to_image()
        self.assertEqual((image.mode, image.size), ("1", (37, 8)))
        for y in range(page.height):
            for x in range(page.width):
                black = page.rows[y * 5 + x // 8] << x % 8 & 0x80
                self.assertEqual(image.getpixel((x, y)), 0 if black else 255)

    def test_png_files_are_those_images(self):
        for page in hayro_jbig2.pages(BOOK):
            image = Image.open(io.BytesIO(page.to_png()))
            self.assertEqual((image.mode, image.size), ("1", (page.width, page.height)))
            self.assertEqual(image.tobytes(), page.to_image().tobytes())


class Files(unittest.TestCase):
    def test_pages_are_frames(self):
        drawn = list(hayro_jbig2.pages(BOOK))
        with warnings.catch_warnings():
            # A file that is not closed, for instance.
            warnings.simplefilter("error")
            for file in EXAMPLE, io.BytesIO(BOOK):
                with Image.open(file) as image:
                    self.assertEqual((image.format, image.mode, image.size), ("JBIG2", "1", (64, 56)))
                    self.assertEqual((image.n_frames, image.is_animated, image.tell()), (3, True, 0))
                    for index in 0, 2, 1, 2:
                        image.seek(index)
                        self.assertEqual((image.tell(), image.info), (index, {}))
                        self.compare(image, drawn[index])
                        self.assertEqual(image.info, {"passed_over": 0, "is_complete": True})
                    with self.assertRaises(EOFError):
                        image.seek(3)
                    self.compare(image, drawn[2])
                    for frame, page in zip(ImageSequence.Iterator(image), drawn):
                        self.compare(frame, page)
            # Its file is closed once the page is there.
            Image.open(EXAMPLE).load()

    def compare(self, image, page):
        self.assertEqual(image.size, (page.width, page.height))
        self.assertEqual(image.tobytes(), page.to_image().tobytes())

    def test_what_is_drawn_on_an_image_stays(self):
        image = Image.open(io.BytesIO(BOOK))
        image.putpixel((0, 0), 0)
        image.load()
        self.assertEqual(image.getpixel((0, 0)), 0)

    def test_frames_are_saved(self):
        with tempfile.TemporaryFile() as file:
            Image.open(EXAMPLE).save(file, "TIFF", save_all=True)
            with Image.open(file) as saved:
                self.assertEqual(saved.n_frames, 3)

    def test_images_are_copied(self):
        image = Image.open(io.BytesIO(BOOK))
        for other in copy.deepcopy(image), image.copy(), pickle.loads(pickle.dumps(image)):
            other.load()
            self.assertEqual(other.tobytes(), image.tobytes())
            # It is the page alone.
            self.assertEqual(len(list(ImageSequence.Iterator(other))), 1)
            other.seek(0)
            with self.assertRaises(EOFError):
                other.seek(1)

    def test_a_file_is_read_once_for_all_frames(self):
        readings = []

        class File(hayro_jbig2._library.File):
            def __init__(self, *words):
                readings.append(words)
                super().__init__(*words)

        with mock.patch("hayro_jbig2._library.File", File):
            image = Image.open(io.BytesIO(BOOK))
            for frame, page in zip(ImageSequence.Iterator(image), hayro_jbig2.pages(BOOK)):
                self.compare(frame, page)
        # Once more for the pages.
        self.assertEqual(len(readings), 2)

    def test_threads_load_frames_of_one_image(self):
        image, page = Image.open(io.BytesIO(BOOK)), hayro_jbig2.decode(BOOK)

        def work(_):
            return image._file.draw(0, None) == page

        with concurrent.futures.ThreadPoolExecutor(4) as threads:
            self.assertTrue(all(threads.map(work, range(400))))

    def test_what_is_left_out_is_known(self):
        image = Image.open(io.BytesIO(HEADER + TEXT))
        with self.assertWarns(hayro_jbig2.IncompletePageWarning):
            image.load()
        self.assertEqual(image.info, {"passed_over": 1, "is_complete": False})

    def test_faults(self):
        for data, error in (
            (BOOK[:9], OSError),
            (BOOK[:13], OSError),
            (BOOK.replace(b"\r\n", b"\n"), UnidentifiedImageError),
            (b"", UnidentifiedImageError),
        ):
            with self.assertRaises(error):
                Image.open(io.BytesIO(data))

    def test_the_limit_of_work(self):
        image = Image.open(io.BytesIO(HEADER + WIDE))
        with self.assertRaises(hayro_jbig2.WorkLimitReached):
            image.load()
        image = Image.open(io.BytesIO(BOOK))
        with mock.patch("hayro_jbig2.pillow.WORK_LIMIT", 10):
            with self.assertRaisesRegex(hayro_jbig2.WorkLimitReached, "10 units"):
                Image.open(io.BytesIO(BOOK))
            with self.assertRaisesRegex(hayro_jbig2.WorkLimitReached, "10 units"):
                image.load()
        for limit in None, 1 << 24:
            with mock.patch("hayro_jbig2.pillow.WORK_LIMIT", limit):
                Image.open(io.BytesIO(BOOK)).load()
        image.load()

    def test_pages_that_are_too_large_are_refused(self):
        first, large = (
            bytes.fromhex(f"0000000{page} 30 00 0{page} 00000013 {size} {size}") + bytes(11)
            for page, size in ((1, "00000040"), (2, "0000FFFF"))
        )
        image = Image.open(io.BytesIO(HEADER[:-1] + b"\2" + first + large))
        self.assertEqual((image.size, image.n_frames), ((64, 64), 2))
        with self.assertRaises(Image.DecompressionBombError):
            image.seek(1)
        image.load()
        self.assertEqual((image.tell(), image.size), (0, (64, 64)))

    def test_names_say_what_files_are(self):
        self.assertEqual(Image.registered_extensions()[".jb2"], "JBIG2")


if __name__ == "__main__":
    unittest.main()
