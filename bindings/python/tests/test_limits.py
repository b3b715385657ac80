"""The limit of work: hostile files are refused at once, and honest ones are drawn."""

from __future__ import annotations

import resource
import struct
import subprocess
import sys
import time
import unittest

import hayro_jbig2
from pages import EXAMPLE, GLOBALS, HEADER, TEXT, generic_page

# A region of 65535 by 65535 pixels on a page of one column: without a limit it runs on and on.
WIDE = bytes.fromhex(
    "00000000 30 00 01 00000013 00000001 0000FFFF" + "00" * 11 + "00000001 26 00 01 0000001E 0000FFFF 0000FFFF"
    "0000000000000000 04 00 03FFFDFF02FEFEFE 0000FFAC 00000002 31 00 01 00000000"
)
# A dictionary of 1000 patterns of 1 by 255 pixels, which takes 33 million units and 2 MB.
PATTERNS = bytes.fromhex("00000001 10 00 01 00000007 0001FF000003E7")
SHARED_PATTERNS = bytes.fromhex("00000001 10 00 00 00000007 0001FF000003E7")
PAGE = bytes.fromhex("00000002 30 00 01 00000013 00000008 00000001" + "00" * 11)


class Limits(unittest.TestCase):
    def test_hostile_pages_are_refused_at_once(self):
        before = time.process_time()
        for how in {}, {"strict": True}, {"salvage": True}:
            for data in WIDE, HEADER + WIDE:
                with self.assertRaises(hayro_jbig2.WorkLimitReached) as caught:
                    hayro_jbig2.decode(data, **how)
            [_] = hayro_jbig2.sizes(WIDE, **how)
            with self.assertRaises(hayro_jbig2.WorkLimitReached):
                next(hayro_jbig2.pages(HEADER + WIDE, **how))
        self.assertLess(time.process_time() - before, 10)
        self.assertIsInstance(caught.exception, hayro_jbig2.OutOfMemory)
        self.assertEqual(str(caught.exception), "the limit of 16777216 units of work is reached")
        # HAYRO_JBIG2_WORK_LIMIT
        self.assertEqual((caught.exception.number, caught.exception.variant), (103, "WorkLimitReached"))

    def test_what_pages_share_has_a_limit(self):
        for call in (
            lambda **how: hayro_jbig2.Globals(PATTERNS, **how),
            lambda **how: hayro_jbig2.decode(PAGE, globals=PATTERNS, **how),
            lambda **how: hayro_jbig2.decode(HEADER + SHARED_PATTERNS + PAGE, **how),
            lambda **how: hayro_jbig2.pages(HEADER + SHARED_PATTERNS + PAGE, **how),
            lambda **how: hayro_jbig2.sizes(HEADER + SHARED_PATTERNS + PAGE, **how),
        ):
            for salvage in False, True:
                for limit in "default", 0, 10_000_000:
                    with self.assertRaises(hayro_jbig2.WorkLimitReached):
                        call(salvage=salvage, work_limit=limit)
                for limit in None, 40_000_000, 2**70:
                    call(salvage=salvage, work_limit=limit)

    def test_globals_may_take_more_where_there_are_more_bytes(self):
        hayro_jbig2.Globals(PATTERNS[:7] + (40_007).to_bytes(4, "big") + PATTERNS[11:] + bytes(40_000))

    def test_many_bytes_lift_the_limit_no_further_than_so_far(self):
        # A PDF file packs four million zeros into four thousand bytes.
        many = b"".join(number.to_bytes(4, "big") + PATTERNS[4:] for number in range(1, 41))
        zeros = bytes.fromhex("000000FF 3E 00 00 003D0900") + bytes(4_000_000)
        for salvage in False, True:
            with self.assertRaises(hayro_jbig2.WorkLimitReached) as caught:
                hayro_jbig2.Globals(many + zeros, salvage=salvage)
            self.assertEqual(str(caught.exception), "the limit of 1073741824 units of work is reached")
        hayro_jbig2.Globals(many + zeros, work_limit=1 << 31)

    def test_a_limit_of_ones_own(self):
        page = hayro_jbig2.decode(EXAMPLE)
        for limit in "default", None, 1 << 20, 2**64 - 1, 2**64:
            self.assertEqual(hayro_jbig2.decode(EXAMPLE, work_limit=limit), page)
        with self.assertRaises(hayro_jbig2.WorkLimitReached):
            hayro_jbig2.decode(EXAMPLE, work_limit=1 << 10)
        self.assertEqual(hayro_jbig2.decode(TEXT, globals=hayro_jbig2.Globals(GLOBALS)).rows, b"\x80")
        for limit, error in (-1, ValueError), ("none", TypeError), (0.5, TypeError):
            with self.assertRaises(error):
                hayro_jbig2.decode(EXAMPLE, work_limit=limit)

    def test_a_large_page_may_take_more(self):
        data = generic_page(2048, 2048)
        hayro_jbig2.decode(data)
        with self.assertRaises(hayro_jbig2.WorkLimitReached):
            hayro_jbig2.decode(data, work_limit=4_000_000)

    def test_want_of_memory_is_another_error(self):
        # As many dictionaries as don't fit into the memory.
        many = b"".join(number.to_bytes(4, "big") + PATTERNS[4:] for number in range(1, 200))
        for megabytes, data, how in (
            (150, generic_page(65535, 65535), {}),
            (150, generic_page(65535, 65535), {"work_limit": None}),
            (150, PAGE, {"globals": many, "work_limit": None}),
            (150, HEADER + many.replace(PATTERNS[4:], SHARED_PATTERNS[4:]) + PAGE, {"work_limit": None}),
            # Room for a page of 113 MB in the library, and none for its rows here.
            (200, PAGE[:11] + struct.pack(">II", 30000, 30000) + PAGE[19:], {}),
        ):
            program = f"""import hayro_jbig2
try:
    hayro_jbig2.decode({data!r}, **{how!r})
except hayro_jbig2.OutOfMemory as error:
    print(type(error).__name__)"""
            # For the whole process.
            limits = (megabytes << 20, megabytes << 20)
            run = subprocess.run(
                [sys.executable, "-c", program],
                capture_output=True,
                text=True,
                check=True,
                preexec_fn=lambda: resource.setrlimit(resource.RLIMIT_AS, limits),
            )
            self.assertEqual(run.stdout, "OutOfMemory\n")


if __name__ == "__main__":
    unittest.main()
