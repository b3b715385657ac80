"""JBIG2 files made up for the tests, and what is to be drawn of them."""
import os
import re

from testing.jbig2_encoder.framing import (
    END_OF_FILE, END_OF_PAGE, EXTENSION, GENERIC, HEADER, PAGE, page_information, region_information, segment, segment_header
)
from testing.jbig2_encoder.t6 import HORIZONTAL, VERTICAL, run_code

ROOT = os.path.dirname(os.path.dirname(os.path.dirname(os.path.abspath(__file__))))
# A segment whose data are cut off, and one of which a decoder has to know what it says (7.4.14).
CUT_OFF = segment_header(1, GENERIC, 17)
COLOURED = segment(1, EXTENSION, (0x80000000).to_bytes(4, "big"))


def page_segments(width, height, *segments, black=0):
    return segment(0, PAGE, page_information(width, height, black)) + b"".join(segments)


def file_of(page):
    """A file of one page, without that page's end."""
    return HEADER + page + segment(2, END_OF_PAGE, b"") + segment(3, END_OF_FILE, b"", page=0)


def packed(bits):
    """Bits as a text of 0 and 1, as bytes."""
    size = (len(bits) + 7) // 8
    return int(bits.ljust(8 * size, "0"), 2).to_bytes(size, "big")


def bitmap(width, height, rows):
    return b"P4\n%d %d\n" % (width, height) + rows


def striped(width, height):
    """A file whose pixels are white and black by turns, in MMR data of a bit for each, and its bitmap."""
    first = (HORIZONTAL + run_code(1, 0) + run_code(1, 1)) * (width // 2) + VERTICAL[0] * (width % 2)
    # Further rows change where the row above did.
    codes = first + VERTICAL[0] * width * (height - 1)
    region = segment(1, GENERIC, region_information(width, height) + b"\x01" + packed(codes))
    row = packed("01" * (width // 2) + "0" * (width % 2))
    return file_of(page_segments(width, height, region)), bitmap(width, height, row * height)


def example():
    """The example of T.88 H.1: its file's name, and the bitmaps of its three pages as the tests of the crates have them."""
    source = os.path.join(ROOT, "crates", "hayro_jbig2_tests", "src", "commands", "t88_example.rt")
    with open(source, encoding="utf-8") as file:
        text = file.read()
    pages = {}
    for name, array in re.findall(r"^const (\w+): \[u8; \d+\] = \[(.*?)\];", text, re.M | re.S):
        pages[name] = bytes(int(digits, 0) for digits in re.findall(r"\w+", array))
    file = os.path.join(ROOT, "crates", "jbig2_decode", "data", "t88-h1.jb2")
    return file, [pages["FIRST_PAGE"], pages["FIRST_PAGE"], pages["LAST_PAGE"]]
