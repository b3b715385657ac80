"""The most bytes that a row or a page may ask for, by most-bytes.tsv: a line for each, its name and the number."""
import os
import random
import struct

from testing.jbig2_encoder.bitmap import Bitmap
from testing.jbig2_encoder.dictionary import HeightClass, NewSymbol, SymbolDictionary, dictionary_data
from testing.jbig2_encoder.framing import segment
from testing.jbig2_encoder.text import Instance, Settings, Strip, Text, TextForm, text_data

TABLE = os.path.join(os.path.dirname(os.path.abspath(__file__)), "most-bytes.tsv")
# A sheet of A4 at 300 dots an inch.
WIDTH, HEIGHT = 2480, 3508
NOMINAL_PIXELS = bytes.fromhex("03fffdff02fefefe")
REFINEMENT_PIXELS = bytes.fromhex("ffffffff")


def table():
    """The most bytes of each name."""
    with open(TABLE, encoding="ascii") as file:
        return {name: int(most) for name, most in (line.rstrip("\n").split("\t") for line in file)}


def write_table(counts):
    with open(TABLE, "w", encoding="ascii") as file:
        file.writelines(f"{name}\t{most}\n" for name, most in counts.items())


def page_information():
    return segment(0, 48, struct.pack(">IIIIBH", WIDTH, HEIGHT, 0, 0, 0, 0))


def region(flags=0):
    """The information of a region that is the whole page."""
    return struct.pack(">IIIIB", WIDTH, HEIGHT, 0, 0, flags)


def coded(count):
    """Bytes that look random: all bytes are data of the arithmetic coder."""
    return random.Random(1).randbytes(count)


def generic(flags=0):
    return segment(1, 38, region() + bytes([flags]) + NOMINAL_PIXELS + coded(70000))


def white_rows():
    """A generic region by MMR data whose rows are all white: a one for each."""
    return segment(1, 38, region() + b"\x01" + b"\xff" * (HEIGHT // 8) + b"\xf0")


def refined():
    """A generic region, and a refinement of the page."""
    return generic() + segment(2, 42, region() + b"\x00" + REFINEMENT_PIXELS + coded(70000))


def halftone():
    """16 patterns of 4 by 4, and a halftone region with a cell for each 4 by 4 pixels."""
    grid = struct.pack(">IIIIHH", WIDTH // 4, HEIGHT // 4, 0, 0, 4 * 256, 0)
    patterns = segment(1, 16, bytes([0, 4, 4]) + struct.pack(">I", 15) + coded(40))
    return patterns + segment(2, 22, region() + b"\x00" + grid + coded(40000), [1])


def letters():
    """200 symbols of 24 by 32 pixels."""
    chance, symbols = random.Random(2), [Bitmap(24, 32) for _ in range(200)]
    for symbol in symbols:
        symbol.rows = [[chance.getrandbits(1) for _ in row] for row in symbol.rows]
    return symbols


def text(prefix):
    """A dictionary of symbols, and a text region of 80 lines of 90 instances, both by the same coding."""
    symbols = letters()
    lines = [Strip(40 * line, [Instance(26 * k, (90 * line + k) % 200) for k in range(90)]) for line in range(80)]
    classes = [HeightClass(32, [NewSymbol(symbol) for symbol in symbols])]
    dictionary = segment(1, 0, dictionary_data(SymbolDictionary(classes, prefix=prefix)))
    drawn = text_data(Text(lines, 1), Settings(), symbols, TextForm(prefix))
    return dictionary + segment(2, 6, region() + drawn, [1])


# Pages of the size of a scan. What they show is noise.
PAGES = {
    "generic": lambda: generic(),
    "generic, predicted": lambda: generic(8),
    "MMR": white_rows,
    "refinement": refined,
    "halftone": halftone,
    "text": lambda: text(False),
    "text by prefix codes": lambda: text(True),
}


def write_pages(folder):
    """Writes each page into a file. Returns their names with the files."""
    files = {}
    for name, segments in PAGES.items():
        files[name] = os.path.join(folder, f"{len(files)}.jb2")
        with open(files[name], "wb") as file:
            file.write(b"\x97JB2\r\n\x1a\n\x01" + struct.pack(">I", 1) + page_information() + segments() + segment(3, 49, b""))
    return files
