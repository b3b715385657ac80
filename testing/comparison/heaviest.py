"""Makes small files that take long, times the built jbig2-decode on them, and prints how long the largest would take.

usage: python3 -m testing.comparison.heaviest [SIDE [NAME ...]]

Regions, grids and symbols are SIDE pixels wide and high (4096). The work of each file grows by the square of SIDE, or of SIDE
times a count that its line names. So the time at SIDE 65535, the most that is decoded, is printed beside it. PROGRAM may name a
built jbig2-decode. Status 0 means that each run ended by itself.
"""
import sys
import tempfile

from testing.comparison.damage import built_program
from testing.comparison.limited import Runner
from testing.jbig2_encoder.arithmetic import ArithmeticEncoder, Procedures
from testing.jbig2_encoder.fields import number
from testing.jbig2_encoder.framing import HEADER, page_information, region_information, segment
from testing.jbig2_encoder.prefix import STANDARD, Bits

MOST = 65535
# A page of 8 by 1: what is drawn on it is decoded whole, and mostly lies outside.
SMALL_PAGE = HEADER + segment(0, 48, page_information(8, 1)) + segment(9, 49, b"")
NOMINAL = bytes.fromhex("03FFFDFF02FEFEFE")


def generic(side, flags=0, pixels=NOMINAL, data=b""):
    return SMALL_PAGE + segment(1, 38, region_information(side, side) + bytes([flags]) + pixels + data)


def moved_pixels(side):
    return generic(side, pixels=bytes.fromhex("FB00FDFF02FEFEFE"))


def extended(side):
    return generic(side, 16, bytes.fromhex("FB00") * 12)


def rows_by_t6(side):
    """Each bit 1 is a row like the one above: at most eight rows a byte."""
    return SMALL_PAGE + segment(1, 38, region_information(side, side) + b"\x01" + b"\xff" * ((side + 7) // 8))


def refinement(side):
    return SMALL_PAGE + segment(1, 42, region_information(side, side) + bytes.fromhex("00FFFFFFFF"))


def patterns(count, width, height):
    """White ones by MMR, a bit for each row."""
    return segment(1, 16, bytes([1, width, height]) + number(count - 1) + b"\xff" * ((height + 7) // 8))


def halftone(side, flags, *dictionary):
    cells = number(side) + number(side) + bytes(12)
    return SMALL_PAGE + patterns(*dictionary) + segment(2, 22, region_information(side, side) + bytes([flags]) + cells, (1,))


def one_large_pattern(side):
    return halftone(side, 0, 1, 255, 255)


def one_small_pattern(side):
    return halftone(side, 0, 1, 1, 1)


def many_planes(side):
    return halftone(side, 0, MOST, 1, 1)


def skipping_planes(side):
    return halftone(side, 8, MOST, 1, 1)


def white_symbol(side):
    """A dictionary of one white symbol, by prefix codes; its MMR data is one byte that is no code."""
    bits = Bits()
    for table, value in ((4, side), (2, side), (2, None), (1, 1)):
        STANDARD[table].put(bits, value)
    bits.align()
    bits.put(0, 8)
    for run in (0, 1):
        STANDARD[1].put(bits, run)
    return segment(1, 0, bytes.fromhex("0001") + number(1) + number(1) + bits.bytes())


def tall_class(side):
    """A height class of SIDE * SIDE rows of one pixel, whose MMR data is one byte that is no code. Its height is reached by
    empty classes, since one number has at most 31 bits."""
    bits = Bits()
    height = side * side
    while height > 0x7FFFFFFF:
        for table, value in ((4, 0x7FFFFFFF), (2, None), (1, 0)):
            STANDARD[table].put(bits, value)
        bits.align()
        height -= 0x7FFFFFFF
    for table, value in ((4, height), (2, 1), (2, None), (1, 1)):
        STANDARD[table].put(bits, value)
    bits.align()
    bits.put(0, 8)
    return SMALL_PAGE + segment(1, 0, bytes.fromhex("0001") + number(1) + number(1) + bits.bytes())


def instances(side):
    """A text region of 4096 instances, all in one place: as many as 128 bytes of data may have. They cost few bits, since what
    is likely soon costs none."""
    encoder = ArithmeticEncoder()
    numbers = Procedures(encoder)
    for name in ("IADT", "IADT", "IAFS"):
        numbers.integer(name, 0)
    for _ in range(4095):
        numbers.integer("IADS", 1 - side)
    numbers.integer("IADS", None)
    data = region_information(side, side) + bytes.fromhex("0010") + number(4096) + encoder.finished()
    return SMALL_PAGE + white_symbol(side) + segment(2, 6, data.ljust(128, b"\0"), (1,))


def many_references(side):
    """A text region that refers again and again to a dictionary: its symbols are joined, and each takes a code."""
    bits = Bits()
    for table, value in ((4, 1),):
        STANDARD[table].put(bits, value)
    for at in range(4096):
        STANDARD[2].put(bits, 1 if at == 0 else 0)
    STANDARD[2].put(bits, None)
    STANDARD[1].put(bits, 0)
    bits.align()
    bits.put_bytes(bytes(512))
    for run in (0, 4096):
        STANDARD[1].put(bits, run)
    dictionary = segment(1, 0, bytes.fromhex("0001") + number(4096) + number(4096) + bits.bytes())
    region = region_information(8, 1) + bytes.fromhex("0010") + number(0)
    regions = b"".join(segment(2 + at, 6, region, (1,) * 255) for at in range(side // 256))
    return SMALL_PAGE + dictionary + regions


# A name, what makes the file, and by which power of SIDE its work grows. All are read strictly, so that nothing is passed over,
# but for those that are named after it: their MMR data ends early, or their values have no pattern.
FILES = (
    ("generic region, nominal pixels, no data", generic, 2),
    ("generic region, a pixel moved, no data", moved_pixels, 2),
    ("generic region, extended template, no data", extended, 2),
    ("generic region, SIDE rows by MMR", rows_by_t6, 2),
    ("refinement of the page, no data", refinement, 2),
    ("halftone region, one pattern of 1 by 1", one_small_pattern, 2),
    ("halftone region, one pattern of 255 by 255", one_large_pattern, 2),
    ("halftone region, 16 planes, no data", many_planes, 2),
    ("halftone region, 16 planes and skipped cells", skipping_planes, 2),
    ("symbol dictionary, a class of 1 by SIDE * SIDE", tall_class, 2),
    ("text region, 4096 instances of one symbol", instances, 2),
    ("SIDE / 256 text regions of 2^20 symbols", many_references, 1),
)
LENIENT = (tall_class, instances, many_planes, skipping_planes)


def main():
    side = int(sys.argv[1]) if len(sys.argv) > 1 else 4096
    wanted = sys.argv[2:]
    program = built_program()
    failed = 0
    with tempfile.TemporaryDirectory() as folder:
        runner = Runner(program, folder, 3600, 24 << 30)
        for name, make, power in FILES:
            if wanted and not any(word in name for word in wanted):
                continue
            data = make(side)
            words = ["pbm", None, "0"] if make in LENIENT else ["--strict", "pbm", None, "0"]
            ended = runner.run(data, words)
            failed += ended.signal != 0
            how = "drawn" if ended.status == 0 else ended.fault.decode(errors="replace").strip()
            most = ended.seconds * (MOST / side) ** power
            cost = f"{ended.seconds:8.2f} s, {ended.memory >> 20:5} MiB, at {MOST} {most:9.0f} s"
            print(f"{name:46} {len(data):6} bytes {cost}, {how}", flush=True)
    return 1 if failed else 0


if __name__ == "__main__":
    sys.exit(main())
