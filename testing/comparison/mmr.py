"""Has libtiff code random pictures by T.6, and compares what ./jbig2-decode makes of the data with the pictures.

usage: python3 -m testing.comparison.mmr [COUNT [SEED]]

The programs ppm2tiff and tiffcp are of the Debian package libtiff-tools.
"""
import os
import random
import struct
import subprocess
import sys
import tempfile

from testing.comparison.compare import kept, our_picture, settings
from testing.jbig2_encoder.framing import HEADER, page_information, region_information, segment
from testing.jbig2_encoder.pictures import pixels


def random_rows(chance, width, height):
    """Rows of random runs, each row much like the one above."""
    row = [0] * width
    rows = []
    for _ in range(height):
        if chance.random() < 0.3:
            row, colour = [], chance.randrange(2)
            longest = chance.choice((2, 20, 300, 4000))
            while len(row) < width:
                row += [colour] * chance.randrange(0, longest)
                colour = 1 - colour
            row = row[:width]
        else:
            row = row[:]
            for _ in range(chance.randrange(4)):
                row[chance.randrange(width)] ^= 1
        rows.append(row)
    return rows


def packed(rows, width):
    stride = (width + 7) // 8
    lines = (int("".join(map(str, row)).ljust(8 * stride, "0"), 2) for row in rows)
    return b"".join(line.to_bytes(stride, "big") for line in lines)


def strip_of(tiff):
    """The bytes of the only strip of a TIFF file."""
    order = "<" if tiff[:2] == b"II" else ">"
    (at,) = struct.unpack_from(order + "I", tiff, 4)
    (count,) = struct.unpack_from(order + "H", tiff, at)
    fields = {}
    for entry in range(count):
        tag, kind, length, value = struct.unpack_from(order + "HHII", tiff, at + 2 + 12 * entry)
        if kind == 3:
            (value,) = struct.unpack_from(order + "H", tiff, at + 10 + 12 * entry)
        fields[tag] = value
        if tag == 273 and length != 1:
            raise ValueError("several strips")
    assert fields[259] == 4 and fields[262] == 0 and fields.get(266, 1) == 1
    return tiff[fields[273] : fields[273] + fields[279]]


def coded(folder, rows, width, height):
    names = [os.path.join(folder, name) for name in ("in.pbm", "in.tif", "out.tif")]
    with open(names[0], "wb") as file:
        file.write(b"P4\n%d %d\n" % (width, height) + packed(rows, width))
    subprocess.run(["ppm2tiff", "-R", "1", names[0], names[1]], check=True, capture_output=True)
    words = ["tiffcp", "-c", "g4", "-r", str(height), names[1], names[2]]
    subprocess.run(words, check=True, capture_output=True)
    with open(names[2], "rb") as file:
        return strip_of(file.read())


def main():
    count, seed, program = settings()
    chance = random.Random(seed)
    differing = 0
    with tempfile.TemporaryDirectory() as folder:
        name = os.path.join(folder, "page.jb2")
        for turn in range(count):
            width, height = chance.choice((9, 64, 300, 6000)), chance.randrange(1, 60)
            width = chance.randrange(1, width)
            rows = random_rows(chance, width, height)
            data = HEADER + segment(0, 48, page_information(width, height))
            data += segment(1, 38, region_information(width, height) + b"\x01" + coded(folder, rows, width, height))
            data += segment(2, 49, b"") + segment(3, 51, b"", page=0)
            with open(name, "wb") as file:
                file.write(data)
            ours, fault = our_picture(program, name)
            if not ours or pixels(ours) != (width, height, [int("".join(map(str, row)), 2) for row in rows]):
                differing += 1
                print(f"picture {turn} of {width} by {height} differs ({kept(data, f'mmr-{seed}-{turn}')}): {fault}")
    print(f"{count} pictures, {differing} differ")
    return 1 if differing else 0


if __name__ == "__main__":
    sys.exit(main())
