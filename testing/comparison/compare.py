"""Draws random pages with ./jbig2-decode and with jbig2dec, and compares the pictures.

usage: python3 -m testing.comparison.compare [COUNT [SEED]]

Any bytes are data of the arithmetic coder, so a page of random regions needs no encoder. jbig2dec is
Artifex's decoder, of the Debian package jbig2dec.
"""
import os
import random
import subprocess
import sys
import tempfile

from testing.comparison.root import ROOT
from testing.jbig2_encoder.fields import number, pairs
from testing.jbig2_encoder.framing import HEADER, page_information, region_information, segment
from testing.jbig2_encoder.generic import NOMINAL
from testing.jbig2_encoder.pictures import pixels


def coded(chance, pixels):
    """Data for this number of pixels, with a marker at its end."""
    kind = chance.randrange(3)
    length = pixels // 2 + 64
    if kind == 0:
        data = bytes(chance.randrange(256) for _ in range(length))
    elif kind == 1:
        data = bytes(chance.choice((0, 0, 0, 0xFF, chance.randrange(256))) for _ in range(length))
    else:
        data = bytes(chance.choice((0x55, 0xAA, chance.randrange(256))) for _ in range(length))
    # A marker inside the data would end it.
    data = data.replace(b"\xff", b"\xff\x00")
    return data + b"\xff\xac"


def region(chance, width, height, page_width, page_height, operators):
    x = chance.choice((0, chance.randrange(page_width)))
    y = chance.choice((0, chance.randrange(page_height)))
    return region_information(width, height, x, y, chance.randrange(operators))


def adaptive_pixels(chance, template):
    if chance.random() < 0.5:
        places = NOMINAL[template]
    else:
        places = []
        for _ in range(4 if template == 0 else 1):
            y = -chance.randrange(0, 9)
            x = chance.randrange(-9, 0) if y == 0 else chance.randrange(-9, 10)
            places.append((x, y))
    return pairs("adaptive pixel", places)


def generic(chance, size, page, operators=5):
    template = chance.randrange(4)
    typical = chance.randrange(2)
    head = region(chance, *size, *page, operators) + bytes([2 * template + 8 * typical])
    return head + adaptive_pixels(chance, template) + coded(chance, size[0] * size[1])


def refinement(chance, size, page):
    template = chance.randrange(2)
    # With template 1 jbig2dec takes another context for the rows' decisions than T.88, Figure 15.
    typical = chance.randrange(2) if template == 0 else 0
    head = region(chance, *size, *page, 5)
    adaptive = b""
    if template == 0:
        x1, y1, x2, y2 = chance.choice(((-1, -1, -1, -1), tuple(chance.randrange(-4, 1) for _ in range(4))))
        nominal = x1 == 0 and y1 == 0
        adaptive = pairs("adaptive pixel", ((-1, -1), (-1, -1)) if nominal else ((x1, y1), (x2, y2)))
    return head + bytes([template + 2 * typical]) + adaptive + coded(chance, size[0] * size[1])


def patterns(chance):
    template = chance.randrange(4)
    width = chance.randrange(1, 12)
    height = chance.randrange(1, 12)
    most = chance.randrange(1, 20)
    head = bytes([2 * template, width, height]) + number(most)
    return head + coded(chance, width * height * (most + 1))


def halftone(chance, size, page):
    template = chance.randrange(4)
    # A region that begins black is drawn otherwise by jbig2dec, where Poppler draws it as here.
    flags = 2 * template + 8 * chance.randrange(2) + 16 * chance.randrange(5)
    columns, rows = chance.randrange(1, 20), chance.randrange(1, 20)
    place = number(chance.randrange(-3000, 9000)) + number(chance.randrange(-3000, 9000))
    vector = number(chance.randrange(0, 2500), 2) + number(chance.randrange(0, 2500), 2)
    head = region(chance, *size, *page, 5) + bytes([flags]) + number(columns) + number(rows)
    return head + place + vector + coded(chance, 8 * columns * rows)


def random_file(chance, kinds):
    page = (chance.randrange(1, 90), chance.randrange(1, 40))
    data = HEADER + segment(0, 48, page_information(*page, chance.randrange(2), chance.randrange(4)))
    at = 1
    for _ in range(chance.randrange(1, 4)):
        size = (chance.randrange(1, 80), chance.randrange(1, 40))
        kind = chance.choice(kinds)
        if kind == "generic":
            data += segment(at, chance.choice((38, 39)), generic(chance, size, page))
        elif kind == "refinement":
            # jbig2dec keeps no regions, and refines the whole page in place of the region's area.
            whole = region_information(*page)[:16]
            data += segment(at, chance.choice((42, 43)), whole + refinement(chance, page, page)[16:])
        elif kind == "halftone":
            data += segment(at, 16, patterns(chance))
            at += 1
            data += segment(at, chance.choice((22, 23)), halftone(chance, size, page), (at - 1,))
        at += 1
    return data + segment(at, 49, b"") + segment(at + 1, 51, b"", page=0)


def our_picture(program, name):
    run = subprocess.run([program, "pbm", name, "0"], capture_output=True)
    return run.stdout, run.stderr.decode(errors="replace").strip()


def their_picture(name, picture_name):
    if os.path.exists(picture_name):
        os.remove(picture_name)
    words = ["jbig2dec", "-q", "-t", "pbm", "-o", picture_name, name]
    run = subprocess.run(words, capture_output=True)
    fault = run.stderr.decode(errors="replace").strip()
    if not os.path.exists(picture_name):
        return b"", fault
    with open(picture_name, "rb") as file:
        return file.read(), fault


def kept(data, name):
    """The path of a file of that name, which is written for a look at it."""
    path = os.path.join(tempfile.gettempdir(), f"{name}.jb2")
    with open(path, "wb") as file:
        file.write(data)
    return path


def settings():
    """The count and the seed, of the words, and the program."""
    count, seed = (int(word) for word in (sys.argv[1:] + ["100", "1"][len(sys.argv) - 1 :])[:2])
    return count, seed, os.environ.get("PROGRAM", os.path.join(ROOT, "jbig2-decode"))


def main():
    count, seed, program = settings()
    kinds = os.environ.get("KINDS", "generic refinement halftone").split()
    chance = random.Random(seed)
    differing = 0
    with tempfile.TemporaryDirectory() as folder:
        name = os.path.join(folder, "page.jb2")
        theirs_name = os.path.join(folder, "page.pbm")
        for turn in range(count):
            data = random_file(chance, kinds)
            with open(name, "wb") as file:
                file.write(data)
            ours, fault = our_picture(program, name)
            theirs, their_fault = their_picture(name, theirs_name)
            if not ours or pixels(ours) != pixels(theirs):
                differing += 1
                print(f"page {turn} differs ({kept(data, f'differs-{seed}-{turn}')}): {fault} / {their_fault}")
    print(f"{count} pages, {differing} differ")
    return 1 if differing else 0


if __name__ == "__main__":
    sys.exit(main())
