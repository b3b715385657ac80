"""Pictures for the suite: shapes, letters and gray ramps, drawn by rules alone.

Pictures are shared among the cases, so nothing is drawn on them.
"""
from __future__ import annotations

import functools

from testing.jbig2_encoder.bitmap import OR, Bitmap

# Letters of up to 5 by 7 pixels, a row after the other.
FONT = {
    "A": ".###. #...# #...# ##### #...# #...# #...#",
    "B": "####. #...# #...# ####. #...# #...# ####.",
    "G": ".#### #.... #.... #.### #...# #...# .###.",
    "I": "### .#. .#. .#. .#. .#. ###",
    "J": "..### ...#. ...#. ...#. ...#. #..#. .##..",
    "T": "##### ..#.. ..#.. ..#.. ..#.. ..#.. ..#..",
    "2": ".###. #...# ....# ...#. ..#.. .#... #####",
    "8": ".###. #...# #...# .###. #...# #...# .###.",
    "l": "#. #. #. #. #. #. .#",
    "i": "# . # # # # #",
    "t": ".#.. .#.. #### .#.. .#.. .#.. ..##",
    "d": "...# ...# .### #..# #..# #..# .###",
    "a": ".##. ...# .### #..# .###",
    "c": ".### #... #... #... .###",
    "e": ".##. #..# #### #... .###",
    "m": "##.#. #.#.# #.#.# #.#.# #.#.#",
    "n": "###. #..# #..# #..# #..#",
    "o": ".##. #..# #..# #..# .##.",
    "s": ".### #... .##. ...# ###.",
    "x": "#...# .#.#. ..#.. .#.#. #...#",
    "-": "###",
    ".": "#",
    ":": "# . #",
}
BAYER = ((0, 8, 2, 10), (12, 4, 14, 6), (3, 11, 1, 9), (15, 7, 13, 5))


def drawn(rows: str) -> Bitmap:
    """A bitmap of words, one for each row, with # for black."""
    rows = rows.split()
    bitmap = Bitmap(len(rows[0]), len(rows))
    bitmap.rows = [[int(pixel == "#") for pixel in row] for row in rows]
    return bitmap


def enlarged(bitmap: Bitmap, times: int) -> Bitmap:
    """Each pixel as a square."""
    whole = Bitmap(bitmap.width * times, bitmap.height * times)
    whole.rows = [[bit for bit in row for _ in range(times)] for row in bitmap.rows for _ in range(times)]
    return whole


def letter(name: str, times: int = 1) -> Bitmap:
    return enlarged(drawn(FONT[name]), times)


def written(bitmap: Bitmap, words: str, x: int, y: int, times: int = 1) -> Bitmap:
    """Writes words on a bitmap, their top left corner at x and y."""
    for name in words:
        if name == " ":
            x += 3 * times
            continue
        glyph = letter(name, times)
        bitmap.combine(glyph, x, y + 7 * times - glyph.height, OR)
        x += glyph.width + times
    return bitmap


@functools.cache
def shapes(width: int = 64, height: int = 40) -> Bitmap:
    """A frame, a disk, a ring, and slanted lines."""
    bitmap = Bitmap(width, height)
    radius = min(width, height) // 3
    for y, row in enumerate(bitmap.rows):
        for x in range(width):
            distance = (x - width // 3) ** 2 + (y - height // 2) ** 2
            ring = (x - 3 * width // 4) ** 2 + (y - height // 2) ** 2
            in_disk = distance < radius * radius
            in_ring = (radius // 2) ** 2 <= ring < (radius * 3 // 4) ** 2
            on_frame = x in (0, width - 1) or y in (0, height - 1)
            on_line = (x + 2 * y) % max(24, width // 2) == 0
            row[x] = int(in_disk ^ on_line or in_ring or on_frame)
    return bitmap


@functools.cache
def dithered(width: int = 64, height: int = 40) -> Bitmap:
    """A ramp from white to black by an ordered dither."""
    bitmap = Bitmap(width, height)
    for y, row in enumerate(bitmap.rows):
        for x in range(width):
            row[x] = int(16 * (2 * x + y) > (2 * width + height) * BAYER[y % 4][x % 4])
    return bitmap


@functools.cache
def page_picture(width: int = 64, height: int = 40) -> Bitmap:
    """Two lines of words over a dithered bar, and a disk that is cut by it."""
    bitmap = written(Bitmap(width, height), "JBIG2 T.88", 2, 2)
    written(bitmap, "lossless", 2, 12)
    bar = dithered(width, max(1, height // 3))
    bitmap.combine(bar, 0, height - bar.height, OR)
    for y in range(height):
        for x in range(width):
            bitmap.rows[y][x] ^= int((x - 4 * width // 5) ** 2 + (y - height // 2) ** 2 < (height // 4) ** 2)
    return bitmap


PICTURES = {"shapes": shapes, "dither": dithered, "words": page_picture}


def changed(bitmap: Bitmap, step: int = 7) -> Bitmap:
    """A bitmap like another: some pixels at its edges are turned, as a second scan would have them."""
    other = bitmap.copy()
    for y in range(bitmap.height):
        for x in range(bitmap.width):
            at_edge = bitmap.pixel(x, y) != bitmap.pixel(x + 1, y)
            if at_edge and (3 * x + 5 * y) % step == 0:
                other.rows[y][x] ^= 1
    return other


def grown(bitmap: Bitmap, step: int = 5) -> Bitmap:
    """A bitmap with more black pixels: some of the white ones beside black ones, as a darker scan would have them."""
    other = bitmap.copy()
    for y in range(bitmap.height):
        for x in range(bitmap.width):
            if (bitmap.pixel(x + 1, y) or bitmap.pixel(x, y + 1)) and (3 * x + 7 * y) % step == 0:
                other.rows[y][x] = 1
    return other


def gray_ramp(columns: int, rows: int, levels: int) -> list[list[int]]:
    """Gray values below `levels` around a bright spot."""
    far = columns * columns + rows * rows
    return [
        [min(levels - 1, levels * ((2 * x - columns) ** 2 + (2 * y - rows) ** 2) // far) for x in range(columns)]
        for y in range(rows)
    ]


def dots(width: int, height: int, count: int) -> list[Bitmap]:
    """Patterns from white to black: pattern k has the first k shares of the pixels, from the middle outwards."""
    places = [(x, y) for y in range(height) for x in range(width)]
    places.sort(key=lambda place: ((2 * place[0] - width + 1) ** 2 + (2 * place[1] - height + 1) ** 2, place))
    patterns = []
    for at in range(count):
        bitmap = Bitmap(width, height)
        for x, y in places[: len(places) * at // max(1, count - 1)]:
            bitmap.rows[y][x] = 1
        patterns.append(bitmap)
    return patterns
