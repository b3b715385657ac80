"""MMR data: the profile of T.6 in docs/FORMAT.md, section 7."""
from testing.jbig2_encoder.t6 import BLACK, BLACK_MAKE_UP, LONG_MAKE_UP, WHITE, WHITE_MAKE_UP

from .answers import Fault, refuse_if
from .bitmap import Bitmap

END_OF_BLOCK = "000000000001" * 2
PASS, HORIZONTAL = "pass", "horizontal"
MODES = {
    "1": 0, "011": 1, "000011": 2, "0000011": 3, "010": -1, "000010": -2, "0000010": -3,
    "0001": PASS, "001": HORIZONTAL,
}


def runs_of(short, make_up):
    """The runs of a colour by their codes."""
    codes = {code: length for length, code in enumerate(short)}
    codes.update({code: 64 * (place + 1) for place, code in enumerate(make_up + LONG_MAKE_UP)})
    return codes


RUNS = (runs_of(WHITE, WHITE_MAKE_UP), runs_of(BLACK, BLACK_MAKE_UP))


class Fails(Exception):
    """The data has a fault."""


class Rows:
    """Reads rows out of bits that are written as a string of digits."""

    def __init__(self, data, width):
        self.digits = format(int.from_bytes(b"\1" + data, "big"), "b")[1:]
        self.place = 0
        self.width = width

    def code(self, codes):
        """The value of the code at the place."""
        for length in range(1, 14):
            word = self.digits[self.place : self.place + length]
            if len(word) == length and word in codes:
                self.place += length
                return codes[word]
        raise Fails

    def run(self, colour):
        length = 0
        while True:
            part = self.code(RUNS[colour])
            length += part
            if part < 64:
                return length

    def ends_block(self):
        if self.digits.startswith(END_OF_BLOCK, self.place):
            self.place += len(END_OF_BLOCK)
            return True
        return False

    def row(self, above):
        """The next row, by the row above it."""
        row, at, colour, is_first = bytearray(), 0, 0, True
        while at < self.width:
            mode = self.code(MODES)
            b1 = self.changed(above, at if is_first else at + 1, colour)
            is_first = False
            if mode is PASS:
                end = self.changed(above, b1 + 1, 1 - colour)
                runs = [(end - at, colour)]
            elif mode is HORIZONTAL:
                runs = [(self.run(colour), colour), (self.run(1 - colour), 1 - colour)]
            else:
                runs = [(b1 + mode - at, colour)]
                colour ^= 1
            for length, its_colour in runs:
                at += length
                if length < 0 or at > self.width:
                    raise Fails
                row += bytes([its_colour]) * length
        return row

    def changed(self, above, start, colour):
        """The first pixel from a place on that differs from its left neighbour, and from the colour."""
        for x in range(start, self.width):
            if above[x] != colour and above[x] != (above[x - 1] if x else 0):
                return x
        return self.width


def decode(work, data, width, height, strict, is_cut=False):
    """A bitmap, and how many bytes of the data it used; of data that is cut off the rows that are whole."""
    bitmap = Bitmap(work, width, height)
    if not width or not height:
        return bitmap, 0
    rows, above = Rows(data, width), bytes(width)
    for y in range(height):
        try:
            ended = rows.ends_block()
            above = above if ended else rows.row(above)
            used = (rows.place + 7) // 8
        except Fails:
            ended, used = True, len(data)
        if ended:
            refuse_if(strict, Fault.INVALID_MMR_DATA)
            return bitmap.part(work, 0, 0, width, y) if is_cut else bitmap, used
        work.decide(width // 8 + 1)
        bitmap.rows[y] = bytearray(above)
    rows.ends_block()
    return bitmap, (rows.place + 7) // 8
