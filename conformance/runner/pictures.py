"""Pictures as decoders write them, brought to one form so that their bytes can be compared."""
from __future__ import annotations

import dataclasses
import hashlib
import re

NEWLINE_OR_COMMENT = re.compile(rb"(?:\s|#[^\n]*\n)*")
# A side has at most 65535 pixels.
NUMBER = re.compile(rb"\d{1,6}(?!\d)")
# At most as many pixels at once as a row has.
CALL = re.compile(rb"(push_pixel_chunk|push_pixel|next_line)(?: (true|false))?(?: (\d{1,4})(?!\d))?\n?")
BLANK = re.compile(rb"\s*\Z")
MOST = 65535


class NoPicture(Exception):
    """The bytes are no picture."""


@dataclasses.dataclass(frozen=True)
class Picture:
    """A picture of `width` by `height` pixels: packed rows, 1 for black, the bits after a row's last pixel 0."""

    width: int
    height: int
    rows: bytes

    @property
    def pbm(self) -> bytes:
        """The picture as a PBM file without comments."""
        return b"P4\n%d %d\n" % (self.width, self.height) + self.rows

    @property
    def digest(self) -> str:
        """The sha256 of the PBM file."""
        return hashlib.sha256(self.pbm).hexdigest()

    @property
    def is_plain(self) -> bool:
        """Whether all pixels have one colour."""
        return self.rows in (plain(self.width, self.height, 0).rows, plain(self.width, self.height, 1).rows)


def plain(width: int, height: int, colour: int) -> Picture:
    """A picture of one colour."""
    return of_numbers([colour * ((1 << width) - 1)] * height, width)


def of_numbers(numbers: list[int], width: int) -> Picture:
    """A picture whose rows are numbers, the leftmost pixel the highest of `width` bits."""
    stride = (width + 7) // 8
    padding = 8 * stride - width
    rows = b"".join((number << padding).to_bytes(stride, "big") for number in numbers)
    return Picture(width, len(numbers), rows)


def pictures_of(data: bytes) -> list[Picture]:
    """The pictures of an output: PBM files one after the other, or the calls that `jbig2-decode calls` prints."""
    if not data:
        return []
    if data.startswith((b"push_pixel", b"next_line")):
        return [of_calls(data)]
    pictures, place = [], 0
    while not BLANK.match(data, place):
        picture, place = picture_at(data, place)
        pictures.append(picture)
    return pictures


def picture_at(data: bytes, begin: int) -> tuple[Picture, int]:
    """The PBM file that begins at a place, and the place after it."""
    form = data[begin : begin + 2]
    if form not in (b"P4", b"P1"):
        raise NoPicture(f"an output that starts with {data[begin : begin + 8]!r}")
    place, sides = begin + 2, []
    for _ in range(2):
        place = NEWLINE_OR_COMMENT.match(data, place).end()
        number = NUMBER.match(data, place)
        if number is None:
            raise NoPicture("a PBM file without its size")
        sides.append(int(number[0]))
        place = number.end()
    width, height = sides
    if width == 0 or height == 0:
        raise NoPicture(f"a PBM file of {width} by {height} pixels")
    if form == b"P1":
        return of_digits(data[place:], width, height), len(data)
    end = place + 1 + (width + 7) // 8 * height
    if len(data) < end:
        rows = max(len(data) - place - 1, 0)
        raise NoPicture(f"a PBM file of {width} by {height} pixels with {rows} bytes of rows")
    return without_padding(width, height, data[place + 1 : end]), end


def without_padding(width: int, height: int, rows: bytes) -> Picture:
    """A picture whose rows have 0 after the last pixel, whatever the decoder left there."""
    stride = (width + 7) // 8
    padding = 8 * stride - width
    lines = (rows[stride * y : stride * (y + 1)] for y in range(height))
    return of_numbers([int.from_bytes(line, "big") >> padding for line in lines], width)


def of_digits(data: bytes, width: int, height: int) -> Picture:
    """A plain PBM file (P1), whose pixels are digits."""
    digits = bytes(digit for digit in data if digit in b"01")
    if len(digits) < width * height:
        raise NoPicture(f"a plain PBM file of {width} by {height} pixels with {len(digits)} of them")
    lines = (digits[width * y : width * (y + 1)] for y in range(height))
    return of_numbers([int(line or b"0", 2) for line in lines], width)


def of_calls(data: bytes) -> Picture:
    """The picture that calls draw, as docs/FORMAT.md, 12.3 defines them."""
    rows: list[int] = []
    row: list[str] = []
    width, wide, place = 0, 0, 0
    while place < len(data):
        call = CALL.match(data, place)
        if call is None:
            raise NoPicture(f"a line of calls that starts with {data[place : place + 24]!r}")
        place = call.end()
        if call[1] != b"next_line":
            count = 8 * int(call[3]) if call[3] else 1
            row.append(("1" if call[2] == b"true" else "0") * count)
            wide += count
        elif wide == 0 or wide != (width or wide):
            raise NoPicture("calls whose rows have different widths")
        else:
            rows.append(int("".join(row), 2))
            row, width, wide = [], wide, 0
        if wide > MOST or len(rows) > MOST:
            raise NoPicture(f"calls of more than {MOST} pixels in a row, or of more rows")
    if row or not rows:
        raise NoPicture("calls whose last row doesn't end")
    return of_numbers(rows, width)
