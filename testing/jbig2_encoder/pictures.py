"""Pictures of the PBM format."""
from __future__ import annotations

from .bitmap import Bitmap


def pbm(bitmap: Bitmap) -> bytes:
    """A bitmap as a PBM file, as `jbig2-decode pbm` writes it."""
    return b"P4\n%d %d\n" % (bitmap.width, bitmap.height) + bitmap.packed()


def pixels(picture: bytes) -> tuple[int, int, list[int | None]] | None:
    """The width and height of a PBM file, and the rows that it has, as numbers without what pads them: None for one that
    isn't whole. None for no file. Another file may come after it."""
    if not picture:
        return None
    _, size, rows = picture.split(b"\n", 2)
    width, height = (int(side) for side in size.split())
    stride = (width + 7) // 8
    lines = (rows[at : at + stride] for at in range(0, min(len(rows), stride * height), max(stride, 1)))
    numbers = [int.from_bytes(line, "big") >> (8 * stride - width) if len(line) == stride else None for line in lines]
    return width, height, numbers
