"""Writing of pages: `encode`."""

from __future__ import annotations

import operator
import sys
from typing import TYPE_CHECKING

from . import _library
from ._page import INVERTED, Page

if TYPE_CHECKING:
    from typing import Any, Literal, Union

    import numpy
    from _typeshed import ReadableBuffer
    from PIL import Image

    Picture = Union[Page, Image.Image, numpy.ndarray[Any, Any], ReadableBuffer]
    Resolution = Union[float, tuple[float, float], None]
    Coding = Literal["arithmetic", "mmr"]

_LONGEST_SIDE = 65535
_METRES_IN_AN_INCH = 0.0254
_GREATEST_NUMBER = 2**32 - 1
_NOT_BILEVEL = "the picture is not bi-level: make it black and white first"


def encode(
    picture: Picture,
    width: int | None = None,
    height: int | None = None,
    *,
    coding: Coding = "arithmetic",
    template: int = 0,
    typical: bool = True,
    resolution: Resolution = None,
    file: bool = False,
) -> bytes:
    """Writes a bi-level picture as an embedded page, which is what a /JBIG2Decode stream of a PDF file has, or with
    `file` as a JBIG2 file.

    `picture` is one of these:

    - an image of Pillow of mode "1", or of mode "L" whose pixels are all 0 or 255;
    - an array of numpy of height and width, of type bool, or whose numbers are all 0 or 1. True and 1 are black, as
      `numpy.asarray(page)` has it;
    - a `Page`;
    - packed rows with their `width` and `height`, as `Page.rows` has them: a bit for each pixel, 1 is black, the
      leftmost the highest of its byte, and whole bytes for each row. Bits past the width are passed over.

    Decoding gives the picture back, without a pixel lost: that is proved of the library for each picture and each of
    these settings. `coding` "mmr" writes MMR data (T.6): it mostly takes more bytes, and pages of text are decoded in
    less time. For the arithmetic coder `template`, from 0 to 3, says which pixels predict a pixel (GBTEMPLATE), and
    with `typical` a row that is as the one above it takes no more than a decision; of MMR data both change nothing.
    `resolution` is in pixels for each inch: a number, or one for rows and one for columns. Without it an image of
    Pillow has that of its `info["dpi"]`, and others state none.

    Raises ValueError for a picture that is not bi-level, sides that are 0 or above 65535, rows of another size, and
    another coding or template; and `OutOfMemory`.
    """
    rows, width, height, stated = _rows_of(picture, width, height)
    if coding not in ("arithmetic", "mmr"):
        raise ValueError(f'a coding is "arithmetic" or "mmr", not {coding!r}')
    template = operator.index(template)
    if not 0 <= template <= 3:
        raise ValueError(f"there are templates 0 to 3, and no {template}")
    _check_size(rows, width, height)
    numbers = _stated_for_each_metre(stated) if resolution is None else _for_each_metre(resolution)
    return _library.written(rows, width, height, (template, *numbers, bool(typical), bool(file), coding == "mmr"))


def _check_size(rows: bytes, width: int, height: int) -> None:
    if not (1 <= width <= _LONGEST_SIDE and 1 <= height <= _LONGEST_SIDE):
        raise ValueError(f"a page has sides of 1 to {_LONGEST_SIDE} pixels, not {width} by {height}")
    size = (width + 7) // 8 * height
    if len(rows) != size:
        raise ValueError(f"packed rows of {width} by {height} pixels are {size} bytes, not {len(rows)}")


def _rows_of(picture: Any, width: int | None, height: int | None) -> tuple[bytes, int, int, Resolution]:
    """Packed rows, their sides and the resolution that the picture states."""
    pillow, numpy = sys.modules.get("PIL.Image"), sys.modules.get("numpy")
    is_image = pillow is not None and isinstance(picture, pillow.Image)
    is_array = numpy is not None and isinstance(picture, numpy.ndarray)
    if not (is_image or is_array or isinstance(picture, Page)):
        if width is None or height is None:
            raise TypeError("packed rows come with their width and height")
        return _bytes_of(picture), operator.index(width), operator.index(height), None
    if width is not None or height is not None:
        raise TypeError("the picture has a width and a height of its own")
    if is_image:
        return (_rows_of_image(picture), *picture.size, picture.info.get("dpi"))
    if is_array:
        return (*_rows_of_array(picture), None)
    return bytes(picture.rows), picture.width, picture.height, None


def _bytes_of(rows: Any) -> bytes:
    try:
        return rows if type(rows) is bytes else bytes(memoryview(rows))
    except TypeError:
        kind = type(rows).__name__
        raise TypeError(f"a picture is packed rows, an image of Pillow or an array of numpy, not {kind}") from None


def _rows_of_image(image: Image.Image) -> bytes:
    if image.mode == "L":
        shades = image.histogram()
        if sum(shades) != shades[0] + shades[255]:
            raise ValueError(_NOT_BILEVEL)
        image = image.point([0] * 128 + [255] * 128, "1")
    if image.mode != "1":
        raise ValueError(f"{_NOT_BILEVEL}; its mode is {image.mode}")
    return image.tobytes().translate(INVERTED)


def _rows_of_array(array: numpy.ndarray[Any, Any]) -> tuple[bytes, int, int]:
    import numpy

    # What a mask hides is written too.
    array = numpy.asarray(array)
    if array.ndim != 2:
        raise ValueError("an array has the shape (height, width)")
    # Of texts and dates numpy may compare none, and of objects it may give one answer for all.
    is_bilevel = array.dtype.kind == "b" or (array.dtype.kind in "iufcO" and numpy.all((array == 0) | (array == 1)))
    if not is_bilevel:
        raise ValueError(f"{_NOT_BILEVEL}; an array is of type bool, or of 0 and of 1 for black")
    height, width = array.shape
    return numpy.packbits(array.astype(numpy.bool_), axis=1).tobytes(), width, height


def _for_each_metre(resolution: Resolution) -> tuple[int, int]:
    """Pixels for each metre, 0 where that is not stated."""
    if resolution is None:
        return 0, 0
    x, y = resolution if isinstance(resolution, (tuple, list)) else (resolution, resolution)
    try:
        numbers = (round(float(x) / _METRES_IN_AN_INCH), round(float(y) / _METRES_IN_AN_INCH))
    except (ArithmeticError, ValueError):  # It is infinite, or no number.
        numbers = (-1, -1)
    if not all(0 <= number <= _GREATEST_NUMBER for number in numbers):
        raise ValueError("a resolution is from 0 to 109,000,000 pixels for each inch")
    return numbers


def _stated_for_each_metre(resolution: Resolution) -> tuple[int, int]:
    """The same of what a file states, which may be no resolution at all. Then none is stated."""
    try:
        # Pillow has a pixel for each inch where a TIFF picture states nothing.
        return (0, 0) if resolution == (1, 1) else _for_each_metre(resolution)
    except (TypeError, ValueError):
        return 0, 0
