"""What the calls take: bytes, the path of a file, or an open file."""

from __future__ import annotations

import mmap
import os
from typing import TYPE_CHECKING

from .errors import FormatError

if TYPE_CHECKING:
    from typing import Union

    from _typeshed import ReadableBuffer, StrPath, SupportsRead

    Data = Union[ReadableBuffer, StrPath, os.PathLike[bytes], SupportsRead[ReadableBuffer]]

# What a PDF file begins with. No segment does: 45, the minus sign, is no type of segments.
_PDF = b"%PDF-"


def bytes_of(data: Data) -> bytes:
    """The bytes that are meant, which nobody changes, and which are as many as they say. An open file is read on."""
    content = data if type(data) is bytes else _read(data)
    if content.startswith(_PDF):
        text = "this is a PDF file: take its images out with pikepdf, for which hayro_jbig2.pikepdf has a decoder"
        raise FormatError(text, 2, "InvalidHeader")
    return content


def _read(data: Data) -> bytes:
    if isinstance(data, (str, os.PathLike)):
        with open(data, "rb") as file:
            return file.read()
    read = getattr(data, "read", None)
    # A file that is mapped into memory is both.
    if read is not None and not isinstance(data, mmap.mmap):
        data = read()
        if isinstance(data, str):
            raise TypeError("a file must be open in binary mode, and this one gives text")
    try:
        return data if type(data) is bytes else bytes(memoryview(data))  # type: ignore[arg-type]
    except TypeError:
        raise TypeError(f"data is bytes, a path or an open file, not {type(data).__name__}") from None
