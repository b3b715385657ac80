"""The decoder for pikepdf, in the place of the program jbig2dec.

    import hayro_jbig2.pikepdf
    hayro_jbig2.pikepdf.install()

After that pikepdf decodes the JBIG2 images of all PDF files by this package.
"""

from __future__ import annotations

import copy
from functools import lru_cache
from typing import TYPE_CHECKING

from pikepdf import jbig2
from pikepdf.jbig2 import JBIG2DecoderInterface

from . import DecodeError, Globals, Jbig2Error, WorkLimitReached, decode
from ._page import INVERTED

if TYPE_CHECKING:
    from ._library import WorkLimit


# The images of a document share their globals, also those that can't be decoded.
@lru_cache(maxsize=4)
def _globals_or_fault(data: bytes, salvage: bool, work_limit: WorkLimit) -> Globals | Jbig2Error:
    try:
        return Globals(data, salvage=salvage, work_limit=work_limit)
    except (DecodeError, WorkLimitReached) as error:
        # Without what the frames of this call refer to.
        return error.with_traceback(None)


class Decoder(JBIG2DecoderInterface):
    """pikepdf's interface of a JBIG2 decoder."""

    def check_available(self) -> None:
        """Returns: the decoder is a part of this package."""

    def __init__(self, salvage: bool = False, work_limit: WorkLimit = "default") -> None:
        self._salvage = salvage
        self._work_limit = work_limit

    def decode_jbig2(self, jbig2: bytes, jbig2_globals: bytes) -> bytes:
        """Decodes an image to packed rows in which 1 is white, as a PDF image has them."""
        globals = _globals_or_fault(jbig2_globals or b"", self._salvage, self._work_limit)
        if isinstance(globals, Jbig2Error):
            raise copy.copy(globals)
        page = decode(jbig2, globals=globals, salvage=self._salvage, work_limit=self._work_limit)
        return bytes(page.rows).translate(INVERTED)


def install(*, salvage: bool = False, work_limit: WorkLimit = "default") -> None:
    """Makes pikepdf use this decoder in this process. With `salvage` it draws what it can of damaged images.

    The limit of work is that of `hayro_jbig2.decode`, for each image.
    """
    decoder = Decoder(salvage, work_limit)
    if hasattr(jbig2, "set_decoder"):
        jbig2.set_decoder(decoder)
    else:
        # Older versions have no call for it.
        setattr(jbig2, "_jbig2_decoder", decoder)
