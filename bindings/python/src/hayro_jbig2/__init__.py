"""A decoder of JBIG2 (ITU-T T.88, ISO/IEC 14492), the bi-level format of scanned pages in files and in PDF.

    >>> import hayro_jbig2
    >>> page = hayro_jbig2.decode("scan.jb2")        # the first page of a file
    >>> page.width, page.height
    (64, 56)
    >>> png = page.to_png()

`decode` returns one page, `pages` all pages of a file, `sizes` their sizes alone. With `salvage=True` they read what
they can of damaged data. `encode` writes a picture as a page. `python -m hayro_jbig2 IN OUT` writes pages as pictures.
`hayro_jbig2.pillow` opens files by Pillow, and `hayro_jbig2.pikepdf` is pikepdf's decoder.

The exceptions, which are in `hayro_jbig2.errors`, and here too:

    Jbig2Error                  why there is no page: number, variant, cut_off
        DecodeError             a fault of the data
            ParseError          the bytes end too early
            FormatError         of the file or the page as a whole
            SegmentError        of a segment's header or its references
            HuffmanError        of prefix-coded data
            RegionError         of a region's fields or data
            TemplateError       of a template's adaptive pixels
            SymbolError         of symbol dictionaries and text
            OverflowError       a number out of range
            Unsupported         colours, or an extension that must be understood
        OutOfMemory             a request for memory was refused; a MemoryError
            WorkLimitReached    more work than the limit allows
        NoSuchPage              the file has no page at this index; an IndexError
    IncompletePageWarning       a warning: a page that is returned lacks something (`Page.is_complete`)

The decoder is a library that is proved, and runs without the lock of the interpreter (the GIL), so that several
threads decode at once. A small file can ask for much work and memory: there is a limit of work, and whoever decodes
what anyone may have sent looks at the size first, and limits the memory of the process.
"""

from ._decode import Globals, decode, pages, sizes
from ._encode import encode
from ._library import Size
from ._page import LeftOut, Page, PassedOver, PassedSegment
from .errors import DecodeError as DecodeError
from .errors import FormatError as FormatError
from .errors import HuffmanError as HuffmanError
from .errors import IncompletePageWarning as IncompletePageWarning
from .errors import Jbig2Error as Jbig2Error
from .errors import NoSuchPage as NoSuchPage
from .errors import OutOfMemory as OutOfMemory
from .errors import OverflowError as OverflowError
from .errors import ParseError as ParseError
from .errors import RegionError as RegionError
from .errors import SegmentError as SegmentError
from .errors import SymbolError as SymbolError
from .errors import TemplateError as TemplateError
from .errors import Unsupported as Unsupported
from .errors import WorkLimitReached as WorkLimitReached

__version__ = "0.4.0"

# Without the exceptions, of which `help` would print all that they inherit.
__all__ = [
    "Globals",
    "LeftOut",
    "Page",
    "PassedOver",
    "PassedSegment",
    "Size",
    "decode",
    "encode",
    "pages",
    "sizes",
]
