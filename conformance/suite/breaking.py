"""How files that must be refused are made: a good page of which one field is changed, or one segment, or the bytes."""
from __future__ import annotations

import dataclasses
from collections.abc import Callable

from testing.error_texts import TEXTS
from testing.jbig2_encoder.bitmap import Bitmap
from testing.jbig2_encoder.document import Document, Page
from testing.jbig2_encoder.fields import Change, changed_by

from .case import PICTURE, SEQUENTIAL, Case, Drawing, case_of, page_document

# What is done to a file.
Edit = Callable[[bytes], bytes]
# The errors, as `jbig2-decode` prints them after `error: ` (docs/FORMAT.md says where each is answered).
ENDS = TEXTS["Parse(UnexpectedEof)"]
INVALID_HEADER = TEXTS["Format(InvalidHeader)"]
RESERVED_BITS = TEXTS["Format(ReservedBits)"]
MISSING_PAGE_INFORMATION = TEXTS["Format(MissingPageInfo)"]
UNKNOWN_PAGE_HEIGHT = TEXTS["Format(UnknownPageHeight)"]
EMPTY_PAGE = TEXTS["Format(EmptyPage)"]
PAGE_COUNT = TEXTS["Format(PageCountMismatch)"]
END_OF_PAGE = TEXTS["Format(InvalidEndOfPage)"]
UNKNOWN_TYPE = TEXTS["Segment(UnknownType)"]
REFERRED_COUNT = TEXTS["Segment(InvalidReferredCount)"]
INVALID_REFERENCE = TEXTS["Segment(InvalidReference)"]
UNKNOWN_LENGTH = TEXTS["Segment(InvalidUnknownLength)"]
MISSING_END_MARKER = TEXTS["Segment(MissingEndMarker)"]
MISSING_PATTERNS = TEXTS["Segment(MissingPatternDictionary)"]
MISSING_PAGE = TEXTS["Segment(MissingPageAssociation)"]
INVALID_CODE = TEXTS["Huffman(InvalidCode)"]
INVALID_SELECTION = TEXTS["Huffman(InvalidSelection)"]
MISSING_TABLES = TEXTS["Huffman(MissingTables)"]
PREFIX_OUT_OF_BAND = TEXTS["Huffman(UnexpectedOob)"]
INVALID_OPERATOR = TEXTS["Region(InvalidCombinationOperator)"]
INVALID_DIMENSION = TEXTS["Region(InvalidDimension)"]
INVALID_MMR = TEXTS["Region(InvalidMmrData)"]
GRAY_VALUE = TEXTS["Region(GrayScaleOutOfRange)"]
INVALID_PIXEL = TEXTS["Template(InvalidAtPixel)"]
EXPORTED_COUNT = TEXTS["Symbol(NoSymbols)"]
TOO_MANY_NEW = TEXTS["Symbol(TooManySymbols)"]
UNKNOWN_SYMBOL = TEXTS["Symbol(OutOfRange)"]
CODER_OUT_OF_BAND = TEXTS["Symbol(UnexpectedOob)"]
INVALID_SYMBOL = TEXTS["Symbol(Invalid)"]
STRIP_DELTA = TEXTS["Symbol(InvalidStripDelta)"]
TOO_MANY_INSTANCES = TEXTS["Symbol(TooManyInstances)"]
BITMAP_SIZE = TEXTS["Overflow(BitmapDimension)"]
GRID_SIZE = TEXTS["Overflow(GridDimension)"]
PLACE = TEXTS["Overflow(PlacementCoordinate)"]
REFERENCE_PLACE = TEXTS["Overflow(ReferenceOffset)"]
SYMBOL_COUNT = TEXTS["Overflow(SymbolCount)"]
UNSUPPORTED = TEXTS["Unsupported"]


def setting(name: str, value: int | None, turn: int = 0) -> Change:
    """A change that writes one field of a name, the first one or a later turn, with another value."""
    seen = 0

    def change(its_name: str, its_value: int | None, bits: int | None) -> int | None:
        nonlocal seen
        if its_name == name:
            seen += 1
            if seen == turn + 1:
                return value
        return its_value

    return change


def unchanged(name: str, value: int | None, bits: int | None) -> int | None:
    return value


def blank(page: Page) -> Bitmap:
    """What a page shows whose only region fails."""
    return Bitmap(page.picture.width, page.picture.height)


@dataclasses.dataclass
class Fault:
    """A case's name, its feature, the rule that it breaks, and what strict and lenient reading come to."""

    name: str
    feature: str
    rule: str
    strict: str
    lenient: str = PICTURE


def broken_page(
    fault: Fault, draw: Drawing, change: Change = unchanged, shows: Callable[[Page], Bitmap] = blank,
    size: tuple[int, int] = (64, 40), **more
) -> Case:
    """A case of one page, drawn while fields are changed; `shows(page)` is the picture if lenient reading draws it."""
    with changed_by(change):
        document = page_document(draw, size)
        return broken(fault, document, shows(document.pages[0]), **more)


def broken(
    fault: Fault, document: Document, picture: Bitmap | None = None, kind: str = SEQUENTIAL, edit: Edit | None = None
) -> Case:
    """A case of a document, whose bytes `edit` changes; `picture` is what it shows if any reading draws it."""
    pictures = [picture if PICTURE in (fault.strict, fault.lenient) else None]
    case = case_of(f"broken-{fault.name}", fault.feature, document, kind, pictures=pictures)
    if edit is not None:
        case.files = {ending: edit(data) for ending, data in case.files.items()}
    case.strict, case.lenient, case.rule = fault.strict, fault.lenient, fault.rule
    return case


def meant(page: Page) -> Bitmap:
    """What a page shows whose fault lenient reading passes over."""
    return page.picture
