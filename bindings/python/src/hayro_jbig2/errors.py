"""The errors, by the names that the library has for them.

`FormatError(InvalidHeader)` of the library is a `FormatError` whose `variant` is "InvalidHeader". The repository's
docs/FORMAT.md says which rule of T.88 each stands for.
"""

from __future__ import annotations

from typing import TYPE_CHECKING

if TYPE_CHECKING:
    from ._page import PassedSegment


class Jbig2Error(Exception):
    """Why there is no page. `number` is what the library returned, `variant` the name of the rule that is broken.

    Of a page of a file `cut_off` is the segment at which the file's list of segments ends early, if it does.
    """

    cut_off: PassedSegment | None = None

    def __init__(self, text: str, number: int, variant: str) -> None:
        super().__init__(text, number, variant)
        self.number = number
        self.variant = variant

    def __str__(self) -> str:
        return str(self.args[0])

    # Pages that are pickled or decoded twice have reports that are equal.
    def __eq__(self, other: object) -> bool:
        return type(other) is type(self) and isinstance(other, Jbig2Error) and other.args == self.args

    def __hash__(self) -> int:
        return hash((type(self), self.args))


class IncompletePageWarning(UserWarning):
    """A page that is returned is known to lack something: see `Page.is_complete`."""


class DecodeError(Jbig2Error):
    """A fault of the data."""


class ParseError(DecodeError):
    """The bytes end too early."""


class FormatError(DecodeError):
    """A fault of the file or the page as a whole."""


class SegmentError(DecodeError):
    """A fault of a segment's header or its references."""


class HuffmanError(DecodeError):
    """A fault of prefix-coded data."""


class RegionError(DecodeError):
    """A fault of a region's fields or data."""


class TemplateError(DecodeError):
    """A fault of a template's adaptive pixels."""


class SymbolError(DecodeError):
    """A fault of symbol dictionaries and text."""


class OverflowError(DecodeError):
    """A number out of range."""


class Unsupported(DecodeError):
    """A feature that the decoder does not have: colours, or an extension that must be understood."""


class OutOfMemory(Jbig2Error, MemoryError):
    """A request for memory was refused."""


class WorkLimitReached(OutOfMemory):
    """More work than the limit of work allows."""


class NoSuchPage(Jbig2Error, IndexError):
    """The file has no page at this index."""


# The errors in the order of their numbers, from 1.
_VARIANTS = (
    (ParseError, "UnexpectedEof"),
    (
        FormatError,
        "InvalidHeader ReservedBits MissingPageInfo UnknownPageHeight EmptyPage PageCountMismatch InvalidEndOfPage",
    ),
    (
        SegmentError,
        "UnknownType InvalidReferredCount InvalidReference InvalidUnknownLength MissingEndMarker "
        "MissingPatternDictionary MissingPageAssociation",
    ),
    (HuffmanError, "InvalidCode InvalidSelection MissingTables UnexpectedOob ConflictingCodes"),
    (RegionError, "InvalidCombinationOperator InvalidDimension InvalidMmrData GrayScaleOutOfRange"),
    (TemplateError, "Invalid InvalidAtPixel"),
    (
        SymbolError,
        "NoSymbols TooManySymbols OutOfRange UnexpectedOob Invalid InvalidStripDelta TooManyInstances",
    ),
    (
        OverflowError,
        "BitmapDimension GridDimension PlacementCoordinate ReferenceOffset Index SymbolCount",
    ),
    (Unsupported, "Unsupported"),
    (OutOfMemory, "OutOfMemory"),
)
_BY_NUMBER: dict[int, tuple[type[Jbig2Error], str]] = dict(
    enumerate(((kind, variant) for kind, variants in _VARIANTS for variant in variants.split()), 1)
)
_BY_NUMBER[101] = (NoSuchPage, "NoSuchPage")


def error_of(number: int, text: str) -> Jbig2Error:
    """The exception for a number that the library returned, which is not 0."""
    kind, variant = _BY_NUMBER.get(number, (Jbig2Error, "Unknown"))
    return kind(text, number, variant)
