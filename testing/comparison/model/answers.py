"""What refuses a file, and how much work this model does."""
import enum

from testing.error_texts import TEXTS


class Fault(enum.Enum):
    """An error, by its name in docs/FORMAT.md."""

    UNEXPECTED_EOF = "Parse(UnexpectedEof)"
    INVALID_HEADER = "Format(InvalidHeader)"
    RESERVED_BITS = "Format(ReservedBits)"
    MISSING_PAGE_INFO = "Format(MissingPageInfo)"
    UNKNOWN_PAGE_HEIGHT = "Format(UnknownPageHeight)"
    EMPTY_PAGE = "Format(EmptyPage)"
    PAGE_COUNT_MISMATCH = "Format(PageCountMismatch)"
    INVALID_END_OF_PAGE = "Format(InvalidEndOfPage)"
    UNKNOWN_TYPE = "Segment(UnknownType)"
    INVALID_REFERRED_COUNT = "Segment(InvalidReferredCount)"
    INVALID_REFERENCE = "Segment(InvalidReference)"
    INVALID_UNKNOWN_LENGTH = "Segment(InvalidUnknownLength)"
    MISSING_END_MARKER = "Segment(MissingEndMarker)"
    MISSING_PATTERN_DICTIONARY = "Segment(MissingPatternDictionary)"
    MISSING_PAGE_ASSOCIATION = "Segment(MissingPageAssociation)"
    INVALID_CODE = "Huffman(InvalidCode)"
    INVALID_SELECTION = "Huffman(InvalidSelection)"
    MISSING_TABLES = "Huffman(MissingTables)"
    PREFIX_OUT_OF_BAND = "Huffman(UnexpectedOob)"
    INVALID_COMBINATION_OPERATOR = "Region(InvalidCombinationOperator)"
    INVALID_DIMENSION = "Region(InvalidDimension)"
    INVALID_MMR_DATA = "Region(InvalidMmrData)"
    GRAY_SCALE_OUT_OF_RANGE = "Region(GrayScaleOutOfRange)"
    INVALID_AT_PIXEL = "Template(InvalidAtPixel)"
    NO_SYMBOLS = "Symbol(NoSymbols)"
    TOO_MANY_SYMBOLS = "Symbol(TooManySymbols)"
    SYMBOL_OUT_OF_RANGE = "Symbol(OutOfRange)"
    CODER_OUT_OF_BAND = "Symbol(UnexpectedOob)"
    INVALID_SYMBOL = "Symbol(Invalid)"
    INVALID_STRIP_DELTA = "Symbol(InvalidStripDelta)"
    TOO_MANY_INSTANCES = "Symbol(TooManyInstances)"
    BITMAP_DIMENSION = "Overflow(BitmapDimension)"
    GRID_DIMENSION = "Overflow(GridDimension)"
    PLACEMENT_COORDINATE = "Overflow(PlacementCoordinate)"
    REFERENCE_OFFSET = "Overflow(ReferenceOffset)"
    SYMBOL_COUNT = "Overflow(SymbolCount)"
    UNSUPPORTED = "Unsupported"
    NO_SUCH_PAGE = "no such page"

    @property
    def text(self):
        """What `jbig2-decode` prints. No definition of errors has that of a page that isn't there."""
        return self.value if self is Fault.NO_SUCH_PAGE else TEXTS[self.value]


class Refused(Exception):
    """A reading that is refused, with its `fault`."""

    def __init__(self, fault):
        super().__init__(fault.name)
        self.fault = fault


class TooMuch(Exception):
    """The file asks for more work than this model does: of such a file it says nothing."""


class Work:
    """What may still be done: pixels that are decoded one by one, and pixels that are made or combined. `is_used_up` says that
    more was asked for, `refined` is the largest symbol that was refined for an instance: its words of 32 pixels."""

    def __init__(self, decisions=40_000, pixels=3_000_000):
        self.decisions = decisions
        self.pixels = pixels
        self.is_used_up = False
        self.refined = 0

    def decide(self, count):
        self.decisions -= count
        self.check(self.decisions)

    def draw(self, count):
        self.pixels -= count
        self.check(self.pixels)

    def check(self, left):
        if left < 0:
            self.is_used_up = True
            raise TooMuch

    def refine(self, width, height):
        self.refined = max(self.refined, (width + 31) // 32 * height)


def refuse_if(condition, fault):
    """Refuses where a condition holds."""
    if condition:
        raise Refused(fault)


def in_signed(value, fault):
    """The value, refused where it leaves signed 32 bits."""
    refuse_if(not -(1 << 31) <= value < 1 << 31, fault)
    return value


def in_unsigned(value, fault):
    """The value, refused where it leaves unsigned 32 bits."""
    refuse_if(not 0 <= value < 1 << 32, fault)
    return value
