//! The texts of the errors. `tools/lists/errors --write` writes them, as
//! `crates/jbig2_base/specs/ErrorTexts.antt` defines them.

use super::*;

texts!(ParseError {
    UnexpectedEof => "unexpected end of input",
});

texts!(FormatError {
    InvalidHeader => "invalid JBIG2 file header",
    ReservedBits => "reserved bits must be zero",
    MissingPageInfo => "missing page information segment",
    UnknownPageHeight => "page height unknown with no stripe segments",
    EmptyPage => "page has zero width or height",
    PageCountMismatch => "page count in file header doesn't match",
    InvalidEndOfPage => "page without exactly one end of page segment",
});

texts!(SegmentError {
    UnknownType => "unknown or reserved segment type",
    InvalidReferredCount => "invalid referred-to segment count",
    InvalidReference => "segment refers to an invalid segment",
    InvalidUnknownLength => "unknown segment length for this type",
    MissingEndMarker => "missing end marker for unknown-length region",
    MissingPatternDictionary => "missing required pattern dictionary",
    MissingPageAssociation => "segment not associated with a page",
});

texts!(HuffmanError {
    InvalidCode => "invalid Huffman code",
    InvalidSelection => "invalid Huffman table selection",
    MissingTables => "not enough referred Huffman tables",
    UnexpectedOob => "unexpected out-of-band value",
    ConflictingCodes => "conflicting Huffman codes",
});

texts!(RegionError {
    InvalidCombinationOperator => "invalid combination operator",
    InvalidDimension => "invalid dimension value",
    InvalidMmrData => "invalid MMR-encoded data",
    GrayScaleOutOfRange => "gray-scale value exceeds pattern count",
});

texts!(TemplateError {
    Invalid => "invalid template value",
    InvalidAtPixel => "invalid adaptive template pixel location",
});

texts!(SymbolError {
    NoSymbols => "no symbols available",
    TooManySymbols => "symbol dictionary contains too many symbols",
    OutOfRange => "symbol ID out of range",
    UnexpectedOob => "unexpected out-of-band value",
    Invalid => "invalid symbol encountered",
    InvalidStripDelta => "strip delta overflow",
    TooManyInstances => "too many symbol instances",
});

texts!(OverflowError {
    BitmapDimension => "overflow in bitmap dimension computation",
    GridDimension => "overflow in grid dimension computation",
    PlacementCoordinate => "overflow in placement coordinate computation",
    ReferenceOffset => "overflow in reference offset computation",
    Index => "overflow in index computation",
    SymbolCount => "too many symbols",
});

pub(super) const UNSUPPORTED: &str = "unsupported feature";
pub(super) const OUT_OF_MEMORY: &str = "out of memory";
pub(super) const WORK_LIMIT: &str = "the limit of work is reached";
