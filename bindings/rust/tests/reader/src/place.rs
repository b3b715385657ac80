//! Where a fault is, for a message. Each inner match names all that 0.4.0 has: it compiles only where these are the same.

use hayro_jbig2::{
    DecodeError, FormatError, HuffmanError, OverflowError, ParseError, RegionError, SegmentError, SymbolError,
    TemplateError,
};

pub fn of(error: DecodeError) -> &'static str {
    match error {
        DecodeError::Parse(ParseError::UnexpectedEof) => "end",
        DecodeError::Format(error) => in_format(error),
        DecodeError::Segment(error) => in_segment(error),
        DecodeError::Huffman(error) => in_codes(error),
        DecodeError::Region(error) => in_region(error),
        DecodeError::Template(TemplateError::Invalid | TemplateError::InvalidAtPixel) => "template",
        DecodeError::Symbol(error) => in_symbols(error),
        DecodeError::Overflow(error) => in_number(error),
        DecodeError::Unsupported => "feature",
        // 0.4.0 has no other.
        _ => "limit",
    }
}

fn in_format(error: FormatError) -> &'static str {
    match error {
        FormatError::InvalidHeader | FormatError::ReservedBits => "file header",
        FormatError::MissingPageInfo | FormatError::UnknownPageHeight | FormatError::EmptyPage => "page information",
        FormatError::PageCountMismatch | FormatError::InvalidEndOfPage => "list of pages",
    }
}

fn in_segment(error: SegmentError) -> &'static str {
    match error {
        SegmentError::UnknownType | SegmentError::MissingPageAssociation => "segment header",
        SegmentError::InvalidReferredCount
        | SegmentError::InvalidReference
        | SegmentError::MissingPatternDictionary => "reference",
        SegmentError::InvalidUnknownLength | SegmentError::MissingEndMarker => "length",
    }
}

fn in_codes(error: HuffmanError) -> &'static str {
    match error {
        HuffmanError::InvalidCode | HuffmanError::UnexpectedOob => "coded data",
        HuffmanError::InvalidSelection | HuffmanError::MissingTables | HuffmanError::ConflictingCodes => "table",
    }
}

fn in_region(error: RegionError) -> &'static str {
    match error {
        RegionError::InvalidCombinationOperator | RegionError::InvalidDimension => "region header",
        RegionError::InvalidMmrData | RegionError::GrayScaleOutOfRange => "region data",
    }
}

fn in_symbols(error: SymbolError) -> &'static str {
    match error {
        SymbolError::NoSymbols | SymbolError::TooManySymbols | SymbolError::OutOfRange => "dictionary",
        SymbolError::UnexpectedOob | SymbolError::InvalidStripDelta | SymbolError::TooManyInstances => "text",
        SymbolError::Invalid => "symbol",
    }
}

fn in_number(error: OverflowError) -> &'static str {
    match error {
        OverflowError::BitmapDimension | OverflowError::GridDimension | OverflowError::SymbolCount => "size",
        OverflowError::PlacementCoordinate | OverflowError::ReferenceOffset | OverflowError::Index => "place",
    }
}
