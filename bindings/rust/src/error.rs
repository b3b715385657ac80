//! The errors and their texts.

use core::error::Error;
use core::fmt;

/// What a call of this crate returns: a value, or the first rule that the bytes break.
pub type Result<T> = core::result::Result<T, DecodeError>;

/// Why a page could not be decoded. The inner enums say which rule the bytes break.
///
/// The repository's `docs/FORMAT.md` says which rule of T.88 each stands for, and in which order they are looked for.
#[derive(Debug, Clone, Copy, PartialEq, Eq)]
pub enum DecodeError {
    /// The bytes end too early.
    Parse(ParseError),
    /// The file or the page as a whole.
    Format(FormatError),
    /// A segment's header or its references.
    Segment(SegmentError),
    /// Prefix-coded data.
    Huffman(HuffmanError),
    /// A region's fields or data.
    Region(RegionError),
    /// A template's adaptive pixels.
    Template(TemplateError),
    /// Symbol dictionaries and text.
    Symbol(SymbolError),
    /// A number out of range.
    Overflow(OverflowError),
    /// A feature that this decoder does not have: colours, or an extension that must be understood.
    Unsupported,
    /// A request for memory was refused. No mode passes over it. `hayro-jbig2` 0.4.0 has no such error: there the process
    /// ends.
    OutOfMemory,
    /// The work would pass its limit, and was refused before it started: see
    /// [`DecoderContext::set_work_limit`](crate::DecoderContext::set_work_limit). No mode passes over it. `hayro-jbig2`
    /// 0.4.0 has no such error: there decoding goes on.
    WorkLimit,
}

/// Why bytes could not be read.
#[derive(Debug, Clone, Copy, PartialEq, Eq)]
pub enum ParseError {
    /// The bytes end before the field does.
    UnexpectedEof,
}

/// What is wrong with a file or a page as a whole.
#[derive(Debug, Clone, Copy, PartialEq, Eq)]
pub enum FormatError {
    /// The file does not begin with the identification string (T.88, D.4.1).
    InvalidHeader,
    /// A reserved bit of the file's flags is set (D.4.2).
    ReservedBits,
    /// The page has no page information segment.
    MissingPageInfo,
    /// The page's height is unknown and no stripe gives it (7.4.8.2).
    UnknownPageHeight,
    /// The page's width or height is 0.
    EmptyPage,
    /// The file's page count is not the number of its pages (D.4.3).
    PageCountMismatch,
    /// A page has no end of page segment, or several (7.4.9).
    InvalidEndOfPage,
}

/// What is wrong with a segment.
#[derive(Debug, Clone, Copy, PartialEq, Eq)]
pub enum SegmentError {
    /// The type is not in the list of 7.3.
    UnknownType,
    /// The count of referred segments is coded as 5 or 6 (7.2.4).
    InvalidReferredCount,
    /// A referred number is not below the segment's own, or no segment of that number can be used.
    InvalidReference,
    /// Only an immediate generic region may have an unknown length (7.2.7).
    InvalidUnknownLength,
    /// The data of unknown length has no end marker (7.2.7).
    MissingEndMarker,
    /// A halftone region refers to no pattern dictionary.
    MissingPatternDictionary,
    /// A segment that needs a page is associated with page 0.
    MissingPageAssociation,
}

/// What is wrong with prefix-coded data.
#[derive(Debug, Clone, Copy, PartialEq, Eq)]
pub enum HuffmanError {
    /// The bits are the beginning of no code, or lengths make no code (Annex B).
    InvalidCode,
    /// A table selection has a value without a meaning.
    InvalidSelection,
    /// More custom tables are selected than referred to.
    MissingTables,
    /// Out of band where a number must be.
    UnexpectedOob,
    /// Two lines have one code. Never returned.
    ConflictingCodes,
}

/// What is wrong with a region.
#[derive(Debug, Clone, Copy, PartialEq, Eq)]
pub enum RegionError {
    /// The operator is none of 7.4.1.5.
    InvalidCombinationOperator,
    /// A row count or a size does not fit the region.
    InvalidDimension,
    /// The MMR data has a fault or lacks a row.
    InvalidMmrData,
    /// A gray value is not below the number of patterns.
    GrayScaleOutOfRange,
}

/// What is wrong with a template.
#[derive(Debug, Clone, Copy, PartialEq, Eq)]
pub enum TemplateError {
    /// No such template. Never returned.
    Invalid,
    /// An adaptive pixel is not before the pixel that is decoded.
    InvalidAtPixel,
}

/// What is wrong with symbols.
#[derive(Debug, Clone, Copy, PartialEq, Eq)]
pub enum SymbolError {
    /// The number of exported symbols is not the stated one.
    NoSymbols,
    /// More new symbols than stated.
    TooManySymbols,
    /// There is no symbol of this number, or a run passes the end.
    OutOfRange,
    /// Out of band where a number must be.
    UnexpectedOob,
    /// A symbol dictionary breaks a rule that has no error of its own.
    Invalid,
    /// A strip's delta T does not fit.
    InvalidStripDelta,
    /// More symbol instances than the data can hold.
    TooManyInstances,
}

/// A number outside the range that this decoder keeps.
#[derive(Debug, Clone, Copy, PartialEq, Eq)]
pub enum OverflowError {
    /// A bitmap's width or height, or their product, is too large.
    BitmapDimension,
    /// A halftone grid's width or height is too large.
    GridDimension,
    /// A symbol's place does not fit.
    PlacementCoordinate,
    /// A reference's offset does not fit.
    ReferenceOffset,
    /// An index does not fit. Never returned.
    Index,
    /// More symbols than a dictionary may have.
    SymbolCount,
}

/// The text of each variant, and what makes an enum an error.
macro_rules! texts {
    ($name:ident { $($variant:ident => $text:literal,)* }) => {
        impl fmt::Display for $name {
            fn fmt(&self, f: &mut fmt::Formatter<'_>) -> fmt::Result {
                f.write_str(match self {
                    $(Self::$variant => $text,)*
                })
            }
        }

        impl Error for $name {}
    };
}

// Below the macro, since it calls that.
mod texts;

/// What `DecodeError` has of each inner enum: its text and the conversion.
macro_rules! inner_errors {
    ($($variant:ident($inner:ident),)*) => {
        impl fmt::Display for DecodeError {
            fn fmt(&self, f: &mut fmt::Formatter<'_>) -> fmt::Result {
                match self {
                    $(Self::$variant(inner) => fmt::Display::fmt(inner, f),)*
                    Self::Unsupported => f.write_str(texts::UNSUPPORTED),
                    Self::OutOfMemory => f.write_str(texts::OUT_OF_MEMORY),
                    Self::WorkLimit => f.write_str(texts::WORK_LIMIT),
                }
            }
        }

        $(
            impl From<$inner> for DecodeError {
                fn from(inner: $inner) -> Self {
                    Self::$variant(inner)
                }
            }
        )*
    };
}

inner_errors! {
    Parse(ParseError),
    Format(FormatError),
    Segment(SegmentError),
    Huffman(HuffmanError),
    Region(RegionError),
    Template(TemplateError),
    Symbol(SymbolError),
    Overflow(OverflowError),
}

impl Error for DecodeError {}
