//! The numbers that the library returns.

use crate::error::DecodeError::{
    self, Format, Huffman, OutOfMemory, Overflow, Parse, Region, Segment, Symbol, Template, Unsupported, WorkLimit,
};
use crate::error::{
    FormatError, HuffmanError, OverflowError, ParseError, RegionError, SegmentError, SymbolError, TemplateError,
};

/// The errors by their numbers, from 1.
const ERRORS: [DecodeError; 41] = [
    Parse(ParseError::UnexpectedEof),
    Format(FormatError::InvalidHeader),
    Format(FormatError::ReservedBits),
    Format(FormatError::MissingPageInfo),
    Format(FormatError::UnknownPageHeight),
    Format(FormatError::EmptyPage),
    Format(FormatError::PageCountMismatch),
    Format(FormatError::InvalidEndOfPage),
    Segment(SegmentError::UnknownType),
    Segment(SegmentError::InvalidReferredCount),
    Segment(SegmentError::InvalidReference),
    Segment(SegmentError::InvalidUnknownLength),
    Segment(SegmentError::MissingEndMarker),
    Segment(SegmentError::MissingPatternDictionary),
    Segment(SegmentError::MissingPageAssociation),
    Huffman(HuffmanError::InvalidCode),
    Huffman(HuffmanError::InvalidSelection),
    Huffman(HuffmanError::MissingTables),
    Huffman(HuffmanError::UnexpectedOob),
    Huffman(HuffmanError::ConflictingCodes),
    Region(RegionError::InvalidCombinationOperator),
    Region(RegionError::InvalidDimension),
    Region(RegionError::InvalidMmrData),
    Region(RegionError::GrayScaleOutOfRange),
    Template(TemplateError::Invalid),
    Template(TemplateError::InvalidAtPixel),
    Symbol(SymbolError::NoSymbols),
    Symbol(SymbolError::TooManySymbols),
    Symbol(SymbolError::OutOfRange),
    Symbol(SymbolError::UnexpectedOob),
    Symbol(SymbolError::Invalid),
    Symbol(SymbolError::InvalidStripDelta),
    Symbol(SymbolError::TooManyInstances),
    Overflow(OverflowError::BitmapDimension),
    Overflow(OverflowError::GridDimension),
    Overflow(OverflowError::PlacementCoordinate),
    Overflow(OverflowError::ReferenceOffset),
    Overflow(OverflowError::Index),
    Overflow(OverflowError::SymbolCount),
    Unsupported,
    OutOfMemory,
];

/// The number of `WorkLimit`, which is none of the definitions' errors: `HAYRO_JBIG2_WORK_LIMIT`.
const WORK_LIMIT: u32 = 103;

/// The error that a number stands for; none for 0.
///
/// # Panics
///
/// For other numbers: they stand for faults of a caller, and this crate makes none.
pub(super) fn error_of(number: u32) -> Option<DecodeError> {
    if number == WORK_LIMIT {
        return Some(WorkLimit);
    }
    let index = (number as usize).checked_sub(1)?;
    Some(*ERRORS.get(index).unwrap_or_else(|| panic!("the library refused a call of this crate: {number}")))
}

#[cfg(test)]
mod tests {
    extern crate std;

    use super::{ERRORS, WORK_LIMIT, WorkLimit, error_of};
    use std::format;
    use std::string::String;
    use std::vec::Vec;

    /// `HAYRO_JBIG2_PARSE_UNEXPECTED_EOF` for `Parse(UnexpectedEof)`.
    fn name_in_c(variants: &str) -> String {
        let mut name = String::from("HAYRO_JBIG2");
        for letter in variants.chars().filter(|letter| *letter != ')') {
            if letter.is_uppercase() {
                name.push('_');
            }
            if letter != '(' {
                name.push(letter.to_ascii_uppercase());
            }
        }
        name
    }

    #[test]
    fn the_numbers_are_those_of_the_header() {
        let header = include_str!("../../../c/hayro_jbig2.h");
        let lines: Vec<&str> = header.lines().map(str::trim).collect();
        for (number, error) in (1..).zip(ERRORS) {
            let name = name_in_c(&format!("{error:?}"));
            let line = format!("{name} = {number}");
            assert!(lines.iter().any(|other| other.split(',').next() == Some(&line)), "{line}");
        }
    }

    #[test]
    fn the_number_of_the_limit_is_that_of_the_header() {
        let header = include_str!("../../../c/hayro_jbig2.h");
        let line = format!("{} = {WORK_LIMIT},", name_in_c(&format!("{WorkLimit:?}")));
        assert!(header.lines().any(|other| other.trim() == line), "{line}");
        assert_eq!(error_of(WORK_LIMIT), Some(WorkLimit));
    }

    /// `format.InvalidHeader` for `Format(InvalidHeader)`.
    fn name_in_definition(variants: &str) -> String {
        match variants.trim_end_matches(')').split_once('(') {
            Some((outer, inner)) => format!("{}.{inner}", outer.to_lowercase()),
            None => format!("errors.{variants}"),
        }
    }

    #[test]
    fn the_texts_are_those_of_the_definition() {
        let definition = include_str!("../../../../crates/jbig2_base/specs/ErrorTexts.antt");
        for error in ERRORS {
            let line = format!(" {} = codes \"{error}\"", name_in_definition(&format!("{error:?}")));
            assert!(definition.lines().any(|other| other.ends_with(&line)), "{line}");
        }
    }

    #[test]
    fn the_text_of_the_limit_is_that_for_c() {
        let texts = include_str!("../../../c/texts.c");
        let lines = format!("case {}:\n        return \"{WorkLimit}\";", name_in_c(&format!("{WorkLimit:?}")));
        assert!(texts.contains(&lines), "{lines}");
    }
}
