//! Pages that are cut off, that refer to what isn't there, or whose faults are forgiven: `DecoderContext::is_complete`, and what
//! they lack.

use hayro_jbig2::{
    DecodeError, DecodeSettings, Decoder, DecoderContext, File, Globals, Page, PassedOver, PassedSegment,
};
use hayro_jbig2::{HuffmanError, ParseError, RegionError, SegmentError, SymbolError};

const LENIENT: DecodeSettings = DecodeSettings { strict: false };
const STRICT: DecodeSettings = DecodeSettings { strict: true };
const END: DecodeError = DecodeError::Parse(ParseError::UnexpectedEof);
const REFERENCE: DecodeError = DecodeError::Segment(SegmentError::InvalidReference);
const CODE: DecodeError = DecodeError::Huffman(HuffmanError::InvalidCode);
const BOOK: &[u8] = include_bytes!("../../../crates/jbig2_decode/data/t88-h1.jb2");

/// A white page of 8 by 1.
const PAGE: &str = "00000000 30 00 01 00000013 00000008 00000001 0000000000000000000000";
/// Number 1, a dictionary of one black symbol; and one that refers to number 0, which isn't there.
const SYMBOLS: &str = "00000001 00 00 01 0000000F 0001 00000001 00000001 5F80800040";
const LACKING_SYMBOLS: &str = "00000001 00 20 00 01 0000000F 0001 00000001 00000001 5F80800040";
/// Number 2, a text region that refers to number 1; and one that refers to number 0 besides.
const TEXT: &str = "00000002 06 20 01";
const OTHER_TEXT: &str = "00000002 06 40 00 01";
const DATA: &str = "01 0000002D 00000008 00000001 0000000000000000 00 0011 0000 00000001 01
    0000000000000000000000000000000000 0004";

fn of(pieces: &[&str]) -> Vec<u8> {
    let digits: Vec<u8> = pieces.concat().bytes().filter(u8::is_ascii_hexdigit).collect();
    let byte = |pair: &[u8]| u8::from_str_radix(std::str::from_utf8(pair).unwrap(), 16).unwrap();
    digits.chunks(2).map(byte).collect()
}

/// A page of four regions of one black pixel, numbers 2 to 5.
fn regions() -> Vec<u8> {
    let region =
        |number| format!("0000000{number} 26 00 01 0000001A 00000001 00000001 0000000000000000 00 00 03FFFDFF02FEFEFE");
    of(&[PAGE, &region(2), &region(3), &region(4), &region(5)])
}

fn one(segment_number: Option<u32>, error: DecodeError) -> PassedOver {
    PassedOver { count: 1, first: Some(PassedSegment { segment_number, error }) }
}

struct Nobody;

impl Decoder for Nobody {
    fn push_pixel(&mut self, _black: bool) {}
    fn push_pixel_chunk(&mut self, _black: bool, _chunk_count: u32) {}
    fn next_line(&mut self) {}
}

/// The first byte of a page, whether it is complete, and what it lacks.
fn drawn(page: &Page<'_>) -> (u8, bool, PassedOver) {
    struct Row(u8, u32);
    impl Decoder for Row {
        fn push_pixel(&mut self, black: bool) {
            self.0 |= if black && self.1 < 8 { 0x80 >> self.1 } else { 0 };
            self.1 += 1;
        }

        fn push_pixel_chunk(&mut self, black: bool, chunk_count: u32) {
            (0..8 * chunk_count).for_each(|_| self.push_pixel(black));
        }

        fn next_line(&mut self) {}
    }
    let mut context = DecoderContext::default();
    assert!(!context.is_complete());
    let mut row = Row(0, 0);
    page.decode_with(&mut row, &mut context).unwrap();
    (row.0, context.is_complete(), context.passed_over())
}

/// A page by lenient reading and in salvage, with globals or without.
fn both(stream: &[u8], globals: Option<&[u8]>, check: impl Fn(&Page<'_>)) {
    let shared = globals.map(|bytes| Globals::new(bytes, &LENIENT).unwrap());
    check(&Page::new_embedded(stream, shared.as_ref(), &LENIENT).unwrap());
    let shared = globals.map(|bytes| Globals::salvaged(bytes).unwrap());
    check(&Page::salvaged_embedded(stream, shared.as_ref()).unwrap());
}

#[test]
fn a_stream_that_is_cut_off() {
    let stream = regions();
    both(&stream, None, |page| {
        assert_eq!(drawn(page), (0x80, true, PassedOver::default()));
        assert_eq!(page.cut_off(), None);
    });
    let length = stream.len();
    for (cut, number, row) in [(length / 3, 2, 0x00), (length / 2, 3, 0x80), (length - 1, 5, 0x80)] {
        let lacks = one(Some(number), END);
        both(&stream[..cut], None, |page| {
            assert_eq!(drawn(page), (row, false, lacks));
            assert_eq!(page.cut_off(), lacks.first);
        });
        assert!(Page::new_embedded(&stream[..cut], None, &STRICT).is_err());
    }
}

#[test]
fn a_cut_within_a_number() {
    let globals = of(&[SYMBOLS]);
    both(&of(&[PAGE, TEXT, DATA, "000000"]), Some(&globals), |page| {
        assert_eq!(drawn(page), (0x80, false, one(None, END)));
    });
    // The end of a line after a stream is no segment.
    for end in ["0A", "0D0A"] {
        let stream = of(&[PAGE, TEXT, DATA, end]);
        both(&stream, Some(&of(&[SYMBOLS, end])), |page| {
            assert_eq!(drawn(page), (0x80, true, PassedOver::default()));
            assert_eq!(page.cut_off(), None);
        });
        assert_eq!(Globals::new(&of(&[SYMBOLS, end]), &LENIENT).unwrap().left_out().cut_off, None);
        assert!(Page::new_embedded(&stream, None, &STRICT).is_err());
    }
    both(&of(&[PAGE, TEXT, DATA, "0A0A0A"]), Some(&globals), |page| assert_eq!(drawn(page).2, one(None, END)));
}

#[test]
fn symbols_that_are_not_there() {
    both(&of(&[PAGE, TEXT, DATA]), None, |page| assert_eq!(drawn(page), (0x00, false, one(Some(2), CODE))));
    let globals = of(&[SYMBOLS]);
    both(&of(&[PAGE, OTHER_TEXT, DATA]), Some(&globals), |page| {
        assert_eq!(drawn(page), (0x80, false, one(Some(2), REFERENCE)));
    });
    // The page finds the dictionary of these globals, and its symbols may be others.
    let globals = of(&[LACKING_SYMBOLS]);
    assert_eq!(Globals::new(&globals, &LENIENT).unwrap().left_out().passed_over, one(Some(1), REFERENCE));
    both(&of(&[PAGE, TEXT, DATA]), Some(&globals), |page| {
        assert_eq!(drawn(page), (0x80, false, PassedOver::default()));
    });
}

/// What strict reading refuses, and lenient reading draws or skips.
#[test]
fn what_is_forgiven() {
    const MMR: DecodeError = DecodeError::Region(RegionError::InvalidMmrData);
    const GRAY: DecodeError = DecodeError::Region(RegionError::GrayScaleOutOfRange);
    const ID: DecodeError = DecodeError::Symbol(SymbolError::OutOfRange);
    const TYPE: DecodeError = DecodeError::Segment(SegmentError::UnknownType);
    let area = "00000008 00000001 0000000000000000 00";
    let cell = format!(
        "00000001 10 00 01 00000007 00 01 01 00000002 00000002 16 20 01 01 00000029 {area}
        01 00000001 00000001 000000000000000000000000"
    );
    for (segments, row, number, error) in [
        (format!("00000001 26 00 01 00000013 {area} 01 26"), 0x00, 1, MMR),
        (format!("00000001 24 00 01 00000013 {area} 01 26"), 0x00, 1, MMR),
        (format!("{cell} 26A880"), 0x80, 2, GRAY),
        (format!("00000002 06 00 01 0000001B {area} 0010 00000001 A943FFAC"), 0x00, 2, ID),
        ("00000001 3E 00 01 00000004 80000000".to_string(), 0x00, 1, DecodeError::Unsupported),
        ("00000001 3F 00 01 00000000".to_string(), 0x00, 1, TYPE),
    ] {
        let stream = of(&[PAGE, &segments]);
        both(&stream, None, |page| {
            assert_eq!(drawn(page), (row, false, one(Some(number), error)));
            assert_eq!(page.cut_off(), None);
        });
        let strict = Page::new_embedded(&stream, None, &STRICT);
        let mut context = DecoderContext::default();
        assert_eq!(strict.and_then(|page| page.decode_with(&mut Nobody, &mut context)), Err(error));
    }
    // Of globals.
    let globals = of(&[SYMBOLS, "00000003 3E 00 00 00000004 80000000"]);
    let lacks = one(Some(3), DecodeError::Unsupported);
    assert_eq!(Globals::new(&globals, &LENIENT).unwrap().left_out().passed_over, lacks);
    assert_eq!(Globals::salvaged(&globals).unwrap().left_out().passed_over, lacks);
    both(&of(&[PAGE, TEXT, DATA]), Some(&globals), |page| {
        assert_eq!(drawn(page), (0x80, false, PassedOver::default()));
    });
}

#[test]
fn a_context_holds_no_page_after_an_error() {
    let (file, lacking) = (File::new(BOOK, &STRICT).unwrap(), of(&[PAGE, TEXT, DATA]));
    let (whole, refused) = (file.page(0).unwrap(), Page::new_embedded(&lacking, None, &STRICT).unwrap());
    let mut context = DecoderContext::default();
    for work in [None, Some(0)] {
        context.set_work_limit(None);
        whole.decode_with(&mut Nobody, &mut context).unwrap();
        assert!(context.is_complete());
        context.set_work_limit(work);
        let page = if work.is_none() { &refused } else { &whole };
        assert!(page.decode_with(&mut Nobody, &mut context).is_err());
        assert_eq!((context.is_complete(), context.passed_over()), (false, PassedOver::default()));
    }
}

#[test]
fn a_file_whose_second_page_is_cut_off() {
    let end = BOOK.windows(7).position(|bytes| bytes == [0x31, 0, 2, 0, 0, 0, 0]).unwrap();
    let data = &BOOK[..end - 5];
    for file in [File::new(data, &LENIENT).unwrap(), File::salvaged(data).unwrap()] {
        assert_eq!(file.page_count(), 2);
        let (_, is_complete, lacks) = drawn(&file.page(0).unwrap());
        assert!(is_complete && lacks == PassedOver::default());
        let (_, is_complete, lacks) = drawn(&file.page(1).unwrap());
        assert!(!is_complete && lacks.count == 1);
        assert_eq!(lacks.first, file.left_out().cut_off);
        assert_eq!(lacks.first.unwrap().error, END);
    }
    assert!(File::new(data, &STRICT).is_err());
}
