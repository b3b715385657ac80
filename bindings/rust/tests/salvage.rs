//! Damaged pages, globals and files, which lenient reading refuses: what salvage draws of them, and what it tells. They are
//! of the rows R17 of `crates/jbig2_rows/README.md`.

use hayro_jbig2::{
    DecodeError, DecodeSettings, DecoderContext, File, Globals, Jbig2Decoder, Jbig2Error, LeftOut, Page, PassedOver,
    PassedSegment,
};
use hayro_jbig2::{FormatError, HuffmanError, ParseError, SegmentError};

const STRICT: DecodeSettings = DecodeSettings { strict: true };
const LENIENT: DecodeSettings = DecodeSettings { strict: false };
const REFERENCE: DecodeError = DecodeError::Segment(SegmentError::InvalidReference);
const SELECTION: DecodeError = DecodeError::Huffman(HuffmanError::InvalidSelection);

/// A white page of 8 by 1, and one of an open height.
const PAGE: &str = "00000000 30 00 01 00000013 00000008 00000001 0000000000000000000000";
const OPEN_PAGE: &str = "00000000 30 00 01 00000013 00000008 FFFFFFFF 0000000000000000000000";
/// A page that has no width.
const NO_PAGE: &str = "00000000 30 00 02 00000013 00000000 00000001 0000000000000000000000";
/// Number 2, a region of one black pixel.
const REGION: &str = "00000002 26 00 01 0000001A 00000001 00000001 0000000000000000 00 00 03FFFDFF02FEFEFE";
/// Number 1, a dictionary that wants a table which is not there.
const BAD_SYMBOLS: &str = "00000001 00 00 01 0000000F 0009 00000001 00000001 5F80800040";
/// Number 1, a dictionary that refers to number 0, which isn't there. It is kept all the same.
const LACKING_SYMBOLS: &str = "00000001 00 20 00 00 0000000F 0001 00000001 00000001 5F80800040";
/// Number 2, a dictionary of one black symbol.
const SYMBOLS: &str = "00000002 00 00 01 0000000F 0001 00000001 00000001 5F80800040";
/// Number 3, a text region that refers to number 2.
const TEXT: &str = "00000003 06 20 02 01 0000002D 00000008 00000001 0000000000000000 00 0011 0000 00000001 01
    0000000000000000000000000000000000 0004";
/// The end of page 1.
const END: &str = "00000004 31 00 01 00000000";
/// A header that refers to its own number.
const JUNK: &str = "20202020202020202020202020202020";
/// Of a sequential file that doesn't count its pages.
const HEADER: &str = "974A42320D0A1A0A 03";

fn of(pieces: &[&str]) -> Vec<u8> {
    let digits: Vec<u8> = pieces.concat().bytes().filter(u8::is_ascii_hexdigit).collect();
    let byte = |pair: &[u8]| u8::from_str_radix(std::str::from_utf8(pair).unwrap(), 16).unwrap();
    digits.chunks(2).map(byte).collect()
}

fn segment(number: u32, error: DecodeError) -> Option<PassedSegment> {
    Some(PassedSegment { segment_number: Some(number), error })
}

fn one(number: u32, error: DecodeError) -> PassedOver {
    PassedOver { count: 1, first: segment(number, error) }
}

/// A list that ended at the header `JUNK`.
fn ended() -> LeftOut {
    LeftOut { cut_off: segment(0x2020_2020, REFERENCE), ..LeftOut::default() }
}

/// The first row of a page, and what was passed over.
fn drawn(page: &Page<'_>) -> (u8, PassedOver) {
    struct Row(u8, u32);
    impl hayro_jbig2::Decoder for Row {
        fn push_pixel(&mut self, black: bool) {
            self.0 |= if black { 0x80 >> self.1 } else { 0 };
            self.1 += 1;
        }

        fn push_pixel_chunk(&mut self, black: bool, chunk_count: u32) {
            (0..8 * chunk_count).for_each(|_| self.push_pixel(black));
        }

        fn next_line(&mut self) {}
    }
    let mut context = DecoderContext::default();
    let mut row = Row(0, 0);
    page.decode_with(&mut row, &mut context).unwrap();
    (row.0, context.passed_over())
}

#[test]
fn a_page_is_drawn_without_what_is_damaged() {
    let nothing = PassedOver::default();
    let cases = [
        (of(&[PAGE, REGION, JUNK]), one(0x2020_2020, REFERENCE), ended()),
        (of(&[PAGE, BAD_SYMBOLS, REGION]), one(1, SELECTION), LeftOut::default()),
        (of(&[OPEN_PAGE, REGION]), nothing, LeftOut::default()),
    ];
    for (stream, passed_over, left_out) in cases {
        let lenient = Page::new_embedded(&stream, None, &LENIENT).and_then(|page| page.read_packed(&mut [0]));
        assert!(lenient.is_err());
        let page = Page::salvaged_embedded(&stream, None).unwrap();
        assert_eq!(page.dimensions(), (8, 1));
        assert_eq!(page.left_out(), left_out);
        assert_eq!(drawn(&page), (0x80, passed_over));
    }
    let error = Page::salvaged_embedded(&[], None).map(|page| page.number()).unwrap_err();
    assert_eq!(error, FormatError::MissingPageInfo.into());
}

#[test]
fn globals_keep_what_can_be_read() {
    let stream = of(&[PAGE, TEXT]);
    let left_out = LeftOut { passed_over: one(1, SELECTION), ..ended() };
    for (bytes, left_out) in [
        (of(&[SYMBOLS, JUNK]), ended()),
        (of(&[BAD_SYMBOLS, SYMBOLS, JUNK]), left_out),
        (of(&[SYMBOLS]), LeftOut::default()),
    ] {
        let globals = Globals::salvaged(&bytes).unwrap();
        assert_eq!(globals.left_out(), left_out);
        assert_eq!(Globals::new(&bytes, &LENIENT).is_err(), left_out != LeftOut::default());
        let page = Page::salvaged_embedded(&stream, Some(&globals)).unwrap();
        assert_eq!(drawn(&page), (0x80, PassedOver::default()));
    }
}

/// A dictionary that lacks something, and a list that ends with the same error: both are reported, and pages aren't complete.
#[test]
fn two_faults_of_one_kind_are_two() {
    // It refers to number 1.
    let text = TEXT.replace("20 02", "20 01");
    let globals = of(&[LACKING_SYMBOLS, JUNK]);
    let both = LeftOut { passed_over: one(1, REFERENCE), ..ended() };
    let (globals, stream) = (Globals::salvaged(&globals).unwrap(), of(&[PAGE, &text]));
    assert_eq!(globals.left_out(), both);
    let page = Page::salvaged_embedded(&stream, Some(&globals)).unwrap();
    let data = of(&[HEADER, PAGE, LACKING_SYMBOLS, &text, END, JUNK]);
    let counted = of(&["974A42320D0A1A0A 01 00000001", PAGE, LACKING_SYMBOLS, &text, END, JUNK]);
    let (file, other) = (File::salvaged(&data).unwrap(), File::salvaged(&counted).unwrap());
    assert_eq!((file.left_out(), other.left_out()), (both, both));
    for page in [page, file.page(0).unwrap(), other.page(0).unwrap()] {
        let mut context = DecoderContext::default();
        page.decode_with(&mut Nobody, &mut context).unwrap();
        assert_eq!((context.passed_over(), context.is_complete()), (PassedOver::default(), false));
    }
}

struct Nobody;

impl hayro_jbig2::Decoder for Nobody {
    fn push_pixel(&mut self, _black: bool) {}
    fn push_pixel_chunk(&mut self, _black: bool, _chunk_count: u32) {}
    fn next_line(&mut self) {}
}

#[test]
fn a_file_is_read_without_what_is_damaged() {
    let pages = LeftOut { pages: 1, first_page: Some(FormatError::EmptyPage.into()), ..LeftOut::default() };
    for (data, left_out, passed_over) in [
        (of(&[HEADER, PAGE, REGION, NO_PAGE]), pages, PassedOver::default()),
        (of(&[HEADER, PAGE, REGION, JUNK]), ended(), one(0x2020_2020, REFERENCE)),
        (of(&[HEADER, PAGE, REGION, END, JUNK]), ended(), PassedOver::default()),
    ] {
        assert!(File::new(&data, &LENIENT).is_err());
        let file = File::salvaged(&data).unwrap();
        assert_eq!((file.page_count(), file.left_out()), (1, left_out));
        let page = file.page(0).unwrap();
        assert_eq!((page.number(), page.left_out()), (1, left_out));
        assert_eq!(drawn(&page), (0x80, passed_over));
    }
    assert_eq!(File::salvaged(b"no file at all").map(|file| file.page_count()), Err(FormatError::InvalidHeader.into()));
}

/// A page that can't begin has its own error, also where salvage leaves it out, as where its stream is embedded. A file that
/// names no page has no such page, and the call for its first page by a reader says that page information is missing.
#[test]
fn a_page_that_fails_has_its_own_error() {
    let (missing, empty) = (Some(FormatError::MissingPageInfo.into()), Some(FormatError::EmptyPage.into()));
    let cut = Some(DecodeError::Parse(ParseError::UnexpectedEof));
    let no_height = PAGE.replace("00000001 0000000000000000000000", "00000000 0000000000000000000000");
    let no_width = NO_PAGE.replace("30 00 02", "30 00 01");
    for (segments, of_file, embedded) in [
        (of(&[]), [None; 3], [missing; 3]),
        (of(&[END]), [missing; 3], [missing; 3]),
        (of(&[&no_width, END]), [empty; 3], [empty; 3]),
        (of(&[&no_height, END]), [empty; 3], [empty; 3]),
        (of(&[&PAGE[..PAGE.len() - 2]]), [cut, None, None], [cut, missing, missing]),
    ] {
        let data = [of(&[HEADER]), segments.clone()].concat();
        let files = [File::new(&data, &STRICT), File::new(&data, &LENIENT), File::salvaged(&data)];
        assert_eq!(files.map(fault_of_file), of_file);
        let pages = [
            Page::new_embedded(&segments, None, &STRICT),
            Page::new_embedded(&segments, None, &LENIENT),
            Page::salvaged_embedded(&segments, None),
        ];
        assert_eq!(pages.map(|page| page.err()), embedded);
        let first = match Jbig2Decoder::new(&data[..]) {
            Err(Jbig2Error::Decode(error)) => Some(error),
            _ => None,
        };
        assert_eq!(first, of_file[1].or(missing));
    }
}

/// Why a file has no page, where it names one.
fn fault_of_file(file: Result<File<'_>, DecodeError>) -> Option<DecodeError> {
    match file {
        Ok(file) => {
            assert!(file.page(0).is_none());
            file.left_out().first_page
        }
        Err(error) => Some(error),
    }
}

#[test]
fn whole_files_are_read_as_leniently() {
    let data = include_bytes!("../../../crates/jbig2_decode/data/t88-h1.jb2");
    let (salvaged, lenient) = (File::salvaged(data).unwrap(), File::new(data, &LENIENT).unwrap());
    assert_eq!((salvaged.left_out(), lenient.left_out()), (LeftOut::default(), LeftOut::default()));
    assert_eq!(salvaged.page_count(), 3);
    for (page, other) in salvaged.pages().zip(lenient.pages()) {
        assert_eq!((page.number(), page.dimensions()), (other.number(), other.dimensions()));
        let mut images = [vec![1; page.width() as usize * page.height() as usize], Vec::new()];
        images[1].resize(images[0].len(), 2);
        page.read_image(&mut images[0]).unwrap();
        other.read_image(&mut images[1]).unwrap();
        assert!(images[0] == images[1]);
    }
}
