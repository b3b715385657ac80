//! The example of T.88, H.1, a file of three pages, and uses of the API.

use hayro_jbig2::{DecodeError, DecodeSettings, Decoder, DecoderContext, File, Globals, Jbig2Decoder, Page};
use hayro_jbig2::{PassedOver, PassedSegment, RegionError};
use std::panic::{AssertUnwindSafe, catch_unwind};
use std::thread;

const EXAMPLE: &[u8] = include_bytes!("../../../crates/jbig2_decode/data/t88-h1.jb2");
const STRICT: DecodeSettings = DecodeSettings { strict: true };

/// The rows of page 3, 37 pixels wide.
const THIRD_PAGE: [u64; 8] =
    [0x7878f0f0f0, 0x8404880908, 0x807c88f900, 0x8084890900, 0x8484f10908, 0x787c80f8f0, 0x0000800000, 0x0000800000];

/// The rows of the pages 1 and 2, 64 pixels wide.
#[rustfmt::skip]
const BOTH_PAGES: [u64; 56] = [
    0x0000000000000000, 0x07878f0f0f000000, 0x0840488090800000, 0x0807c88f90000000,
    0x0808489090000000, 0x08484f1090800000, 0x0787c80f8f000000, 0x0000080000000000,
    0x0000080000000000, 0x0000000000000000, 0x0000000000000000, 0x0fffffffffffffc0,
    0x0fffffffffffffc0, 0x0c000000000000c0, 0x0c000000000000c0, 0x0c000000022200c0,
    0x0c00026666ee00c0, 0x0c000002666600c0, 0x0c000000000400c0, 0x0c000000222200c0,
    0x0c0026666eee00c0, 0x0c000026666700c0, 0x0c000000004400c0, 0x0c000002222600c0,
    0x0c006666eeee00c0, 0x0c000266667f00c0, 0x0c000000044400c0, 0x0c000022226600c0,
    0x0c00666eeeee00c0, 0x0c00266667ff00c0, 0x0c000000444600c0, 0x0c000222266600c0,
    0x0c0066eeeeef00c0, 0x0c0066667fff00c0, 0x0c000004446600c0, 0x0c002222666e00c0,
    0x0c006eeeeeff00c0, 0x0c006667ffff00c0, 0x0c000044466600c0, 0x0c00222666ef00c0,
    0x0c00eeeeefff00c0, 0x0c00667fffff00c0, 0x0c000444666600c0, 0x0c0022666eff00c0,
    0x0c00eeeeffff00c0, 0x0c0067ffffff00c0, 0x0c004446666700c0, 0x0c002666efff00c0,
    0x0c00eeefffff00c0, 0x0c007fffffff00c0, 0x0c004466667f00c0, 0x0c000000000000c0,
    0x0c000000000000c0, 0x0fffffffffffffc0, 0x0fffffffffffffc0, 0x0000000000000000,
];

/// Keeps the pixels, a byte for each.
#[derive(Default)]
struct Pixels {
    row: Vec<bool>,
    rows: Vec<Vec<bool>>,
}

impl Decoder for Pixels {
    fn push_pixel(&mut self, black: bool) {
        self.row.push(black);
    }

    fn push_pixel_chunk(&mut self, black: bool, chunk_count: u32) {
        self.row.extend((0..8 * chunk_count).map(|_| black));
    }

    fn next_line(&mut self) {
        self.rows.push(std::mem::take(&mut self.row));
    }
}

fn packed(page: &Page<'_>) -> Vec<u8> {
    let mut rows = vec![0; page.width().div_ceil(8) as usize * page.height() as usize];
    page.read_packed(&mut rows).unwrap();
    rows
}

/// Each of packed rows as a number.
fn numbers_of(rows: &[u8], row_bytes: usize) -> Vec<u64> {
    let number = |row: &[u8]| row.iter().fold(0, |number, byte| number << 8 | u64::from(*byte));
    rows.chunks(row_bytes).map(number).collect()
}

#[test]
fn the_pages_of_the_standard() {
    let file = File::new(EXAMPLE, &STRICT).unwrap();
    let known: Vec<_> = file.pages().map(|page| (page.number(), page.width(), page.height())).collect();
    assert_eq!(known, [(1, 64, 56), (2, 64, 56), (3, 37, 8)]);
    let pages: Vec<_> = file.pages().map(|page| packed(&page)).collect();
    assert_eq!(pages[0], pages[1]);
    assert_eq!(numbers_of(&pages[0], 8), BOTH_PAGES);
    assert_eq!(numbers_of(&pages[2], 5), THIRD_PAGE);
    assert!(file.page(3).is_none());
}

#[test]
fn all_forms_have_the_same_pixels() {
    for page in File::new(EXAMPLE, &STRICT).unwrap().pages() {
        compare_forms(&page);
    }
    // Many rows, long rows, and few of each.
    for (width, height) in [(8, 9000), (65535, 3), (65528, 2), (1001, 300)] {
        compare_forms(&Page::new_embedded(&noise(width, height), None, &STRICT).unwrap());
    }
}

fn compare_forms(page: &Page<'_>) {
    let mut pixels = Pixels::default();
    page.decode(&mut pixels).unwrap();
    assert_eq!(pixels.rows.len(), page.height() as usize);
    let mut image = vec![7; page.width() as usize * page.height() as usize];
    page.read_image(&mut image).unwrap();
    let as_bytes: Vec<u8> = pixels.rows.concat().into_iter().map(|black| if black { 0 } else { 255 }).collect();
    assert!(image == as_bytes);
    assert!(image.contains(&0) && image.contains(&255));
    let rows = packed(page);
    let row_bytes = page.width().div_ceil(8) as usize;
    for (y, row) in pixels.rows.iter().enumerate() {
        for (x, black) in row.iter().enumerate() {
            assert_eq!(rows[y * row_bytes + x / 8] << (x % 8) & 0x80 != 0, *black, "({x}, {y})");
        }
    }
}

/// A page that is one generic region: any bytes are data of the arithmetic coder.
fn noise(width: u32, height: u32) -> Vec<u8> {
    let mut data = vec![0; 18];
    data[..4].copy_from_slice(&width.to_be_bytes());
    data[4..8].copy_from_slice(&height.to_be_bytes());
    data.extend(hex("03FFFDFF02FEFEFE"));
    data.extend((0..20_000_u32).map(|turn| (turn.wrapping_mul(2_654_435_761) >> 24) as u8 & 0x7F));
    let mut stream = hex("00000000 30 00 01 00000013");
    stream.extend(width.to_be_bytes());
    stream.extend(height.to_be_bytes());
    stream.extend([0; 11]);
    stream.extend(hex("00000001 26 00 01"));
    stream.extend((data.len() as u32).to_be_bytes());
    stream.extend(data);
    stream
}

#[test]
fn a_reader_gives_the_first_page() {
    let decoder = Jbig2Decoder::new(EXAMPLE).unwrap();
    let (width, height) = decoder.dimensions();
    let mut image = vec![0; width as usize * height as usize];
    decoder.read_image(&mut image).unwrap();
    let mut expected = vec![0; 64 * 56];
    File::new(EXAMPLE, &STRICT).unwrap().page(0).unwrap().read_image(&mut expected).unwrap();
    assert_eq!(image, expected);
}

#[test]
fn globals_serve_pages_of_several_threads() {
    let (globals, stream) = streams_with_a_shared_symbol();
    let globals = Globals::new(&globals, &STRICT).unwrap();
    thread::scope(|scope| {
        for _ in 0..4 {
            scope.spawn(|| {
                let mut context = DecoderContext::default();
                for _ in 0..50 {
                    let page = Page::new_embedded(&stream, Some(&globals), &STRICT).unwrap();
                    let mut pixels = Pixels::default();
                    page.decode_with(&mut pixels, &mut context).unwrap();
                    assert_eq!(pixels.rows, [[true, false, false, false, false, false, false, false]]);
                }
            });
        }
    });
}

#[test]
fn a_file_serves_several_threads() {
    let file = File::new(EXAMPLE, &STRICT).unwrap();
    let expected: Vec<_> = file.pages().map(|page| packed(&page)).collect();
    thread::scope(|scope| {
        for _ in 0..4 {
            scope.spawn(|| {
                let drawn: Vec<_> = file.pages().map(|page| packed(&page)).collect();
                assert_eq!(drawn, expected);
            });
        }
    });
}

/// A Decoder that panics after some calls.
struct Impatient(u32);

impl Decoder for Impatient {
    fn push_pixel(&mut self, _black: bool) {
        self.0 = self.0.checked_sub(1).expect("no patience");
    }

    fn push_pixel_chunk(&mut self, black: bool, _chunk_count: u32) {
        self.push_pixel(black);
    }

    fn next_line(&mut self) {}
}

#[test]
fn a_context_serves_after_a_panic_and_after_a_refusal() {
    let file = File::new(EXAMPLE, &STRICT).unwrap();
    let page = file.page(0).unwrap();
    let mut context = DecoderContext::default();
    let panicked = catch_unwind(AssertUnwindSafe(|| page.decode_with(&mut Impatient(9), &mut context)));
    assert!(panicked.is_err());

    let (_, stream) = streams_with_a_shared_symbol();
    let undrawn = Page::new_embedded(&stream, None, &STRICT).unwrap();
    assert!(undrawn.decode_with(&mut Impatient(0), &mut context).is_err());

    let mut pixels = Pixels::default();
    page.decode_with(&mut pixels, &mut context).unwrap();
    let mut expected = Pixels::default();
    page.decode(&mut expected).unwrap();
    assert_eq!(pixels.rows, expected.rows);
}

#[test]
fn a_context_tells_what_was_passed_over() {
    let mut context = DecoderContext::default();
    assert_eq!(context.passed_over(), PassedOver::default());
    // Row R2.1: the region, segment 1, has no operator.
    let stream = hex("00000000 30 00 01 00000013 00000008 00000001 0000000000000000000000
        00000001 26 00 01 0000001A 00000001 00000001 0000000000000000 05 00 03FFFDFF02FEFEFE");
    let lenient = DecodeSettings::default();
    let page = Page::new_embedded(&stream, None, &lenient).unwrap();
    page.decode_with(&mut Pixels::default(), &mut context).unwrap();
    let error = RegionError::InvalidCombinationOperator.into();
    let first = Some(PassedSegment { segment_number: Some(1), error });
    assert_eq!(context.passed_over(), PassedOver { count: 1, first });

    let file = File::new(EXAMPLE, &lenient).unwrap();
    file.page(0).unwrap().decode_with(&mut Pixels::default(), &mut context).unwrap();
    assert_eq!(context.passed_over(), PassedOver::default());
}

#[test]
fn buffers_are_kept_after_an_error() {
    let (_, stream) = streams_with_a_shared_symbol();
    let page = Page::new_embedded(&stream, None, &STRICT).unwrap();
    let mut image = [7; 8];
    let mut rows = [7; 1];
    assert!(page.read_image(&mut image).is_err());
    assert!(page.read_packed(&mut rows).is_err());
    assert_eq!((image, rows), ([7; 8], [7; 1]));
}

#[test]
#[should_panic(expected = "another size")]
fn a_buffer_of_another_size_is_refused() {
    let file = File::new(EXAMPLE, &STRICT).unwrap();
    let _ = file.page(0).unwrap().read_packed(&mut [0; 7]);
}

/// All that 0.4.0 promises of its types to threads and to error handling.
#[test]
fn types_are_as_in_the_crate() {
    fn is_shared<T: Send + Sync>() {}
    fn is_error<T: std::error::Error + Copy + Send + Sync + 'static>() {}
    is_shared::<File<'_>>();
    is_shared::<Page<'_>>();
    is_shared::<Globals>();
    is_shared::<DecoderContext>();
    is_error::<DecodeError>();
    let inner = hayro_jbig2::FormatError::EmptyPage;
    assert_eq!(DecodeError::from(inner).to_string(), inner.to_string());
    assert!(!DecodeSettings::default().strict);
}

/// Row R9.2: a symbol dictionary, and a page with a text region that refers to it.
fn streams_with_a_shared_symbol() -> (Vec<u8>, Vec<u8>) {
    let globals = hex("000000010000010000000F00010000000100000001 5F80800040");
    let page = "00000000300001000000130000000800000001 0000000000000000000000";
    let text = "00000002062001010000002D 0000000800000001 000000000000000000 0011 0000 00000001 01";
    (globals, hex(&format!("{page} {text} {} 0004", "00".repeat(17))))
}

fn hex(digits: &str) -> Vec<u8> {
    let digits: Vec<char> = digits.chars().filter(|digit| !digit.is_whitespace()).collect();
    digits
        .chunks(2)
        .map(|pair| u8::from_str_radix(&pair.iter().collect::<String>(), 16).expect("two hexadecimal digits"))
        .collect()
}
