//! The limit of work: what a small file may ask for by default, and limits that are set and lifted.

use hayro_jbig2::{
    DecodeError, DecodeSettings, Decoder, DecoderContext, File, Globals, Jbig2Decoder, Jbig2Error, Page,
};
use std::fs;

const EXAMPLE: &[u8] = include_bytes!("../../../crates/jbig2_decode/data/t88-h1.jb2");
const LENIENT: DecodeSettings = DecodeSettings { strict: false };
const STRICT: DecodeSettings = DecodeSettings { strict: true };
/// What a page of 2^17 pixels may take at most, and a smaller one too.
const LEAST: u64 = 1 << 24;

/// Counts the calls.
#[derive(Default)]
struct Counter(u32);

impl Decoder for Counter {
    fn push_pixel(&mut self, _black: bool) {
        self.0 += 1;
    }

    fn push_pixel_chunk(&mut self, _black: bool, _chunk_count: u32) {
        self.0 += 1;
    }

    fn next_line(&mut self) {
        self.0 += 1;
    }
}

fn hex(digits: &str) -> Vec<u8> {
    let digits: Vec<u8> = digits.bytes().filter(u8::is_ascii_hexdigit).collect();
    let byte = |pair: &[u8]| u8::from_str_radix(std::str::from_utf8(pair).unwrap(), 16).unwrap();
    digits.chunks(2).map(byte).collect()
}

/// How many seconds of the processor this thread has taken; 0 where the system doesn't say.
fn seconds() -> f64 {
    let text = fs::read_to_string("/proc/thread-self/schedstat").unwrap_or_default();
    text.split(' ').next().and_then(|nanoseconds| nanoseconds.parse().ok()).unwrap_or(0.0) / 1e9
}

/// A file of 106 bytes, whose page of 1 by 65535 has a region of 65535 by 65535 pixels.
fn wide_region() -> Vec<u8> {
    hex("974A42320D0A1A0A 01 00000001
        00000000 30 00 01 00000013 00000001 0000FFFF 00000000 00000000 00 0000
        00000001 26 00 01 0000001E 0000FFFF 0000FFFF 00000000 00000000 00 00 04FFFDFF02FEFEFE 0000FFAC
        000000C8 31 00 01 00000000
        000000C9 33 00 00 00000000")
}

/// A dictionary of 65536 patterns of 255 by 255 pixels.
fn wide_patterns() -> Vec<u8> {
    hex("00000001 10 00 00 00000009 00 FF FF 0000FFFF FFAC")
}

/// A dictionary of one symbol.
fn symbol() -> Vec<u8> {
    hex("00000001 00 00 00 0000000F 0001 00000001 00000001 5F80800040")
}

#[test]
fn a_small_file_is_refused_at_once() {
    let began = seconds();
    let data = wide_region();
    assert_eq!(data.len(), 106);
    for settings in [LENIENT, STRICT] {
        let file = File::new(&data, &settings).unwrap();
        let page = file.page(0).unwrap();
        assert_eq!(page.dimensions(), (1, 65535));
        let mut context = DecoderContext::default();
        let mut counter = Counter::default();
        assert_eq!(page.decode(&mut counter), Err(DecodeError::WorkLimit));
        assert_eq!(page.decode_with(&mut counter, &mut context), Err(DecodeError::WorkLimit));
        assert_eq!((counter.0, context.work_left()), (0, Some(0)));
        assert_eq!(page.read_packed(&mut vec![0; 65535]), Err(DecodeError::WorkLimit));
        assert_eq!(page.read_image(&mut vec![0; 65535]), Err(DecodeError::WorkLimit));
        // The context serves the next page.
        File::new(EXAMPLE, &settings).unwrap().page(2).unwrap().decode_with(&mut counter, &mut context).unwrap();
        assert!(counter.0 > 0 && context.work_left() > Some(LEAST - 100_000));
    }
    let salvaged = File::salvaged(&data).unwrap();
    assert_eq!(salvaged.page(0).unwrap().decode(&mut Counter::default()), Err(DecodeError::WorkLimit));
    let page = Page::new_embedded(&data[13..], None, &LENIENT).unwrap();
    assert_eq!(page.decode(&mut Counter::default()), Err(DecodeError::WorkLimit));
    let refused = Jbig2Decoder::new(&data[..]).unwrap().read_image(&mut [0; 65535]);
    assert!(matches!(refused, Err(Jbig2Error::Decode(DecodeError::WorkLimit))));
    assert!(seconds() - began < 10.0, "{} s", seconds() - began);
}

#[test]
fn small_globals_are_refused_at_once() {
    let began = seconds();
    let data = wide_patterns();
    for settings in [LENIENT, STRICT] {
        assert_eq!(Globals::new(&data, &settings).err(), Some(DecodeError::WorkLimit));
    }
    assert_eq!(Globals::salvaged(&data).err(), Some(DecodeError::WorkLimit));
    let mut file = hex("974A42320D0A1A0A 03");
    file.extend(&data);
    file.extend(hex("00000002 30 00 01 00000013 00000008 00000001 0000000000000000000000 00000003 31 00 01 00000000"));
    for settings in [LENIENT, STRICT] {
        assert_eq!(File::new(&file, &settings).err(), Some(DecodeError::WorkLimit));
    }
    assert_eq!(File::salvaged(&file).err(), Some(DecodeError::WorkLimit));
    assert!(seconds() - began < 10.0, "{} s", seconds() - began);
}

/// A PDF file packs four million zeros into four thousand bytes, so these lift the limit no further than to 2^30.
#[test]
fn many_bytes_lift_the_limit_of_globals_no_further_than_so_far() {
    // 40 dictionaries of 1000 patterns of 1 by 255 pixels, which take 33 million units each.
    let mut data: Vec<u8> = (1..=40u8)
        .flat_map(|number| [&[0, 0, 0, number][..], &hex("10 00 01 00000007 0001FF000003E7")].concat())
        .collect();
    data.extend(hex("000000FF 3E 00 00 003D0900"));
    data.resize(data.len() + 4_000_000, 0);
    assert_eq!(Globals::new(&data, &LENIENT).err(), Some(DecodeError::WorkLimit));
    assert_eq!(Globals::salvaged(&data).err(), Some(DecodeError::WorkLimit));
    assert!(Globals::new_within(&data, &LENIENT, Some(1 << 31)).is_ok());
}

#[test]
fn limits_are_set_and_lifted() {
    let file = File::new(EXAMPLE, &STRICT).unwrap();
    let page = file.page(0).unwrap();
    let mut context = DecoderContext::default();
    assert_eq!(context.work_left(), None);
    page.decode_with(&mut Counter::default(), &mut context).unwrap();
    let taken = LEAST - context.work_left().unwrap();
    assert!(taken > 64 * 56);

    context.set_work_limit(Some(taken));
    page.decode_with(&mut Counter::default(), &mut context).unwrap();
    assert_eq!(context.work_left(), Some(0));
    for work in [0, 1, taken / 2, taken - 1] {
        context.set_work_limit(Some(work));
        let mut counter = Counter::default();
        assert_eq!(page.decode_with(&mut counter, &mut context), Err(DecodeError::WorkLimit));
        assert_eq!((counter.0, context.work_left()), (0, Some(0)));
    }
    context.set_work_limit(None);
    page.decode_with(&mut Counter::default(), &mut context).unwrap();
    assert_eq!(context.work_left(), None);
}

#[test]
fn a_reader_has_a_limit() {
    let mut file = hex("974A42320D0A1A0A 03");
    file.extend(symbol());
    file.extend(hex("00000002 30 00 01 00000013 00000008 00000001 0000000000000000000000 00000003 31 00 01 00000000"));
    let is_work = |refused| matches!(refused, Err(Jbig2Error::Decode(DecodeError::WorkLimit)));
    // What the page shares with others is refused, or the page is, or nothing.
    assert!(is_work(Jbig2Decoder::new_within(&file[..], Some(1000)).map(drop)));
    let mut image = [7; 65535];
    assert!(is_work(Jbig2Decoder::new_within(&wide_region()[..], Some(LEAST)).unwrap().read_image(&mut image)));
    assert_eq!(image, [7; 65535]);
    for work in [Some(LEAST), None] {
        let image = &mut image[..64 * 56];
        image.fill(7);
        Jbig2Decoder::new_within(EXAMPLE, work).unwrap().read_image(image).unwrap();
        assert!(image.contains(&0));
    }
}

#[test]
fn the_limit_grows_with_the_page() {
    // White pages without a region, of so many pixels.
    for (width, height, limit) in
        [(8, 1, LEAST), (400, 400, LEAST), (410, 410, 100 * 410 * 410), (65535, 200, 100 * 65535 * 200)]
    {
        let size = format!("{width:08X} {height:08X}");
        let stream = hex(&format!("00000000 30 00 01 00000013 {size} 0000000000000000000000"));
        let page = Page::new_embedded(&stream, None, &STRICT).unwrap();
        let mut context = DecoderContext::default();
        page.decode_with(&mut Counter::default(), &mut context).unwrap();
        let bitmap = 64 * u64::from(u32::div_ceil(width, 64)) * u64::from(height as u32) + 64;
        let taken = limit - context.work_left().unwrap();
        assert!((2 * bitmap..2 * bitmap + 4096).contains(&taken), "{taken} units of a page of {width} by {height}");
    }
}

#[test]
fn what_pages_share_has_limits_of_its_own() {
    let mut file = hex("974A42320D0A1A0A 03");
    file.extend(symbol());
    file.extend(hex("00000002 30 00 01 00000013 00000008 00000001 0000000000000000000000 00000003 31 00 01 00000000"));
    for (work, is_enough) in [(Some(0), false), (Some(1000), false), (Some(1 << 16), true), (None, true)] {
        let expected = if is_enough { None } else { Some(DecodeError::WorkLimit) };
        assert_eq!(Globals::new_within(&symbol(), &LENIENT, work).err(), expected);
        assert_eq!(Globals::salvaged_within(&symbol(), work).err(), expected);
        assert_eq!(File::new_within(&file, &STRICT, work).err(), expected);
        assert_eq!(File::salvaged_within(&file, work).err(), expected);
    }
}
