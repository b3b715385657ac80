//! Pages that are written decode to what they were written of.

use hayro_jbig2::{Coding, DecodeSettings, Decoder, EncodeError, EncodeSettings, File, Page, Template, encode};

const STRICT: DecodeSettings = DecodeSettings { strict: true };
const CODINGS: [Coding; 5] = [
    Coding::Arithmetic { template: Template::Template0, typical: true },
    Coding::Arithmetic { template: Template::Template1, typical: false },
    Coding::Arithmetic { template: Template::Template2, typical: true },
    Coding::Arithmetic { template: Template::Template3, typical: false },
    Coding::Mmr,
];
/// A letter of 5 by 8 pixels.
const LETTER: [u8; 8] = [0xF0, 0x88, 0x88, 0x88, 0xF0, 0x80, 0x80, 0x80];

/// Takes the calls as packed rows.
#[derive(Default)]
struct Rows {
    rows: Vec<u8>,
    bits: usize,
}

impl Decoder for Rows {
    fn push_pixel(&mut self, black: bool) {
        if self.bits % 8 == 0 {
            self.rows.push(0);
        }
        *self.rows.last_mut().unwrap() |= u8::from(black) << (7 - self.bits % 8);
        self.bits += 1;
    }

    fn push_pixel_chunk(&mut self, black: bool, chunk_count: u32) {
        for _ in 0..8 * chunk_count {
            self.push_pixel(black);
        }
    }

    fn next_line(&mut self) {
        self.bits = 0;
    }
}

/// Rows of noise, of which every third is as the one above; the bits past the width are 0.
fn noise(width: u32, height: u32) -> Vec<u8> {
    let (stride, mut state) = (width.div_ceil(8) as usize, width.wrapping_mul(65537) ^ height);
    let mut rows: Vec<u8> = Vec::new();
    for y in 0..height as usize {
        for x in 0..stride {
            state = state.wrapping_mul(1_664_525).wrapping_add(1_013_904_223);
            let last = if width % 8 != 0 && x + 1 == stride { 0xFF << (8 - width % 8) } else { 0xFF };
            let repeated = (y % 3 == 2).then(|| rows[(y - 1) * stride + x]);
            rows.push(repeated.unwrap_or((state >> 24) as u8) & last as u8);
        }
    }
    rows
}

fn decoded(page: &Page<'_>) -> Vec<u8> {
    let mut rows = Rows::default();
    page.decode(&mut rows).unwrap();
    rows.rows
}

#[test]
fn pages_read_back() {
    for (width, height) in [(1, 1), (8, 2), (9, 3), (64, 64), (65, 7), (300, 41)] {
        let rows = noise(width, height);
        for (number, coding) in CODINGS.into_iter().enumerate() {
            let resolution = (number as u32, u32::MAX);
            let settings = EncodeSettings { coding, resolution, file: false };
            let coded = encode(&rows, width, height, &settings).unwrap();
            let page = Page::new_embedded(&coded, None, &STRICT).unwrap();
            assert_eq!((page.width(), page.height()), (width, height));
            assert_eq!(decoded(&page), rows);
            let coded = encode(&rows, width, height, &EncodeSettings { file: true, ..settings }).unwrap();
            let file = File::new(&coded, &STRICT).unwrap();
            assert_eq!(file.pages().count(), 1);
            assert_eq!(decoded(&file.page(0).unwrap()), rows);
        }
    }
}

/// By template 0 with typical prediction.
#[test]
fn a_page_is_that_of_another_encoder() {
    let coded = encode(&LETTER, 5, 8, &EncodeSettings::default()).unwrap();
    let (information, region) = coded.split_at(33);
    assert_eq!(information[..22], [0, 0, 0, 0, 0x70, 0, 0, 0, 0, 1, 0, 0, 0, 0x13, 0, 0, 0, 5, 0, 0, 0, 8]);
    assert_eq!(region[..14], [0, 0, 0, 1, 0x66, 0, 0, 0, 0, 1, 0, 0, 0, 0x20]);
    assert_eq!(region[40..], [0x08, 0x2E, 0x04, 0xD7, 0xFF, 0xAC]);
}

#[test]
fn mmr_data_is_that_of_another_encoder() {
    let settings = EncodeSettings { coding: Coding::Mmr, ..EncodeSettings::default() };
    let coded = encode(&LETTER, 5, 8, &settings).unwrap();
    let region = &coded[33..];
    assert_eq!(region[..14], [0, 0, 0, 1, 0x66, 0, 0, 0, 0, 1, 0, 0, 0, 0x1D]);
    let (flags, data) = region[31..].split_first().unwrap();
    assert_eq!(*flags, 1);
    assert_eq!(*data, [0x26, 0xAF, 0x04, 0xBF, 0xF0, 0x78, 0x2F, 0xE0, 0x02, 0x00, 0x20]);
}

#[test]
fn faults_are_refused() {
    let settings = EncodeSettings::default();
    for (width, height, size) in [(0, 8, 0), (8, 0, 0), (65536, 1, 8192), (1, 65536, 65536), (u32::MAX, u32::MAX, 1)] {
        assert_eq!(encode(&vec![0; size], width, height, &settings), Err(EncodeError::InvalidSides));
    }
    for size in [0, 7, 9] {
        assert_eq!(encode(&vec![0; size], 5, 8, &settings), Err(EncodeError::OtherSize));
    }
    assert_eq!(EncodeError::OutOfMemory.to_string(), "out of memory");
}
