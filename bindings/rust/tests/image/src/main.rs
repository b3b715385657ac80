//! JBIG2 files by the hooks of the crate `image`, and a page as its decoder.
//!
//! usage: with-image FILE, which is t88-h1.jb2

use hayro_jbig2::integration::{Jbig2Decoder, register_decoding_hook};
use hayro_jbig2::{DecodeSettings, File, Page, ParseError};
use image::error::{DecodingError, ImageFormatHint};
use image::{ColorType, ExtendedColorType, ImageDecoder, ImageError, hooks};
use std::io::Cursor;
use std::{env, fs};

fn main() {
    let example = fs::read(env::args_os().nth(1).expect("a file")).expect("a file that can be read");
    let file = File::new(&example, &DecodeSettings::default()).unwrap();
    let page = file.page(0).unwrap();
    let mut expected = vec![0; 64 * 56];
    Page::read_image(&page, &mut expected).unwrap();

    assert!(hooks::decoded(&example).is_none());
    assert!(register_decoding_hook());
    assert!(!register_decoding_hook());
    assert!(hooks::decoded(b"no such format").is_none());
    assert_eq!(hooks::decoded(&example).unwrap().unwrap(), ((64, 56), expected.clone()));
    let cut_off = hooks::decoded(&example[..9]).unwrap();
    let Err(ImageError::Decoding(DecodingError(ImageFormatHint::Name(name), error))) = cut_off else {
        panic!("{cut_off:?}");
    };
    assert_eq!((name.as_str(), error.to_string()), ("JBIG2", ParseError::UnexpectedEof.to_string()));

    let mut image = vec![0; 64 * 56];
    assert_eq!(ImageDecoder::dimensions(&page), (64, 56));
    assert_eq!((page.color_type(), page.original_color_type()), (ColorType::L8, ExtendedColorType::L1));
    ImageDecoder::read_image(page, &mut image).unwrap();
    assert_eq!(image, expected);
    let decoder = Jbig2Decoder::new(Cursor::new(&example)).unwrap();
    image.fill(0);
    decoder.read_image(&mut image).unwrap();
    assert_eq!(image, expected);
    let limited = Jbig2Decoder::new_within(Cursor::new(&example), Some(2000));
    assert!(matches!(limited, Err(ImageError::Decoding(_))));
}
