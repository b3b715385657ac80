//! A JBIG2 file as the crate `image` opens it: by its name, by its first bytes, and by a decoder with a limit of work.
//!
//! usage: image-itself FILE.jb2

use hayro_jbig2::integration::{Jbig2Decoder, register_decoding_hook};
use hayro_jbig2::{DecodeSettings, File, Page};
use image::{DynamicImage, ImageError, ImageReader};
use std::io::Cursor;
use std::{env, fs};

fn main() {
    let name = env::args_os().nth(1).expect("a file");
    let bytes = fs::read(&name).expect("a file that can be read");
    let file = File::new(&bytes, &DecodeSettings::default()).unwrap();
    let page = file.page(0).unwrap();
    let mut expected = vec![0; page.width() as usize * page.height() as usize];
    Page::read_image(&page, &mut expected).unwrap();

    assert!(image::open(&name).is_err());
    assert!(register_decoding_hook());
    let opened = image::open(&name).unwrap();
    assert_eq!((opened.width(), opened.height()), page.dimensions());
    let guessed = ImageReader::new(Cursor::new(&bytes)).with_guessed_format().unwrap().decode().unwrap();
    let unlimited = DynamicImage::from_decoder(Jbig2Decoder::new_within(Cursor::new(&bytes), None).unwrap()).unwrap();
    for image in [opened, guessed, unlimited] {
        assert_eq!(image.as_luma8().expect("a byte for each pixel").as_raw(), &expected);
    }
    let limited = Jbig2Decoder::new_within(Cursor::new(&bytes), Some(10));
    assert!(matches!(limited, Err(ImageError::Decoding(_))));
}
