//! JBIG2 as a format of the crate `image`.

use std::ffi::OsStr;
use std::io::{BufRead, Seek};

use image::error::{DecodingError, ImageFormatHint};
use image::hooks;
use image::{ColorType, ExtendedColorType, ImageDecoder, ImageError, ImageResult};

use crate::{DecodeError, Jbig2Error, Page};

/// The first bytes of a file (T.88, D.4.1).
const IDENTIFICATION: &[u8] = b"\x97JB2\r\n\x1A\n";

const EXTENSIONS: [&str; 2] = ["jbig2", "jb2"];

/// Makes `image` read files by this crate that begin as JBIG2 files do, or whose names end in `.jbig2` or `.jb2`.
/// Returns whether no one had done so before.
pub fn register_decoding_hook() -> bool {
    if hooks::decoding_hook_registered(OsStr::new(EXTENSIONS[0])) {
        return false;
    }
    for extension in EXTENSIONS {
        hooks::register_decoding_hook(extension.into(), Box::new(|reader| Ok(Box::new(Jbig2Decoder::new(reader)?))));
        hooks::register_format_detection_hook(extension.into(), IDENTIFICATION, None);
    }
    true
}

/// The first page of a file, as `image` decodes it: a byte for each pixel, 0 is black and 255 is white.
#[derive(Debug)]
pub struct Jbig2Decoder {
    page: crate::Jbig2Decoder,
}

impl Jbig2Decoder {
    /// Reads all that `reader` gives, which is a whole file.
    ///
    /// # Errors
    ///
    /// The reader's error, or the first fault of the file.
    pub fn new<R: BufRead + Seek>(reader: R) -> ImageResult<Self> {
        Ok(Self { page: crate::Jbig2Decoder::new(reader)? })
    }

    /// As [`new`](Self::new) with another limit of work for the page, and for what it shares with others, or none.
    ///
    /// # Errors
    ///
    /// As of [`new`](Self::new).
    pub fn new_within<R: BufRead + Seek>(reader: R, work: Option<u64>) -> ImageResult<Self> {
        Ok(Self { page: crate::Jbig2Decoder::new_within(reader, work)? })
    }
}

impl ImageDecoder for Jbig2Decoder {
    fn dimensions(&self) -> (u32, u32) {
        self.page.dimensions()
    }

    fn color_type(&self) -> ColorType {
        ColorType::L8
    }

    fn original_color_type(&self) -> ExtendedColorType {
        ExtendedColorType::L1
    }

    fn read_image(self, image: &mut [u8]) -> ImageResult<()> {
        Ok(self.page.read_image(image)?)
    }

    fn read_image_boxed(self: Box<Self>, image: &mut [u8]) -> ImageResult<()> {
        (*self).read_image(image)
    }
}

impl ImageDecoder for Page<'_> {
    fn dimensions(&self) -> (u32, u32) {
        Page::dimensions(self)
    }

    fn color_type(&self) -> ColorType {
        ColorType::L8
    }

    fn original_color_type(&self) -> ExtendedColorType {
        ExtendedColorType::L1
    }

    fn read_image(self, image: &mut [u8]) -> ImageResult<()> {
        Ok(Page::read_image(&self, image)?)
    }

    fn read_image_boxed(self: Box<Self>, image: &mut [u8]) -> ImageResult<()> {
        Ok(Page::read_image(&self, image)?)
    }
}

impl From<DecodeError> for DecodingError {
    fn from(error: DecodeError) -> Self {
        Self::new(ImageFormatHint::Name("JBIG2".to_owned()), error)
    }
}

impl From<DecodeError> for ImageError {
    fn from(error: DecodeError) -> Self {
        Self::Decoding(error.into())
    }
}

impl From<Jbig2Error> for ImageError {
    fn from(error: Jbig2Error) -> Self {
        match error {
            Jbig2Error::Io(error) => Self::IoError(error),
            Jbig2Error::Decode(error) => error.into(),
        }
    }
}
