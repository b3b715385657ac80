//! The first page of a file that a reader gives.

use core::error::Error;
use core::fmt;
use std::io::{self, Read};

use crate::error::{DecodeError, FormatError};
use crate::library::Reading;
use crate::work::Limit;
use crate::{DecoderContext, File, Page};

/// Why [`Jbig2Decoder`] has no page.
#[derive(Debug)]
pub enum Jbig2Error {
    /// The reader failed.
    Io(io::Error),
    /// The bytes are no page, or there was want of memory or of work.
    Decode(DecodeError),
}

impl fmt::Display for Jbig2Error {
    fn fmt(&self, f: &mut fmt::Formatter<'_>) -> fmt::Result {
        match self {
            Self::Io(error) => fmt::Display::fmt(error, f),
            Self::Decode(error) => fmt::Display::fmt(error, f),
        }
    }
}

impl Error for Jbig2Error {}

impl From<io::Error> for Jbig2Error {
    fn from(error: io::Error) -> Self {
        Self::Io(error)
    }
}

impl From<DecodeError> for Jbig2Error {
    fn from(error: DecodeError) -> Self {
        Self::Decode(error)
    }
}

/// The first page of a file, read leniently.
#[derive(Debug)]
pub struct Jbig2Decoder {
    bytes: Vec<u8>,
    limit: Limit,
    dimensions: (u32, u32),
}

impl Jbig2Decoder {
    /// Reads all that `reader` gives, which is a whole file.
    ///
    /// # Errors
    ///
    /// The reader's error, or the first fault of the file, or want of memory or of work. A file without pages is
    /// [`FormatError::MissingPageInfo`].
    pub fn new<R: Read>(reader: R) -> Result<Self, Jbig2Error> {
        Self::read(reader, Limit::Usual)
    }

    /// As [`new`](Self::new) with another limit of work for the page, and for what it shares with others, or none (see
    /// [`DecoderContext::set_work_limit`]). `hayro-jbig2` 0.4.0 has no such call.
    ///
    /// # Errors
    ///
    /// As of [`new`](Self::new).
    pub fn new_within<R: Read>(reader: R, work: Option<u64>) -> Result<Self, Jbig2Error> {
        Self::read(reader, Limit::of(work))
    }

    fn read<R: Read>(mut reader: R, limit: Limit) -> Result<Self, Jbig2Error> {
        let mut bytes = Vec::new();
        reader.read_to_end(&mut bytes)?;
        let dimensions = with_first_page(&bytes, limit, |page| Ok(page.dimensions()))?;
        Ok(Self { bytes, limit, dimensions })
    }

    /// The page's width and height in pixels.
    pub fn dimensions(&self) -> (u32, u32) {
        self.dimensions
    }

    /// Decodes the page to a byte for each pixel, as [`Page::read_image`] does.
    ///
    /// # Errors
    ///
    /// The page's first fault, or want of memory or of work; `image` is as it was then.
    ///
    /// # Panics
    ///
    /// If `image` has not width times height bytes.
    pub fn read_image(&self, image: &mut [u8]) -> Result<(), Jbig2Error> {
        let mut context = DecoderContext::within(self.limit);
        Ok(with_first_page(&self.bytes, self.limit, |page| page.read_image_with(image, &mut context))?)
    }
}

fn with_first_page<T>(bytes: &[u8], limit: Limit, run: impl FnOnce(&Page<'_>) -> crate::Result<T>) -> crate::Result<T> {
    let file = File::read(bytes, Reading::Lenient, limit)?;
    match file.page(0) {
        Some(page) => run(&page),
        None => Err(FormatError::MissingPageInfo.into()),
    }
}
