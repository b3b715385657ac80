//! Writing of pages.

use alloc::vec::Vec;
use core::error::Error;
use core::fmt;

use crate::library;

/// Which pixels around a pixel predict it (T.88, 6.2.5.3).
#[derive(Debug, Clone, Copy, PartialEq, Eq, Default)]
pub enum Template {
    /// 16 pixels of three rows.
    #[default]
    Template0,
    /// 13 pixels of three rows.
    Template1,
    /// 10 pixels of three rows.
    Template2,
    /// 10 pixels of two rows.
    Template3,
}

/// How the pixels of a page are coded (T.88, 6.2).
#[derive(Debug, Clone, Copy, PartialEq, Eq)]
pub enum Coding {
    /// By the arithmetic coder.
    Arithmetic {
        /// Which pixels predict a pixel.
        template: Template,
        /// Whether a row that is as the row above it takes one decision alone (typical prediction).
        typical: bool,
    },
    /// As MMR data (T.6), which mostly takes more bytes. Pages of text are decoded in less time.
    Mmr,
}

impl Default for Coding {
    fn default() -> Self {
        Self::Arithmetic { template: Template::default(), typical: true }
    }
}

/// How a page is written.
#[derive(Debug, Clone, Copy, PartialEq, Eq, Default)]
pub struct EncodeSettings {
    /// How its pixels are coded.
    pub coding: Coding,
    /// Pixels for each metre, of rows and of columns; 0 states none.
    pub resolution: (u32, u32),
    /// Whether a JBIG2 file of one page is written, or else an embedded page, as a PDF file has it.
    pub file: bool,
}

/// Why a page is not written.
#[derive(Debug, Clone, Copy, PartialEq, Eq)]
pub enum EncodeError {
    /// The width or the height is 0 or above 65535.
    InvalidSides,
    /// There are more or fewer rows than the width and the height say.
    OtherSize,
    /// A request for memory was refused.
    OutOfMemory,
}

impl fmt::Display for EncodeError {
    fn fmt(&self, f: &mut fmt::Formatter<'_>) -> fmt::Result {
        f.write_str(match self {
            Self::InvalidSides => "a side of the bitmap is 0 or above 65535",
            Self::OtherSize => "the packed rows have another size than the bitmap",
            Self::OutOfMemory => "out of memory",
        })
    }
}

impl Error for EncodeError {}

/// Writes packed rows as an embedded page, or as a file: a bit for each pixel, 1 is black, the leftmost the highest of
/// its byte, and whole bytes for each row. Bits past the width are passed over. Decoding gives the bitmap back, without
/// a pixel lost: that is proved of the library, for each bitmap and all settings. `hayro-jbig2` 0.4.0 has no such call.
///
/// ```
/// use hayro_jbig2::{DecodeSettings, EncodeSettings, Page, encode};
///
/// # fn main() -> Result<(), Box<dyn std::error::Error>> {
/// let rows = [0b1010_0000, 0b0100_0000];
/// let coded = encode(&rows, 3, 2, &EncodeSettings::default())?;
/// let page = Page::new_embedded(&coded, None, &DecodeSettings::default())?;
/// assert_eq!((page.width(), page.height()), (3, 2));
/// # Ok(())
/// # }
/// ```
///
/// # Errors
///
/// Sides that no page has, rows of another size, or want of memory.
pub fn encode(rows: &[u8], width: u32, height: u32, settings: &EncodeSettings) -> Result<Vec<u8>, EncodeError> {
    const LONGEST: u32 = 65535;
    if !(1..=LONGEST).contains(&width) || !(1..=LONGEST).contains(&height) {
        return Err(EncodeError::InvalidSides);
    }
    if rows.len() as u64 != u64::from(width.div_ceil(8)) * u64::from(height) {
        return Err(EncodeError::OtherSize);
    }
    library::written(rows, width, height, settings).map_err(|_| EncodeError::OutOfMemory)
}
