//! A decoder of JBIG2 (ITU-T T.88, ISO/IEC 14492), the bi-level format of scanned pages in files and in PDF.
//!
//! This is the API of the crate `hayro-jbig2` 0.4.0. Under it works a library that is proved: it is written in Rattle,
//! which is Rust with contracts, and kept as assembly text, which rustc assembles into this crate. What is proved ends
//! at the calls of that library; `README.md` says what this crate adds, which is only tested.
//!
//! ```
//! use hayro_jbig2::{DecodeSettings, Decoder, File};
//!
//! /// Prints a page as letters.
//! struct Letters(String);
//!
//! impl Decoder for Letters {
//!     fn push_pixel(&mut self, black: bool) {
//!         self.0.push(if black { 'X' } else { '.' });
//!     }
//!
//!     fn push_pixel_chunk(&mut self, black: bool, chunk_count: u32) {
//!         for _ in 0..8 * chunk_count {
//!             self.push_pixel(black);
//!         }
//!     }
//!
//!     fn next_line(&mut self) {
//!         self.0.push('\n');
//!     }
//! }
//!
//! # fn main() -> Result<(), hayro_jbig2::DecodeError> {
//! let data = include_bytes!("../../../crates/jbig2_decode/data/t88-h1.jb2");
//! let file = File::new(data, &DecodeSettings::default())?;
//! let page = file.page(2).expect("the example of the standard has three pages");
//! let mut letters = Letters(String::new());
//! page.decode(&mut letters)?;
//! assert!(letters.0.starts_with(".XXXX....XXXX...XXXX....XXXX....XXXX.\n"));
//! # Ok(())
//! # }
//! ```
//!
//! A PDF file has the segments of an image in a stream with the filter `/JBIG2Decode`, and those that its images share
//! in the stream of `/JBIG2Globals`: see [`Page::new_embedded`] and [`Globals::new`].
//!
//! A viewer of damaged files reads them by [`File::salvaged`], [`Globals::salvaged`] and [`Page::salvaged_embedded`], which
//! leave out what lenient reading refuses.
//!
//! [`encode`] writes packed rows as a page.
//!
//! A small file can ask for hours of work and for gigabytes. So each page has a limit of work, and so has what pages
//! share: see [`DecoderContext::set_work_limit`]. It grows with the page, so whoever decodes what anyone may have sent
//! looks at [`Page::dimensions`] first.

#![cfg_attr(not(feature = "std"), no_std)]

extern crate alloc;

mod context;
mod decoder;
mod encode;
mod error;
mod file;
mod globals;
mod image;
#[cfg(feature = "image")]
pub mod integration;
#[cfg(feature = "std")]
mod jbig2_decoder;
mod library;
mod lock;
mod page;
mod passed_over;
mod settings;
mod work;

pub use context::DecoderContext;
pub use decoder::Decoder;
pub use encode::{Coding, EncodeError, EncodeSettings, Template, encode};
pub use error::{
    DecodeError, FormatError, HuffmanError, OverflowError, ParseError, RegionError, Result, SegmentError, SymbolError,
    TemplateError,
};
pub use file::File;
pub use globals::Globals;
#[cfg(feature = "std")]
pub use jbig2_decoder::{Jbig2Decoder, Jbig2Error};
pub use page::Page;
pub use passed_over::{LeftOut, PassedOver, PassedSegment};
pub use settings::DecodeSettings;
