//! Segments that embedded pages share.

use crate::error::Result;
use crate::library::{self, Reading};
use crate::work::Limit;
use crate::{DecodeSettings, LeftOut};

/// The segments that several embedded pages share, decoded once: of a PDF file the stream of `/JBIG2Globals`.
#[derive(Debug)]
pub struct Globals {
    pub(crate) inner: library::Globals,
}

impl Globals {
    /// Reads and decodes the segments of `data`. That may take 1024 units of work for each byte, but 2^30 at most, and 2^24
    /// at least.
    ///
    /// # Errors
    ///
    /// The first fault of the segments' headers or of the dictionaries and tables among them, or want of memory or of
    /// work.
    pub fn new(data: &[u8], settings: &DecodeSettings) -> Result<Self> {
        Self::read(data, settings.reading(), Limit::Usual)
    }

    /// As [`new`](Self::new) with another limit of work, or none (see
    /// [`DecoderContext::set_work_limit`](crate::DecoderContext::set_work_limit)). `hayro-jbig2` 0.4.0 has no such
    /// call.
    ///
    /// # Errors
    ///
    /// As of [`new`](Self::new).
    pub fn new_within(data: &[u8], settings: &DecodeSettings, work: Option<u64>) -> Result<Self> {
        Self::read(data, settings.reading(), Limit::of(work))
    }

    /// Reads and decodes the segments of `data`, and leaves out what can't be read or decoded. `hayro-jbig2` 0.4.0 has no
    /// such call.
    ///
    /// # Errors
    ///
    /// Want of memory or of work.
    pub fn salvaged(data: &[u8]) -> Result<Self> {
        Self::read(data, Reading::Salvage, Limit::Usual)
    }

    /// As [`salvaged`](Self::salvaged) with another limit of work, or none.
    ///
    /// # Errors
    ///
    /// As of [`salvaged`](Self::salvaged).
    pub fn salvaged_within(data: &[u8], work: Option<u64>) -> Result<Self> {
        Self::read(data, Reading::Salvage, Limit::of(work))
    }

    /// What was left out.
    pub fn left_out(&self) -> LeftOut {
        self.inner.left_out()
    }

    fn read(data: &[u8], reading: Reading, limit: Limit) -> Result<Self> {
        Ok(Self { inner: library::Globals::new(data, reading, limit.of_shared(data.len()))? })
    }
}
