//! Files with a header of their own.

use crate::error::Result;
use crate::library::{self, Reading};
use crate::page::Page;
use crate::work::Limit;
use crate::{DecodeSettings, LeftOut};

/// A JBIG2 file with a file header, in sequential or random-access organisation (T.88, Annex D).
#[derive(Debug)]
pub struct File<'a> {
    inner: library::File<'a>,
}

impl<'a> File<'a> {
    /// Reads a file: its header and its segments' headers. Its pages are decoded later, each by [`Page::decode`]. What
    /// the pages share is decoded now, and may take 1024 units of work for each byte of the file, but 2^30 at most, and
    /// 2^24 at least.
    ///
    /// # Errors
    ///
    /// The first fault of the file, or want of memory or of work. A fault in the segments that the pages share is the
    /// error of each page's [`Page::decode`].
    pub fn new(data: &'a [u8], settings: &DecodeSettings) -> Result<Self> {
        Self::read(data, settings.reading(), Limit::Usual)
    }

    /// As [`new`](Self::new) with another limit of work for what the pages share, or none (see
    /// [`DecoderContext::set_work_limit`](crate::DecoderContext::set_work_limit)). `hayro-jbig2` 0.4.0 has no such
    /// call.
    ///
    /// # Errors
    ///
    /// As of [`new`](Self::new).
    pub fn new_within(data: &'a [u8], settings: &DecodeSettings, work: Option<u64>) -> Result<Self> {
        Self::read(data, settings.reading(), Limit::of(work))
    }

    /// Reads a file as a lenient decoder does, and leaves out what that refuses: the list of segments ends at a bad
    /// header, a page that can't begin is left out, and a dictionary that fails is passed over. `hayro-jbig2` 0.4.0 has
    /// no such call.
    ///
    /// # Errors
    ///
    /// A fault of the file's own header, or want of memory or of work.
    pub fn salvaged(data: &'a [u8]) -> Result<Self> {
        Self::read(data, Reading::Salvage, Limit::Usual)
    }

    /// As [`salvaged`](Self::salvaged) with another limit of work for what the pages share, or none.
    ///
    /// # Errors
    ///
    /// As of [`salvaged`](Self::salvaged).
    pub fn salvaged_within(data: &'a [u8], work: Option<u64>) -> Result<Self> {
        Self::read(data, Reading::Salvage, Limit::of(work))
    }

    pub(crate) fn read(data: &'a [u8], reading: Reading, limit: Limit) -> Result<Self> {
        let inner = library::File::new(data, reading, limit.of_shared(data.len()))?;
        Ok(Self { inner })
    }

    /// What was left out of the file.
    pub fn left_out(&self) -> LeftOut {
        self.inner.left_out()
    }

    /// The number of pages.
    pub fn page_count(&self) -> usize {
        self.inner.infos().len()
    }

    /// The page at an index from 0, in the order in which the file names them first.
    pub fn page(&self, index: usize) -> Option<Page<'_>> {
        let info = *self.inner.infos().get(index)?;
        Some(Page::of_file(&self.inner, index, info))
    }

    /// All pages in order.
    pub fn pages(&self) -> impl Iterator<Item = Page<'_>> {
        (0..self.page_count()).filter_map(|index| self.page(index))
    }
}
