//! What is kept from page to page.

use crate::PassedOver;
use crate::library;
use crate::work::Limit;

/// Room that decoding a page uses and the next page uses again. What an earlier page, or one that was refused, leaves
/// in it changes nothing of the next page.
#[derive(Debug, Default)]
pub struct DecoderContext {
    pub(crate) inner: library::Context,
    pub(crate) limit: Limit,
    /// Whether there is a page that was decoded last, and nothing that it shares with others is known to lack something.
    pub(crate) is_shared_whole: bool,
}

impl DecoderContext {
    #[cfg(feature = "std")]
    pub(crate) fn within(limit: Limit) -> Self {
        Self { limit, ..Self::default() }
    }

    /// Whether nothing is known to be missing of the page that was decoded last: no segment of it is cut off, and strict
    /// reading refuses none; nor of its globals, or of what the pages of its file share. Of globals that are cut off a page
    /// lacks something only if it refers to the segment that is. False after an error, and in a new context. `hayro-jbig2`
    /// 0.4.0 has no such call.
    ///
    /// So faults that lenient reading forgives count: rows of MMR data after a fault, gray values without a pattern, ids
    /// without a symbol, references to what isn't there. Damage within arithmetic data can't be known: the format has no
    /// checksum. Not counted are a file's counts of pages and of ends of pages, an unknown length of another type than
    /// 38, a region of page 0, and segments that are missing as a whole.
    pub fn is_complete(&self) -> bool {
        self.passed_over().count == 0 && self.is_shared_whole
    }

    /// What the own segments of the page that was decoded last lack; nothing after an error, and in a new context. For
    /// what it shares with other pages see `left_out` of the globals or the page. `hayro-jbig2` 0.4.0 has no such call.
    pub fn passed_over(&self) -> PassedOver {
        self.inner.passed_over()
    }

    /// Sets what each page may take that is decoded from now on, in units of work, or lifts the limit by `None`. A unit
    /// is about a pixel that is decoded or combined (the repository's `docs/FORMAT.md`, 12.6). A new context gives a
    /// page 100 units for each of its pixels, and 2^24 at least; scanned pages take 3 to 12 for a pixel. `hayro-jbig2`
    /// 0.4.0 has no such call, and no limit.
    ///
    /// Work that would pass the limit is refused before it starts, with
    /// [`DecodeError::WorkLimit`](crate::DecodeError::WorkLimit), and no call is made on a
    /// [`Decoder`](crate::Decoder). [`work_left`](Self::work_left) is then `Some(0)`.
    pub fn set_work_limit(&mut self, work: Option<u64>) {
        self.limit = Limit::of(work);
    }

    /// What the page that was decoded last left of its limit: 0 where the limit refused it. `None` if it had no limit,
    /// and in a new context.
    pub fn work_left(&self) -> Option<u64> {
        self.inner.work_left()
    }
}
