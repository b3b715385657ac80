//! What is passed over and left out.

use crate::error::DecodeError;

/// What a page, or what pages share, lacks: segments that are cut off, and those that strict reading refuses, also where
/// they are drawn or kept all the same.
#[derive(Debug, Clone, Copy, Default, PartialEq, Eq)]
pub struct PassedOver {
    /// How many segments these are.
    pub count: usize,
    /// The first of them.
    pub first: Option<PassedSegment>,
}

/// A segment that was passed over.
#[derive(Debug, Clone, Copy, PartialEq, Eq)]
pub struct PassedSegment {
    /// The segment's number. `None` where it isn't known, as where the bytes end within it.
    pub segment_number: Option<u32>,
    /// The fault for which it was passed over, or for which strict reading refuses it.
    pub error: DecodeError,
}

/// What reading left out of globals, a page or a file, besides [`DecoderContext::passed_over`]. Strict reading leaves out
/// nothing.
///
/// [`DecoderContext::passed_over`]: crate::DecoderContext::passed_over
#[derive(Debug, Clone, Copy, Default, PartialEq, Eq)]
pub struct LeftOut {
    /// Of globals, or of the segments that the pages of a file share: what these lack.
    pub passed_over: PassedOver,
    /// How many pages of a file can't begin, which salvage leaves out.
    pub pages: usize,
    /// Why the first of these can't.
    pub first_page: Option<DecodeError>,
    /// The segment at which the list of segments ends early: the bytes end within it, or salvage leaves out the rest.
    pub cut_off: Option<PassedSegment>,
}
