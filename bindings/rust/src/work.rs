//! Limits of work.

/// Units for each pixel of a page: scanned pages take 3 to 12.
const FOR_A_PIXEL: u64 = 100;
/// Units for each byte of what pages share: more than the dictionaries of scanned pages take.
const FOR_A_BYTE: u64 = 1024;
/// What small pages and small globals may take.
const LEAST: u64 = 1 << 24;
/// What pages share may take at most, however many bytes it has: a PDF file packs a thousand of them into one.
const MOST_TO_SHARE: u64 = 1 << 30;
/// `HAYRO_JBIG2_NO_WORK_LIMIT`
const NONE: u64 = u64::MAX;

/// What decoding may take, in units of work (the repository's `docs/FORMAT.md`, 12.6).
#[derive(Debug, Clone, Copy, Default, PartialEq, Eq)]
pub(crate) enum Limit {
    /// As much as the size of the page, or of the bytes, lets expect.
    #[default]
    Usual,
    AtMost(u64),
    None,
}

impl Limit {
    pub(crate) fn of(work: Option<u64>) -> Self {
        work.map_or(Self::None, Self::AtMost)
    }

    /// The units that a page of this size may take.
    pub(crate) fn of_page(self, width: u32, height: u32) -> u64 {
        self.units(|| u64::from(width) * u64::from(height) * FOR_A_PIXEL)
    }

    /// The units for what pages share, where that has `length` bytes.
    pub(crate) fn of_shared(self, length: usize) -> u64 {
        self.units(|| (length as u64).saturating_mul(FOR_A_BYTE).min(MOST_TO_SHARE))
    }

    fn units(self, usual: impl FnOnce() -> u64) -> u64 {
        match self {
            Self::Usual => usual().max(LEAST),
            Self::AtMost(work) => work,
            Self::None => NONE,
        }
    }
}

/// What is left of a limit, if that is one.
pub(crate) fn left_of(limit: u64, left: u64) -> Option<u64> {
    (limit != NONE).then_some(left)
}
