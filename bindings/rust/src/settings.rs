//! How bytes are read.

use crate::library::Reading;

/// How strictly bytes are read. The default is lenient.
#[derive(Debug, Clone, Copy, Default, PartialEq, Eq)]
pub struct DecodeSettings {
    /// Whether the first fault is returned as an error. A lenient decoder passes over a segment that is cut off, an
    /// immediate region that fails, and an extension that it should understand, and more (the repository's
    /// `docs/FORMAT.md`, 12.2).
    pub strict: bool,
}

impl DecodeSettings {
    pub(crate) fn reading(self) -> Reading {
        if self.strict { Reading::Strict } else { Reading::Lenient }
    }
}
