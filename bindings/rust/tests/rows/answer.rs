//! What is expected of the cases of the rows, as their sources name it.

use crate::call::Call;
use crate::watcher::Watcher;
use hayro_jbig2::{DecodeError, DecodeSettings, DecoderContext, Page};

#[derive(Clone, Copy)]
pub enum Modes {
    Strict,
    Lenient,
    Both,
}

impl Modes {
    /// The settings of these modes.
    pub fn settings(self) -> &'static [DecodeSettings] {
        const MODES: &[DecodeSettings] = &[DecodeSettings { strict: true }, DecodeSettings { strict: false }];
        match self {
            Modes::Strict => &MODES[..1],
            Modes::Lenient => &MODES[1..],
            Modes::Both => MODES,
        }
    }
}

/// What becomes of a page.
pub enum Answer {
    /// It is drawn by exactly these calls.
    Calls(&'static [Call]),
    /// Its constructor returns this error.
    Refused(DecodeError),
    /// Decoding returns this error and makes no call.
    Undrawn(DecodeError),
}

impl Answer {
    pub fn check(&self, name: &str, page: hayro_jbig2::Result<Page<'_>>, context: &mut DecoderContext) {
        let page = match (self, page) {
            (Answer::Refused(expected), page) => {
                assert_eq!(page.err(), Some(*expected), "row {name}");
                return;
            }
            (_, page) => page.unwrap_or_else(|error| panic!("row {name}: {error}")),
        };
        let mut watcher = Watcher::default();
        let drawn = page.decode_with(&mut watcher, context);
        match self {
            Answer::Calls(calls) => {
                assert_eq!(drawn, Ok(()), "row {name}");
                assert_eq!(watcher.calls, *calls, "row {name}");
            }
            Answer::Undrawn(expected) | Answer::Refused(expected) => {
                assert_eq!(drawn, Err(*expected), "row {name}");
                assert!(watcher.calls.is_empty(), "row {name}");
            }
        }
    }
}
