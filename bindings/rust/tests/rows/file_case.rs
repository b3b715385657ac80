//! The cases of files, of globals, and of decoders over a reader.

use crate::answer::{Answer, Modes};
use crate::errors::TOO_EARLY;
use crate::spelling::spelled;
use hayro_jbig2::{DecodeError, DecodeSettings, DecoderContext, File, Globals, Jbig2Decoder, Jbig2Error};

/// What a page of a file is.
pub struct FilePage {
    pub number: u32,
    pub dimensions: (u32, u32),
    pub answer: Answer,
}

pub enum FileCase {
    /// `File::new` returns this error.
    Refused(Modes, &'static str, DecodeError),
    /// The pages of a file.
    Pages(Modes, &'static str, &'static [FilePage]),
    /// Each beginning of a file, but for the one of this length, ends too early.
    CutOff { bytes: &'static str, but: usize },
    /// `Globals::new` returns this error.
    NoGlobals(&'static str, DecodeError),
    /// `Jbig2Decoder::new` returns this error.
    NoFirstPage(&'static str, DecodeError),
}

impl FileCase {
    pub fn check(&self, name: &str, context: &mut DecoderContext) {
        match self {
            FileCase::Refused(modes, bytes, error) => {
                for settings in modes.settings() {
                    check_refusal(name, &spelled(bytes), settings, *error);
                }
            }
            FileCase::Pages(modes, bytes, pages) => {
                for settings in modes.settings() {
                    check_pages(name, &spelled(bytes), settings, pages, context);
                }
            }
            FileCase::CutOff { bytes, but } => {
                let bytes = spelled(bytes);
                for length in (0..bytes.len()).filter(|length| length != but) {
                    for settings in Modes::Both.settings() {
                        check_refusal(name, &bytes[..length], settings, TOO_EARLY);
                    }
                }
            }
            FileCase::NoGlobals(bytes, error) => {
                for settings in Modes::Both.settings() {
                    assert_eq!(Globals::new(&spelled(bytes), settings).err(), Some(*error), "row {name}");
                }
            }
            FileCase::NoFirstPage(bytes, expected) => match Jbig2Decoder::new(&spelled(bytes)[..]) {
                Err(Jbig2Error::Decode(error)) => assert_eq!(error, *expected, "row {name}"),
                other => panic!("row {name}: {other:?}"),
            },
        }
    }
}

fn check_refusal(name: &str, bytes: &[u8], settings: &DecodeSettings, error: DecodeError) {
    assert_eq!(File::new(bytes, settings).err(), Some(error), "row {name}");
}

fn check_pages(
    name: &str,
    bytes: &[u8],
    settings: &DecodeSettings,
    expected: &[FilePage],
    context: &mut DecoderContext,
) {
    let file = File::new(bytes, settings).unwrap_or_else(|error| panic!("row {name}: {error}"));
    check_pages_of(name, &file, expected, context);
}

/// Fails where a file has not these pages.
pub fn check_pages_of(name: &str, file: &File<'_>, expected: &[FilePage], context: &mut DecoderContext) {
    assert_eq!(file.page_count(), expected.len(), "row {name}");
    assert!(file.page(expected.len()).is_none(), "row {name}");
    for (page, expected) in file.pages().zip(expected) {
        assert_eq!((page.number(), page.dimensions()), (expected.number, expected.dimensions), "row {name}");
        expected.answer.check(name, Ok(page), context);
    }
}
