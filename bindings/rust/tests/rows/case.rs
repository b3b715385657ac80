//! The cases of the rows, as the sources of the rows name them.

use crate::answer::{Answer, Modes};
use crate::coder::CoderCase;
use crate::file_case::FileCase;
use crate::salvage::SalvageCase;
use crate::spelling::spelled;
use hayro_jbig2::{DecodeSettings, DecoderContext, Globals, Page};
use std::path::PathBuf;
use std::sync::atomic::{AtomicUsize, Ordering};

pub struct Row {
    pub name: &'static str,
    pub cases: &'static [Case],
}

#[allow(dead_code)]
pub enum Case {
    Page(Modes, &'static str, Answer),
    /// What becomes of an embedded page strictly, and what leniently.
    ByMode(&'static str, Answer, Answer),
    /// What becomes of the beginnings that have from the first to the second number of bytes.
    Beginnings(Modes, &'static str, (usize, usize), Answer),
    Shared {
        globals: &'static str,
        bytes: &'static str,
        answer: Answer,
    },
    Size {
        bytes: &'static str,
        number: u32,
        width: u32,
        height: u32,
    },
    Coder(CoderCase),
    File(FileCase),
    Salvage(SalvageCase),
}

impl Case {
    /// Fails where a case does not hold; returns false for one of what this crate has not.
    pub fn check(&self, name: &str, context: &mut DecoderContext) -> bool {
        match self {
            Case::Page(modes, bytes, answer) => check_page(name, *modes, &spelled(bytes), answer, context),
            Case::ByMode(bytes, strict, lenient) => {
                check_page(name, Modes::Strict, &spelled(bytes), strict, context);
                check_page(name, Modes::Lenient, &spelled(bytes), lenient, context);
            }
            Case::Beginnings(modes, bytes, (first, last), answer) => {
                let bytes = spelled(bytes);
                for length in *first..=*last {
                    check_page(name, *modes, &bytes[..length], answer, context);
                }
            }
            Case::Shared { globals, bytes, answer } => check_shared(name, globals, bytes, answer, context),
            Case::Size { bytes, number, width, height } => {
                let bytes = spelled(bytes);
                let page = Page::new_embedded(&bytes, None, &DecodeSettings::default()).unwrap();
                assert_eq!((page.number(), page.width(), page.height()), (*number, *width, *height), "row {name}");
            }
            Case::File(case) => case.check(name, context),
            Case::Salvage(case) => case.check(name, context),
            Case::Coder(_) => return false,
        }
        true
    }
}

/// Writes a page as a file of its own, if the environment names a folder: `testing/limits/run` tries such files.
fn save(name: &str, parts: &[&[u8]]) {
    let Some(folder) = std::env::var_os("HAYRO_JBIG2_ROWS_FOLDER") else {
        return;
    };
    static COUNT: AtomicUsize = AtomicUsize::new(0);
    let file = format!("{name} {}.jb2", COUNT.fetch_add(1, Ordering::Relaxed));
    // The header of a sequential file that doesn't state its number of pages.
    let header: &[u8] = b"\x97JB2\r\n\x1a\n\x03";
    std::fs::write(PathBuf::from(folder).join(file), [&[header], parts].concat().concat()).unwrap();
}

fn check_page(name: &str, modes: Modes, bytes: &[u8], answer: &Answer, context: &mut DecoderContext) {
    save(name, &[bytes]);
    for settings in modes.settings() {
        answer.check(name, Page::new_embedded(bytes, None, settings), context);
    }
    // Salvage draws what lenient reading draws.
    if matches!((modes, answer), (Modes::Lenient | Modes::Both, Answer::Calls(_))) {
        answer.check(name, Page::salvaged_embedded(bytes, None), context);
    }
}

fn check_shared(name: &str, globals: &str, bytes: &str, answer: &Answer, context: &mut DecoderContext) {
    let bytes = spelled(bytes);
    save(name, &[&spelled(globals), &bytes]);
    for settings in Modes::Both.settings() {
        let globals = Globals::new(&spelled(globals), settings).unwrap();
        answer.check(name, Page::new_embedded(&bytes, Some(&globals), settings), context);
    }
}
