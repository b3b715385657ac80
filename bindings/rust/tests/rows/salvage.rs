//! The cases of salvage.

use crate::answer::Answer;
use crate::file_case::{FilePage, check_pages_of};
use crate::spelling::spelled;
use hayro_jbig2::{DecodeError, DecoderContext, File, Globals, LeftOut, Page, PassedOver, PassedSegment};

pub enum SalvageCase {
    /// What comes of an embedded page with globals, and what each of them reports.
    Page { globals: &'static str, bytes: &'static str, answer: Answer, globals_report: Report, report: Report },
    /// The pages of a file.
    File {
        bytes: &'static str,
        pages: &'static [FilePage],
        left_out: &'static [DecodeError],
        /// What the segments of no page lack, and where the file's list ended early.
        report: Report,
    },
}

/// A segment's number, if it is known, and its error.
type Segment = (Option<u32>, DecodeError);

/// What salvage reports about what it left out.
pub struct Report {
    /// How many segments were passed over.
    pub passed_over: usize,
    /// The first of them.
    pub first: Option<Segment>,
    /// The segment at which the list ended early.
    pub cut_off: Option<Segment>,
}

/// Nothing was left out.
pub const NOTHING: Report = Report { passed_over: 0, first: None, cut_off: None };

fn passed((segment_number, error): Segment) -> PassedSegment {
    PassedSegment { segment_number, error }
}

impl Report {
    fn passed_over(&self) -> PassedOver {
        PassedOver { count: self.passed_over, first: self.first.map(passed) }
    }

    /// Of a page, before it is decoded.
    fn of_page(&self) -> LeftOut {
        LeftOut { cut_off: self.cut_off.map(passed), ..LeftOut::default() }
    }

    /// Of globals or a file, with the errors of the pages that were left out.
    fn left_out(&self, pages: &[DecodeError]) -> LeftOut {
        let (passed_over, first_page) = (self.passed_over(), pages.first().copied());
        LeftOut { passed_over, pages: pages.len(), first_page, cut_off: self.cut_off.map(passed) }
    }
}

impl SalvageCase {
    pub fn check(&self, name: &str, context: &mut DecoderContext) {
        match self {
            Self::Page { globals, bytes, answer, globals_report, report } => {
                let globals = Globals::salvaged(&spelled(globals)).unwrap();
                assert_eq!(globals.left_out(), globals_report.left_out(&[]), "row {name}");
                let bytes = spelled(bytes);
                let page = Page::salvaged_embedded(&bytes, Some(&globals));
                if let Ok(page) = &page {
                    assert_eq!(page.left_out(), report.of_page(), "row {name}");
                }
                let is_read = page.is_ok();
                answer.check(name, page, context);
                if is_read {
                    assert_eq!(context.passed_over(), report.passed_over(), "row {name}");
                }
            }
            Self::File { bytes, pages, left_out, report } => {
                let bytes = spelled(bytes);
                let file = File::salvaged(&bytes).unwrap_or_else(|error| panic!("row {name}: {error}"));
                assert_eq!(file.left_out(), report.left_out(left_out), "row {name}");
                check_pages_of(name, &file, pages, context);
            }
        }
    }
}
