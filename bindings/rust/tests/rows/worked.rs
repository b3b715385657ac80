//! The rows 1 to 17 that are pages, files or globals. Their source also names parts of the library that this crate has
//! not, so those that stand in it alone are here once more.

use crate::answer::Answer::{Calls, Refused, Undrawn};
use crate::answer::Modes::Both;
use crate::call::{BLACK, Call, DOT, LINE, PAPER, WHITE, WHITE_TWICE};
use crate::case::Case::{ByMode, Page, Size};
use crate::case::{Case, Row};
use crate::errors::{INVALID_MMR, TOO_EARLY, TOO_LARGE};
use crate::salvage::{NOTHING, Report, SalvageCase};
use crate::{files, symbols};
use hayro_jbig2::{DecodeError, FormatError};

const WIDEST: &[Call] = &[Call::Chunk(false, 8191), PAPER, PAPER, PAPER, PAPER, PAPER, PAPER, PAPER, LINE];

/// Segment 1 has MMR data with a fault.
const ONE_FAULT: Report = Report { passed_over: 1, first: Some((Some(1), INVALID_MMR)), cut_off: None };

pub const ROWS: &[Row] = &[
    Row { name: "1", cases: files::ROW_1 },
    Row { name: "2", cases: files::ROW_2 },
    Row { name: "3", cases: files::ROW_3 },
    Row {
        name: "5",
        cases: &[
            Size { bytes: "P", number: 1, width: 8, height: 1 },
            Page(Both, "P", Calls(WHITE)),
            Page(Both, "P@27=04", Calls(BLACK)),
            Page(Both, "P@11=00000009", Calls(&[Call::Chunk(false, 1), PAPER, LINE])),
            Page(Both, "P@11=0000FFFF", Calls(WIDEST)),
            Page(Both, "P@11=00010000", Refused(TOO_LARGE)),
            Page(Both, "P@11=00000000", Refused(DecodeError::Format(FormatError::EmptyPage))),
        ],
    },
    Row {
        name: "6",
        cases: &[
            Page(Both, "P@15=FFFFFFFF", Refused(DecodeError::Format(FormatError::UnknownPageHeight))),
            Page(Both, "P@15=FFFFFFFF 00000001 32 00 01 00000004 00000001", Calls(WHITE_TWICE)),
        ],
    },
    Row { name: "7", cases: &[Page(Both, "P G", Calls(DOT)), Page(Both, "P G@19=FFFFFFFF", Calls(WHITE))] },
    Row {
        name: "10",
        cases: &[
            Page(Both, "P 00000001260001 00000018 00000008 00000001 00*9 01 26A280080080", Calls(BLACK)),
            ByMode("P 00000001260001 00000013 00000008 00000001 00*9 01 26", Undrawn(INVALID_MMR), Calls(WHITE)),
            Case::Salvage(SalvageCase::Page {
                globals: "",
                bytes: "P 00000001260001 00000013 00000008 00000001 00*9 01 26",
                answer: Calls(WHITE),
                globals_report: NOTHING,
                report: ONE_FAULT,
            }),
            Case::Salvage(SalvageCase::Page {
                globals: "",
                bytes: "P 00000001240001 00000013 00000008 00000001 00*9 01 26",
                answer: Calls(WHITE),
                globals_report: NOTHING,
                report: ONE_FAULT,
            }),
        ],
    },
    Row { name: "11", cases: symbols::ROW_11 },
    Row { name: "12", cases: symbols::ROW_12 },
    Row { name: "13", cases: &[Page(Both, "P D T@8=00000028 26A8", Calls(BLACK))] },
    Row { name: "14", cases: &[ByMode("P 00000001 26", Refused(TOO_EARLY), Calls(WHITE))] },
    Row { name: "16", cases: files::ROW_16 },
    Row { name: "17", cases: symbols::ROW_17 },
];
