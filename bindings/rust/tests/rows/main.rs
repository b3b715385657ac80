//! The worked rows (`crates/jbig2_rows/README.md`) that are pages, files or globals. They are read out of the sources of
//! the library's own crate of rows, which are Rust as well: `R2`, for instance, is
//! `crates/jbig2_rows/src/rows/regions.rt`.

mod answer;
mod case;
mod file_case;
mod salvage;
mod spelling;
mod watcher;
mod worked;

#[rustfmt::skip]
#[path = "../../../../crates/jbig2_rows/src/call.rt"]
mod call;
#[rustfmt::skip]
#[path = "../../../../crates/jbig2_rows/src/errors.rt"]
#[allow(dead_code)]
mod errors;
#[rustfmt::skip]
#[path = "../../../../crates/jbig2_rows/src/piece.rt"]
mod piece;

#[rustfmt::skip]
#[path = "../../../../crates/jbig2_rows/src/rows/files.rt"]
mod files;
#[rustfmt::skip]
#[path = "../../../../crates/jbig2_rows/src/rows/framing.rt"]
mod framing;
#[rustfmt::skip]
#[path = "../../../../crates/jbig2_rows/src/rows/generic.rt"]
mod generic;
#[rustfmt::skip]
#[path = "../../../../crates/jbig2_rows/src/rows/halftones.rt"]
mod halftones;
#[rustfmt::skip]
#[path = "../../../../crates/jbig2_rows/src/rows/refinement.rt"]
mod refinement;
#[rustfmt::skip]
#[path = "../../../../crates/jbig2_rows/src/rows/regions.rt"]
mod regions;
#[rustfmt::skip]
#[path = "../../../../crates/jbig2_rows/src/rows/salvage.rt"]
mod salvaged;
#[rustfmt::skip]
#[path = "../../../../crates/jbig2_rows/src/rows/symbols.rt"]
mod symbols;

/// What the rows of the arithmetic encoder are, which this crate has not.
mod coder {
    #[allow(dead_code)]
    pub enum CoderCase {
        Encoded { list: &'static [(u16, bool)], bytes: &'static str },
    }
}

use case::Row;
use hayro_jbig2::DecoderContext;

/// All rows are run in one context, so that each is drawn over what the one before left.
#[test]
fn the_rows_hold() {
    let families: [&[Row]; 14] = [
        worked::ROWS,
        framing::rows(),
        regions::rows_2(),
        generic::rows(),
        refinement::rows(),
        halftones::rows_7(),
        symbols::rows_8(),
        files::rows_9(),
        regions::rows_11(),
        symbols::rows_13(),
        files::rows_13(),
        halftones::rows_15(),
        symbols::rows_16(),
        salvaged::rows(),
    ];
    let mut context = DecoderContext::default();
    // Some rows ask for more than a page of their size may take.
    context.set_work_limit(None);
    let mut cases = 0;
    for row in families.into_iter().flatten() {
        for case in row.cases {
            cases += u32::from(case.check(row.name, &mut context));
        }
    }
    assert!(cases >= 100, "{cases} cases");
}
