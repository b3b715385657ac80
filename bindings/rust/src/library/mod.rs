//! The proved library as safe calls. All `unsafe` code of the crate is in this module and those below.
//!
//! What `bindings/c/hayro_jbig2.h` asks of a caller, and no one checks, is what Rust's references promise: a pointer is to as
//! many bytes as are named and never null, not even beside length 0; what a call writes is borrowed by nobody else; a
//! handle serves one call at a time, is used until it is given back, by `Drop`, and what it borrows lives as long. The
//! comments on `unsafe` blocks call that the rules of the header.

mod context;
mod ffi;
mod file;
mod globals;
#[cfg(not(hayro_jbig2_portable))]
mod memory;
mod numbers;
mod page;
#[cfg(all(not(hayro_jbig2_portable), target_arch = "x86_64"))]
mod processor;
mod written;

use core::ptr::{self, NonNull};

use crate::error::{DecodeError, ParseError, Result};
use crate::passed_over::{LeftOut, PassedOver, PassedSegment};
pub(crate) use context::Context;
pub(crate) use ffi::PageInfo;
pub(crate) use file::File;
pub(crate) use globals::Globals;
pub(crate) use page::Page;
pub(crate) use written::written;

#[cfg(all(not(hayro_jbig2_portable), target_arch = "x86_64"))]
core::arch::global_asm!(include_str!(concat!(env!("OUT_DIR"), "/libhayro_jbig2.s")), options(att_syntax, raw));
#[cfg(all(not(hayro_jbig2_portable), not(target_arch = "x86_64")))]
core::arch::global_asm!(include_str!(concat!(env!("OUT_DIR"), "/libhayro_jbig2.s")), options(raw));

/// What the calls that make a handle are handed for memory: that of `memory.rs`, or of C where the library is that of
/// `bindings/portable/`. No other call comes before such a one, so the processor is checked here.
fn allocator() -> *const ffi::Memory {
    #[cfg(all(not(hayro_jbig2_portable), target_arch = "x86_64"))]
    processor::check();
    ptr::null()
}

/// How bytes are read.
#[derive(Debug, Clone, Copy, PartialEq, Eq)]
pub(crate) enum Reading {
    Strict,
    Lenient,
    Salvage,
}

impl Reading {
    /// What the calls of the other readings are handed.
    fn is_strict(self) -> bool {
        self == Self::Strict
    }
}

/// The number of a segment that has none.
const NO_SEGMENT_NUMBER: u32 = u32::MAX;

/// A segment and its error, from the numbers of a call; none where the error is 0.
fn segment(number: u32, error: u32) -> Option<PassedSegment> {
    let segment_number = (number != NO_SEGMENT_NUMBER).then_some(number);
    numbers::error_of(error).map(|error| PassedSegment { segment_number, error })
}

/// The segments that were passed over, from the numbers of a call.
fn passed_over(count: usize, number: u32, error: u32) -> PassedOver {
    PassedOver { count, first: segment(number, error) }
}

/// What was left out, from the numbers that a call writes.
fn left_out(call: impl FnOnce(*mut ffi::LeftOut) -> u32) -> Result<LeftOut> {
    let mut raw = ffi::LeftOut::default();
    result(call(&mut raw))?;
    Ok(LeftOut {
        passed_over: passed_over(raw.segments, raw.segment, raw.error),
        pages: raw.pages,
        first_page: numbers::error_of(raw.page_error),
        cut_off: segment(raw.list_segment, raw.list_error),
    })
}

/// What is read of a stream. PDF files may count in the end of a line after the last segment; the library takes it for a
/// segment that is cut off within its number.
fn without_line_end<T>(
    bytes: &[u8],
    read: impl Fn(&[u8]) -> Result<T>,
    left_out: impl Fn(&T) -> Result<LeftOut>,
) -> Result<T> {
    const LONGEST: usize = 2;
    const IN_NUMBER: PassedSegment =
        PassedSegment { segment_number: None, error: DecodeError::Parse(ParseError::UnexpectedEof) };
    let mut stream = bytes;
    loop {
        let made = read(stream)?;
        match stream {
            [others @ .., b'\n' | b'\r']
                if bytes.len() - stream.len() < LONGEST && left_out(&made)?.cut_off == Some(IN_NUMBER) =>
            {
                stream = others;
            }
            _ => return Ok(made),
        }
    }
}

/// What a call says by its number.
fn result(number: u32) -> Result<()> {
    match numbers::error_of(number) {
        None => Ok(()),
        Some(error) => Err(error),
    }
}

/// What a call made, by its number and where it wrote the handle.
fn made<T>(number: u32, handle: *mut T) -> Result<NonNull<T>> {
    result(number)?;
    Ok(NonNull::new(handle).expect("the library made a handle"))
}
