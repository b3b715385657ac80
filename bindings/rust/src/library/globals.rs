//! Globals of embedded pages.

use core::ptr::{self, NonNull};

use super::{Reading, allocator, ffi, left_out, made, without_line_end};
use crate::error::Result;
use crate::lock::Lock;
use crate::passed_over::LeftOut;

/// Globals of embedded pages, decoded.
#[derive(Debug)]
pub(crate) struct Globals {
    handle: Lock<Handle>,
    left_out: LeftOut,
}

#[derive(Debug)]
struct Handle(NonNull<ffi::Globals>);

// SAFETY: any thread may use and give back the handle.
unsafe impl Send for Handle {}

impl Globals {
    pub(crate) fn new(bytes: &[u8], reading: Reading, work: u64) -> Result<Self> {
        without_line_end(bytes, |bytes| Self::read(bytes, reading, work), |globals| Ok(globals.left_out()))
    }

    fn read(bytes: &[u8], reading: Reading, work: u64) -> Result<Self> {
        let mut handle = ptr::null_mut();
        let (start, length) = (bytes.as_ptr(), bytes.len());
        // SAFETY: the rules of the header.
        let number = unsafe {
            match reading {
                Reading::Salvage => {
                    ffi::hayro_jbig2_globals_new_salvaged(allocator(), work, start, length, &mut handle)
                }
                _ => {
                    let strict = reading.is_strict();
                    ffi::hayro_jbig2_globals_new_within(allocator(), strict, work, start, length, &mut handle)
                }
            }
        };
        let handle = Handle(made(number, handle)?);
        // SAFETY: the rules of the header.
        let left_out = left_out(|raw| unsafe { ffi::hayro_jbig2_globals_get_left_out(handle.0.as_ptr(), raw) })?;
        Ok(Self { handle: Lock::new(handle), left_out })
    }

    /// What was left out of them.
    pub(crate) fn left_out(&self) -> LeftOut {
        self.left_out
    }

    /// Makes a call that is handed the globals.
    pub(super) fn with<R>(&self, call: impl FnOnce(*mut ffi::Globals) -> R) -> R {
        self.handle.with(|handle| call(handle.0.as_ptr()))
    }
}

impl Drop for Handle {
    fn drop(&mut self) {
        // SAFETY: the handle is used no more.
        unsafe { ffi::jbig2_c_release(self.0.as_ptr().cast()) }
    }
}
