//! Room to draw in.

use core::ptr::{self, NonNull};

use super::{allocator, ffi, made, passed_over, result};
use crate::error::Result;
use crate::passed_over::PassedOver;
use crate::work::left_of;

/// Room kept from page to page, with the page that was drawn last. It is made when it is first used.
#[derive(Debug, Default)]
pub(crate) struct Context {
    handle: Option<NonNull<ffi::Context>>,
    passed_over: PassedOver,
    work_left: Option<u64>,
}

// SAFETY: any thread may use and give back the handle.
unsafe impl Send for Context {}
// SAFETY: a shared reference makes no call.
unsafe impl Sync for Context {}

impl Context {
    /// Nothing is known of a page then. What draws begins with it.
    pub(super) fn forget_page(&mut self) {
        (self.passed_over, self.work_left) = (PassedOver::default(), None);
    }

    /// Draws a page within a limit of work, by a call that is handed the context.
    pub(super) fn draw(&mut self, work: u64, call: impl FnOnce(*mut ffi::Context) -> u32) -> Result<()> {
        self.forget_page();
        let handle = self.handle()?;
        // SAFETY: the rules of the header.
        result(unsafe { ffi::hayro_jbig2_context_set_work_limit(handle, work) })?;
        let drawn = result(call(handle));
        let (mut raw, mut left) = (ffi::PassedOver::default(), 0);
        // SAFETY: the rules of the header.
        result(unsafe { ffi::hayro_jbig2_context_get_passed_over(handle, &mut raw) })?;
        // SAFETY: the rules of the header.
        result(unsafe { ffi::hayro_jbig2_context_get_work_left(handle, &mut left) })?;
        self.passed_over = passed_over(raw.count, raw.segment, raw.error);
        self.work_left = left_of(work, left);
        drawn
    }

    fn handle(&mut self) -> Result<*mut ffi::Context> {
        if let Some(handle) = self.handle {
            return Ok(handle.as_ptr());
        }
        let mut handle = ptr::null_mut();
        // SAFETY: the rules of the header.
        let number = unsafe { ffi::hayro_jbig2_context_new(allocator(), &mut handle) };
        Ok(self.handle.insert(made(number, handle)?).as_ptr())
    }

    /// Copies packed rows of the page that was drawn last, from a place in them on, as many bytes as `rows` has.
    pub(crate) fn copy_rows(&mut self, place: usize, rows: &mut [u8]) -> Result<()> {
        let handle = self.handle()?;
        // SAFETY: the rules of the header.
        result(unsafe { ffi::hayro_jbig2_context_rows(handle, place, rows.as_mut_ptr(), rows.len()) })
    }

    /// What was passed over of the page that was drawn last.
    pub(crate) fn passed_over(&self) -> PassedOver {
        self.passed_over
    }

    /// What that page left of its limit of work, if it had one.
    pub(crate) fn work_left(&self) -> Option<u64> {
        self.work_left
    }
}

impl Drop for Context {
    fn drop(&mut self) {
        if let Some(handle) = self.handle {
            // SAFETY: the handle is used no more.
            unsafe { ffi::jbig2_c_release(handle.as_ptr().cast()) }
        }
    }
}
