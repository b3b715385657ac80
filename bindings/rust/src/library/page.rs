//! Embedded pages.

use core::ptr::{self, NonNull};

use super::{Context, Globals, PageInfo, Reading, allocator, ffi, left_out, made, result, without_line_end};
use crate::error::Result;
use crate::lock::Lock;
use crate::passed_over::LeftOut;

/// An embedded page, read but not decoded. The library keeps a copy of its bytes, and its globals as long as it needs.
#[derive(Debug)]
pub(crate) struct Page {
    handle: Lock<Handle>,
}

#[derive(Debug)]
struct Handle(NonNull<ffi::Page>);

// SAFETY: any thread may use and give back the handle.
unsafe impl Send for Handle {}

impl Page {
    pub(crate) fn new(stream: &[u8], globals: Option<&Globals>, reading: Reading) -> Result<Self> {
        without_line_end(stream, |stream| Self::read(stream, globals, reading), Self::left_out)
    }

    fn read(stream: &[u8], globals: Option<&Globals>, reading: Reading) -> Result<Self> {
        let mut handle = ptr::null_mut();
        let number = match globals {
            Some(globals) => globals.with(|globals| read_with(stream, globals, reading, &mut handle)),
            None => read_alone(stream, reading, &mut handle),
        };
        Ok(Self { handle: Lock::new(Handle(made(number, handle)?)) })
    }

    /// What was left out of the list of its segments.
    pub(crate) fn left_out(&self) -> Result<LeftOut> {
        // SAFETY: the rules of the header.
        let call = |page: &mut Handle, raw| unsafe { ffi::hayro_jbig2_page_get_left_out(page.0.as_ptr(), raw) };
        self.handle.with(|page| left_out(|raw| call(page, raw)))
    }

    pub(crate) fn info(&self) -> Result<PageInfo> {
        let mut info = PageInfo::default();
        // SAFETY: the rules of the header.
        let number = self.handle.with(|page| unsafe { ffi::hayro_jbig2_page_get_info(page.0.as_ptr(), &mut info) });
        result(number)?;
        Ok(info)
    }

    /// Draws the page within a limit of work.
    pub(crate) fn draw(&self, context: &mut Context, work: u64) -> Result<()> {
        // SAFETY: the rules of the header.
        let call = |page: &mut Handle, context| unsafe { ffi::hayro_jbig2_page_draw(page.0.as_ptr(), context) };
        context.draw(work, |context| self.handle.with(|page| call(page, context)))
    }
}

fn read_alone(stream: &[u8], reading: Reading, handle: &mut *mut ffi::Page) -> u32 {
    let (bytes, length) = (stream.as_ptr(), stream.len());
    // SAFETY: the rules of the header.
    unsafe {
        match reading {
            Reading::Salvage => ffi::jbig2_c_salvaged_alone(allocator(), bytes, length, handle),
            _ => ffi::jbig2_c_page_alone(allocator(), reading.is_strict(), bytes, length, handle),
        }
    }
}

fn read_with(stream: &[u8], globals: *mut ffi::Globals, reading: Reading, handle: &mut *mut ffi::Page) -> u32 {
    let (bytes, length) = (stream.as_ptr(), stream.len());
    // SAFETY: the rules of the header. `Globals::with` lends the globals to one call at a time.
    unsafe {
        match reading {
            Reading::Salvage => ffi::jbig2_c_salvaged_with(allocator(), globals, bytes, length, handle),
            _ => ffi::jbig2_c_page_with(allocator(), reading.is_strict(), globals, bytes, length, handle),
        }
    }
}

impl Drop for Handle {
    fn drop(&mut self) {
        // SAFETY: the handle is used no more.
        unsafe { ffi::jbig2_c_release(self.0.as_ptr().cast()) }
    }
}
