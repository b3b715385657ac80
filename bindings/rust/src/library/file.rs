//! Files.

use alloc::vec::Vec;
use core::ptr::{self, NonNull};

use super::{Context, PageInfo, Reading, allocator, ffi, left_out, made, result};
use crate::error::{DecodeError, Result};
use crate::lock::Lock;
use crate::passed_over::LeftOut;

/// A file, read but not decoded. It borrows its bytes.
#[derive(Debug)]
pub(crate) struct File<'a> {
    bytes: &'a [u8],
    reading: Reading,
    /// What decoding the segments that the pages share may take.
    work: u64,
    infos: Vec<PageInfo>,
    left_out: LeftOut,
    /// The handles that no thread draws by. As many were made as threads have drawn at the same time.
    idle: Lock<Vec<Handle>>,
}

/// Borrows bytes: of a `File`, which keeps it.
#[derive(Debug)]
struct Handle(NonNull<ffi::File>);

// SAFETY: any thread may use and give back the handle.
unsafe impl Send for Handle {}

impl<'a> File<'a> {
    pub(crate) fn new(bytes: &'a [u8], reading: Reading, work: u64) -> Result<Self> {
        let left_out = LeftOut::default();
        let mut file = Self { bytes, reading, work, infos: Vec::new(), left_out, idle: Lock::new(Vec::new()) };
        let mut handle = file.handle()?;
        file.infos = handle.infos()?;
        file.left_out = handle.left_out()?;
        file.put_back(handle);
        Ok(file)
    }

    /// What is known of each page.
    pub(crate) fn infos(&self) -> &[PageInfo] {
        &self.infos
    }

    /// What was left out of it.
    pub(crate) fn left_out(&self) -> LeftOut {
        self.left_out
    }

    /// Draws a page within a limit of work.
    pub(crate) fn draw(&self, index: usize, context: &mut Context, work: u64) -> Result<()> {
        context.forget_page();
        let mut handle = self.handle()?;
        let drawn = handle.draw(index, context, work);
        self.put_back(handle);
        drawn
    }

    /// A handle that no one else has.
    fn handle(&self) -> Result<Handle> {
        if let Some(handle) = self.idle.with(Vec::pop) {
            return Ok(handle);
        }
        let (start, length, mut file) = (self.bytes.as_ptr(), self.bytes.len(), ptr::null_mut());
        // SAFETY: the rules of the header. The bytes are borrowed as long as this file lives, which keeps its handles.
        let number = unsafe {
            match self.reading {
                Reading::Salvage => {
                    ffi::hayro_jbig2_file_new_salvaged(allocator(), self.work, start, length, &mut file)
                }
                reading => {
                    let strict = reading.is_strict();
                    ffi::hayro_jbig2_file_new_within(allocator(), strict, self.work, start, length, &mut file)
                }
            }
        };
        Ok(Handle(made(number, file)?))
    }

    /// Keeps a handle for the next page. Where there is no memory for that, it is given back.
    fn put_back(&self, handle: Handle) {
        self.idle.with(|idle| {
            if idle.try_reserve(1).is_ok() {
                idle.push(handle);
            }
        });
    }
}

impl Drop for File<'_> {
    /// Gives the handles back while the bytes are borrowed.
    fn drop(&mut self) {
        self.idle.with(Vec::clear);
    }
}

impl Handle {
    fn infos(&mut self) -> Result<Vec<PageInfo>> {
        // SAFETY: the rules of the header.
        let count = unsafe { ffi::hayro_jbig2_file_page_count(self.0.as_ptr()) };
        let mut infos = Vec::new();
        infos.try_reserve_exact(count).map_err(|_| DecodeError::OutOfMemory)?;
        for index in 0..count {
            let mut info = PageInfo::default();
            // SAFETY: the rules of the header.
            result(unsafe { ffi::hayro_jbig2_file_get_info(self.0.as_ptr(), index, &mut info) })?;
            infos.push(info);
        }
        Ok(infos)
    }

    fn left_out(&mut self) -> Result<LeftOut> {
        // SAFETY: the rules of the header.
        left_out(|raw| unsafe { ffi::hayro_jbig2_file_get_left_out(self.0.as_ptr(), raw) })
    }

    fn draw(&mut self, index: usize, context: &mut Context, work: u64) -> Result<()> {
        let file = self.0.as_ptr();
        // SAFETY: the rules of the header.
        context.draw(work, |context| unsafe { ffi::hayro_jbig2_file_draw(file, index, context) })
    }
}

impl Drop for Handle {
    fn drop(&mut self) {
        // SAFETY: the handle is used no more.
        unsafe { ffi::jbig2_c_release(self.0.as_ptr().cast()) }
    }
}

#[cfg(test)]
mod tests {
    extern crate std;

    use super::{Context, DecodeError, File, Reading};

    const BOOK: &[u8] = include_bytes!("../../../../crates/jbig2_decode/data/t88-h1.jb2");

    /// Threads that draw at the same time read the file once each, and not for each page.
    #[test]
    fn handles_are_kept() {
        let file = File::new(BOOK, Reading::Strict, u64::MAX).unwrap();
        let places_of_three = || {
            let handles = [0; 3].map(|_| file.handle().unwrap());
            let mut places = [0, 1, 2].map(|index| handles[index].0);
            handles.into_iter().for_each(|handle| file.put_back(handle));
            places.sort();
            places
        };
        assert_eq!(places_of_three(), places_of_three());
    }

    /// Where there is no handle to draw by, the context says nothing of the page before.
    #[test]
    fn a_refused_handle_leaves_no_page() {
        let mut file = File::new(BOOK, Reading::Strict, u64::MAX).unwrap();
        let mut context = Context::default();
        file.draw(0, &mut context, 1 << 24).unwrap();
        assert!(context.work_left().is_some());
        file.work = 0;
        let taken = file.handle();
        assert_eq!(file.draw(0, &mut context, 1 << 24), Err(DecodeError::WorkLimit));
        assert_eq!(context.work_left(), None);
        drop(taken);
    }
}
