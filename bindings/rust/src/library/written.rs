//! Pages that are written.

use alloc::vec::Vec;
use core::ptr::{self, NonNull};

use super::{allocator, ffi, made, result};
use crate::error::{DecodeError, Result};
use crate::{Coding, EncodeSettings, Template};

/// What was written, until it is copied.
struct Handle(NonNull<ffi::Written>);

fn raw_settings(settings: &EncodeSettings) -> ffi::WriteSettings {
    let (template, typical) = match settings.coding {
        Coding::Arithmetic { template, typical } => (template, typical),
        Coding::Mmr => (Template::default(), false),
    };
    ffi::WriteSettings {
        template_number: template as u32,
        x_resolution: settings.resolution.0,
        y_resolution: settings.resolution.1,
        typical,
        whole_file: settings.file,
        mmr: settings.coding == Coding::Mmr,
    }
}

/// Writes packed rows of the size of these sides, which are not 0 or above 65535. Nothing but memory can be wanting.
pub(crate) fn written(rows: &[u8], width: u32, height: u32, settings: &EncodeSettings) -> Result<Vec<u8>> {
    let raw = raw_settings(settings);
    let mut handle = ptr::null_mut();
    // SAFETY: the rules of the header.
    let number = unsafe {
        ffi::hayro_jbig2_written_new(allocator(), rows.as_ptr(), rows.len(), width, height, &raw, &mut handle)
    };
    Handle(made(number, handle)?).copied()
}

impl Handle {
    fn copied(&self) -> Result<Vec<u8>> {
        // SAFETY: the rules of the header.
        let length = unsafe { ffi::hayro_jbig2_written_length(self.0.as_ptr()) };
        let mut bytes = Vec::new();
        bytes.try_reserve_exact(length).map_err(|_| DecodeError::OutOfMemory)?;
        bytes.resize(length, 0);
        // SAFETY: the rules of the header.
        result(unsafe { ffi::hayro_jbig2_written_bytes(self.0.as_ptr(), bytes.as_mut_ptr(), bytes.len()) })?;
        Ok(bytes)
    }
}

impl Drop for Handle {
    fn drop(&mut self) {
        // SAFETY: the handle is used no more.
        unsafe { ffi::jbig2_c_release(self.0.as_ptr().cast()) }
    }
}
