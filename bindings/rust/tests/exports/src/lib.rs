//! One call for C over the crate.

use hayro_jbig2::{DecodeSettings, Page};
use std::slice;

/// The width of an embedded page, or 0 where it can't be drawn.
///
/// # Safety
///
/// `bytes` points to `length` bytes.
#[unsafe(no_mangle)]
pub unsafe extern "C" fn width_of_page(bytes: *const u8, length: usize) -> u32 {
    // SAFETY: the caller's promise.
    let stream = unsafe { slice::from_raw_parts(bytes, length) };
    let Ok(page) = Page::new_embedded(stream, None, &DecodeSettings::default()) else { return 0 };
    let mut rows = vec![0; page.width().div_ceil(8) as usize * page.height() as usize];
    page.read_packed(&mut rows).map_or(0, |()| page.width())
}
