//! The memory that the library works in: Rust's global allocator.
//!
//! The library's text calls the two functions of this file, as `bindings/c/memory.c` defines them for C. That they hand out and
//! take back memory as `malloc` and `free` do is what its proof assumes.

use alloc::alloc::{alloc, dealloc};
use core::alloc::Layout;
use core::ptr::{self, NonNull};

/// No wider alignment is asked for.
const ALIGN: usize = 16;

/// Whether there is a block, and where; where there is none, an address that nobody uses.
#[repr(C)]
struct Tried {
    is_taken: bool,
    block: NonNull<u8>,
}

/// The layout of all blocks of a size. None is larger than `isize::MAX` bytes.
fn layout(size: usize) -> Option<Layout> {
    Layout::from_size_align(size.max(1), ALIGN).ok()
}

/// A new block. `memory` is what the calls of this crate are handed: 0.
#[unsafe(no_mangle)]
extern "C" fn jbig2_c_take(_memory: usize, size: usize, _align: usize) -> Tried {
    let block = match layout(size) {
        // SAFETY: the layout's size is not 0.
        Some(layout) => unsafe { alloc(layout) },
        None => ptr::null_mut(),
    };
    let block = NonNull::new(block);
    Tried { is_taken: block.is_some(), block: block.unwrap_or(NonNull::dangling()) }
}

/// Takes a block back.
///
/// # Safety
///
/// `jbig2_c_take` returned the block for this size, and it is not used afterwards.
#[unsafe(no_mangle)]
unsafe extern "C" fn jbig2_c_give_back(_memory: usize, block: *mut u8, size: usize) {
    if let Some(layout) = layout(size) {
        // SAFETY: the caller's promise; the layout is that of `jbig2_c_take`.
        unsafe { dealloc(block, layout) }
    }
}
