//! The calls of the library's text: those of `bindings/c/hayro_jbig2.h`, and those that `bindings/c/handles.c` makes for C,
//! which can't be handed a null pointer.

use core::ffi::c_void;
use core::marker::{PhantomData, PhantomPinned};

use crate::EncodeSettings;

/// What only the library sees into.
#[repr(C)]
#[derive(Debug)]
pub(super) struct Opaque<T> {
    bytes: [u8; 0],
    marker: PhantomData<(*mut T, PhantomPinned)>,
}

/// `hayro_jbig2_globals`
pub(super) type Globals = Opaque<super::Globals>;
/// `hayro_jbig2_context`
pub(super) type Context = Opaque<super::Context>;
/// `hayro_jbig2_page`
pub(super) type Page = Opaque<super::Page>;
/// `hayro_jbig2_file`
pub(super) type File = Opaque<super::File<'static>>;
/// `hayro_jbig2_written`
pub(super) type Written = Opaque<EncodeSettings>;
/// `hayro_jbig2_memory`
pub(super) type Memory = Opaque<()>;

/// What is known of a page before it is decoded: `hayro_jbig2_page_info`.
#[repr(C)]
#[derive(Debug, Clone, Copy, Default)]
pub(crate) struct PageInfo {
    pub(crate) number: u32,
    pub(crate) width: u32,
    pub(crate) height: u32,
}

/// `hayro_jbig2_passed_over`
#[repr(C)]
#[derive(Default)]
pub(super) struct PassedOver {
    pub(super) count: usize,
    pub(super) segment: u32,
    pub(super) error: u32,
}

/// `hayro_jbig2_left_out`
#[repr(C)]
#[derive(Default)]
pub(super) struct LeftOut {
    pub(super) segments: usize,
    pub(super) segment: u32,
    pub(super) error: u32,
    pub(super) pages: usize,
    pub(super) page_error: u32,
    pub(super) list_segment: u32,
    pub(super) list_error: u32,
}

/// `hayro_jbig2_write_settings`
#[repr(C)]
pub(super) struct WriteSettings {
    pub(super) template_number: u32,
    pub(super) x_resolution: u32,
    pub(super) y_resolution: u32,
    pub(super) typical: bool,
    pub(super) whole_file: bool,
    pub(super) mmr: bool,
}

unsafe extern "C" {
    pub(super) fn hayro_jbig2_globals_new_within(
        memory: *const Memory,
        strict: bool,
        work: u64,
        bytes: *const u8,
        length: usize,
        globals: *mut *mut Globals,
    ) -> u32;

    pub(super) fn hayro_jbig2_globals_new_salvaged(
        memory: *const Memory,
        work: u64,
        bytes: *const u8,
        length: usize,
        globals: *mut *mut Globals,
    ) -> u32;

    pub(super) fn hayro_jbig2_globals_get_left_out(globals: *mut Globals, left_out: *mut LeftOut) -> u32;

    pub(super) fn hayro_jbig2_context_new(memory: *const Memory, context: *mut *mut Context) -> u32;

    pub(super) fn hayro_jbig2_context_rows(context: *mut Context, place: usize, rows: *mut u8, length: usize) -> u32;

    pub(super) fn hayro_jbig2_context_get_passed_over(context: *mut Context, passed_over: *mut PassedOver) -> u32;

    pub(super) fn hayro_jbig2_context_set_work_limit(context: *mut Context, work: u64) -> u32;

    pub(super) fn hayro_jbig2_context_get_work_left(context: *mut Context, left: *mut u64) -> u32;

    pub(super) fn jbig2_c_page_alone(
        memory: *const Memory,
        strict: bool,
        stream: *const u8,
        length: usize,
        page: *mut *mut Page,
    ) -> u32;

    pub(super) fn jbig2_c_page_with(
        memory: *const Memory,
        strict: bool,
        globals: *mut Globals,
        stream: *const u8,
        length: usize,
        page: *mut *mut Page,
    ) -> u32;

    pub(super) fn jbig2_c_salvaged_alone(
        memory: *const Memory,
        stream: *const u8,
        length: usize,
        page: *mut *mut Page,
    ) -> u32;

    pub(super) fn jbig2_c_salvaged_with(
        memory: *const Memory,
        globals: *mut Globals,
        stream: *const u8,
        length: usize,
        page: *mut *mut Page,
    ) -> u32;

    pub(super) fn hayro_jbig2_page_get_left_out(page: *mut Page, left_out: *mut LeftOut) -> u32;

    pub(super) fn hayro_jbig2_page_get_info(page: *mut Page, info: *mut PageInfo) -> u32;

    pub(super) fn hayro_jbig2_page_draw(page: *mut Page, context: *mut Context) -> u32;

    pub(super) fn hayro_jbig2_file_new_within(
        memory: *const Memory,
        strict: bool,
        work: u64,
        bytes: *const u8,
        length: usize,
        file: *mut *mut File,
    ) -> u32;

    pub(super) fn hayro_jbig2_file_new_salvaged(
        memory: *const Memory,
        work: u64,
        bytes: *const u8,
        length: usize,
        file: *mut *mut File,
    ) -> u32;

    pub(super) fn hayro_jbig2_file_get_left_out(file: *mut File, left_out: *mut LeftOut) -> u32;

    pub(super) fn hayro_jbig2_file_page_count(file: *mut File) -> usize;

    pub(super) fn hayro_jbig2_file_get_info(file: *mut File, index: usize, info: *mut PageInfo) -> u32;

    pub(super) fn hayro_jbig2_file_draw(file: *mut File, index: usize, context: *mut Context) -> u32;

    pub(super) fn hayro_jbig2_written_new(
        memory: *const Memory,
        rows: *const u8,
        length: usize,
        width: u32,
        height: u32,
        settings: *const WriteSettings,
        written: *mut *mut Written,
    ) -> u32;

    pub(super) fn hayro_jbig2_written_length(written: *mut Written) -> usize;

    pub(super) fn hayro_jbig2_written_bytes(written: *mut Written, bytes: *mut u8, length: usize) -> u32;

    /// Gives back a handle of any kind.
    pub(super) fn jbig2_c_release(handle: *mut c_void);
}
