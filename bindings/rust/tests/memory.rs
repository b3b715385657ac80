//! Want of memory: each request of a page is refused in turn.

use hayro_jbig2::{Coding, EncodeError, EncodeSettings, encode};
use hayro_jbig2::{DecodeError, DecodeSettings, Decoder, DecoderContext, File, Globals, Page, Result};
use std::alloc::{GlobalAlloc, Layout, System};
use std::cell::Cell;
use std::ptr;

const EXAMPLE: &[u8] = include_bytes!("../../../crates/jbig2_decode/data/t88-h1.jb2");

thread_local! {
    /// How many requests of this thread are granted before one is refused; `None` while nothing is counted.
    static GRANTED: Cell<Option<usize>> = const { Cell::new(None) };
    /// Blocks that were handed out while requests were counted, less those given back.
    static HELD: Cell<isize> = const { Cell::new(0) };
}

struct Refusing;

// SAFETY: what is not refused is passed on to the system's allocator as it is.
unsafe impl GlobalAlloc for Refusing {
    unsafe fn alloc(&self, layout: Layout) -> *mut u8 {
        match GRANTED.get() {
            Some(0) => return ptr::null_mut(),
            Some(count) => {
                GRANTED.set(Some(count - 1));
                HELD.set(HELD.get() + 1);
            }
            None => {}
        }
        // SAFETY: the caller's promise.
        unsafe { System.alloc(layout) }
    }

    unsafe fn dealloc(&self, block: *mut u8, layout: Layout) {
        if GRANTED.get().is_some() {
            HELD.set(HELD.get() - 1);
        }
        // SAFETY: the caller's promise.
        unsafe { System.dealloc(block, layout) }
    }
}

#[global_allocator]
static ALLOCATOR: Refusing = Refusing;

/// Counts the calls.
#[derive(Default)]
struct Counter(u32);

impl Decoder for Counter {
    fn push_pixel(&mut self, _black: bool) {
        self.0 += 1;
    }

    fn push_pixel_chunk(&mut self, _black: bool, _chunk_count: u32) {
        self.0 += 1;
    }

    fn next_line(&mut self) {
        self.0 += 1;
    }
}

/// Runs `decode` with its first request refused, then its second, and so on until none is. Returns how many were.
fn refuse_in_turn(decode: impl Fn(&mut Counter) -> Result<()>) -> usize {
    for granted in 0.. {
        let mut counter = Counter::default();
        GRANTED.set(Some(granted));
        let decoded = decode(&mut counter);
        GRANTED.set(None);
        assert_eq!(HELD.get(), 0, "all is given back after {granted} requests");
        if decoded.is_ok() {
            assert!(counter.0 > 0);
            return granted;
        }
        assert_eq!((decoded, counter.0), (Err(DecodeError::OutOfMemory), 0), "after {granted} requests");
    }
    unreachable!("a page takes a finite number of requests")
}

#[test]
fn a_file_lacks_memory() {
    for index in 0..3 {
        let refusals = refuse_in_turn(|counter| {
            let file = File::new(EXAMPLE, &DecodeSettings { strict: true })?;
            file.page(index).expect("three pages").decode(counter)
        });
        assert!(refusals > 10, "{refusals} requests");
    }
}

#[test]
fn an_embedded_page_lacks_memory() {
    // The first page, after the file's header, with the segments that belong to no page as globals.
    let settings = DecodeSettings::default();
    let (globals, stream) = EXAMPLE[13..].split_at(35);
    let refusals = refuse_in_turn(|counter| {
        let globals = Globals::new(globals, &settings)?;
        let page = Page::new_embedded(stream, Some(&globals), &settings)?;
        page.decode_with(counter, &mut DecoderContext::default())
    });
    assert!(refusals > 10, "{refusals} requests");
}

/// A dictionary that refers to number 0, which isn't there, and a header that refers to its own number.
#[test]
fn salvage_lacks_memory() {
    let dictionary = b"\0\0\0\x01\x00\x20\0\0\0\0\0\x0F\0\x01\0\0\0\x01\0\0\0\x01\x5F\x80\x80\0\x40";
    let shared = [dictionary, &[b' '; 16][..]].concat();
    let stream = &EXAMPLE[13 + 35..];
    let refusals = refuse_in_turn(|counter| {
        let globals = Globals::salvaged(&shared)?;
        assert_eq!(globals.left_out().passed_over.count, 1);
        Page::salvaged_embedded(stream, Some(&globals))?.decode(counter)
    });
    assert!(refusals > 10, "{refusals} requests");
    // A page of 8 by 1, in a file that doesn't count its pages.
    let page = b"\0\0\0\0\x30\0\x01\0\0\0\x13\0\0\0\x08\0\0\0\x01\0\0\0\0\0\0\0\0\0\0\0";
    let data = [b"\x97JB2\r\n\x1A\n\x03", &page[..], &shared].concat();
    let refusals = refuse_in_turn(|counter| {
        let file = File::salvaged(&data)?;
        assert_eq!(file.left_out().passed_over.count, 1);
        file.page(0).expect("a page").decode(counter)
    });
    assert!(refusals > 10, "{refusals} requests");
}

#[test]
fn a_page_that_is_written_lacks_memory() {
    for coding in [Coding::default(), Coding::Mmr] {
        let settings = EncodeSettings { coding, ..EncodeSettings::default() };
        let refusals = refuse_in_turn(|counter| {
            let coded = encode(&[0x5A; 800], 80, 80, &settings).map_err(|error| {
                assert_eq!(error, EncodeError::OutOfMemory);
                DecodeError::OutOfMemory
            })?;
            counter.0 = u32::try_from(coded.len()).expect("a short page");
            Ok(())
        });
        assert!(refusals > 3, "{coding:?}: {refusals} requests");
    }
}
