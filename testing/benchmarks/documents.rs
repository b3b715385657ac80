//! As documents.c, by the crate of `bindings/rust/`: globals that all threads share, and a context for each thread.
//!
//! usage: documents WAY THREADS PAGES GLOBALS STREAM OUT
//!
//! WAY is "packed", rows that `Page::read_packed` writes, or "calls", those on a `Decoder` that packs the pixels.

use hayro_jbig2::{DecodeSettings, Decoder, DecoderContext, Globals, Page};
use std::env;
use std::fs;
use std::thread;
use std::time::Instant;

/// Packs pixels into rows of whole bytes, 1 for black.
struct Packer<'a> {
    rows: &'a mut [u8],
    row_bytes: usize,
    y: usize,
    x: usize,
}

impl Decoder for Packer<'_> {
    fn push_pixel(&mut self, black: bool) {
        let byte = &mut self.rows[self.y * self.row_bytes + self.x / 8];
        let bit = 0x80 >> (self.x % 8);
        *byte = if black { *byte | bit } else { *byte & !bit };
        self.x += 1;
    }

    fn push_pixel_chunk(&mut self, black: bool, chunk_count: u32) {
        let place = self.y * self.row_bytes + self.x / 8;
        self.rows[place..place + chunk_count as usize].fill(if black { 0xFF } else { 0 });
        self.x += 8 * chunk_count as usize;
    }

    fn next_line(&mut self) {
        self.x = 0;
        self.y += 1;
    }
}

fn draw(page: &Page<'_>, is_packed: bool, context: &mut DecoderContext, rows: &mut Vec<u8>) {
    let row_bytes = page.width().div_ceil(8) as usize;
    rows.resize(row_bytes * page.height() as usize, 0);
    let drawn = if is_packed {
        page.read_packed(rows)
    } else {
        page.decode_with(&mut Packer { rows, row_bytes, y: 0, x: 0 }, context)
    };
    drawn.expect("the page is drawn");
}

/// Draws all pages of a thread, and returns the first as PBM.
fn work(globals: &Globals, stream: &[u8], count: usize, is_packed: bool) -> Vec<u8> {
    let settings = DecodeSettings::default();
    let mut context = DecoderContext::default();
    let (mut first, mut rows) = (Vec::new(), Vec::new());
    let mut size = (0, 0);
    for _ in 0..count {
        let page = Page::new_embedded(stream, Some(globals), &settings).expect("the page is read");
        size = page.dimensions();
        draw(&page, is_packed, &mut context, &mut rows);
        if first.is_empty() {
            first.clone_from(&rows);
        }
        assert_eq!(rows, first, "another page");
    }
    [format!("P4\n{} {}\n", size.0, size.1).into_bytes(), first].concat()
}

/// The seconds of the processor that this process has used, in hundredths.
fn used() -> f64 {
    let text = fs::read_to_string("/proc/self/stat").expect("Linux has it");
    let fields: Vec<&str> = text.rsplit(')').next().unwrap_or("").split_whitespace().collect();
    let ticks = |at: usize| fields[at].parse::<f64>().expect("a number");
    (ticks(11) + ticks(12)) / 100.0
}

fn main() {
    let words: Vec<String> = env::args().collect();
    let [_, way, threads, pages, globals, stream, out] = &words[..] else {
        panic!("usage: documents WAY THREADS PAGES GLOBALS STREAM OUT");
    };
    let (threads, pages): (usize, usize) = (threads.parse().unwrap(), pages.parse().unwrap());
    assert!(threads > 0 && pages >= threads, "each thread needs a page");
    let (globals, stream) = (fs::read(globals).unwrap(), fs::read(stream).unwrap());
    let (began, used_before) = (Instant::now(), used());
    let globals = Globals::new(&globals, &DecodeSettings::default()).expect("the globals are decoded");
    let drawn: Vec<Vec<u8>> = thread::scope(|scope| {
        let (globals, stream) = (&globals, &stream);
        let share = |at: usize| pages / threads + usize::from(at < pages % threads);
        let draw = |at| move || work(globals, stream, share(at), way == "packed");
        let running: Vec<_> = (0..threads).map(|at| scope.spawn(draw(at))).collect();
        running.into_iter().map(|thread| thread.join().expect("all pages are drawn")).collect()
    });
    println!("{:.6} {:.6}", began.elapsed().as_secs_f64(), used() - used_before);
    assert!(drawn.iter().all(|page| *page == drawn[0]), "another page");
    fs::write(out, &drawn[0]).unwrap();
}
