//! Writes all pages of a JBIG2 file as PBM to standard output, in their order, while several threads draw them.
//!
//! usage: parallel FILE

use hayro_jbig2::{DecodeSettings, File, Page, Result};
use std::error::Error;
use std::io::{self, Write};
use std::sync::OnceLock;
use std::sync::atomic::{AtomicUsize, Ordering};
use std::{env, fs, thread};

/// A page as a PBM picture.
fn picture_of(page: &Page<'_>) -> Result<Vec<u8>> {
    let mut picture = format!("P4\n{} {}\n", page.width(), page.height()).into_bytes();
    let begin = picture.len();
    picture.resize(begin + page.width().div_ceil(8) as usize * page.height() as usize, 0);
    page.read_packed(&mut picture[begin..])?;
    Ok(picture)
}

/// The pictures of all pages. Each thread draws the next page that none has begun.
fn pictures_of(file: &File<'_>) -> Vec<Result<Vec<u8>>> {
    let pictures: Vec<_> = (0..file.page_count()).map(|_| OnceLock::new()).collect();
    let next = AtomicUsize::new(0);
    let threads = thread::available_parallelism().map_or(1, usize::from).min(pictures.len());
    thread::scope(|scope| {
        for _ in 0..threads {
            scope.spawn(|| {
                loop {
                    let index = next.fetch_add(1, Ordering::Relaxed);
                    let Some(page) = file.page(index) else { break };
                    pictures[index].get_or_init(|| picture_of(&page));
                }
            });
        }
    });
    pictures.into_iter().filter_map(OnceLock::into_inner).collect()
}

fn main() -> std::result::Result<(), Box<dyn Error>> {
    let bytes = fs::read(env::args_os().nth(1).ok_or("usage: parallel FILE")?)?;
    let file = File::new(&bytes, &DecodeSettings::default())?;
    let mut out = io::stdout().lock();
    for picture in pictures_of(&file) {
        out.write_all(&picture?)?;
    }
    Ok(())
}
