//! Writes an image cut out of a PDF file as a PBM file to standard output: its `/JBIG2Decode` stream and, where it has
//! them, its `/JBIG2Globals`. `pdfimages -all` of Poppler cuts both out, as NAME.jb2e and NAME.jb2g.
//!
//! usage: embedded STREAM [GLOBALS]

use hayro_jbig2::{DecodeSettings, Globals, Page};
use std::env;
use std::error::Error;
use std::fs;
use std::io::{self, Write};

fn main() -> Result<(), Box<dyn Error>> {
    let settings = DecodeSettings::default();
    let stream = fs::read(env::args_os().nth(1).ok_or("usage: embedded STREAM [GLOBALS]")?)?;
    let globals = match env::args_os().nth(2) {
        Some(name) => Some(Globals::new(&fs::read(name)?, &settings)?),
        None => None,
    };
    let page = Page::new_embedded(&stream, globals.as_ref(), &settings)?;
    let mut rows = vec![0; page.width().div_ceil(8) as usize * page.height() as usize];
    page.read_packed(&mut rows)?;
    let mut out = io::stdout().lock();
    write!(out, "P4\n{} {}\n", page.width(), page.height())?;
    out.write_all(&rows)?;
    Ok(())
}
