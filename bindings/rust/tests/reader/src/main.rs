//! Writes a `/JBIG2Decode` stream, with its `/JBIG2Globals` where there are any, or all pages of a file as PGM pictures
//! to standard output, by nothing but the API of hayro-jbig2 0.4.0.
//!
//! usage: reader FILE | STREAM [GLOBALS]

mod place;

use hayro_jbig2::{DecodeError, DecodeSettings, Decoder, DecoderContext, File, FormatError, Globals, Page, Result};
use std::io::{self, Write};
use std::process::ExitCode;
use std::{env, fs};

/// A byte for each pixel.
struct Luma(Vec<u8>);

impl Decoder for Luma {
    fn push_pixel(&mut self, black: bool) {
        self.0.push(if black { 0 } else { 255 });
    }

    fn push_pixel_chunk(&mut self, black: bool, chunk_count: u32) {
        let end = self.0.len() + chunk_count as usize * 8;
        self.0.resize(end, if black { 0 } else { 255 });
    }

    fn next_line(&mut self) {}
}

/// The page as a PGM picture.
fn picture(page: &Page<'_>, context: &mut DecoderContext) -> Result<Vec<u8>> {
    let mut luma = Luma(format!("P5\n{} {}\n255\n", page.width(), page.height()).into_bytes());
    page.decode_with(&mut luma, context)?;
    Ok(luma.0)
}

fn picture_of_stream(stream: &[u8], globals: Option<&[u8]>) -> Result<Vec<u8>> {
    let settings = DecodeSettings::default();
    let globals = globals.map(|bytes| Globals::new(bytes, &settings)).transpose()?;
    picture(&Page::new_embedded(stream, globals.as_ref(), &settings)?, &mut DecoderContext::default())
}

fn pictures_of_file(data: &[u8]) -> Result<Vec<u8>> {
    let file = File::new(data, &DecodeSettings { strict: true })?;
    let mut context = DecoderContext::default();
    let pictures = file.pages().map(|page| picture(&page, &mut context)).collect::<Result<Vec<_>>>()?;
    // The first page once more, in a context of its own.
    let first = file.page(0).ok_or(FormatError::MissingPageInfo)?;
    let mut luma = Luma(Vec::new());
    first.decode(&mut luma)?;
    assert!(first.number() == 1 && pictures.len() == file.page_count() && pictures[0].ends_with(&luma.0));
    Ok(pictures.concat())
}

fn decoded(files: &[Vec<u8>]) -> Result<Vec<u8>> {
    match pictures_of_file(&files[0]) {
        Err(DecodeError::Format(FormatError::InvalidHeader)) => {
            picture_of_stream(&files[0], files.get(1).map(Vec::as_slice))
        }
        pictures => pictures,
    }
}

fn main() -> ExitCode {
    let names = env::args().skip(1);
    let files: Vec<Vec<u8>> = names.map(|name| fs::read(name).expect("a file that can be read")).collect();
    match decoded(&files) {
        Ok(pictures) => {
            io::stdout().write_all(&pictures).expect("an open output");
            ExitCode::SUCCESS
        }
        Err(error) => {
            eprintln!("{}: {error}", place::of(error));
            ExitCode::FAILURE
        }
    }
}
