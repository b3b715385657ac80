//! The calls on a `Decoder` are those that the proved program `jbig2-decode` prints, on 100 made-up files.
//!
//! `JBIG2_CORPUS` names a folder of files, each NAME.jb2 with a folder NAME of what the program prints: `strict` and
//! `lenient` for the file's pages, and with a dot and the index after that for the calls of a page. `bindings/rust/test` makes
//! it. Without it nothing is compared, which the test says.

use hayro_jbig2::{DecodeError, DecodeSettings, Decoder, DecoderContext, File};
use std::fmt::Write;
use std::path::{Path, PathBuf};
use std::{env, fs};

/// Prints the calls as the program does.
#[derive(Default)]
struct Printer(String);

impl Decoder for Printer {
    fn push_pixel(&mut self, black: bool) {
        writeln!(self.0, "push_pixel {black}").unwrap();
    }

    fn push_pixel_chunk(&mut self, black: bool, chunk_count: u32) {
        writeln!(self.0, "push_pixel_chunk {black} {chunk_count}").unwrap();
    }

    fn next_line(&mut self) {
        self.0.push_str("next_line\n");
    }
}

/// What the program prints where it fails.
fn failure(error: DecodeError) -> String {
    format!("error: {error}\n")
}

fn printed_pages(file: &File<'_>) -> String {
    let mut text = String::new();
    for page in file.pages() {
        writeln!(text, "{} {} {}", page.number(), page.width(), page.height()).unwrap();
    }
    text
}

fn compare_calls(file: &File<'_>, expected: &Path, mode: &str, context: &mut DecoderContext) {
    for (index, page) in file.pages().enumerate() {
        let mut printer = Printer::default();
        let drawn = page.decode_with(&mut printer, context);
        let printed = drawn.map_or_else(failure, |()| printer.0);
        assert_eq!(printed, text_of(&expected.join(format!("{mode}.{index}"))), "{} {index}", expected.display());
    }
}

fn text_of(path: &Path) -> String {
    fs::read_to_string(path).unwrap_or_else(|error| panic!("{}: {error}", path.display()))
}

#[test]
fn the_calls_are_those_of_the_program() {
    let Some(folder) = env::var_os("JBIG2_CORPUS") else {
        eprintln!("skipped: JBIG2_CORPUS names no folder; bindings/rust/test makes one");
        return;
    };
    let mut files: Vec<PathBuf> = fs::read_dir(folder).unwrap().map(|entry| entry.unwrap().path()).collect();
    files.retain(|path| path.extension().is_some_and(|extension| extension == "jb2"));
    assert!(files.len() >= 100, "{} files", files.len());
    let mut context = DecoderContext::default();
    for path in files {
        let data = fs::read(&path).unwrap();
        let expected = path.with_extension("");
        for (mode, strict) in [("strict", true), ("lenient", false)] {
            let pages = text_of(&expected.join(mode));
            match File::new(&data, &DecodeSettings { strict }) {
                Err(error) => assert_eq!(failure(error), pages, "{}", path.display()),
                Ok(file) => {
                    assert_eq!(printed_pages(&file), pages, "{}", path.display());
                    compare_calls(&file, &expected, mode, &mut context);
                }
            }
        }
    }
}
