//! A byte for each pixel.

use crate::decoder::Decoder;

/// Writes 0 for a black and 255 for a white pixel, one after the other.
pub(crate) struct Writer<'a> {
    rest: &'a mut [u8],
}

impl<'a> Writer<'a> {
    pub(crate) fn new(image: &'a mut [u8]) -> Self {
        Self { rest: image }
    }

    fn fill(&mut self, black: bool, count: usize) {
        let (pixels, rest) = core::mem::take(&mut self.rest).split_at_mut(count);
        pixels.fill(if black { 0 } else { 255 });
        self.rest = rest;
    }
}

impl Decoder for Writer<'_> {
    fn push_pixel(&mut self, black: bool) {
        self.fill(black, 1);
    }

    fn push_pixel_chunk(&mut self, black: bool, chunk_count: u32) {
        self.fill(black, 8 * chunk_count as usize);
    }

    fn next_line(&mut self) {}
}
