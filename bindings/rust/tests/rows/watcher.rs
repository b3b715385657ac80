//! A Decoder that keeps the calls.

use crate::call::Call;
use hayro_jbig2::Decoder;

#[derive(Default)]
pub struct Watcher {
    pub calls: Vec<Call>,
}

impl Decoder for Watcher {
    fn push_pixel(&mut self, black: bool) {
        self.calls.push(Call::Pixel(black));
    }

    fn push_pixel_chunk(&mut self, black: bool, chunk_count: u32) {
        self.calls.push(Call::Chunk(black, chunk_count));
    }

    fn next_line(&mut self) {
        self.calls.push(Call::Line);
    }
}
