//! The calls that a page is made of.

/// Takes the pixels of a page, row by row from the top, each row from the left.
///
/// The calls of a page are made after all of it is decoded, so that a page which is refused makes none. A `Decoder`
/// can't refuse a call. It may panic: no frame of the proved library is on the stack then.
pub trait Decoder {
    /// One pixel.
    fn push_pixel(&mut self, black: bool);
    /// `chunk_count` times eight pixels of one colour, from a column that is a multiple of eight.
    fn push_pixel_chunk(&mut self, black: bool, chunk_count: u32);
    /// The row is complete.
    fn next_line(&mut self);
}

/// Makes the calls of packed rows of `width` pixels.
pub(crate) fn push_rows<D: Decoder>(rows: &[u8], width: u32, decoder: &mut D) {
    for row in rows.chunks_exact(width.div_ceil(8) as usize) {
        push_row(row, width, decoder);
    }
}

fn push_row<D: Decoder>(row: &[u8], width: u32, decoder: &mut D) {
    let (whole, rest) = row.split_at((width / 8) as usize);
    for run in whole.chunk_by(|left, right| left == right && matches!(left, 0x00 | 0xFF)) {
        match run[0] {
            byte @ (0x00 | 0xFF) => decoder.push_pixel_chunk(byte == 0xFF, run.len() as u32),
            byte => push_pixels(byte, 8, decoder),
        }
    }
    if let [last] = rest {
        push_pixels(*last, width % 8, decoder);
    }
    decoder.next_line();
}

/// The first pixels of a byte, from the highest bit.
fn push_pixels<D: Decoder>(byte: u8, count: u32, decoder: &mut D) {
    for place in 0..count {
        decoder.push_pixel(byte << place & 0x80 != 0);
    }
}
