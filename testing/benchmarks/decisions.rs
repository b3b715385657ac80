//! The Rust side of the benchmark: the arithmetic decoder of T.88, Annexes E and G, on the same bytes.
use std::io::Read;
use std::time::Instant;

const DECISIONS: u32 = 10_000_000;

#[derive(Clone, Copy)]
struct Row {
    qe: u32,
    likely: u8,
    unlikely: u8,
    switch: bool,
}

const fn row(qe: u32, likely: u8, unlikely: u8, switch: bool) -> Row {
    Row { qe, likely, unlikely, switch }
}

/// T.88, Table E.1.
static ROWS: [Row; 47] = [
    row(0x5601, 1, 1, true),
    row(0x3401, 2, 6, false),
    row(0x1801, 3, 9, false),
    row(0x0AC1, 4, 12, false),
    row(0x0521, 5, 29, false),
    row(0x0221, 38, 33, false),
    row(0x5601, 7, 6, true),
    row(0x5401, 8, 14, false),
    row(0x4801, 9, 14, false),
    row(0x3801, 10, 14, false),
    row(0x3001, 11, 17, false),
    row(0x2401, 12, 18, false),
    row(0x1C01, 13, 20, false),
    row(0x1601, 29, 21, false),
    row(0x5601, 15, 14, true),
    row(0x5401, 16, 14, false),
    row(0x5101, 17, 15, false),
    row(0x4801, 18, 16, false),
    row(0x3801, 19, 17, false),
    row(0x3401, 20, 18, false),
    row(0x3001, 21, 19, false),
    row(0x2801, 22, 19, false),
    row(0x2401, 23, 20, false),
    row(0x2201, 24, 21, false),
    row(0x1C01, 25, 22, false),
    row(0x1801, 26, 23, false),
    row(0x1601, 27, 24, false),
    row(0x1401, 28, 25, false),
    row(0x1201, 29, 26, false),
    row(0x1101, 30, 27, false),
    row(0x0AC1, 31, 28, false),
    row(0x09C1, 32, 29, false),
    row(0x08A1, 33, 30, false),
    row(0x0521, 34, 31, false),
    row(0x0441, 35, 32, false),
    row(0x02A1, 36, 33, false),
    row(0x0221, 37, 34, false),
    row(0x0141, 38, 35, false),
    row(0x0111, 39, 36, false),
    row(0x0085, 40, 37, false),
    row(0x0049, 41, 38, false),
    row(0x0025, 42, 39, false),
    row(0x0015, 43, 40, false),
    row(0x0009, 44, 41, false),
    row(0x0005, 45, 42, false),
    row(0x0001, 45, 43, false),
    row(0x5601, 46, 46, false),
];

#[derive(Clone, Copy)]
struct Context {
    row: u8,
    likely: bool,
}

struct Decoder<'a> {
    bytes: &'a [u8],
    a: u32,
    c: u32,
    ct: u32,
    place: usize,
}

impl<'a> Decoder<'a> {
    fn new(bytes: &'a [u8]) -> Self {
        let mut decoder = Decoder { bytes, a: 0x8000, c: 0, ct: 0, place: 0 };
        decoder.c = u32::from(!decoder.byte_at(0)) << 16;
        decoder.byte_in();
        decoder.c <<= 7;
        decoder.ct -= 7;
        decoder
    }

    #[inline(always)]
    fn byte_at(&self, place: usize) -> u8 {
        self.bytes.get(place).copied().unwrap_or(0xFF)
    }

    #[inline(always)]
    fn byte_in(&mut self) {
        let next = u32::from(self.byte_at(self.place + 1));
        if self.byte_at(self.place) != 0xFF {
            self.c = self.c.wrapping_add(0xFF00 - (next << 8));
            self.ct = 8;
            self.place += 1;
        } else if next > 0x8F {
            self.ct = 8;
        } else {
            self.c = self.c.wrapping_add(0xFE00).wrapping_sub(next << 9);
            self.ct = 7;
            self.place += 1;
        }
    }

    #[inline(always)]
    fn decode(&mut self, context: &mut Context) -> u32 {
        let row = ROWS[usize::from(context.row)];
        let rest = self.a - row.qe;
        let is_below = self.c >> 16 < rest;
        if is_below && rest >= 0x8000 {
            self.a = rest;
            return u32::from(context.likely);
        }
        let is_likely = if is_below {
            self.a = rest;
            rest >= row.qe
        } else {
            self.c = self.c.wrapping_sub(rest << 16);
            self.a = row.qe;
            rest < row.qe
        };
        let symbol = context.likely == is_likely;
        if is_likely {
            context.row = row.likely;
        } else {
            context.row = row.unlikely;
            context.likely ^= row.switch;
        }
        self.renormalize();
        u32::from(symbol)
    }

    #[inline(always)]
    fn renormalize(&mut self) {
        while self.a < 0x8000 {
            if self.ct == 0 {
                self.byte_in();
            }
            let shifts = (self.a.leading_zeros() - 16).min(self.ct);
            self.a <<= shifts;
            self.c <<= shifts;
            self.ct -= shifts;
        }
    }
}

#[inline(never)]
fn count_ones(bytes: &[u8]) -> u32 {
    let mut decoder = Decoder::new(bytes);
    let mut contexts = [Context { row: 0, likely: false }; 1024];
    let mut history = 0u32;
    let mut ones = 0u32;
    for _ in 0..DECISIONS {
        let context = &mut contexts[(history % 1024) as usize];
        let decision = decoder.decode(context);
        history = history.wrapping_mul(2).wrapping_add(decision);
        ones = ones.wrapping_add(decision);
    }
    ones
}

fn main() -> std::io::Result<()> {
    let mut bytes = Vec::new();
    std::io::stdin().read_to_end(&mut bytes)?;
    let start = Instant::now();
    let ones = count_ones(&bytes);
    println!("{} {ones}", start.elapsed().as_micros());
    Ok(())
}
