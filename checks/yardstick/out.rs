//! Output in chunks, and the lines in them.

use std::io::Write;

const CHUNK: usize = 1 << 16;
/// The most bytes that one line adds, with what is written after its end.
const ROOM: usize = 256;

pub struct Out<'w> {
    to: &'w mut dyn Write,
    chunk: Box<[u8; CHUNK + ROOM]>,
    length: usize,
    is_good: bool,
}

impl<'w> Out<'w> {
    pub fn new(to: &'w mut dyn Write) -> Self {
        Out { to, chunk: Box::new([0; CHUNK + ROOM]), length: 0, is_good: true }
    }

    /// Adds what is filled into a line of at most 256 bytes.
    #[inline]
    pub fn line(&mut self, fill: impl FnOnce(&mut Line)) {
        if self.length >= CHUNK {
            self.finish();
        }
        let bytes = self.chunk[self.length..].first_chunk_mut().expect("a chunk ends with room for a line");
        let mut line = Line { bytes, length: 0 };
        fill(&mut line);
        self.length += line.length;
    }

    pub fn text(&mut self, text: &[u8]) {
        for part in text.chunks(ROOM) {
            self.line(|line| {
                line.bytes[..part.len()].copy_from_slice(part);
                line.length = part.len();
            });
        }
    }

    /// Hands on what was added, and says whether all could be written.
    pub fn finish(&mut self) -> bool {
        self.is_good &= self.to.write_all(&self.chunk[..self.length]).is_ok();
        self.length = 0;
        self.is_good
    }
}

pub struct Line<'a> {
    bytes: &'a mut [u8; ROOM],
    length: usize,
}

impl Line<'_> {
    /// Adds the first bytes of some, as many as `count` says.
    #[inline(always)]
    pub fn first<const N: usize>(&mut self, bytes: [u8; N], count: usize) {
        self.bytes[self.length..self.length + N].copy_from_slice(&bytes);
        self.length += count;
    }

    #[inline]
    pub fn text<const N: usize>(&mut self, text: &[u8; N]) {
        self.first(*text, N);
    }

    /// Adds a number's hexadecimal digits, eight at once.
    #[inline(always)]
    pub fn hexadecimal(&mut self, number: u64) {
        let mut count = (67 - (number | 1).leading_zeros() as usize) / 4;
        if count > 8 {
            self.low_digits((number >> 32) as u32, count - 8);
            count = 8;
        }
        self.low_digits(number as u32, count);
    }

    /// Adds so many of the low digits of a number.
    #[inline(always)]
    fn low_digits(&mut self, number: u32, count: usize) {
        self.first((eight_digits(number) >> (64 - 8 * count)).to_le_bytes(), count);
    }

    /// Adds a number's decimal digits, eight at once.
    #[inline]
    pub fn decimal(&mut self, number: u64) {
        let low = eight_decimals((number % 100_000_000) as u32);
        if number < 100_000_000 {
            let zeros = low.trailing_zeros().min(56) / 8;
            self.first((low + all(b'0') >> (8 * zeros)).to_le_bytes(), 8 - zeros as usize);
        } else {
            self.decimal(number / 100_000_000);
            self.first((low + all(b'0')).to_le_bytes(), 8);
        }
    }
}

/// Eight copies of a byte.
pub const fn all(byte: u8) -> u64 {
    u64::from_le_bytes([byte; 8])
}

/// The values of the eight decimal digits of a number, the first in the lowest byte.
#[inline(always)]
fn eight_decimals(number: u32) -> u64 {
    let fours = u64::from(number / 10_000) | u64::from(number % 10_000) << 32;
    let hundreds = fours * 5243 >> 19 & 0x7f_0000_007f;
    let pairs = hundreds | (fours - hundreds * 100) << 16;
    let tens = pairs * 103 >> 10 & 0x000f_000f_000f_000f;
    tens | (pairs - tens * 10) << 8
}

/// The digits of a number of 32 bits, the first in the lowest byte.
#[inline(always)]
fn eight_digits(number: u32) -> u64 {
    let mut spread = u64::from(number);
    spread = (spread | spread << 16) & 0x0000_ffff_0000_ffff;
    spread = (spread | spread << 8) & 0x00ff_00ff_00ff_00ff;
    spread = (spread | spread << 4) & 0x0f0f_0f0f_0f0f_0f0f;
    let letters = (spread + all(6)) >> 4 & all(1);
    (spread + all(b'0') + letters * 39).swap_bytes()
}
