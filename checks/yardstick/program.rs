//! The instructions of an image, each looked at once.

/// What the instructions of a class may retire as, a bit for each type.
pub const OTHER: i32 = 1;
pub const BRANCH: i32 = 1 << 4 | 1 << 5;
pub const UNINFERABLE: i32 = 1 << 6;
pub const RETURN: i32 = 1 << 3;
const TYPES: i32 = OTHER | BRANCH | UNINFERABLE | RETURN;

/// It leads to so many bytes from its own address on, and not from 0.
const RELATIVE: i32 = 1 << 7;
/// It has four bytes.
const LONG: i32 = 1 << 8;
/// A jump that does not lead to a higher address, or an `SRET`.
pub const SECOND: i32 = 1 << 9;

/// All levels, a bit each.
pub const LEVELS: u8 = 0b1011;

/// An instruction: what it is by the bits above, and from bit 11 on how far it leads, as an even number.
#[derive(Clone, Copy)]
pub struct Word(i32);

/// What is no instruction, or one that does not retire.
const NOTHING: Word = Word(0);

impl Word {
    /// Whether it has one of these bits.
    #[inline(always)]
    pub fn is(self, bits: i32) -> bool {
        self.0 & bits != 0
    }

    /// Whether it may retire as this type.
    #[inline(always)]
    pub fn may_be(self, itype: u8) -> bool {
        self.0 >> itype & 1 == 1
    }

    /// The type of its retirement.
    #[inline(always)]
    pub fn itype(self, is_taken: bool) -> u8 {
        (self.0 & TYPES).trailing_zeros() as u8 + u8::from(is_taken)
    }

    /// Where it leads from an address, retired as this type.
    #[inline(always)]
    pub fn next(self, address: u64, itype: u8) -> u64 {
        if itype == 4 {
            return address + (2 + (self.0 >> 7 & 2)) as u64;
        }
        (address & (self.0 as i8 >> 7) as u64).wrapping_add((self.0 >> 11) as u64)
    }

    /// The levels at which a return from a trap retires, and those after it: a bit each.
    #[inline(always)]
    pub fn levels(self) -> (u8, u8) {
        [(0b1000, LEVELS), (0b1010, 0b0011)][usize::from(self.is(SECOND))]
    }

    fn leading(class: i32, offset: i32) -> Word {
        Word(offset << 11 | class)
    }

    fn jump(address: u64, origin: i32, offset: i32) -> Word {
        let word = Word::leading(OTHER | origin, offset);
        let is_backward = word.next(address, 0) <= address;
        Word(word.0 | SECOND * i32::from(is_backward))
    }
}

pub struct Program {
    base: u64,
    words: Vec<Word>,
}

/// The signed number of so many bits that ranges of an instruction make: their highest and lowest bit, and the place.
#[inline(always)]
fn number<const N: usize>(code: u32, width: u32, ranges: [(u32, u32, u32); N]) -> i32 {
    let range = |(high, low, at): (u32, u32, u32)| (code >> low & ((2 << (high - low)) - 1)) << at;
    ((ranges.into_iter().map(range).sum::<u32>() << (32 - width)) as i32) >> (32 - width)
}

#[inline(always)]
fn short(half: u32, address: u64) -> Word {
    match (half & 3, half >> 13) {
        (1, 5) => {
            let ranges =
                [(12, 12, 11), (11, 11, 4), (10, 9, 8), (8, 8, 10), (7, 7, 6), (6, 6, 7), (5, 3, 1), (2, 2, 5)];
            Word::jump(address, RELATIVE, number(half, 12, ranges))
        }
        (1, 6 | 7) => {
            let ranges = [(12, 12, 8), (11, 10, 3), (6, 5, 6), (4, 3, 1), (2, 2, 5)];
            Word::leading(BRANCH | RELATIVE, number(half, 9, ranges))
        }
        (2, 4) if half & 0x7c == 0 && half & 0xf80 != 0 => Word(UNINFERABLE),
        _ if half == 0x9002 || half == 0 => NOTHING,
        _ => Word::leading(OTHER | RELATIVE, 2),
    }
}

#[inline(always)]
fn long(code: u32, address: u64) -> Word {
    match (code & 0x7f, code >> 12 & 7) {
        (0x6f, _) => {
            let ranges = [(31, 31, 20), (30, 21, 1), (20, 20, 11), (19, 12, 12)];
            Word::jump(address, RELATIVE | LONG, number(code, 21, ranges))
        }
        (0x67, 0) if code & 0xf_8000 == 0 => Word::jump(address, LONG, code as i32 >> 20 & !1),
        (0x67, 0) => Word(UNINFERABLE),
        (0x63, funct3) if funct3 != 2 && funct3 != 3 => {
            let ranges = [(31, 31, 12), (30, 25, 5), (11, 8, 1), (7, 7, 11)];
            Word::leading(BRANCH | RELATIVE | LONG, number(code, 13, ranges))
        }
        _ if code == 0x73 || code == 0x0010_0073 => NOTHING,
        _ if code == 0x1020_0073 => Word(RETURN | SECOND),
        _ if code == 0x3020_0073 => Word(RETURN),
        _ => Word::leading(OTHER | RELATIVE | LONG, 4),
    }
}

impl Program {
    pub fn new(base: u64, image: &[u8]) -> Program {
        let half = |bytes: &[u8]| u32::from(u16::from_le_bytes([bytes[0], bytes[1]]));
        let word = |(place, bytes): (usize, &[u8])| {
            let (low, address) = (half(bytes), base + 2 * place as u64);
            match low & 0x1f {
                0x1f => NOTHING,
                _ if low & 3 != 3 => short(low, address),
                _ if bytes.len() < 4 => NOTHING,
                _ => long(low | half(&bytes[2..]) << 16, address),
            }
        };
        let image = &image[..image.len() / 2 * 2];
        let pieces = image.windows(4).step_by(2).chain(image.rchunks(2).take(1));
        Program { base, words: pieces.enumerate().map(word).collect() }
    }

    /// The instruction at an address. That of an odd address would be far behind the last.
    #[inline(always)]
    pub fn at(&self, address: u64) -> Word {
        self.words.get(address.wrapping_sub(self.base).rotate_right(1) as usize).copied().unwrap_or(NOTHING)
    }
}
