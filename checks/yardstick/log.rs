//! Events and their text.

use crate::out::{all, Out};

#[derive(Clone, Copy, PartialEq, Eq)]
pub enum Event {
    Retire { address: u64, itype: u8, level: u8 },
    Trap { epc: u64, level: u8, interrupt: bool, cause: u8, value: u64 },
}

const HEADER: &[u8] = b"addr,itype,priv,cause,tval\n";

/// What follows the address of a retirement, with type and level 0, in eight bytes.
const TAIL: u64 = u64::from_le_bytes(*b",0,0,,\n\0");

/// The number that eight hexadecimal digits spell, the first in the lowest byte.
#[inline(always)]
fn eight_digits(digits: u64) -> Option<u32> {
    let letters = digits >> 6 & all(1);
    let values = (digits & all(0xf)) + letters * 9;
    // The high half is 3, or 6 of a letter. The values from 10 to 15 are the letters'.
    let high = digits & all(0xf0) ^ (all(0x30) + letters * 0x30);
    let wrong = high | ((values + all(6)) ^ letters << 4 | values) & all(0x10);
    let pairs = (values << 4 | values >> 8) & 0x00ff_00ff_00ff_00ff;
    let fours = (pairs << 8 | pairs >> 16) & 0x0000_ffff_0000_ffff;
    (wrong == 0).then_some((fours << 16 | fours >> 32) as u32)
}

/// The retirement of a row whose address has 8 or 16 digits, and the length of its line.
#[inline(always)]
fn retirement(text: &[u8]) -> Option<(Event, usize)> {
    let bytes: &[u8; 24] = text.first_chunk()?;
    let eight = |at: usize| u64::from_le_bytes(bytes[at..at + 8].try_into().unwrap());
    let (mut address, mut at) = (u64::from(eight_digits(eight(0))?), 8);
    if bytes[8] != b',' {
        (address, at) = (address << 32 | u64::from(eight_digits(eight(8))?), 16);
    }
    let tail = eight(at) ^ TAIL;
    let (itype, level) = ((tail >> 8) as u8, (tail >> 24) as u8);
    let is_retirement = tail & 0x00ff_ffff_f8ff_f8ff == 0 && 0b0111_1001 >> itype & 0b1011 >> level & !address & 1 == 1;
    is_retirement.then_some((Event::Retire { address, itype, level }, at + 7))
}

/// The number that hexadecimal digits spell from a place on, if there are 1 to 16, and the place after them.
#[inline]
fn number(text: &[u8], mut at: usize) -> Option<(Option<u64>, usize)> {
    let (first, mut value) = (at, 0u64);
    while let Some(&byte) = text.get(at) {
        let digit = match byte {
            b'0'..=b'9' => byte - b'0',
            b'a'..=b'f' => byte - b'a' + 10,
            _ => break,
        };
        value = value << 4 | u64::from(digit);
        at += 1;
    }
    (at - first <= 16).then_some(((at > first).then_some(value), at))
}

/// The event of any row, and the length of its line. Only rows as `write` writes them are read.
#[cold]
fn row(text: &[u8]) -> Option<(Event, usize)> {
    let (address, at) = number(text, 0)?;
    let rest = text.get(at..at + 5)?;
    let (itype, level) = (rest[1].wrapping_sub(b'0'), rest[3].wrapping_sub(b'0'));
    if rest[0] != b',' || rest[2] != b',' || rest[4] != b',' || itype > 6 || level > 3 || level == 2 {
        return None;
    }
    let (cause, at) = number(text, at + 5)?;
    let (value, at) = number(text, at + usize::from(*text.get(at)? == b','))?;
    let address = address.filter(|it| it % 2 == 0)?;
    let cause = cause.map(|it| u8::try_from(it).ok().filter(|it| *it < 64));
    let event = match (itype, cause, value) {
        (1, Some(cause), Some(value)) => Event::Trap { epc: address, level, interrupt: false, cause: cause?, value },
        (2, Some(cause), None) => Event::Trap { epc: address, level, interrupt: true, cause: cause?, value: 0 },
        (0 | 3..=6, None, None) => Event::Retire { address, itype, level },
        _ => return None,
    };
    match text.get(at) {
        Some(b'\n') => Some((event, at + 1)),
        None => Some((event, at)),
        Some(_) => None,
    }
}

/// What takes events one after another.
pub trait Taker {
    fn take(&mut self, event: Event);
}

impl Taker for Vec<Event> {
    #[inline(always)]
    fn take(&mut self, event: Event) {
        self.push(event);
    }
}

/// Hands on the events of a log's text, and returns what took them.
#[inline(always)]
pub fn each<T: Taker>(text: &[u8], mut to: T) -> Option<T> {
    let mut rest = text.strip_prefix(HEADER)?;
    while !rest.is_empty() {
        while let Some((event, length)) = retirement(rest) {
            to.take(event);
            rest = &rest[length..];
        }
        if !rest.is_empty() {
            let (event, length) = row(rest)?;
            to.take(event);
            rest = &rest[length..];
        }
    }
    Some(to)
}

/// No event yet, and memory for those of a log's text.
pub fn none_of(text: &[u8]) -> Vec<Event> {
    Vec::with_capacity(text.len() / 15 + 1)
}

/// Adds the text of a log.
pub fn write(out: &mut Out, events: &[Event]) {
    out.text(HEADER);
    for event in events {
        out.line(|line| match *event {
            Event::Retire { address, itype, level } => {
                line.hexadecimal(address);
                line.first((TAIL + (u64::from(itype) << 8) + (u64::from(level) << 24)).to_le_bytes(), 7);
            }
            Event::Trap { epc, level, interrupt, cause, value } => {
                line.hexadecimal(epc);
                line.text(&[b',', b'1' + u8::from(interrupt), b',', b'0' + level, b',']);
                line.hexadecimal(cause.into());
                line.text(b",");
                if !interrupt {
                    line.hexadecimal(value);
                }
                line.text(b"\n");
            }
        });
    }
}
