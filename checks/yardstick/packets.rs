//! Packets and their payloads, in differential mode.

#[derive(Clone, Copy, PartialEq, Eq)]
pub enum Report {
    Plain,
    Notify,
    Updiscon,
}

/// Outcomes of branches: bit 0 is the oldest, and 1 says not taken.
#[derive(Clone, Copy, Default)]
pub struct Outcomes {
    pub map: u32,
    pub count: u32,
}

#[derive(Clone, Copy)]
pub enum Packet {
    Open,
    EndedRep,
    EndedNtr,
    Sync { address: u64, level: u8, branch: bool },
    Trap { interrupt: bool, cause: u8, value: u64, handler: bool, address: u64, level: u8, branch: bool },
    Address { outcomes: Outcomes, difference: u64, report: Report },
    Map { map: u32 },
}

pub const MOST: usize = 18;

/// What is behind the length is of no meaning.
#[derive(Clone, Copy)]
pub struct Payload {
    pub bytes: [u8; MOST],
    pub length: u8,
}

impl Payload {
    pub fn bytes(&self) -> &[u8] {
        &self.bytes[..usize::from(self.length)]
    }
}

/// The shortest bytes of a number.
#[inline]
fn shortest(number: i128) -> Payload {
    let length = (136 - (number ^ number >> 127).leading_zeros()) / 8;
    let mut bytes = [0; MOST];
    bytes[..16].copy_from_slice(&number.to_le_bytes());
    Payload { bytes, length: length as u8 }
}

/// What an address field holds of an address or a difference, with copies of its top bit after it.
#[inline]
fn halved(address: u64) -> i128 {
    (address as i64 >> 1).into()
}

/// The payload of an exception: 78 bits, and 64 of its value.
fn exception(head: i128, value: u64) -> Payload {
    let low = head & ((1 << 78) - 1) | i128::from(value) << 78;
    let high = (value as i64 >> 50) as i16;
    let mut payload = shortest(low);
    if i128::from(high) != low >> 127 {
        payload.bytes[16..].copy_from_slice(&high.to_le_bytes());
        payload.length = if i16::from(high as i8) == high { 17 } else { 18 };
    }
    payload
}

/// How many bits the map of so many outcomes has: 0, 1, 3, 7, 15 or 31.
#[inline]
fn map_width(count: u32) -> u32 {
    ((1u64 << (32 - count.leading_zeros())) - 1) as u32
}

#[inline]
pub fn pack(packet: Packet) -> Payload {
    match packet {
        Packet::Open => shortest(0x1f),
        Packet::EndedRep => shortest(0x4f),
        Packet::EndedNtr => shortest(0xcf),
        Packet::Sync { address, level, branch } => {
            shortest(halved(address) << 7 | 0b0011 | i128::from(branch) << 4 | i128::from(level) << 5)
        }
        Packet::Trap { interrupt, cause, value, handler, address, level, branch } => {
            let head = 0b0111
                | i128::from(branch) << 4
                | i128::from(level) << 5
                | i128::from(cause) << 7
                | i128::from(interrupt) << 13
                | i128::from(handler) << 14
                | halved(address) << 15;
            if interrupt {
                shortest(head)
            } else {
                exception(head, value)
            }
        }
        Packet::Address { outcomes: Outcomes { map, count }, difference, report } => {
            // Each of the bits `notify`, `updiscon` and `irreport` is as the one before, or turns with all after it.
            let turned = match report {
                Report::Plain => 0,
                Report::Notify => -1 << 63,
                Report::Updiscon => -1 << 64,
            };
            let field = halved(difference) ^ turned;
            shortest(if count == 0 {
                field << 2 | 2
            } else {
                field << (7 + map_width(count)) | i128::from(1 | u64::from(count) << 2 | u64::from(map) << 7)
            })
        }
        Packet::Map { map } => shortest(i128::from((u64::from(map) << 33) as i64 >> 26 | 1)),
    }
}

/// The outcomes of an address packet, and where its address field is.
#[inline(always)]
fn address_field(low: u64) -> Option<(Outcomes, u32)> {
    let count = low as u32 >> 2 & 31;
    match low & 3 {
        2 => Some((Outcomes::default(), 2)),
        1 if count > 0 => Some((Outcomes { map: (low >> 7) as u32 & ((1 << count) - 1), count }, 7 + map_width(count))),
        _ => None,
    }
}

/// The packet that a payload reads as.
#[inline(always)]
pub fn unpack(payload: &Payload) -> Option<Packet> {
    let cut = 64 - 8 * i32::from(payload.length);
    if cut >= 0 {
        let number = i64::from_le_bytes(*payload.bytes.first_chunk().unwrap()) << cut >> cut;
        // An address packet of at most eight bytes is plain.
        if let Some((outcomes, at)) = address_field(number as u64) {
            let difference = (number >> at << 1) as u64;
            return Some(Packet::Address { outcomes, difference, report: Report::Plain });
        }
    }
    unpack_any(payload)
}

#[inline(never)]
fn unpack_any(payload: &Payload) -> Option<Packet> {
    let (low, high) = payload.bytes.split_first_chunk().unwrap();
    let (number, high) = (i128::from_le_bytes(*low), i16::from_le_bytes([high[0], high[1]]));
    let cut = 128_u32.saturating_sub(8 * u32::from(payload.length));
    let (number, high) = match payload.length {
        18 => (number, high),
        17 => (number, (high as i8).into()),
        _ => (number << cut >> cut, (number << cut >> 127) as i16),
    };
    // Whether all bits from one on are the same.
    let fills = |at: u32| matches!(number >> at, 0 | -1) && i128::from(high) == number >> 127;
    let low = number as u64;
    let (level, branch) = ((low >> 5) as u8 & 3, low >> 4 & 1 == 1);
    match low & 15 {
        0b0011 if level != 2 && fills(69) => Some(Packet::Sync { address: ((number >> 7) as u64) << 1, level, branch }),
        0b0111 if level != 2 => {
            let (interrupt, handler, cause) = (low >> 13 & 1 == 1, low >> 14 & 1 == 1, (low >> 7) as u8 & 63);
            let is_good = if interrupt { fills(77) } else { high << 2 >> 2 == high };
            let value = if interrupt { 0 } else { (number as u128 >> 78) as u64 | (high as u64) << 50 };
            let address = ((number >> 15) as u64) << 1;
            is_good.then_some(Packet::Trap { interrupt, cause, value, handler, address, level, branch })
        }
        0b1111 if fills(127) => match number {
            0x1f => Some(Packet::Open),
            0x4f => Some(Packet::EndedRep),
            0xcf => Some(Packet::EndedNtr),
            _ => None,
        },
        _ if low & 0x7f == 1 => fills(37).then_some(Packet::Map { map: (low >> 7) as u32 & 0x7fff_ffff }),
        _ => {
            let (outcomes, at) = address_field(low).filter(|_| fills(127))?;
            let report = match (number >> (at + 62)) as i64 {
                0 | -1 => Report::Plain,
                1 | -2 => Report::Notify,
                3 | -4 => Report::Updiscon,
                _ => return None,
            };
            Some(Packet::Address { outcomes, difference: ((number >> at) as u64) << 1, report })
        }
    }
}
