//! The text of a capture's packets.

use crate::capture::{message, parted};
use crate::out::{Line, Out};
use crate::packets::{unpack, Outcomes, Packet, Report};

/// Adds a line for each message.
pub fn dump(out: &mut Out, capture: &[u8]) -> Option<bool> {
    let (period, harts, mut rest) = parted(capture)?;
    out.text(format!("capture 2 mode=diff period={period} harts={harts}\n").as_bytes());
    while !rest.is_empty() {
        let (message, others) = message(rest)?;
        let packet = unpack(&message.payload)?;
        out.line(|line| {
            line.decimal(message.hart.into());
            line.text(b" ");
            line.decimal(message.number);
            write(line, packet);
            line.text(b"\n");
        });
        rest = others;
    }
    Some(true)
}

fn write(line: &mut Line, packet: Packet) {
    match packet {
        Packet::Open => line.text(b" open"),
        Packet::EndedRep => line.text(b" close ended_rep"),
        Packet::EndedNtr => line.text(b" close ended_ntr"),
        Packet::Sync { address, level, branch } => {
            line.text(b" sync addr=");
            place(line, address, level, branch);
        }
        Packet::Trap { interrupt, cause, value, handler, address, level, branch } => {
            line.text(if interrupt { b" trap interrupt cause=" } else { b" trap exception cause=" });
            line.hexadecimal(cause.into());
            if !interrupt {
                line.text(b" tval=");
                line.hexadecimal(value);
            }
            match handler {
                true => line.text(b" handler="),
                false => line.text(b" epc="),
            }
            place(line, address, level, branch);
        }
        Packet::Address { outcomes, difference, report } => {
            line.text(b" address diff=");
            line.hexadecimal(difference);
            line.text(b" map=");
            bits(line, outcomes);
            match report {
                Report::Plain => line.text(b" plain"),
                Report::Notify => line.text(b" notify"),
                Report::Updiscon => line.text(b" updiscon"),
            }
        }
        Packet::Map { map } => {
            line.text(b" map ");
            bits(line, Outcomes { map, count: 31 });
        }
    }
}

fn place(line: &mut Line, address: u64, level: u8, branch: bool) {
    line.hexadecimal(address);
    line.text(&[b' ', b'p', b'r', b'i', b'v', b'=', b'0' + level]);
    line.text(if branch { b" branch=1" } else { b" branch=0" });
}

/// Adds outcomes, a digit each, eight at once.
fn bits(line: &mut Line, Outcomes { map, count }: Outcomes) {
    if count == 0 {
        line.text(b"-");
    }
    for (place, byte) in (0..count as usize).step_by(8).zip(map.to_le_bytes()) {
        let apart = u64::from(byte) * 0x0101_0101_0101_0101 & 0x8040_2010_0804_0201;
        let digits = ((apart + 0x7f7f_7f7f_7f7f_7f7f) >> 7 & 0x0101_0101_0101_0101) + 0x3030_3030_3030_3030;
        line.first(digits.to_le_bytes(), (count as usize - place).min(8));
    }
}
