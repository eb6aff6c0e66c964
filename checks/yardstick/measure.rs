//! The table of what logs cost: events, packets and payload bytes.

use crate::encoder::encode;
use crate::log::Event;
use crate::out::Out;
use crate::packets::{pack, Packet, Report};

const NAMES: &[u8] = b"hart,events,retirements,traps,branches,packets,support,sync,trap,address,map,notify,\
    updiscon,payload_bytes,longest,bits_per_retirement\n";

/// The numbers of a row, in the order of `NAMES`.
type Row = [u64; 14];

fn measured(events: &[Event], period: u16) -> Row {
    let (mut traps, mut branches) = (0, 0);
    for event in events {
        match event {
            Event::Retire { itype, .. } => branches += u64::from(itype >> 1 == 2),
            Event::Trap { .. } => traps += 1,
        }
    }
    let [mut support, mut sync, mut trap, mut address, mut map, mut notify, mut updiscon] = [0; 7];
    let (mut bytes, mut longest) = (0, 0);
    encode(events, period, |packet| {
        match packet {
            Packet::Open | Packet::EndedRep | Packet::EndedNtr => support += 1,
            Packet::Sync { .. } => sync += 1,
            Packet::Trap { .. } => trap += 1,
            Packet::Map { .. } => map += 1,
            Packet::Address { report, .. } => {
                address += 1;
                notify += u64::from(report == Report::Notify);
                updiscon += u64::from(report == Report::Updiscon);
            }
        }
        let length = u64::from(pack(packet).length);
        bytes += length;
        longest = length.max(longest);
    });
    let (count, packets) = (events.len() as u64, support + sync + trap + address + map);
    let retirements = count - traps;
    [count, retirements, traps, branches, packets, support, sync, trap, address, map, notify, updiscon, bytes, longest]
}

fn write(out: &mut Out, name: &str, row: &Row) {
    out.text(name.as_bytes());
    for number in row {
        out.text(format!(",{number}").as_bytes());
    }
    let [_, retirements, .., bytes, _] = row;
    let thousandths = (8000 * bytes).checked_div(*retirements);
    let bits = thousandths.map_or(String::new(), |it| format!("{}.{:03}", it / 1000, it % 1000));
    out.text(format!(",{bits}\n").as_bytes());
}

/// Adds the table of logs.
pub fn measure(out: &mut Out, logs: &[Vec<Event>], period: u16) {
    out.text(NAMES);
    let mut all = [0; 14];
    for (hart, events) in logs.iter().enumerate() {
        let row = measured(events, period);
        write(out, &hart.to_string(), &row);
        let longest = all[13].max(row[13]);
        all.iter_mut().zip(row).for_each(|(sum, number)| *sum += number);
        all[13] = longest;
    }
    if logs.len() > 1 {
        write(out, "all", &all);
    }
}
