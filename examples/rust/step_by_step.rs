//! Encodes a log and decodes it step by step: each event is pushed as it comes, each packet is packed and its payload
//! fed to a decoder, and the events that come out are those that went in.
//!
//!     step_by_step IMAGE

use std::{env, error, fs};
use tracebench::{DecoderState, Event, Mode, Packet, Piece};

/// The address of the image's first byte.
const BASE: u64 = 0x8000_0000;

/// The log of hart 1 of examples/two_harts: an uninferable jump leads back to the second instruction.
const ROWS: [(u64, u8); 4] = [(0, 0), (4, 0), (8, 6), (4, 0)];

/// The events that the payloads of packets settle.
fn fed(
    program: &[Piece<'_>],
    state: &mut DecoderState,
    packets: &[Packet],
) -> Result<Vec<Event>, Box<dyn error::Error>> {
    let mut settled = Vec::new();
    for packet in packets {
        let events = tracebench::feed(program, state, &tracebench::pack(packet)?)?;
        println!("packet of kind {}: {} events", packet.kind, events.len());
        settled.extend(events);
    }
    Ok(settled)
}

fn main() -> Result<(), Box<dyn error::Error>> {
    let image = fs::read(env::args().nth(1).ok_or("usage: step_by_step IMAGE")?)?;
    let program = [Piece::new(BASE, &image)];
    let events = ROWS.map(|(place, itype)| Event {
        itype,
        privilege: 3,
        address: BASE + place,
        ..Event::default()
    });
    let mut decoder = tracebench::decoder();
    let (mut encoder, opening) = tracebench::encoder(1024, Mode::Differential)?;
    let mut settled = fed(&program, &mut decoder, &[opening])?;
    for event in &events {
        let packets = tracebench::push(&program, &mut encoder, event)?;
        settled.extend(fed(&program, &mut decoder, &packets)?);
    }
    let packets = tracebench::finish(&program, &encoder)?;
    settled.extend(fed(&program, &mut decoder, &packets)?);
    for event in &settled {
        println!("{:x},{},{}", event.address, event.itype, event.privilege);
    }
    println!("as it was: {}", u8::from(settled == events));
    println!("phase {}", decoder.phase);
    Ok(())
}
