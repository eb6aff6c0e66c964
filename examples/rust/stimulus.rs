//! As examples/c/stimulus.c.

use tracebench::{EncoderState, Event, Mix, Mode, Packet, Piece, Status, WalkState};

/// What is kept of a hart that sends.
struct Sender {
    walk: WalkState,
    encoder: EncoderState,
    number: u64,
}

impl Sender {
    fn send(&mut self, packets: &[Packet]) -> Result<(), Status> {
        for packet in packets {
            let payload = tracebench::pack(packet)?;
            let digits: String = payload.iter().map(|byte| format!("{byte:02x}")).collect();
            println!("{} {} {digits}", self.walk.hart, self.number);
            self.number += 1;
        }
        Ok(())
    }
}

fn main() -> Result<(), Status> {
    let image = tracebench::generate_image(Mix::Mixed, 1)?;
    let program = [Piece::new(0x8000_0000, &image)];
    let mut harts = Vec::new();
    for hart in 0..3 {
        let (encoder, opening) = tracebench::encoder(64, Mode::Differential)?;
        let mut sender = Sender {
            walk: WalkState::new(Mix::Mixed, 1, hart),
            encoder,
            number: 0,
        };
        sender.send(&[opening])?;
        harts.push(sender);
    }
    let mut events = [Event::default(); 8];
    for _ in 0..4 {
        for hart in &mut harts {
            tracebench::generate_events(&program, &mut hart.walk, &mut events)?;
            for event in &events {
                let due = tracebench::push(&program, &mut hart.encoder, event)?;
                hart.send(&due)?;
            }
        }
    }
    for hart in &mut harts {
        let left = tracebench::finish(&program, &hart.encoder)?;
        hart.send(&left)?;
    }
    Ok(())
}
