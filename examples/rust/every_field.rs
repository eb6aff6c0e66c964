//! Prints each struct that the calls write or read, field by field and by name. Any two fields of one struct that have
//! one type hold different numbers in some line. So a number in the place of another field changes what is printed.
//!
//!     every_field

use std::error::Error;
use tracebench::{audit_all, decode_all, dump, encode, pack, unpack};
use tracebench::{Compared, DecoderState, Event, HartEnd, Mode, Piece, Version};

/// The address of the image's first byte.
const BASE: u64 = 0x8000_0000;

/// A branch to itself.
const IMAGE: &[u8] = &[0x63, 0, 0, 0];

/// Packets of each kind: a payload is unpacked, and the packet packed again.
fn packets() -> Result<(), Box<dyn Error>> {
    let payloads: [&[u8]; 9] = [
        b"\x63\x03\0\0\x20",
        b"\xf7\x23\x02\0\0\x20",
        b"\xa7\x62\x40\0\0\x20",
        b"\xf7\x45\x40\0\0\x20",
        b"\xf7\0\0\x10\0\0\0\0\0\0\0\0\0\0\0\x40",
        b"\x1f\x01",
        b"\x0a\0\0\0\0\0\0\0\xfc",
        b"\x91\x40",
        b"\x81\x02",
    ];
    for payload in payloads {
        let packet = unpack(payload)?;
        println!("{packet:?}");
        assert_eq!(pack(&packet)?, payload);
    }
    Ok(())
}

/// What an encoder keeps, and the packets of branches, an exception and an interrupt in full-address mode.
fn encoder() -> Result<(), Box<dyn Error>> {
    let branch = Event {
        itype: 5,
        privilege: 3,
        address: BASE,
        ..Event::default()
    };
    let exception = Event {
        kind: 1,
        privilege: 3,
        cause: 13,
        address: BASE,
        tval: 0x1234,
        ..Event::default()
    };
    let interrupt = Event {
        kind: 1,
        privilege: 3,
        cause: 7,
        interrupt: 1,
        address: BASE + 256,
        ..Event::default()
    };
    let (mut state, opening) = tracebench::encoder(1024, Mode::Full)?;
    println!("{opening:?}\n{state:?}");
    for event in [branch, branch, branch, exception, interrupt] {
        for packet in tracebench::push(&[Piece::new(BASE, IMAGE)], &mut state, &event)? {
            println!("{packet:?}");
        }
        println!("{state:?}");
    }
    for packet in tracebench::finish(&[Piece::new(BASE, IMAGE)], &state)? {
        println!("{packet:?}");
    }
    Ok(())
}

/// Feeds a payload, and prints the events and the state.
fn feed(state: &mut DecoderState, payload: &[u8]) -> Result<(), Box<dyn Error>> {
    for event in tracebench::feed(&[Piece::new(BASE, IMAGE)], state, payload)? {
        println!("{event:?}");
    }
    println!("{state:?}");
    Ok(())
}

/// What a decoder keeps, after packets and while packets are passed over.
fn decoder() -> Result<(), Box<dyn Error>> {
    let mut state = tracebench::decoder();
    println!("{state:?}");
    for payload in [b"\x1f".as_slice(), b"\x63\0\0\0\x20", b"\x0d\x01"] {
        feed(&mut state, payload)?;
    }
    let mut state = DecoderState {
        phase: 2,
        mode: 1,
        ..tracebench::decoder()
    };
    feed(&mut state, b"\x0a")
}

/// The place of a log that is refused.
fn log_place() {
    let first = b"addr,itype,priv,cause,tval\n80000000,5,3,,\n";
    let second = b"addr,itype,priv,cause,tval\n80000000,5,3,,\n80000001,5,3,,\n";
    let logs = [first.as_slice(), second];
    match encode(&[Piece::new(BASE, IMAGE)], &logs, 1024, Mode::Full, Version::One) {
        Ok(_) => println!("a capture"),
        Err((_, place)) => println!("{place:?}"),
    }
}

/// A capture of version 1 of messages, each a hart, a number and a payload.
fn capture_of(messages: &[(u16, u64, &[u8])]) -> Vec<u8> {
    let mut capture = Vec::new();
    for (hart, number, payload) in messages {
        capture.extend(hart.to_le_bytes());
        capture.extend(number.to_le_bytes());
        capture.push(payload.len() as u8);
        capture.extend(*payload);
    }
    capture
}

/// How a dump and a decoding of captures end that are damaged.
fn ends() -> Result<(), Box<dyn Error>> {
    let mut capture = capture_of(&[(0, 0, b"\x1f"), (0, 1, b"\0")]);
    capture.push(0);
    println!("{:?}", dump(&capture)?.1);
    let capture = capture_of(&[
        (0, 0, b"\x1f"),
        (0, 1, b"\x63\0\0\0\x20"),
        (0, 2, b"\x05"),
        (0, 3, b"\x4f"),
        (1, 0, b"\x1f"),
        (1, 2, b"\x05"),
    ]);
    let (logs, ended) = decode_all(&[Piece::new(BASE, IMAGE)], 3, &capture)?;
    let (end, closed) = (logs[0].0.len(), logs[0].1.into());
    println!("{ended:?}\n{:?}", HartEnd { end, closed });
    Ok(())
}

/// Messages of harts by their numbers, each with a payload of one byte.
fn messages_of(rows: &[(u16, u64, u8)]) -> Vec<u8> {
    rows.iter()
        .flat_map(|(hart, number, byte)| capture_of(&[(*hart, *number, &[*byte])]))
        .collect()
}

/// A path that loses, repeats, delays and changes messages.
fn path() -> Result<(), Box<dyn Error>> {
    let mut sent: Vec<_> = (0..8).map(|n| (0, u64::from(n), b'a' + n)).collect();
    sent.insert(4, (1, 0, b'a'));
    let mut came = messages_of(&[
        (0, 0, b'a'),
        (0, 2, b'c'),
        (0, 1, b'b'),
        (9, 0, b'a'),
        (0, 0, b'a'),
        (0, 3, b'd'),
        (0, 3, b'd'),
        (1, 0, b'a'),
        (0, 5, b'x'),
        (0, 4, b'e'),
        (0, 1, b'b'),
        (9, 0, b'a'),
        (2, 0, b'a'),
        (0, 6, b'x'),
        (1, 1, b'a'),
        (0, 0, b'a'),
        (0, 4, b'e'),
    ]);
    came.push(0);
    let found = audit_all(&messages_of(&sent), &came, Compared::ByBytes).map_err(|(status, _)| status)?;
    println!("{:?}", found.rows[0].tally);
    Ok(())
}

fn main() -> Result<(), Box<dyn Error>> {
    packets()?;
    encoder()?;
    decoder()?;
    log_place();
    ends()?;
    path()
}
