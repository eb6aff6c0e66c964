//! Encodes the logs of two harts, dumps and decodes the capture, loses a message of it, and audits and decodes what
//! came.
//!
//!     round_trip IMAGE LOG LOG

use std::error::Error;
use std::io::{stdout, Write};
use std::{env, fs};
use tracebench::{audit_all, check, decode_all, dump, encode, pack, unpack};
use tracebench::{Compared, Mode, Packet, Piece, Status, Version};

/// The address of the image's first byte.
const BASE: u64 = 0x8000_0000;

/// Prints the log of each hart of a capture, and how decoding ended.
fn show_logs(program: &[Piece<'_>], capture: &[u8]) -> Result<(), Box<dyn Error>> {
    let (logs, ended) = decode_all(program, 2, capture)?;
    for (hart, (text, closed)) in logs.iter().enumerate() {
        println!(
            "hart {hart} of {}: closed {}, ends at message {} with status {}",
            ended.harts,
            u8::from(*closed),
            ended.place,
            ended.fault
        );
        stdout().write_all(text)?;
    }
    Ok(())
}

/// Prints what became of the messages of each hart.
fn show_audit(sent: &[u8], received: &[u8]) -> Result<(), Status> {
    let found = audit_all(sent, received, Compared::ByBytes).map_err(|(status, _)| status)?;
    for (hart, row) in found.rows.iter().enumerate() {
        println!(
            "hart {hart} of {}: {} sent, {} came, {} lost, whole {}, strangers {}",
            found.ended.harts,
            row.tally.sent,
            row.tally.came,
            row.tally.lost,
            row.tally.whole,
            found.ended.strangers
        );
    }
    Ok(())
}

/// A capture with a header of 16 bytes, without its second message. A message has 11 bytes before its payload, the last
/// of which is the payload's length.
fn without_second(capture: &[u8]) -> Vec<u8> {
    let behind = |at: usize| at + 11 + usize::from(capture[at + 10]);
    let second = behind(16);
    [&capture[..second], &capture[behind(second)..]].concat()
}

fn main() -> Result<(), Box<dyn Error>> {
    let words: Vec<String> = env::args().collect();
    let [_, image, first, second] = &words[..] else {
        return Err("round_trip IMAGE LOG LOG".into());
    };
    let (image, first, second) = (fs::read(image)?, fs::read(first)?, fs::read(second)?);
    let program = [Piece::new(BASE, &image)];
    match check(&program, &first) {
        Ok(row) => println!("check: status 0, row {row}"),
        Err((status, row)) => println!("check: {status}, row {row}"),
    }
    let logs = [&first[..], &second[..]];
    let capture = encode(&program, &logs, 1024, Mode::Differential, Version::Two)
        .map_err(|(status, place)| format!("log {} row {}: {status}", place.log, place.row))?;
    println!("capture of {} bytes", capture.len());
    let (text, ended) = dump(&capture)?;
    stdout().write_all(&text)?;
    println!(
        "bad {}, ends at message {} with status {}",
        ended.bad, ended.place, ended.fault
    );
    show_logs(&program, &capture)?;
    let received = without_second(&capture);
    println!("without the second message");
    show_audit(&capture, &received)?;
    show_logs(&program, &received)?;
    let payload = pack(&Packet::sync(BASE, 3))?;
    println!("pack: status 0, {} bytes", payload.len());
    println!("unpack: status 0, address {:x}", unpack(&payload)?.address);
    Ok(())
}
