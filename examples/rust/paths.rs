//! Makes a capture of lines, reads its header and its messages, and writes what a path made of them, message by
//! message: some are lost, late, repeated, changed or of a hart that is none, and five bytes are of no message. Prints
//! what `tracebench audit` and `tracebench audit --unnumbered` find of that path, each by one call: each struct field
//! by field and by name.
//!
//!     paths

use std::error::Error;
use std::fmt::Debug;
use tracebench::{
    audit_all, capture_of_lines, read_header, read_message, write_header,
    write_message, Compared, Header, Mode, SentPlace, Status, Version,
};

/// How many bytes a header has.
const HEADER: usize = 16;

/// What was sent: messages of one byte, of two harts.
const LINES: &[u8] =
    b"0 61\n1 41\n0 62\n1 42\n0 63\n1 43\n0 64\n0 65\n0 66\n0 67\n0 68\n0 69\n0 6a\n0 6b\n0 6c\n";

/// A message that came: its hart, its number and the one byte of its payload.
type Came = (u16, u64, u8);

/// What came of it: up to five bytes of no message, and after them.
const FIRST_CAME: [Came; 10] = [
    (0, 0, b'a'),
    (1, 0, b'A'),
    (0, 1, b'b'),
    (1, 1, b'B'),
    (0, 3, b'd'),
    (0, 7, b'h'),
    (0, 2, b'c'),
    (2, 0, b'a'),
    (0, 0, b'a'),
    (1, 1, b'B'),
];
const THEN_CAME: [Came; 8] = [
    (0, 8, b'i'),
    (0, 9, b'x'),
    (0, 10, b'k'),
    (0, 10, b'k'),
    (1, 1, b'B'),
    (0, 11, b'l'),
    (1, 2, b'x'),
    (2, 1, b'a'),
];

/// Why SENT is refused, as an error.
fn refused((status, place): (Status, SentPlace)) -> String {
    format!("message {}: {status}", place.message)
}

/// Prints the header and each message of a capture.
fn read_capture(capture: &[u8]) -> Result<(), Box<dyn Error>> {
    let (header, mut left) = read_header(capture)?.ok_or("no header")?;
    println!("{header:?}");
    while let Some((message, after)) = read_message(left)? {
        let payload: String = message
            .payload_bytes()
            .iter()
            .map(|byte| format!("{byte:02x}"))
            .collect();
        println!(
            "Message {{ number: {}, payload_length: {}, hart: {}, payload: {payload} }}",
            message.number, message.payload_length, message.hart
        );
        left = after;
    }
    Ok(())
}

/// The bytes of messages.
fn written(messages: &[Came]) -> Result<Vec<u8>, Status> {
    let parts: Result<Vec<_>, _> = messages
        .iter()
        .map(|(hart, number, byte)| write_message(*hart, *number, &[*byte]))
        .collect();
    Ok(parts?.concat())
}

/// What came, after a header of its own.
fn received() -> Result<Vec<u8>, Status> {
    let header = Header {
        mode: Mode::Differential as u32,
        period: 7,
        harts: 3,
    };
    Ok([
        write_header(&header)?,
        written(&FIRST_CAME)?,
        vec![0xee; 5],
        written(&THEN_CAME)?,
    ]
    .concat())
}

fn print_each<T: Debug>(items: &[T]) {
    for item in items {
        println!("{item:?}");
    }
}

/// Audits a path, by numbers and by payloads alone. Prints all that is found, or the ends.
fn audit(sent: &[u8], came: &[u8], all: bool) -> Result<(), Box<dyn Error>> {
    for how in [Compared::ByBytes, Compared::UnnumberedByBytes] {
        let found = audit_all(sent, came, how).map_err(refused)?;
        if all {
            print_each(&found.rows);
            print_each(&found.arrivals);
            print_each(&found.lost);
            print_each(&found.runs);
        }
        println!("{:?}", found.ended);
    }
    Ok(())
}

fn main() -> Result<(), Box<dyn Error>> {
    let lined = |text| capture_of_lines(text, Version::Two, Mode::Full, 5, 0, 0);
    let sent = lined(LINES).map_err(|(status, line)| format!("line {line}: {status}"))?;
    read_capture(&sent)?;
    // A second line with a number and no bytes.
    match lined(b"0 61\n0 1 62\n") {
        Ok(_) => println!("a capture"),
        Err((status, line)) => println!("line {line}: {status}"),
    }
    let came = received()?;
    audit(&sent, &came, true)?;
    // RECEIVED has no header; SENT has none, and the period of RECEIVED's is 0; and all came.
    audit(&sent, &came[HEADER..], false)?;
    let mut bad = sent[..HEADER].to_vec();
    bad[12..14].fill(0);
    audit(&sent[HEADER..], &bad, false)?;
    audit(&sent, &sent, false)?;
    // The last message of SENT is not the next of its hart.
    let sent = written(&[(0, 0, b'a'), (1, 0, b'A'), (0, 1, b'b'), (1, 3, b'D')])?;
    match audit_all(&sent, &sent, Compared::ByBytes) {
        Ok(_) => println!("a path"),
        Err((_, place)) => println!("{place:?}"),
    }
    Ok(())
}
