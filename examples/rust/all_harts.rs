//! Encodes the logs of two harts, and prints what `tracebench decode`, `list`, `measure` and `compare` print of them,
//! each by one call, and then why a log is illegal.
//!
//!     all_harts IMAGE LOG LOG

use std::error::Error;
use std::io::{stdout, Write};
use std::{env, fs};
use tracebench::{compare, decode_all, encode, explain, list, measure, Format, Mode, Piece, Version};

/// The address of the image's first byte.
const BASE: u64 = 0x8000_0000;

/// What `nm` prints of the program.
const SYMBOLS: &[u8] = b"0000000080000000 T start\n000000008000000c t loop\n";

/// A log that begins outside of the image.
const OUTSIDE: &[u8] = b"addr,itype,priv,cause,tval\n70000000,0,3,,\n";

fn main() -> Result<(), Box<dyn Error>> {
    let words: Vec<String> = env::args().collect();
    let [_, image, first, second] = &words[..] else {
        return Err("all_harts IMAGE LOG LOG".into());
    };
    let (image, first, second) = (fs::read(image)?, fs::read(first)?, fs::read(second)?);
    let program = [Piece::new(BASE, &image)];
    let logs = [&first[..], &second[..]];
    let refused = |(status, place): (tracebench::Status, tracebench::LogPlace)| {
        format!("log {} row {}: {status}", place.log, place.row)
    };
    let mode = Mode::Differential;
    let capture = encode(&program, &logs, 1024, mode, Version::Two).map_err(refused)?;
    let mut out = stdout();
    for (hart, (log, closed)) in decode_all(&program, 1, &capture)?.0.iter().enumerate() {
        writeln!(out, "hart {hart}")?;
        out.write_all(log)?;
        if !closed {
            writeln!(out, "hart {hart}: no closing packet")?;
        }
    }
    out.write_all(&list(&program, 1, &capture, SYMBOLS, Format::Text)?.0)?;
    out.write_all(&measure(&program, &logs, 1024, mode).map_err(refused)?)?;
    out.write_all(&compare(&program, 1, &capture, &logs).map_err(refused)?.0)?;
    let (text, ended) = explain(&program, OUTSIDE)?;
    let why = if ended.fault == 80 { "OffProgram" } else { "?" };
    writeln!(out, "row {}: {why}", ended.row)?;
    out.write_all(&text)?;
    Ok(())
}
