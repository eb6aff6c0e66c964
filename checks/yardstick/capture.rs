//! Captures: messages in a row, after a header.

use crate::decoder::Decoder;
use crate::encoder::encode;
use crate::log::Event;
use crate::out::Out;
use crate::packets::{pack, Payload, MOST};
use crate::program::Program;

const MARK: &[u8] = b"\xff\xffrvtrace2\0\0";

#[derive(Clone, Copy)]
pub struct Message {
    pub hart: u16,
    pub number: u64,
    pub payload: Payload,
}

/// How many bytes of a message are before its payload.
pub const HEAD: usize = 11;

/// The period and the count of harts of a capture in differential mode, and its messages.
pub fn parted(capture: &[u8]) -> Option<(u16, u16, &[u8])> {
    let (numbers, messages) = capture.strip_prefix(MARK)?.split_first_chunk::<4>()?;
    let number = |at: usize| u16::from_le_bytes([numbers[at], numbers[at + 1]]);
    Some((number(0), number(2), messages))
}

/// The first message of some bytes, and what follows it.
#[inline]
pub fn message(bytes: &[u8]) -> Option<(Message, &[u8])> {
    let padded = |_| {
        let mut padded = [0; HEAD + MOST];
        padded[..bytes.len()].copy_from_slice(bytes);
        padded
    };
    let first = bytes.first_chunk().copied().ok_or(()).unwrap_or_else(padded);
    let length = first[10];
    if length == 0 || usize::from(length) > MOST {
        return None;
    }
    let message = Message {
        hart: u16::from_le_bytes([first[0], first[1]]),
        number: u64::from_le_bytes(first[2..10].try_into().unwrap()),
        payload: Payload { bytes: first[HEAD..].try_into().unwrap(), length },
    };
    Some((message, bytes.get(HEAD + usize::from(length)..)?))
}

/// Hands on the messages of a hart's log.
#[inline]
pub fn messages_of(hart: u16, events: &[Event], period: u16, mut give: impl FnMut(Message)) {
    let mut number = 0;
    encode(events, period, |packet| {
        give(Message { hart, number, payload: pack(packet) });
        number += 1;
    });
}

/// Adds the capture of logs.
pub fn write(out: &mut Out, logs: &[Vec<Event>], period: u16) {
    out.text(MARK);
    out.text(&period.to_le_bytes());
    out.text(&(logs.len() as u16).to_le_bytes());
    for (hart, events) in logs.iter().enumerate() {
        messages_of(hart as u16, events, period, |Message { hart, number, payload }| {
            out.line(|line| {
                line.text(&hart.to_le_bytes());
                line.text(&number.to_le_bytes());
                line.text(&[payload.length]);
                line.first(payload.bytes, payload.length.into());
            });
        });
    }
}

/// The decoders of a capture's harts, once all messages are decoded.
pub fn decode<'p>(program: &'p Program, capture: &[u8]) -> Option<Vec<Decoder<'p>>> {
    let (_, harts, mut rest) = parted(capture)?;
    let mut decoders: Vec<Decoder> = (0..harts).map(|_| Decoder::new(program, 0)).collect();
    while !rest.is_empty() {
        let (message, others) = message(rest)?;
        decoders.get_mut(usize::from(message.hart))?.take(&message)?;
        rest = others;
    }
    Some(decoders)
}
