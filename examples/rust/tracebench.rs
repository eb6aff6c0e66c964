//! A safe wrapper over the bench for C, with `std` alone. `include/tracebench.h` says what each call promises.
//!
//! A slice of Rust is never null, and what a call writes is borrowed by `&mut`, so it overlaps nothing. That is all
//! that the header asks of a caller in one thread.
#![warn(missing_docs)]

use std::marker::PhantomData;
use std::mem::size_of;
use std::{error, fmt};

/// Why a call gives no answer: a status of the header that is not `TRACEBENCH_DONE`.
#[derive(Clone, Copy, Debug, PartialEq, Eq)]
pub struct Status(pub u32);

const DONE: Status = Status(0);
const TOO_SMALL: Status = Status(1);

impl fmt::Display for Status {
    fn fmt(&self, f: &mut fmt::Formatter<'_>) -> fmt::Result {
        write!(f, "status {}", self.0)
    }
}

impl error::Error for Status {}

/// What address fields hold.
#[derive(Clone, Copy, Debug, PartialEq, Eq)]
#[repr(u32)]
pub enum Mode {
    /// Differences.
    Differential = 0,
    /// Addresses.
    Full = 1,
}

/// The version of a capture.
#[derive(Clone, Copy, Debug, PartialEq, Eq)]
#[repr(u32)]
pub enum Version {
    /// Without a header.
    One = 1,
    /// With a header.
    Two = 2,
}

/// A packet as numbers, `struct tracebench_packet`. What a packet of this kind does not have is 0.
#[derive(Clone, Copy, Debug, Default, PartialEq, Eq)]
#[repr(C)]
#[allow(missing_docs)]
pub struct Packet {
    pub kind: u32,
    pub taken: u32,
    pub privilege: u32,
    pub cause: u32,
    pub interrupt: u32,
    pub handler: u32,
    pub mode: u32,
    pub report: u32,
    pub outcomes: u32,
    pub map: u32,
    pub address: u64,
    pub tval: u64,
}

impl Packet {
    /// A packet that says where the trace is.
    pub fn sync(address: u64, privilege: u32) -> Packet {
        Packet {
            kind: 0,
            privilege,
            address,
            ..Packet::default()
        }
    }
}

/// An event as numbers, `struct tracebench_event`. What an event of this kind does not have is 0.
#[derive(Clone, Copy, Debug, Default, PartialEq, Eq)]
#[repr(C)]
#[allow(missing_docs)]
pub struct Event {
    pub kind: u32,
    pub itype: u8,
    pub privilege: u8,
    pub cause: u8,
    pub interrupt: u8,
    pub address: u64,
    pub tval: u64,
}

/// What an encoder keeps from one event to the next, `struct tracebench_encoder_state`.
#[derive(Clone, Copy, Debug, Default, PartialEq, Eq)]
#[repr(C)]
#[allow(missing_docs)]
pub struct EncoderState {
    pub between: u16,
    pub left: u16,
    pub mode: u32,
    pub holds: u32,
    pub due: u32,
    pub outcomes: u32,
    pub map: u32,
    pub reported: u64,
    pub held: Event,
}

/// What a decoder keeps from one payload to the next, `struct tracebench_decoder_state`.
#[derive(Clone, Copy, Debug, Default, PartialEq, Eq)]
#[repr(C)]
#[allow(missing_docs)]
pub struct DecoderState {
    pub phase: u32,
    pub mode: u32,
    pub is_announced: u32,
    pub announced: u32,
    pub has_last: u32,
    pub waits: u32,
    pub outcomes: u32,
    pub map: u32,
    pub delta: u64,
    pub reported: u64,
    pub last: Event,
}

/// What a program does that is generated, and how the harts behave that run it.
#[derive(Clone, Copy, Debug, PartialEq, Eq)]
#[repr(u32)]
#[allow(missing_docs)]
pub enum Mix {
    Mixed = 0,
    Branches = 1,
    Jumps = 2,
    Traps = 3,
    Longest = 4,
    Straight = 5,
}

/// The walk of a hart through a program, `struct tracebench_walk_state`.
#[derive(Clone, Copy, Debug, Default, PartialEq, Eq)]
#[repr(C)]
#[allow(missing_docs)]
pub struct WalkState {
    pub seed: u64,
    pub random: u64,
    pub at: u64,
    pub mix: u32,
    pub hart: u16,
    pub privilege: u8,
    pub next: u8,
}

impl WalkState {
    /// The walk of a hart before its first event.
    pub fn new(mix: Mix, seed: u64, hart: u16) -> WalkState {
        WalkState {
            seed,
            mix: mix as u32,
            hart,
            ..WalkState::default()
        }
    }
}

/// The log, counted from 0, and its row, counted from 1, that are at fault; 0 where none is named.
#[derive(Clone, Copy, Debug, Default, PartialEq, Eq)]
#[repr(C)]
#[allow(missing_docs)]
pub struct LogPlace {
    pub log: u64,
    pub row: u64,
}

/// How a dump ends, `struct tracebench_dump_end`.
#[derive(Clone, Copy, Debug, Default, PartialEq, Eq)]
#[repr(C)]
#[allow(missing_docs)]
pub struct DumpEnd {
    pub place: u64,
    pub fault: u32,
    pub bad: u32,
}

/// What became of the messages of a hart, `struct tracebench_tally`.
#[derive(Clone, Copy, Debug, Default, PartialEq, Eq)]
#[repr(C)]
#[allow(missing_docs)]
pub struct Tally {
    pub sent: u64,
    pub came: u64,
    pub lost: u64,
    pub repeated: u64,
    pub late: u64,
    pub changed: u64,
    pub whole: u32,
}

/// Where the text of a hart ends, and whether the hart is closed, `struct tracebench_hart_end`.
#[derive(Clone, Copy, Debug, Default, PartialEq, Eq)]
#[repr(C)]
#[allow(missing_docs)]
pub struct HartEnd {
    pub end: usize,
    pub closed: u32,
}

/// How decoding a capture ends for all harts, `struct tracebench_decode_all_end`.
#[derive(Clone, Copy, Debug, Default, PartialEq, Eq)]
#[repr(C)]
#[allow(missing_docs)]
pub struct DecodeAllEnd {
    pub harts: usize,
    pub place: u64,
    pub fault: u32,
}

/// How a text about a capture ends, `struct tracebench_text_end`.
#[derive(Clone, Copy, Debug, Default, PartialEq, Eq)]
#[repr(C)]
#[allow(missing_docs)]
pub struct TextEnd {
    pub harts: usize,
    pub unclosed: usize,
    pub place: u64,
    pub fault: u32,
    pub whole: u32,
}

/// How a log ends that is explained, `struct tracebench_explain_end`.
#[derive(Clone, Copy, Debug, Default, PartialEq, Eq)]
#[repr(C)]
#[allow(missing_docs)]
pub struct ExplainEnd {
    pub row: u64,
    pub fault: u32,
}

/// A message in numbers, `struct tracebench_message`.
#[derive(Clone, Copy, Debug, Default, PartialEq, Eq)]
#[repr(C)]
#[allow(missing_docs)]
pub struct Message {
    pub number: u64,
    pub payload_length: usize,
    pub hart: u16,
    pub payload: [u8; 18],
}

impl Message {
    /// The bytes of its payload.
    pub fn payload_bytes(&self) -> &[u8] {
        &self.payload[..self.payload_length]
    }
}

/// The header of a capture of version 2, `struct tracebench_header`.
#[derive(Clone, Copy, Debug, Default, PartialEq, Eq)]
#[repr(C)]
#[allow(missing_docs)]
pub struct Header {
    pub mode: u32,
    pub period: u16,
    pub harts: u16,
}

/// How messages are compared: by their numbers or by their payloads alone, and payloads by bytes or by packets.
#[derive(Clone, Copy, Debug, PartialEq, Eq)]
#[repr(u32)]
#[allow(missing_docs)]
pub enum Compared {
    ByBytes = 0,
    ByPackets = 1,
    UnnumberedByBytes = 2,
    UnnumberedByPackets = 3,
}

/// What is found of a hart of SENT, `struct tracebench_hart_row`.
#[derive(Clone, Copy, Debug, Default, PartialEq, Eq)]
#[repr(C)]
#[allow(missing_docs)]
pub struct HartRow {
    pub tally: Tally,
    pub strange: u64,
    pub extra: u64,
    pub runs: u64,
    pub longest: u64,
    pub latest: u64,
    pub exchanged: u64,
    pub exchanged_hart: u64,
}

/// A message of RECEIVED that is taken, and what became of it, `struct tracebench_arrival`.
#[derive(Clone, Copy, Debug, Default, PartialEq, Eq)]
#[repr(C)]
#[allow(missing_docs)]
pub struct Arrival {
    pub number: u64,
    pub by: u64,
    pub offset: u64,
    pub fate: u32,
    pub hart: u16,
}

/// A longest run of numbers of a hart that were lost, `struct tracebench_lost_run`.
#[derive(Clone, Copy, Debug, Default, PartialEq, Eq)]
#[repr(C)]
#[allow(missing_docs)]
pub struct LostRun {
    pub first: u64,
    pub last: u64,
    pub hart: u64,
}

/// A longest run of bytes that are of no message, `struct tracebench_byte_run`.
#[derive(Clone, Copy, Debug, Default, PartialEq, Eq)]
#[repr(C)]
#[allow(missing_docs)]
pub struct ByteRun {
    pub offset: u64,
    pub count: u64,
}

/// The message of SENT that is refused, `struct tracebench_sent_place`.
#[derive(Clone, Copy, Debug, Default, PartialEq, Eq)]
#[repr(C)]
#[allow(missing_docs)]
pub struct SentPlace {
    pub message: u64,
    pub expected: u64,
}

/// What is found of a path, beside its harts and its messages, `struct tracebench_path_end`.
#[derive(Clone, Copy, Debug, Default, PartialEq, Eq)]
#[repr(C)]
#[allow(missing_docs)]
pub struct PathEnd {
    pub harts: usize,
    pub messages: usize,
    pub lost_runs: usize,
    pub byte_runs: usize,
    pub bytes: u64,
    pub strangers: u64,
    pub first: u64,
    pub sent_header: Header,
    pub received_header: Header,
    pub has_sent_header: u32,
    pub has_received_header: u32,
    pub header_fault: u32,
    pub headers_differ: u32,
    pub has_first: u32,
    pub whole: u32,
}

/// What is found of a path.
#[derive(Clone, Debug, Default, PartialEq, Eq)]
pub struct AuditedPath {
    /// Of each hart of SENT.
    pub rows: Vec<HartRow>,
    /// Of each message that came.
    pub arrivals: Vec<Arrival>,
    /// Which numbers were lost.
    pub lost: Vec<LostRun>,
    /// Which bytes are of no message.
    pub runs: Vec<ByteRun>,
    /// The rest.
    pub ended: PathEnd,
}

/// How a listing is laid out.
#[derive(Clone, Copy, Debug, PartialEq, Eq)]
#[repr(u32)]
pub enum Format {
    /// A line for each message.
    Text = 0,
    /// A table of CSV, with a row for each message.
    Csv = 1,
}

/// A piece of an image: bytes from an address on. A program is a slice of these, sorted by base.
#[derive(Clone, Copy)]
#[repr(C)]
pub struct Piece<'b> {
    base: u64,
    bytes: *const u8,
    length: usize,
    lent: PhantomData<&'b [u8]>,
}

impl<'b> Piece<'b> {
    /// The piece of these bytes from an address on.
    pub fn new(base: u64, bytes: &'b [u8]) -> Piece<'b> {
        Piece {
            base,
            bytes: bytes.as_ptr(),
            length: bytes.len(),
            lent: PhantomData,
        }
    }
}

/// What is kept of a hart from one message to the next.
#[repr(C)]
struct HartState {
    decoder: DecoderState,
    expected: u64,
}

#[rustfmt::skip]
extern "C" {
    fn tracebench_pack(packet: *const Packet, buffer: *mut u8, buffer_length: usize, wanted: *mut usize) -> u32;
    fn tracebench_unpack(payload: *const u8, payload_length: usize, packet: *mut Packet) -> u32;
    fn tracebench_encoder(period: u16, mode: u32, state: *mut EncoderState, opening: *mut Packet) -> u32;
    fn tracebench_push_all(pieces: *const Piece<'_>, pieces_length: usize, state: *mut EncoderState,
        events: *const Event, events_length: usize, packets: *mut Packet, packets_length: usize, taken: *mut usize,
        count: *mut usize) -> u32;
    fn tracebench_finish(pieces: *const Piece<'_>, pieces_length: usize, state: *const EncoderState,
        packets: *mut Packet, packets_length: usize, count: *mut usize) -> u32;
    fn tracebench_generate_image(mix: u32, seed: u64, buffer: *mut u8, buffer_length: usize,
        wanted: *mut usize) -> u32;
    fn tracebench_generate_events(pieces: *const Piece<'_>, pieces_length: usize, state: *mut WalkState,
        events: *mut Event, events_length: usize) -> u32;
    fn tracebench_decoder(state: *mut DecoderState);
    fn tracebench_receive(pieces: *const Piece<'_>, pieces_length: usize, hart: *mut HartState, number: u64,
        payload: *const u8, payload_length: usize, events: *mut Event, events_length: usize, count: *mut usize,
        missing: *mut u64) -> u32;
    fn tracebench_check(pieces: *const Piece<'_>, pieces_length: usize, log: *const u8, log_length: usize,
        row: *mut u64) -> u32;
    fn tracebench_encode(pieces: *const Piece<'_>, pieces_length: usize, logs: *const u8, logs_length: usize,
        ends: *const usize, ends_length: usize, period: u16, mode: u32, version: u32, buffer: *mut u8,
        buffer_length: usize, wanted: *mut usize, place: *mut LogPlace) -> u32;
    fn tracebench_dump(capture: *const u8, capture_length: usize, buffer: *mut u8, buffer_length: usize,
        wanted: *mut usize, ended: *mut DumpEnd) -> u32;
    fn tracebench_audit_all(sent: *const u8, sent_length: usize, received: *const u8, received_length: usize,
        flags: u32, rows: *mut HartRow, rows_length: usize, arrivals: *mut Arrival, arrivals_length: usize,
        lost: *mut LostRun, lost_length: usize, runs: *mut ByteRun, runs_length: usize, refused: *mut SentPlace,
        ended: *mut PathEnd) -> u32;
    fn tracebench_write_message(hart: u16, number: u64, payload: *const u8, payload_length: usize, buffer: *mut u8,
        buffer_length: usize, wanted: *mut usize) -> u32;
    fn tracebench_read_message(bytes: *const u8, bytes_length: usize, message: *mut Message,
        taken: *mut usize) -> u32;
    fn tracebench_write_header(header: *const Header, buffer: *mut u8, buffer_length: usize,
        wanted: *mut usize) -> u32;
    fn tracebench_read_header(bytes: *const u8, bytes_length: usize, header: *mut Header, taken: *mut usize) -> u32;
    fn tracebench_capture_of_lines(text: *const u8, text_length: usize, version: u32, mode: u32, period: u16,
        harts: u16, numbers: u64, buffer: *mut u8, buffer_length: usize, wanted: *mut usize,
        line: *mut u64) -> u32;
    fn tracebench_decode_all(pieces: *const Piece<'_>, pieces_length: usize, harts: u16, capture: *const u8,
        capture_length: usize, buffer: *mut u8, buffer_length: usize, wanted: *mut usize, ends: *mut HartEnd,
        ends_length: usize, ended: *mut DecodeAllEnd) -> u32;
    fn tracebench_list(pieces: *const Piece<'_>, pieces_length: usize, harts: u16, capture: *const u8,
        capture_length: usize, symbols: *const u8, symbols_length: usize, format: u32, buffer: *mut u8,
        buffer_length: usize, wanted: *mut usize, ended: *mut TextEnd) -> u32;
    fn tracebench_measure(pieces: *const Piece<'_>, pieces_length: usize, logs: *const u8, logs_length: usize,
        ends: *const usize, ends_length: usize, period: u16, mode: u32, buffer: *mut u8, buffer_length: usize,
        wanted: *mut usize, place: *mut LogPlace) -> u32;
    fn tracebench_compare(pieces: *const Piece<'_>, pieces_length: usize, harts: u16, capture: *const u8,
        capture_length: usize, logs: *const u8, logs_length: usize, ends: *const usize, ends_length: usize,
        buffer: *mut u8, buffer_length: usize, wanted: *mut usize, ended: *mut TextEnd, place: *mut LogPlace) -> u32;
    fn tracebench_explain(pieces: *const Piece<'_>, pieces_length: usize, log: *const u8, log_length: usize,
        buffer: *mut u8, buffer_length: usize, wanted: *mut usize, ended: *mut ExplainEnd) -> u32;
}

/// Nothing where the status is that all is done.
fn done(status: u32) -> Result<(), Status> {
    if Status(status) == DONE {
        Ok(())
    } else {
        Err(Status(status))
    }
}

/// What a call hands out: bytes, packets or events. If the first buffer is too small, the call is repeated with
/// one that is not.
fn handed_out<T: Clone + Default>(
    mut call: impl FnMut(&mut [T], &mut usize) -> u32,
) -> Result<Vec<T>, Status> {
    let mut items = vec![T::default(); 4096 / size_of::<T>()];
    loop {
        let mut wanted = 0;
        match Status(call(&mut items, &mut wanted)) {
            DONE => {
                items.truncate(wanted);
                return Ok(items);
            }
            TOO_SMALL => items.resize(wanted, T::default()),
            status => return Err(status),
        }
    }
}

/// The shortest payload of a packet.
pub fn pack(packet: &Packet) -> Result<Vec<u8>, Status> {
    // SAFETY: each pointer with its length is that of a slice or a value that is borrowed for the call.
    handed_out(|buffer, wanted| unsafe {
        tracebench_pack(packet, buffer.as_mut_ptr(), buffer.len(), wanted)
    })
}

/// The packet that a payload is.
pub fn unpack(payload: &[u8]) -> Result<Packet, Status> {
    let mut packet = Packet::default();
    // SAFETY: as above.
    done(unsafe { tracebench_unpack(payload.as_ptr(), payload.len(), &mut packet) })?;
    Ok(packet)
}

/// The state of an encoder before the first event of a log, and the packet that opens the trace.
pub fn encoder(period: u16, mode: Mode) -> Result<(EncoderState, Packet), Status> {
    let (mut state, mut opening) = (EncoderState::default(), Packet::default());
    // SAFETY: as above.
    done(unsafe { tracebench_encoder(period, mode as u32, &mut state, &mut opening) })?;
    Ok((state, opening))
}

/// The packets that are due after the next event. `state` then has taken this event too.
pub fn push(
    program: &[Piece<'_>],
    state: &mut EncoderState,
    event: &Event,
) -> Result<Vec<Packet>, Status> {
    // SAFETY: as above.
    handed_out(|packets: &mut [Packet], count| unsafe {
        tracebench_push_all(
            program.as_ptr(),
            program.len(),
            state,
            event,
            1,
            packets.as_mut_ptr(),
            packets.len(),
            &mut 0,
            count,
        )
    })
}

/// The packets that are left at the end of a log.
pub fn finish(program: &[Piece<'_>], state: &EncoderState) -> Result<Vec<Packet>, Status> {
    // SAFETY: as above.
    handed_out(|packets: &mut [Packet], count| unsafe {
        tracebench_finish(
            program.as_ptr(),
            program.len(),
            state,
            packets.as_mut_ptr(),
            packets.len(),
            count,
        )
    })
}

/// The image of the program that a mix and a seed give.
pub fn generate_image(mix: Mix, seed: u64) -> Result<Vec<u8>, Status> {
    // SAFETY: as above.
    handed_out(|buffer, wanted| unsafe {
        tracebench_generate_image(mix as u32, seed, buffer.as_mut_ptr(), buffer.len(), wanted)
    })
}

/// Fills a slice with the next events of a hart. `walk` then has taken them.
pub fn generate_events(
    program: &[Piece<'_>],
    walk: &mut WalkState,
    events: &mut [Event],
) -> Result<(), Status> {
    let (pieces, count) = (program.as_ptr(), program.len());
    // SAFETY: as above.
    done(unsafe {
        tracebench_generate_events(pieces, count, walk, events.as_mut_ptr(), events.len())
    })
}

/// The state of a decoder before the first packet.
pub fn decoder() -> DecoderState {
    let mut state = DecoderState::default();
    // SAFETY: as above.
    unsafe { tracebench_decoder(&mut state) };
    state
}

/// The events that the next payload settles. `state` then has taken this payload too.
pub fn feed(
    program: &[Piece<'_>],
    state: &mut DecoderState,
    payload: &[u8],
) -> Result<Vec<Event>, Status> {
    let mut hart = HartState {
        decoder: *state,
        expected: 0,
    };
    // SAFETY: as above.
    let events = handed_out(|events: &mut [Event], count| unsafe {
        tracebench_receive(
            program.as_ptr(),
            program.len(),
            &mut hart,
            0,
            payload.as_ptr(),
            payload.len(),
            events.as_mut_ptr(),
            events.len(),
            count,
            &mut 0,
        )
    })?;
    *state = hart.decoder;
    Ok(events)
}

/// How many events a legal log has; or why the text is that of none, and the row that is named, or 0.
pub fn check(program: &[Piece<'_>], log: &[u8]) -> Result<u64, (Status, u64)> {
    let mut row = 0;
    // SAFETY: as above.
    let status = unsafe {
        tracebench_check(
            program.as_ptr(),
            program.len(),
            log.as_ptr(),
            log.len(),
            &mut row,
        )
    };
    done(status).map(|()| row).map_err(|status| (status, row))
}

/// The texts of logs one after the other, and where each ends.
fn joined(logs: &[&[u8]]) -> (Vec<u8>, Vec<usize>) {
    let mut end = 0;
    let ends = logs
        .iter()
        .map(|log| {
            end += log.len();
            end
        })
        .collect();
    (logs.concat(), ends)
}

/// The capture of harts' logs, hart 0 first; or why there is none, and the log and row that are at fault.
pub fn encode(
    program: &[Piece<'_>],
    logs: &[&[u8]],
    period: u16,
    mode: Mode,
    version: Version,
) -> Result<Vec<u8>, (Status, LogPlace)> {
    let (texts, ends) = joined(logs);
    let mut place = LogPlace::default();
    // SAFETY: as above.
    let capture = handed_out(|buffer, wanted| unsafe {
        tracebench_encode(
            program.as_ptr(),
            program.len(),
            texts.as_ptr(),
            texts.len(),
            ends.as_ptr(),
            ends.len(),
            period,
            mode as u32,
            version as u32,
            buffer.as_mut_ptr(),
            buffer.len(),
            wanted,
            &mut place,
        )
    });
    capture.map_err(|status| (status, place))
}

/// A capture as text, and how it ends.
pub fn dump(capture: &[u8]) -> Result<(Vec<u8>, DumpEnd), Status> {
    let mut ended = DumpEnd::default();
    // SAFETY: as above.
    let text = handed_out(|buffer, wanted| unsafe {
        tracebench_dump(
            capture.as_ptr(),
            capture.len(),
            buffer.as_mut_ptr(),
            buffer.len(),
            wanted,
            &mut ended,
        )
    })?;
    Ok((text, ended))
}

/// What became of the messages of all harts of SENT in RECEIVED; or why SENT is refused, and which message of it.
pub fn audit_all(
    sent: &[u8],
    received: &[u8],
    how: Compared,
) -> Result<AuditedPath, (Status, SentPlace)> {
    let (mut found, mut refused) = (AuditedPath::default(), SentPlace::default());
    loop {
        // SAFETY: as above.
        let status = unsafe {
            tracebench_audit_all(
                sent.as_ptr(),
                sent.len(),
                received.as_ptr(),
                received.len(),
                how as u32,
                found.rows.as_mut_ptr(),
                found.rows.len(),
                found.arrivals.as_mut_ptr(),
                found.arrivals.len(),
                found.lost.as_mut_ptr(),
                found.lost.len(),
                found.runs.as_mut_ptr(),
                found.runs.len(),
                &mut refused,
                &mut found.ended,
            )
        };
        match Status(status) {
            DONE => return Ok(found),
            TOO_SMALL => {
                let PathEnd {
                    harts,
                    messages,
                    lost_runs,
                    byte_runs,
                    ..
                } = found.ended;
                found.rows.resize(harts, HartRow::default());
                found.arrivals.resize(messages, Arrival::default());
                found.lost.resize(lost_runs, LostRun::default());
                found.runs.resize(byte_runs, ByteRun::default());
            }
            status => return Err((status, refused)),
        }
    }
}

/// The bytes of a message.
pub fn write_message(hart: u16, number: u64, payload: &[u8]) -> Result<Vec<u8>, Status> {
    // SAFETY: as above.
    handed_out(|buffer, wanted| unsafe {
        tracebench_write_message(
            hart,
            number,
            payload.as_ptr(),
            payload.len(),
            buffer.as_mut_ptr(),
            buffer.len(),
            wanted,
        )
    })
}

/// The message that bytes begin with, and the bytes after it; nothing where there is no byte.
pub fn read_message(bytes: &[u8]) -> Result<Option<(Message, &[u8])>, Status> {
    let (mut message, mut taken) = (Message::default(), 0);
    // SAFETY: as above.
    done(unsafe {
        tracebench_read_message(bytes.as_ptr(), bytes.len(), &mut message, &mut taken)
    })?;
    Ok((taken != 0).then(|| (message, &bytes[taken..])))
}

/// The bytes of a header.
pub fn write_header(header: &Header) -> Result<Vec<u8>, Status> {
    // SAFETY: as above.
    handed_out(|buffer, wanted| unsafe {
        tracebench_write_header(header, buffer.as_mut_ptr(), buffer.len(), wanted)
    })
}

/// The header that bytes begin with, and the bytes after it; nothing where they begin with none.
pub fn read_header(bytes: &[u8]) -> Result<Option<(Header, &[u8])>, Status> {
    let (mut header, mut taken) = (Header::default(), 0);
    // SAFETY: as above.
    done(unsafe { tracebench_read_header(bytes.as_ptr(), bytes.len(), &mut header, &mut taken) })?;
    Ok((taken != 0).then(|| (header, &bytes[taken..])))
}

/// The capture of the lines of a text, of so many harts; with 0 of those up to the highest of the lines. A line has one
/// of so many numbers, with 0 the message's own. Or why there is none, and the line that is at fault, or 0.
pub fn capture_of_lines(
    text: &[u8],
    version: Version,
    mode: Mode,
    period: u16,
    harts: u16,
    numbers: u64,
) -> Result<Vec<u8>, (Status, u64)> {
    let mut line = 0;
    // SAFETY: as above.
    let capture = handed_out(|buffer, wanted| unsafe {
        tracebench_capture_of_lines(
            text.as_ptr(),
            text.len(),
            version as u32,
            mode as u32,
            period,
            harts,
            numbers,
            buffer.as_mut_ptr(),
            buffer.len(),
            wanted,
            &mut line,
        )
    });
    capture.map_err(|status| (status, line))
}

/// The log of each hart of a capture as text, whether the hart is closed, and how decoding ends.
#[allow(clippy::type_complexity)]
pub fn decode_all(
    program: &[Piece<'_>],
    harts: u16,
    capture: &[u8],
) -> Result<(Vec<(Vec<u8>, bool)>, DecodeAllEnd), Status> {
    let mut ended = DecodeAllEnd::default();
    let mut ends = vec![HartEnd::default(); 64];
    let mut call = |text: &mut [u8], wanted: &mut usize, ends: &mut [HartEnd]| {
        // SAFETY: as above.
        unsafe {
            tracebench_decode_all(
                program.as_ptr(),
                program.len(),
                harts,
                capture.as_ptr(),
                capture.len(),
                text.as_mut_ptr(),
                text.len(),
                wanted,
                ends.as_mut_ptr(),
                ends.len(),
                &mut ended,
            )
        }
    };
    let (mut text, mut wanted) = (vec![0; 4096], 0);
    let mut status = Status(call(&mut text, &mut wanted, &mut ends));
    if status == TOO_SMALL {
        text.resize(wanted.max(text.len()), 0);
        ends.resize(usize::from(u16::MAX), HartEnd::default());
        status = Status(call(&mut text, &mut wanted, &mut ends));
    }
    done(status.0)?;
    let mut start = 0;
    let logs = ends[..ended.harts].iter().map(|hart| {
        let log = text[start..hart.end].to_vec();
        start = hart.end;
        (log, hart.closed == 1)
    });
    Ok((logs.collect(), ended))
}

/// The listing of a capture, and how it ends. Without symbols, places have no names.
pub fn list(
    program: &[Piece<'_>],
    harts: u16,
    capture: &[u8],
    symbols: &[u8],
    format: Format,
) -> Result<(Vec<u8>, TextEnd), Status> {
    let mut ended = TextEnd::default();
    // SAFETY: as above.
    let text = handed_out(|buffer, wanted| unsafe {
        tracebench_list(
            program.as_ptr(),
            program.len(),
            harts,
            capture.as_ptr(),
            capture.len(),
            symbols.as_ptr(),
            symbols.len(),
            format as u32,
            buffer.as_mut_ptr(),
            buffer.len(),
            wanted,
            &mut ended,
        )
    })?;
    Ok((text, ended))
}

/// The table of what the logs of harts cost; or why there is none, and the log and row that are at fault.
pub fn measure(
    program: &[Piece<'_>],
    logs: &[&[u8]],
    period: u16,
    mode: Mode,
) -> Result<Vec<u8>, (Status, LogPlace)> {
    let (texts, ends) = joined(logs);
    let mut place = LogPlace::default();
    // SAFETY: as above.
    let table = handed_out(|buffer, wanted| unsafe {
        tracebench_measure(
            program.as_ptr(),
            program.len(),
            texts.as_ptr(),
            texts.len(),
            ends.as_ptr(),
            ends.len(),
            period,
            mode as u32,
            buffer.as_mut_ptr(),
            buffer.len(),
            wanted,
            &mut place,
        )
    });
    table.map_err(|status| (status, place))
}

/// How a capture compares with the logs of its harts, and how that ends; or why it is not compared, and the log and row
/// that are at fault.
pub fn compare(
    program: &[Piece<'_>],
    harts: u16,
    capture: &[u8],
    logs: &[&[u8]],
) -> Result<(Vec<u8>, TextEnd), (Status, LogPlace)> {
    let (texts, ends) = joined(logs);
    let (mut ended, mut place) = (TextEnd::default(), LogPlace::default());
    // SAFETY: as above.
    let text = handed_out(|buffer, wanted| unsafe {
        tracebench_compare(
            program.as_ptr(),
            program.len(),
            harts,
            capture.as_ptr(),
            capture.len(),
            texts.as_ptr(),
            texts.len(),
            ends.as_ptr(),
            ends.len(),
            buffer.as_mut_ptr(),
            buffer.len(),
            wanted,
            &mut ended,
            &mut place,
        )
    });
    match text {
        Ok(text) => Ok((text, ended)),
        Err(status) => Err((status, place)),
    }
}

/// The lines that explain the first illegal row of a log, and how the log ends.
pub fn explain(program: &[Piece<'_>], log: &[u8]) -> Result<(Vec<u8>, ExplainEnd), Status> {
    let mut ended = ExplainEnd::default();
    // SAFETY: as above.
    let text = handed_out(|buffer, wanted| unsafe {
        tracebench_explain(
            program.as_ptr(),
            program.len(),
            log.as_ptr(),
            log.len(),
            buffer.as_mut_ptr(),
            buffer.len(),
            wanted,
            &mut ended,
        )
    })?;
    Ok((text, ended))
}
