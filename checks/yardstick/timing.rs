//! What each phase takes, in memory.

use crate::capture::{self, decode, messages_of};
use crate::decoder::Decoder;
use crate::encoder::encode;
use crate::legal::Follows;
use crate::log::{self, Event};
use crate::out::Out;
use crate::packets::{pack, unpack};
use crate::program::Program;
use crate::{audit::audit, legal_log, threads, CAPACITY, PERIOD};
use std::hint::black_box;
use std::io::sink;
use std::time::Instant;

const RUNS: usize = 9;

/// The period of the capture that is audited.
const DENSE_PERIOD: u16 = 64;

/// The least nanoseconds of several runs, by so many.
fn least<X>(count: usize, mut run: impl FnMut() -> X) -> f64 {
    let times = (0..RUNS).map(|_| {
        let begun = Instant::now();
        let result = black_box(run());
        let taken = begun.elapsed();
        drop(result);
        taken.as_nanos() as f64
    });
    times.fold(f64::INFINITY, f64::min) / count.max(1) as f64
}

fn captured(logs: &[Vec<Event>], period: u16) -> Vec<u8> {
    let mut bytes = Vec::new();
    let mut out = Out::new(&mut bytes);
    capture::write(&mut out, logs, period);
    out.finish();
    bytes
}

type Phases = Vec<(&'static str, f64)>;

/// What the phases of one log take.
fn of_one(program: &Program, text: &[u8], events: &Vec<Event>) -> Option<Phases> {
    let (count, logs) = (events.len(), std::slice::from_ref(events));
    let (capture, dense) = (captured(logs, PERIOD), captured(logs, DENSE_PERIOD));
    let mut messages = Vec::new();
    messages_of(0, events, PERIOD, |message| messages.push(message));
    let mut dense_count = 0;
    encode(events, DENSE_PERIOD, |_| dense_count += 1);
    let mut nowhere = sink();
    let mut out = Out::new(&mut nowhere);
    let illegal = || {
        let mut follows = Follows::ANYTHING;
        events.iter().position(|event| !follows.event(program, event))
    };
    let payload_bytes = || {
        let mut bytes = 0;
        encode(events, PERIOD, |packet| bytes += u64::from(black_box(pack(packet)).length));
        bytes
    };
    let decoded = || {
        let mut decoder = Decoder::new(program, 0);
        messages.iter().for_each(|message| decoder.take(message).expect("decoded"));
        decoder
    };
    let unpacked = || messages.iter().filter(|message| black_box(unpack(&message.payload)).is_some()).count();
    Some(vec![
        ("log reading", least(count, || log::each(text, log::none_of(text)))),
        ("log writing", least(count, || log::write(&mut out, events))),
        ("legality check", least(count, illegal)),
        ("encode and pack", least(count, payload_bytes)),
        ("unpack and decode", least(count, decoded)),
        ("capture writing", least(count, || capture::write(&mut out, logs, PERIOD))),
        ("capture decoding", least(count, || decode(program, &capture))),
        ("unpack, a packet", least(messages.len(), unpacked)),
        ("audit, a message", least(dense_count, || audit(&mut out, &dense, &dense))),
    ])
}

/// What replays and runs over threads take, of several logs.
fn of_all(program: &Program, logs: &[Vec<Event>]) -> Phases {
    let all = logs.iter().map(Vec::len).sum::<usize>();
    let replay = least(all, || threads::replay(program, logs, PERIOD, CAPACITY));
    let run = |capacity| least(all, || threads::run(program, logs, PERIOD, capacity));
    vec![("replay, capacity 16", replay), ("bench 1", run(1)), ("bench 16", run(16)), ("bench 1024", run(1024))]
}

/// Adds what each phase takes, of the first log; replays and runs over threads are of all.
pub fn phases(out: &mut Out, program: &Program, paths: &[String]) -> Option<bool> {
    let texts: Vec<Vec<u8>> = paths.iter().map(|path| std::fs::read(path).ok()).collect::<Option<_>>()?;
    let logs: Vec<Vec<Event>> = texts.iter().map(|text| legal_log(program, text)).collect::<Option<_>>()?;
    if logs.is_empty() {
        return None;
    }
    for (name, nanoseconds) in of_one(program, &texts[0], &logs[0])?.into_iter().chain(of_all(program, &logs)) {
        out.text(format!("{name}: {nanoseconds:.1} ns\n").as_bytes());
    }
    Some(true)
}
