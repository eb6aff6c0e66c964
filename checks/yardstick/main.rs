//! The bench's commands and phases in plain Rust, with the standard library alone: a yardstick for docs/PERFORMANCE.md.
//!
//! `rustc --edition 2021 -O -C codegen-units=1 checks/yardstick/main.rs -o /tmp/yardstick` builds it. `yardstick
//! check|encode|measure|bench --base B IMAGE LOG..`, `decode --base B IMAGE CAPTURE`, `dump CAPTURE` and `audit SENT
//! RECEIVED` print what `tracebench` prints of legal logs and good captures of differential mode and version 2, at
//! period 1024 and capacity 16. `yardstick timing B IMAGE LOG..` prints what each phase takes, as the crate `timing`
//! does: the least of nine runs, in nanoseconds an event. Input that is not good ends it with status 1 and no reason.

mod audit;
mod capture;
mod decoder;
mod dump;
mod encoder;
mod legal;
mod log;
mod measure;
mod out;
mod packets;
mod program;
mod threads;
mod timing;

use legal::Judge;
use log::Event;
use out::Out;
use program::Program;
use std::fs::read;
use std::process::ExitCode;

const PERIOD: u16 = 1024;
const CAPACITY: usize = 16;

fn decoded(out: &mut Out, program: &Program, capture: &[u8]) -> Option<bool> {
    let decoders = capture::decode(program, capture)?;
    for (hart, decoder) in decoders.iter().enumerate() {
        out.text(format!("hart {hart}\n").as_bytes());
        log::write(out, &decoder.events);
    }
    Some(decoders.iter().all(|it| it.is_closed))
}

fn checked(out: &mut Out, program: &Program, paths: &[String]) -> Option<bool> {
    let mut all = true;
    for path in paths {
        let judge = log::each(&read(path).ok()?, Judge::new(program, ()))?;
        let legal = || format!("legal, {} events", judge.count);
        let verdict = judge.illegal.map_or_else(legal, |row| format!("row {row}: illegal"));
        out.text(format!("{path}: {verdict}\n").as_bytes());
        all &= judge.illegal.is_none();
    }
    Some(all)
}

/// The events of a legal log.
fn legal_log(program: &Program, text: &[u8]) -> Option<Vec<Event>> {
    let judge = log::each(text, Judge::new(program, log::none_of(text)))?;
    judge.illegal.is_none().then_some(judge.to)
}

/// Adds a command's output, and says whether it ends well, if the arguments and the input are good.
fn done(out: &mut Out, arguments: &[String]) -> Option<bool> {
    let [command, rest @ ..] = arguments else { return None };
    match (command.as_str(), rest) {
        ("dump", [capture]) => return dump::dump(out, &read(capture).ok()?),
        ("audit", [sent, received]) => return audit::audit(out, &read(sent).ok()?, &read(received).ok()?),
        _ => {}
    }
    let rest = if command == "timing" { rest } else { rest.strip_prefix(&["--base".to_string()])? };
    let [base, image, paths @ ..] = rest else { return None };
    let program = Program::new(u64::from_str_radix(base, 16).ok()?, &read(image).ok()?);
    match command.as_str() {
        "check" => return checked(out, &program, paths),
        "decode" => return decoded(out, &program, &read(paths.first()?).ok()?),
        "timing" => return timing::phases(out, &program, paths),
        _ => {}
    }
    let legal = |path: &String| legal_log(&program, &read(path).ok()?);
    let logs: Vec<_> = paths.iter().map(legal).collect::<Option<_>>()?;
    match command.as_str() {
        "encode" => capture::write(out, &logs, PERIOD),
        "measure" => measure::measure(out, &logs, PERIOD),
        "bench" => return Some(threads::report(out, &logs, &threads::run(&program, &logs, PERIOD, CAPACITY))),
        _ => return None,
    }
    Some(true)
}

fn main() -> ExitCode {
    let arguments: Vec<String> = std::env::args().skip(1).collect();
    let mut stdout = std::io::stdout();
    let mut out = Out::new(&mut stdout);
    let Some(is_good) = done(&mut out, &arguments) else {
        eprintln!("yardstick: the arguments or an input are not good");
        return ExitCode::from(1);
    };
    if out.finish() && is_good {
        ExitCode::SUCCESS
    } else {
        ExitCode::from(1)
    }
}
