//! What became of the messages of a capture on a path. Both captures are of messages alone, and the one that was sent
//! is complete; it is indexed, and not checked beyond that.

use crate::capture::{message, parted, Message, HEAD};
use crate::out::Out;
use std::fmt::Write;

/// What became of a hart's messages. The numbers are in the order of the printed row.
#[derive(Default)]
struct Hart {
    /// Where the message of each number is in the capture that was sent, with 1 as the lowest bit where it came.
    places: Vec<usize>,
    came: u64,
    repeated: u64,
    late: u64,
    changed: u64,
    strange: u64,
    /// The number after the greatest that came.
    next: u64,
    most_late: u64,
}

fn indexed(harts: u16, sent: &[u8]) -> Option<Vec<Hart>> {
    let (mut index, mut rest) = (Vec::new(), sent);
    index.resize_with(harts.into(), Hart::default);
    while !rest.is_empty() {
        let (message, others) = message(rest)?;
        index.get_mut(usize::from(message.hart))?.places.push(2 * (sent.len() - rest.len()));
        rest = others;
    }
    Some(index)
}

fn hexadecimal(bytes: &[u8]) -> String {
    bytes.iter().fold(String::new(), |text, byte| text + &format!("{byte:02x}"))
}

impl Hart {
    /// Takes a message with a number that was sent, and returns what its line says, if it has one.
    #[inline]
    fn take(&mut self, sent: &[u8], message: &Message) -> Option<String> {
        let (number, place) = (message.number, &mut self.places[message.number as usize]);
        let (own, payload) = (&sent[*place / 2..], message.payload.bytes());
        let own = &own[HEAD..HEAD + usize::from(own[HEAD - 1])];
        if own != payload {
            self.changed += 1;
            return Some(format!("changed, sent {} came {}", hexadecimal(own), hexadecimal(payload)));
        }
        if *place & 1 == 1 {
            self.repeated += 1;
            return Some("repeat".to_string());
        }
        *place |= 1;
        if number < self.next {
            let by = self.next - 1 - number;
            self.late += 1;
            self.most_late = self.most_late.max(by);
            return Some(format!("late by {by}"));
        }
        let skips = number - self.next;
        self.next = number + 1;
        (skips > 0).then(|| format!("skips {skips}"))
    }

    /// The runs of numbers that are lost, each with the first and the last.
    fn lost(&self) -> Vec<(usize, usize)> {
        let mut runs: Vec<(usize, usize)> = Vec::new();
        for (number, _) in self.places.iter().enumerate().filter(|it| it.1 & 1 == 0) {
            match runs.last_mut() {
                Some((_, last)) if *last + 1 == number => *last = number,
                _ => runs.push((number, number)),
            }
        }
        runs
    }

    fn row(&self, lost: u64) -> [u64; 7] {
        [self.places.len() as u64, self.came, lost, self.repeated, self.late, self.changed, self.strange]
    }
}

/// A row, and whether it is whole.
fn row([sent, came, lost, repeated, late, changed, strange]: [u64; 7]) -> (String, bool) {
    let is_whole = lost + repeated + late + changed + strange == 0;
    let whole = if is_whole { "whole" } else { "not whole" };
    let counts = format!("{sent} sent, {came} came, {lost} lost, {repeated} repeated, {late} late");
    (format!("{counts}, {changed} changed, {strange} strange, {whole}\n"), is_whole)
}

/// Adds the text of an audit, and says whether all came in order.
pub fn audit(out: &mut Out, sent: &[u8], received: &[u8]) -> Option<bool> {
    let ((period, harts, sent), (other_period, others, mut rest)) = (parted(sent)?, parted(received)?);
    let mut index = indexed(harts, sent)?;
    let (mut count, mut strangers, mut first) = (0u64, 0u64, None);
    while !rest.is_empty() {
        let (message, others) = message(rest)?;
        let mut hart = index.get_mut(usize::from(message.hart));
        if let Some(hart) = &mut hart {
            hart.came += 1;
        }
        let said = match hart {
            Some(hart) if message.number < hart.places.len() as u64 => hart.take(sent, &message),
            hart => {
                strangers += 1;
                if let Some(hart) = hart {
                    hart.strange += 1;
                }
                Some("stranger".to_string())
            }
        };
        if let Some(what) = said {
            let Message { hart, number, .. } = message;
            out.text(format!("message {count}: hart {hart} number {number}: {what}\n").as_bytes());
            first = first.or(Some(count));
        }
        (count, rest) = (count + 1, others);
    }
    let is_whole = write_harts(out, &index) && strangers == 0 && (period, harts) == (other_period, others);
    let mut text = String::new();
    if strangers > 0 {
        writeln!(text, "strangers: {strangers} messages").ok()?;
    }
    if (period, harts) != (other_period, others) {
        text += "headers differ\n";
    }
    if let Some(first) = first {
        writeln!(text, "first: message {first}").ok()?;
    }
    text += if is_whole { "result: whole\n" } else { "result: not whole\n" };
    out.text(text.as_bytes());
    Some(is_whole)
}

/// Adds the lines of lost numbers and the rows of harts, and says whether they are whole.
fn write_harts(out: &mut Out, index: &[Hart]) -> bool {
    let (mut rows, mut all) = (String::new(), [0; 7]);
    for (place, hart) in index.iter().enumerate() {
        let (mut lost, mut longest, runs) = (0, 0, hart.lost());
        for (from, to) in &runs {
            let numbers = if from == to { format!("number {from}") } else { format!("numbers {from} to {to}") };
            out.text(format!("hart {place}: {numbers} lost\n").as_bytes());
            let length = to - from + 1;
            (lost, longest) = (lost + length as u64, length.max(longest));
        }
        let own = hart.row(lost);
        all.iter_mut().zip(own).for_each(|(sum, number)| *sum += number);
        rows += &format!("hart {place}: {}", row(own).0);
        if lost > 0 {
            rows += &format!("hart {place}: lost in {} runs, the longest of {longest}\n", runs.len());
        }
        if hart.late > 0 {
            rows += &format!("hart {place}: late by at most {}\n", hart.most_late);
        }
    }
    let (text, is_whole) = row(all);
    if index.len() > 1 {
        rows += &format!("all: {text}");
    }
    out.text(rows.as_bytes());
    is_whole
}
