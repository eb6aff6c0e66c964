//! Logs through a bounded funnel, each from a thread of its own, and the report of what is decoded.

use crate::capture::{messages_of, Message};
use crate::decoder::Decoder;
use crate::log::Event;
use crate::out::Out;
use crate::program::Program;
use std::collections::VecDeque;
use std::sync::{Condvar, Mutex, MutexGuard};
use std::thread;

/// Messages that wait, at most `capacity`, and who waits for them.
struct Funnel {
    state: Mutex<State>,
    capacity: usize,
    has_space: Condvar,
    has_messages: Condvar,
}

struct State {
    messages: Vec<Message>,
    /// How many harts have not sent all, and how many of them wait for space.
    senders: usize,
    waiting: usize,
    is_awaited: bool,
}

impl Funnel {
    fn state(&self) -> MutexGuard<'_, State> {
        self.state.lock().expect("no thread panics")
    }

    fn wake(&self, mut state: MutexGuard<State>) {
        if std::mem::take(&mut state.is_awaited) {
            drop(state);
            self.has_messages.notify_one();
        }
    }

    #[inline]
    fn send(&self, message: Message) {
        let mut state = self.state();
        while state.messages.len() == self.capacity {
            state.waiting += 1;
            state = self.has_space.wait(state).expect("no thread panics");
            state.waiting -= 1;
        }
        state.messages.push(message);
        self.wake(state);
    }

    fn end(&self) {
        let mut state = self.state();
        state.senders -= 1;
        self.wake(state);
    }

    /// Exchanges an empty list for all messages that wait, once there are any or all harts have ended.
    fn take(&self, taken: &mut Vec<Message>) {
        let mut state = self.state();
        while state.messages.is_empty() && state.senders > 0 {
            state.is_awaited = true;
            state = self.has_messages.wait(state).expect("no thread panics");
        }
        std::mem::swap(taken, &mut state.messages);
        let woken = state.waiting.min(self.capacity);
        drop(state);
        (0..woken).for_each(|_| self.has_space.notify_one());
    }
}

fn decoders<'p>(program: &'p Program, logs: &[Vec<Event>]) -> Vec<Decoder<'p>> {
    logs.iter().map(|log| Decoder::new(program, log.len())).collect()
}

/// Sends the logs through a funnel of this capacity, and decodes what comes.
pub fn run<'p>(program: &'p Program, logs: &[Vec<Event>], period: u16, capacity: usize) -> Vec<Decoder<'p>> {
    let state = State { messages: Vec::with_capacity(capacity), senders: logs.len(), waiting: 0, is_awaited: false };
    let (has_space, has_messages) = (Condvar::new(), Condvar::new());
    let funnel = &Funnel { state: Mutex::new(state), capacity, has_space, has_messages };
    let (mut decoders, mut taken) = (decoders(program, logs), Vec::with_capacity(capacity));
    thread::scope(|scope| {
        for (hart, log) in logs.iter().enumerate() {
            scope.spawn(move || {
                messages_of(hart as u16, log, period, |message| funnel.send(message));
                funnel.end();
            });
        }
        loop {
            funnel.take(&mut taken);
            if taken.is_empty() {
                return;
            }
            for message in taken.drain(..) {
                decoders[usize::from(message.hart)].take(&message).expect("decoded");
            }
        }
    });
    decoders
}

/// Sends one log's messages through a queue in one thread, each taken where the queue is full, and decodes them.
pub fn replay<'p>(program: &'p Program, logs: &[Vec<Event>], period: u16, capacity: usize) -> Vec<Decoder<'p>> {
    let mut decoders = decoders(program, logs);
    let mut queue: VecDeque<Message> = VecDeque::with_capacity(capacity);
    let mut take = |message: Message| decoders[usize::from(message.hart)].take(&message).expect("decoded");
    for (hart, log) in logs.iter().enumerate() {
        messages_of(hart as u16, log, period, |message| {
            if queue.len() == capacity {
                take(queue.pop_front().expect("a message waits"));
            }
            queue.push_back(message);
        });
    }
    queue.into_iter().for_each(take);
    decoders
}

/// Adds the report, and says whether every log came back complete.
pub fn report(out: &mut Out, logs: &[Vec<Event>], decoders: &[Decoder]) -> bool {
    let mut all = true;
    for (hart, (log, own)) in logs.iter().zip(decoders).enumerate() {
        let is_whole = own.is_closed && own.events == *log;
        all &= is_whole;
        let (events, packets, bytes, decoded) = (log.len(), own.packets, own.payload_bytes, own.events.len());
        let verdict = if is_whole { "whole" } else { "beginning" };
        let counts = format!("{events} events, {packets} packets, {bytes} payload bytes, decoded {decoded}");
        out.text(format!("hart {hart}: {counts}, {verdict}\n").as_bytes());
    }
    out.text(if all { b"result: whole\n" } else { b"result: not whole\n" });
    all
}
