//! The log that the packets of a trace describe, in differential mode. A fault has no reason.

use crate::capture::Message;
use crate::legal::Follows;
use crate::log::Event;
use crate::packets::{unpack, Outcomes, Packet, Report};
use crate::program::{Program, Word, BRANCH, OTHER, SECOND};

/// A hart's events, and what decides those of its next message.
pub struct Decoder<'p> {
    program: &'p Program,
    pub events: Vec<Event>,
    pub packets: u64,
    pub payload_bytes: u64,
    pub is_closed: bool,
    follows: Follows,
    /// Whether the last event is a retirement, and its level.
    retired: Option<u8>,
    reported: u64,
    waits: Option<Outcomes>,
}

impl<'p> Decoder<'p> {
    /// Has no event yet, and memory for so many.
    pub fn new(program: &'p Program, expected: usize) -> Decoder<'p> {
        Decoder {
            program,
            events: Vec::with_capacity(expected),
            packets: 0,
            payload_bytes: 0,
            is_closed: false,
            follows: Follows::ANYTHING,
            retired: None,
            reported: 0,
            waits: None,
        }
    }

    /// Takes the hart's next message.
    #[inline]
    pub fn take(&mut self, message: &Message) -> Option<()> {
        let packet = unpack(&message.payload)?;
        if message.number != self.packets || self.is_closed || (self.packets == 0) != matches!(packet, Packet::Open) {
            return None;
        }
        self.packets += 1;
        self.payload_bytes += u64::from(message.payload.length);
        let is_explicit = matches!(packet, Packet::Sync { .. } | Packet::Trap { .. } | Packet::EndedRep);
        match self.waits.take() {
            Some(outcomes) if is_explicit => self.walk_to_reported(outcomes)?,
            Some(outcomes) => self.walk_to_target(outcomes)?,
            None if matches!(packet, Packet::EndedRep) => return None,
            None => {}
        }
        self.piece(packet)
    }

    #[inline]
    fn piece(&mut self, packet: Packet) -> Option<()> {
        match packet {
            Packet::Open => Some(()),
            Packet::EndedRep | Packet::EndedNtr => {
                self.is_closed = true;
                Some(())
            }
            Packet::Sync { address, level, branch } => {
                self.reported = address;
                self.retire(self.program.at(address), address, level, !branch)
            }
            Packet::Trap { .. } => self.trap(packet),
            Packet::Map { map } => self.walk(&mut Outcomes { map, count: 31 }, |_, left| left == 0)?.then_some(()),
            Packet::Address { outcomes, difference, report } => {
                self.reported = self.reported.wrapping_add(difference);
                match report {
                    Report::Plain => {
                        self.waits = Some(outcomes);
                        Some(())
                    }
                    Report::Notify => self.walk_to_reported(outcomes),
                    Report::Updiscon => self.walk_to_target(outcomes),
                }
            }
        }
    }

    /// Adds a retirement of this instruction.
    #[inline(always)]
    fn retire(&mut self, word: Word, address: u64, level: u8, is_taken: bool) -> Option<()> {
        let itype = word.itype(is_taken);
        self.events.push(Event::Retire { address, itype, level });
        self.retired = Some(level);
        self.follows.retire(word, address, itype, level).then_some(())
    }

    fn trap(&mut self, packet: Packet) -> Option<()> {
        let Packet::Trap { interrupt, cause, value, handler, address, level, branch } = packet else { return None };
        let (epc, own) = if handler { (self.follows.place, self.retired?) } else { (address, level) };
        if handler && self.follows.is_anywhere || !handler && !branch || !self.follows.trap(epc, own) {
            return None;
        }
        self.events.push(Event::Trap { epc, level: own, interrupt, cause, value });
        self.retired = None;
        self.reported = address;
        if handler {
            self.retire(self.program.at(address), address, level, !branch)?;
        }
        Some(())
    }

    /// A walk to the reported address.
    #[inline]
    fn walk_to_reported(&mut self, mut outcomes: Outcomes) -> Option<()> {
        let end = self.reported;
        self.walk(&mut outcomes, |address, left| (address == end) & (left == 0))?.then_some(())
    }

    /// A walk to the target of its first discontinuity, which is the reported address.
    #[inline]
    fn walk_to_target(&mut self, mut outcomes: Outcomes) -> Option<()> {
        if !self.follows.is_anywhere {
            self.walk(&mut outcomes, |_, _| false)?;
        }
        let word = self.program.at(self.reported);
        let is_branch = word.is(BRANCH);
        if outcomes.count != u32::from(is_branch) {
            return None;
        }
        self.retire(word, self.reported, self.retired?, is_branch && outcomes.map & 1 == 0)
    }

    /// Adds retirements, up to one that ends the walk by its address and by how many outcomes are left, or up to a
    /// discontinuity. It says whether the last one ends the walk so.
    #[inline]
    fn walk(&mut self, outcomes: &mut Outcomes, ends: impl Fn(u64, u32) -> bool) -> Option<bool> {
        let Outcomes { mut map, mut count } = *outcomes;
        let (level, mut address) = (self.retired?, self.follows.place);
        if self.follows.is_anywhere {
            return None;
        }
        loop {
            let word = self.program.at(address);
            if !word.is(BRANCH | OTHER) {
                *outcomes = Outcomes { map, count };
                self.follows.place = address;
                self.retire(word, address, level, false)?;
                return Some(ends(address, count));
            }
            let is_branch = u32::from(word.is(BRANCH));
            let itype = (4 * is_branch + (is_branch & !map)) as u8;
            self.events.push(Event::Retire { address, itype, level });
            if is_branch > count {
                return None;
            }
            map >>= is_branch;
            count -= is_branch;
            if ends(address, count) {
                self.follows.retire(word, address, itype, level);
                return Some(true);
            }
            if word.is(SECOND) {
                return None;
            }
            address = word.next(address, itype);
        }
    }
}
