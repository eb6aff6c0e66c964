//! Which logs a hart can have retired.

use crate::log::{Event, Taker};
use crate::program::{Program, Word, LEVELS, RETURN, UNINFERABLE};

/// What may come after an event.
#[derive(Clone, Copy)]
pub struct Follows {
    /// Where it comes, unless that is anywhere.
    pub place: u64,
    pub is_anywhere: bool,
    /// Its levels, a bit each.
    levels: u8,
}

impl Follows {
    pub const ANYTHING: Follows = Follows { place: 0, is_anywhere: true, levels: LEVELS };

    /// Goes on to a retirement, and says whether it may come.
    #[inline(always)]
    pub fn retire(&mut self, word: Word, address: u64, itype: u8, level: u8) -> bool {
        let mut may = word.may_be(itype) & (self.levels >> level & 1 == 1);
        may &= self.is_anywhere | (self.place == address);
        let is_anywhere = word.is(UNINFERABLE | RETURN);
        *self = Follows { place: word.next(address, itype), is_anywhere, levels: 1 << level };
        if word.is(RETURN) {
            let (own, after) = word.levels();
            may &= own >> level & 1 == 1;
            self.levels = after;
        }
        may
    }

    /// Goes on to a trap, and says whether it may come.
    #[inline]
    pub fn trap(&mut self, epc: u64, level: u8) -> bool {
        let may = self.levels >> level & 1 == 1 && (self.is_anywhere || self.place == epc);
        *self = Follows { levels: 0b1010 & u8::MAX << level, ..Follows::ANYTHING };
        may
    }

    /// Goes on to an event of a log, and says whether it may come.
    #[inline(always)]
    pub fn event(&mut self, program: &Program, event: &Event) -> bool {
        match *event {
            Event::Retire { address, itype, level } => self.retire(program.at(address), address, itype, level),
            Event::Trap { epc, level, .. } => self.trap(epc, level),
        }
    }
}

/// Checks the events of a log as they come, and hands them on.
pub struct Judge<'p, T> {
    program: &'p Program,
    follows: Follows,
    pub count: usize,
    /// The first illegal row, from 1.
    pub illegal: Option<usize>,
    pub to: T,
}

impl<'p, T> Judge<'p, T> {
    pub fn new(program: &'p Program, to: T) -> Judge<'p, T> {
        Judge { program, follows: Follows::ANYTHING, count: 0, illegal: None, to }
    }
}

impl<T: Taker> Taker for Judge<'_, T> {
    #[inline(always)]
    fn take(&mut self, event: Event) {
        self.count += 1;
        if !self.follows.event(self.program, &event) {
            self.illegal = self.illegal.or(Some(self.count));
        }
        self.to.take(event);
    }
}

/// What keeps no event.
impl Taker for () {
    fn take(&mut self, _: Event) {}
}
