//! The packets of a legal log, in differential mode. They depend on the log alone: of its retirements of type 0 the
//! backward jumps are those that do not lead to a higher address.

use crate::log::Event;
use crate::packets::{Outcomes, Packet, Report};

/// What the events before make of a retirement.
#[derive(Clone, Copy, PartialEq)]
enum Due {
    Nothing,
    Sync,
    Handler,
    Target,
}

struct Encoder {
    period: u32,
    /// How many retirements are left before the next one whose number the period divides.
    left: u32,
    due: Due,
    /// Whether the last event is a retirement that leads to one place.
    is_inferable: bool,
    reported: u64,
    outcomes: Outcomes,
}

#[inline]
fn is_discontinuity(itype: u8) -> bool {
    0b0100_1000 >> itype & 1 == 1
}

/// Outcomes with that of a further retirement, if it has one.
#[inline]
fn with(Outcomes { map, count }: Outcomes, itype: u8) -> Outcomes {
    Outcomes { map: map | u32::from(itype == 4) << count, count: count + u32::from(itype >> 1 == 2) }
}

/// Hands on the packets of a log.
#[inline]
pub fn encode(events: &[Event], period: u16, mut give: impl FnMut(Packet)) {
    let (period, outcomes) = (u32::from(period), Outcomes::default());
    let mut own = Encoder { period, left: period, due: Due::Sync, is_inferable: false, reported: 0, outcomes };
    let (mut place, mut is_explicit) = (0, false);
    give(Packet::Open);
    while place < events.len() {
        if own.due == Due::Nothing {
            place += own.pass(&events[place..]);
        }
        is_explicit = own.due == Due::Nothing && matches!(events[place], Event::Retire { .. });
        if let Some(packet) = own.packet(events[place], events.get(place + 1)) {
            give(packet);
        }
        place += 1;
    }
    give(if is_explicit { Packet::EndedRep } else { Packet::EndedNtr });
}

impl Encoder {
    /// Passes over retirements that no packet reports, the last event not among them, and says how many they are.
    #[inline]
    fn pass(&mut self, events: &[Event]) -> usize {
        let (mut outcomes, mut passed) = (self.outcomes, 0);
        for pair in events.windows(2).take(self.left as usize - 1) {
            let &[Event::Retire { address, itype, level }, next] = pair else { break };
            let Event::Retire { address: next, level: other, .. } = next else { break };
            let more = with(outcomes, itype);
            if (level != other) | is_discontinuity(itype) | (itype == 0) & (next <= address) | (more.count == 31) {
                break;
            }
            outcomes = more;
            passed += 1;
        }
        self.outcomes = outcomes;
        self.left -= passed as u32;
        passed
    }

    #[inline]
    fn packet(&mut self, event: Event, next: Option<&Event>) -> Option<Packet> {
        let (address, itype, level) = match event {
            Event::Retire { address, itype, level } => (address, itype, level),
            Event::Trap { epc, level, interrupt, cause, value } => {
                return Some(self.trap(epc, level, (interrupt, cause, value), next));
            }
        };
        self.left -= 1;
        // Where the next event is, unless it is a trap or is reported by a Sync packet.
        let then = match next {
            Some(&Event::Retire { address, level: other, .. }) if self.left != 0 && level == other => Some(address),
            _ => None,
        };
        if self.left == 0 {
            self.left = self.period;
        }
        self.is_inferable = !is_discontinuity(itype);
        let due_next = match then {
            None => Due::Sync,
            Some(_) if self.is_inferable => Due::Nothing,
            Some(_) => Due::Target,
        };
        let due = std::mem::replace(&mut self.due, due_next);
        let outcomes = with(std::mem::take(&mut self.outcomes), itype);
        let report = match (due, then) {
            (Due::Handler, _) => return None,
            (Due::Sync, _) => {
                self.reported = address;
                return Some(Packet::Sync { address, level, branch: itype != 5 });
            }
            (Due::Target, None) if next.is_some() => Report::Updiscon,
            (Due::Target, _) | (Due::Nothing, None) => Report::Plain,
            (Due::Nothing, Some(then)) if itype == 0 && then <= address => Report::Notify,
            _ if outcomes.count == 31 => return Some(Packet::Map { map: outcomes.map }),
            _ => {
                self.outcomes = outcomes;
                return None;
            }
        };
        let difference = address.wrapping_sub(self.reported);
        self.reported = address;
        Some(Packet::Address { outcomes, difference, report })
    }

    fn trap(&mut self, epc: u64, own: u8, why: (bool, u8, u64), next: Option<&Event>) -> Packet {
        let (interrupt, cause, value) = why;
        let (handler, address, level, branch) = match next {
            Some(&Event::Retire { address, itype, level }) if self.is_inferable => (true, address, level, itype != 5),
            _ => (false, epc, own, true),
        };
        self.due = if handler { Due::Handler } else { Due::Sync };
        self.is_inferable = false;
        self.reported = address;
        self.outcomes = Outcomes::default();
        Packet::Trap { interrupt, cause, value, handler, address, level, branch }
    }
}
