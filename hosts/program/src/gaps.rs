//! The gaps of a run: which numbers the receiver was without, from when to when.

use crate::run::{Gap, Mark};
use eiderwagon::early::EarlyReceiver;
use eiderwagon::mold::Request;

/// So many are listed; the others are counted.
const LISTED: usize = 65_536;
/// A receiver holds messages that are at most so far ahead.
const HELD_AHEAD: u64 = 64;

/// The gaps so far. What the receiver has is asked of it; here is kept when that changed.
#[derive(Default)]
pub struct Gaps {
    list: Vec<Gap>,
    /// How many aren't listed.
    more: u64,
    /// Those that are open, with their places in the list. What lies between two of them is held, so
    /// they are few.
    open: Vec<(Option<usize>, Gap)>,
}

impl Gaps {
    /// Takes note of what a record changed: numbers up to below `told` are known now, from `known`
    /// on for the first time. Says whether a gap opened, and whether one closed.
    pub fn step(
        &mut self,
        receiver: &EarlyReceiver,
        known: u64,
        told: u64,
        request: Option<&Request>,
        mark: Mark,
    ) -> (bool, bool) {
        let opened = self.open_from(receiver, known.max(receiver.next()), told, mark);
        if let Some(request) = request {
            self.ask(request);
        }
        (opened, self.close(receiver, mark))
    }

    /// Opens a gap for each run of numbers that the receiver is without, among those newly known.
    fn open_from(&mut self, receiver: &EarlyReceiver, from: u64, told: u64, mark: Mark) -> bool {
        let mut is_new = false;
        let mut number = from;
        while number < told {
            let end = first_held(receiver, number, told);
            if number < end {
                is_new |= self.missing(receiver, number, end - 1, mark);
            }
            number = end;
            while number < told && receiver.holds(number) {
                number += 1;
            }
        }
        is_new
    }

    /// A run of missing numbers: the rest of a gap whose last number is missing, too, where it
    /// follows that one, or a gap of its own.
    fn missing(&mut self, receiver: &EarlyReceiver, from: u64, to: u64, mark: Mark) -> bool {
        if let Some((_, last)) = self.open.last_mut() {
            if last.to + 1 == from && !receiver.holds(last.to) {
                last.to = to;
                return false;
            }
        }
        let gap = Gap { from, to, opened: mark, asked: 0, closed: None, by_end: false };
        let place = (self.list.len() < LISTED).then_some(self.list.len());
        match place {
            Some(_) => self.list.push(gap),
            None => self.more += 1,
        }
        self.open.push((place, gap));
        true
    }

    fn ask(&mut self, request: &Request) {
        let last = request.first + u64::from(request.count) - 1;
        for (_, gap) in &mut self.open {
            if gap.from <= last && request.first <= gap.to {
                gap.asked += 1;
            }
        }
    }

    /// Closes the gaps of which the receiver has every number, and all at the session's end.
    fn close(&mut self, receiver: &EarlyReceiver, mark: Mark) -> bool {
        let before = self.open.len();
        let list = &mut self.list;
        self.open.retain_mut(|(place, gap)| {
            let first = gap.from.max(receiver.next());
            let is_missing = first <= gap.to && first_missing(receiver, first) <= gap.to;
            // an ended session has no further numbers, whatever was told before
            let is_open = is_missing && !receiver.is_ended();
            if !is_open {
                (gap.closed, gap.by_end) = (Some(mark), is_missing);
                if let Some(place) = *place {
                    list[place] = *gap;
                }
            }
            is_open
        });
        self.open.len() < before
    }

    /// How many are open.
    pub fn open_count(&self) -> u64 {
        self.open.len() as u64
    }

    /// The list, as they opened, and how many aren't in it.
    pub fn finish(mut self) -> (Vec<Gap>, u64) {
        for (place, gap) in self.open {
            if let Some(place) = place {
                self.list[place] = gap;
            }
        }
        (self.list, self.more)
    }
}

/// The first held number from `from` on; `end` where there is none below it.
fn first_held(receiver: &EarlyReceiver, from: u64, end: u64) -> u64 {
    let last = receiver.next().saturating_add(HELD_AHEAD).min(end - 1);
    (from..=last).find(|number| receiver.holds(*number)).unwrap_or(end)
}

/// The first number from `from` on that isn't held.
fn first_missing(receiver: &EarlyReceiver, from: u64) -> u64 {
    (from..=u64::MAX).find(|number| !receiver.holds(*number)).unwrap_or(u64::MAX)
}
