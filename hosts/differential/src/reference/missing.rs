//! Order 11: what is missing from a capture. The numbers that are carried are kept as runs, and what lies between them
//! is missing. Settings and records are document 01's.

use super::capture::{record, settings, MOST_RECORDS};
use super::{mold, Name};
use std::collections::BTreeMap;

pub const MOST_RANGES: usize = 4_096;

/// The numbers of a session.
struct Numbers {
    /// From the settings: what is lower doesn't count.
    start: u64,
    /// The highest next number that a datagram states or implies.
    highest: u64,
    /// Runs of carried numbers that don't touch: the first of each, and the number behind its last.
    carried: BTreeMap<u64, u64>,
}

/// What an accepted datagram says: it carries the numbers from the first to just below the second, none where they are
/// equal, and the second is the next number. "Accepted here means read without refusal and of the session's name."
pub fn said_by(session: &Name, datagram: &[u8]) -> Option<(u64, u64)> {
    let read = mold::read(datagram).ok()?;
    let behind = read.number + read.messages.len() as u64;
    (read.session == *session).then_some((read.number, behind))
}

impl Numbers {
    fn note(&mut self, (first, behind): (u64, u64)) {
        self.highest = self.highest.max(behind);
        if first < behind {
            self.carry(first, behind);
        }
    }

    /// Joins the new run with those that it overlaps or touches.
    fn carry(&mut self, first: u64, behind: u64) {
        let (mut low, mut high) = (first, behind);
        while let Some((&from, &to)) = self.carried.range(..=high).next_back() {
            if to < low {
                break;
            }
            self.carried.remove(&from);
            low = low.min(from);
            high = high.max(to);
        }
        self.carried.insert(low, high);
    }

    /// The missing ranges, both ends missing themselves.
    fn ranges(&self) -> Vec<(u64, u64)> {
        let mut ranges = vec![];
        let mut at = self.start;
        for (&from, &to) in &self.carried {
            if at < from {
                ranges.push((at, from - 1));
            }
            at = at.max(to);
        }
        if at < self.highest {
            ranges.push((at, self.highest - 1));
        }
        ranges
    }

    /// So few runs have no more ranges between them.
    fn are_too_many(&self) -> bool {
        self.carried.len() >= MOST_RANGES && self.ranges().len() > MOST_RANGES
    }
}

/// What is printed of a whole capture.
pub fn text(capture: &[u8]) -> Vec<u8> {
    let mut rest = capture;
    let Some(settings) = settings(&mut rest) else {
        return b"settings=refused\n".to_vec();
    };
    let mut numbers = Numbers {
        start: settings.next,
        highest: settings.next,
        carried: BTreeMap::new(),
    };
    let mut left = MOST_RECORDS;
    while let Some(datagram) = record(rest).filter(|_| left > 0) {
        rest = &rest[2 + datagram.len()..];
        left -= 1;
        if let Some(said) = said_by(&settings.session, datagram) {
            numbers.note(said);
        }
        if numbers.are_too_many() {
            return b"ranges=refused\n".to_vec();
        }
    }
    let ranges: Vec<(u128, u128)> = { numbers.ranges().iter() }
        .map(|&(from, to)| (from.into(), to.into()))
        .collect();
    let total = ranges.iter().map(|(from, to)| to - from + 1).sum();
    listing(&settings.session, &ranges, total)
}

/// The lines of some ranges, and of how many numbers they have.
pub fn listing(session: &Name, ranges: &[(u128, u128)], total: u128) -> Vec<u8> {
    let lines = ranges
        .iter()
        .map(|(from, to)| format!("from={from}\nto={to}\n"));
    let lines: String = lines.collect();
    [
        b"session=",
        &session[..],
        format!("\n{lines}missing={total}\n").as_bytes(),
    ]
    .concat()
}
