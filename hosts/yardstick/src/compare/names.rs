//! Receivers that were started on a blank name, by the library and by the yardstick: what names them, and what doesn't.

use super::delivery::compare_in_one_call_from;
use super::{compare_from, name, Drawn};
use crate::captures::for_unnamed;
use crate::mold::BLANK;
use crate::LATER;

/// The answers, which name a receiver that has no name yet, and the refusals, which don't. 18 is for a named one alone.
pub const OUTCOMES: &[&str] = &[
    "deliver", "old", "quiet", "ask", "ended", "11", "12", "13", "14", "15", "16", "17", "20",
];

/// Starts both on a blank name so many times, each with a few datagrams, by `take` and by `deliver`. Panics at the first
/// difference.
pub fn compare_names(seed: u64, starts: usize) -> Drawn {
    let mut drawn = Drawn::new(OUTCOMES);
    for seed in (seed..).take(starts) {
        let capture = for_unnamed(seed);
        compare_from(BLANK, LATER, &capture, |before, answer| {
            if before.session().is_none() {
                drawn.add(name(answer));
            }
        });
        compare_in_one_call_from(BLANK, LATER, &capture);
    }
    drawn
}
