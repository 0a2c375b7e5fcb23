//! The bounds of early messages: the window, a slot's size, and how many places are enough.

use super::early_cases::Kept;
use super::{bytes, lend, mold};
use crate::call::Call;
use crate::layout::{self, EARLY, SLOTS};
use crate::random::Random;
use crate::reference::early::{Early, SLOT};
use crate::reference::mold::{HEADER, LARGEST};
use crate::reference::Name;
use crate::run::Run;

/// Both sides of the window, of a slot's size and of the places.
pub fn case(run: &mut Run, random: &mut Random) {
    let next = bytes::number(random).clamp(1, u64::MAX - 67);
    let kept = fresh(next);
    let (state, slots) = (kept.state.as_slice(), &kept.slots);
    let take = |run: &mut Run, random: &mut Random, datagram: &[u8]| {
        let (mut state, mut slots) = (state.to_vec(), slots.clone());
        let call = Call::EarlyTake { datagram };
        lend::chained_with(run, random, &call, &mut state, &mut slots);
        layout::early(&state, &slots).held.len()
    };
    let window = [
        (1, true, "n + 1"),
        (64, true, "n + 64"),
        (65, false, "n + 65"),
    ];
    for (ahead, holds, name) in window {
        let datagram = mold::raw(NAME, next + ahead, 1, &[vec![1]]);
        if (take(run, random, &datagram) == 1) != holds {
            run.fail("the window is another one");
        }
        run.note("early_window", name);
    }
    for (size, holds, name) in [(SLOT, true, "1,024"), (SLOT + 1, false, "1,025")] {
        let datagram = mold::raw(NAME, next + 1, 1, &[vec![1; size]]);
        if (take(run, random, &datagram) == 1) != holds {
            run.fail("a slot has another size");
        }
        run.note("early_length", name);
    }
    places(run, random, &kept, next);
}

const NAME: &Name = b"READROOM01";

/// A receiver that was just started.
fn fresh(next: u64) -> Kept {
    let early = Early::start(*NAME, next, 100).expect("a start");
    Kept {
        state: layout::early_bytes(&early, &[0; EARLY], &vec![]),
        slots: vec![7; SLOTS],
    }
}

/// As many places as the messages of a datagram and a held one behind them need, and a word less.
fn places(run: &mut Run, random: &mut Random, kept: &Kept, next: u64) {
    let many = match random.below(8) {
        0 => (LARGEST - HEADER) / 2,
        _ => random.between(1, 6),
    };
    let (mut state, mut slots) = (kept.state.clone(), kept.slots.clone());
    let mut held = 0;
    if many < 64 {
        let datagram = mold::raw(NAME, next + many as u64, 1, &[vec![1, 2]]);
        let ahead = Call::EarlyTake {
            datagram: &datagram,
        };
        lend::chained_with(run, random, &ahead, &mut state, &mut slots);
        held = 1;
    }
    let next = next.min(u64::MAX - many as u64);
    state[11..19].copy_from_slice(&next.to_le_bytes());
    let datagram = mold::raw(NAME, next, many as u16, &vec![vec![]; many]);
    let call = Call::EarlyDeliver {
        datagram: &datagram,
    };
    for _ in 0..2 {
        let mut lacking = lend::lacking(random, &call, Some(&state));
        run.check(&call, &mut lacking);
    }
    let mut lent = lend::with_slots(random, &call, &state, &slots);
    let needed = 3 * (many + held);
    lent.places.resize(needed - 1, 7);
    if run.check(&call, &mut lent) != 41 {
        run.fail("a word less than the places need is enough");
    }
    run.note("early_places", "one word less");
    lent.places.resize(needed, 7);
    if run.check(&call, &mut lent) != 0 {
        run.fail("as many words as the places need aren't enough");
    }
    run.note("early_places", "as many as are laid");
    if many > 6 {
        run.note("early_places", "of the most messages");
    }
}
