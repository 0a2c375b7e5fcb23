//! The buffers that a call may write, filled with random bytes: exact, longer than needed, and too short.

use crate::call::{Call, Lent};
use crate::compare::{self, edges, grounds};
use crate::layout::{MISSING_TEXT, SLOTS};
use crate::random::Random;
use crate::reference::early::SLOT;
use crate::run::Run;

use super::bytes;

/// The largest output that is lent: what needs more is refused for its size.
const MOST_ROOM: usize = MISSING_TEXT;

fn words(random: &mut Random, size: usize) -> Vec<u64> {
    (0..size).map(|_| random.word()).collect()
}

/// Sizes of any kind for a fixed need: one time in sixteen too short.
fn any_size(random: &mut Random, size: usize) -> usize {
    match random.below(48) {
        0 => size.saturating_sub(1),
        1 => random.below(size + 1),
        2 => 0,
        3..12 => size + random.between(1, 4),
        _ => size,
    }
}

fn roomy_size(random: &mut Random, size: usize) -> usize {
    size + random.pick(&[0, 0, 0, 1, 3])
}

/// A state followed by random bytes, or cut: `size` bytes in all.
fn state_of_size(random: &mut Random, state: Option<&[u8]>, size: usize) -> Vec<u8> {
    let mut lent = random.bytes(size);
    if let Some(state) = state {
        let shared = state.len().min(size);
        lent[..shared].copy_from_slice(&state[..shared]);
    }
    lent
}

/// Slots of any bytes: runs of one byte, and here and there others.
pub fn slots(random: &mut Random) -> Vec<u8> {
    let mut slots = vec![random.byte(); SLOTS];
    for _ in 0..random.below(6) {
        let at = random.below(SLOTS - 64);
        random.fill(&mut slots[at..at + 64]);
    }
    slots
}

/// Slots of another size, cut or with more behind them.
pub fn other_slots(random: &mut Random, slots: &mut Vec<u8>) {
    let size = random.pick(&[0, 1, SLOT, SLOTS - 1, SLOTS + 1, SLOTS + SLOT]);
    slots.resize(size, 7);
}

/// Edges of any words: runs of one, and here and there others.
pub fn edges(random: &mut Random) -> Vec<u64> {
    let mut edges = vec![bytes::number(random); edges::WORDS];
    for _ in 0..random.below(4) {
        let at = random.below(edges::WORDS - 9);
        edges[at..at + 9].fill_with(|| bytes::number(random));
    }
    edges
}

/// Edges that are fewer or more.
fn other_edges(random: &mut Random, lent: &mut Vec<u64>) {
    let many = edges::WORDS;
    lent.resize(
        random.pick(&[0, 1, many - 2, many - 1, many + 1, many + 2]),
        7,
    );
}

/// Whether the function writes to slots.
fn has_slots(call: &Call) -> bool {
    use Call::{CaptureFeed, CaptureFinish, EarlyDeliver, EarlyTake};
    matches!(
        call,
        EarlyTake { .. } | EarlyDeliver { .. } | CaptureFeed { .. } | CaptureFinish { .. }
    )
}

/// The sizes that are lent for what is needed: of words and states, of outputs and places; and how often, once in so
/// many times, slots or edges have another size.
struct Sizes {
    fixed: fn(&mut Random, usize) -> usize,
    written: fn(&mut Random, usize) -> usize,
    other_slots: Option<usize>,
}

const ANY: Sizes = Sizes {
    fixed: any_size,
    written: bytes::size_near,
    other_slots: Some(24),
};

const LACKING: Sizes = Sizes {
    fixed: lacking_size,
    written: lacking_size,
    other_slots: Some(3),
};

const ROOMY: Sizes = Sizes {
    fixed: roomy_size,
    written: roomy_size,
    other_slots: None,
};

/// Without a state or slots, random bytes are some.
fn lend(
    random: &mut Random,
    call: &Call,
    state: Option<&[u8]>,
    slots: Option<&[u8]>,
    sizes: &Sizes,
) -> Lent {
    let (words_size, state_size) = compare::fixed_sizes(call);
    let words_size = (sizes.fixed)(random, words_size);
    let state_size = (sizes.fixed)(random, state_size);
    let mut lent = Lent {
        words: words(random, words_size),
        out: vec![],
        state: state_of_size(random, state, state_size),
        places: vec![],
        slots: vec![],
        edges: vec![],
    };
    if has_slots(call) {
        lent.slots = slots.map_or_else(|| self::slots(random), <[u8]>::to_vec);
        if sizes.other_slots.is_some_and(|often| random.one_in(often)) {
            other_slots(random, &mut lent.slots);
        }
    }
    if grounds::has_edges(call) {
        lent.edges = self::edges(random);
        if sizes.other_slots.is_some_and(|often| random.one_in(often)) {
            other_edges(random, &mut lent.edges);
        }
    }
    let needed = grounds::output_needed(call, &lent.state).min(MOST_ROOM);
    let out_size = (sizes.written)(random, needed);
    lent.out = random.bytes(out_size);
    if let Call::ReceiverDeliver { .. } | Call::EarlyDeliver { .. } = call {
        let needed = grounds::places_needed(call, &lent.state, &lent.slots);
        let size = (sizes.written)(random, needed);
        lent.places = words(random, size);
    }
    lent
}

/// Buffers of any size.
pub fn any(random: &mut Random, call: &Call, state: Option<&[u8]>) -> Lent {
    lend(random, call, state, None, &ANY)
}

/// Buffers of which each lacks something every third time, so that several do at once.
pub fn lacking(random: &mut Random, call: &Call, state: Option<&[u8]>) -> Lent {
    lend(random, call, state, None, &LACKING)
}

fn lacking_size(random: &mut Random, size: usize) -> usize {
    match random.below(6) {
        0 => size.saturating_sub(1),
        1 => random.below(size.max(1)),
        2 => size + random.between(1, 4),
        _ => size,
    }
}

/// Buffers that are large enough.
pub fn roomy(random: &mut Random, call: &Call, state: &[u8]) -> Lent {
    lend(random, call, Some(state), None, &ROOMY)
}

/// The same with these slots.
pub fn with_slots(random: &mut Random, call: &Call, state: &[u8], slots: &[u8]) -> Lent {
    lend(random, call, Some(state), Some(slots), &ROOMY)
}

/// A call of its own.
pub fn single(run: &mut Run, random: &mut Random, call: &Call, state: Option<&[u8]>) {
    let mut lent = any(random, call, state);
    run.check(call, &mut lent);
}

/// A call of its own with these slots.
pub fn single_with(
    run: &mut Run,
    random: &mut Random,
    call: &Call,
    state: Option<&[u8]>,
    slots: &[u8],
) {
    let mut lent = lend(random, call, state, Some(slots), &ANY);
    run.check(call, &mut lent);
}

/// A call in a chain: now and then it is tried with buffers of any size before, on a copy of the state. Then it is made
/// with buffers that are large enough, and the state is handed on.
pub fn chained(
    run: &mut Run,
    random: &mut Random,
    call: &Call,
    state: &mut Vec<u8>,
) -> (u32, Lent) {
    chained_with(run, random, call, state, &mut vec![])
}

/// The same with slots, which are handed on too where the call has any.
pub fn chained_with(
    run: &mut Run,
    random: &mut Random,
    call: &Call,
    state: &mut Vec<u8>,
    slots: &mut Vec<u8>,
) -> (u32, Lent) {
    if random.one_in(16) {
        single_with(run, random, call, Some(state), slots);
    }
    let mut lent = lend(random, call, Some(state), Some(slots), &ROOMY);
    let code = run.check(call, &mut lent);
    let (_, state_size) = compare::fixed_sizes(call);
    if state_size > 0 {
        *state = lent.state[..state_size].to_vec();
    }
    if has_slots(call) {
        slots.clone_from(&lent.slots);
    }
    (code, lent)
}
