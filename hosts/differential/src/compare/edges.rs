//! The edges of missing ranges as the library keeps them in lent words, for the exact words of any state: at an edge
//! missing and present change places, and everything from the last one on is open. Order 11 itself is `reference`'s.

use crate::layout::Noting;
use crate::reference::missing::MOST_RANGES;

/// Words that are lent: two for each range, and one.
pub const WORDS: usize = 2 * MOST_RANGES + 1;

/// Whether it isn't refused, and the words have room for its edges.
pub fn is_usable(noting: &Noting) -> bool {
    !noting.refused && noting.closed <= MOST_RANGES as u64
}

/// The edges of a state that is usable.
fn edges<'w>(noting: &Noting, words: &'w [u64]) -> &'w [u64] {
    &words[..2 * noting.closed as usize + 1]
}

/// Behind the last edge that is the number or lies below it, looked for by halves, which decides where they don't rise.
fn place_past(edges: &[u64], number: u64) -> usize {
    let (mut low, mut high) = (0, edges.len());
    while low < high {
        let middle = low + (high - low) / 2;
        match edges[middle] <= number {
            true => low = middle + 1,
            false => high = middle,
        }
    }
    low
}

/// Edges with the numbers from `first` to just below `behind` carried.
fn cut(edges: &[u64], first: u64, behind: u64) -> Vec<u64> {
    let j = place_past(edges, behind);
    let i = { first.checked_sub(1) }.map_or(0, |below| place_past(&edges[..j], below));
    let mut cut = edges[..i].to_vec();
    cut.extend((i % 2 == 1).then_some(first));
    cut.extend((j % 2 == 1).then_some(behind));
    cut.extend(&edges[j..]);
    cut
}

/// Notes what a datagram said. Where more ranges would be needed than are kept, only that is noted.
pub fn note(noting: &mut Noting, words: &mut [u64], (first, behind): (u64, u64)) {
    if !is_usable(noting) {
        noting.refused = true;
        return;
    }
    let before = edges(noting, words);
    let after = match first < behind {
        true => cut(before, first, behind),
        false => before.to_vec(),
    };
    let highest = noting.highest.max(behind);
    let closed = after.len() / 2;
    let open = usize::from(*after.last().expect("an edge") < highest);
    if closed + open > MOST_RANGES {
        noting.refused = true;
        return;
    }
    words[..after.len()].copy_from_slice(&after);
    noting.closed = closed as u64;
    noting.highest = highest;
}

/// The ranges of a state that is usable: from an edge to just below the next, the last one perhaps to just below the
/// highest next number. The number before 0 is 0.
pub fn ranges(noting: &Noting, words: &[u64]) -> Vec<(u128, u128)> {
    let mut edges = edges(noting, words).to_vec();
    if *edges.last().expect("an edge") < noting.highest {
        edges.push(noting.highest);
    }
    let range = |pair: &[u64]| (pair[0].into(), pair[1].saturating_sub(1).into());
    edges.chunks_exact(2).map(range).collect()
}

/// How many numbers ranges have: none where the edges fall, and a sum stops at 2^64 - 1.
pub fn total(ranges: &[(u128, u128)]) -> u128 {
    let sizes = ranges
        .iter()
        .map(|(from, to)| (to + 1).saturating_sub(*from));
    sizes.sum::<u128>().min(u64::MAX.into())
}
