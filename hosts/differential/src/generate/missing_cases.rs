//! Calls of the functions for what is missing: states made by hand, captures cut into pieces, and as many ranges as are
//! kept, and one more.

use super::capture;
use super::feed::Feed;
use super::{bytes, lend, mold};
use crate::call::{Call, Lent};
use crate::compare::edges::WORDS;
use crate::layout::{self, Noting};
use crate::random::Random;
use crate::reference::capture::Stage;
use crate::reference::missing::{self, MOST_RANGES};
use crate::run::Run;

pub fn case(run: &mut Run, random: &mut Random) {
    match random.below(40) {
        0..2 => many(run, random),
        2..15 => pieces(run, random),
        _ => single(run, random),
    }
}

fn single(run: &mut Run, random: &mut Random) {
    let feed = capture::feed(random);
    lend::single(run, random, &Call::MissingStart, None);
    for _ in 0..3 {
        let state = by_hand(random, &feed);
        let edges = edges(random, &feed, &state);
        let records = capture::records(random, &feed, 6);
        let whole = capture::capture(random, &feed);
        let bytes = if random.one_in(4) { &whole } else { &records };
        let place = random.pick(&[0, 0, 1, 2, 4_095, 4_096, u64::MAX]);
        let mut calls = vec![
            Call::MissingFeed { bytes },
            Call::MissingFinish { bytes },
            Call::MissingCount,
            Call::MissingRange { place },
        ];
        if random.one_in(3) {
            calls.push(Call::MissingWrite);
        }
        for call in &calls {
            let state = (!random.one_in(24)).then_some(state.as_slice());
            let mut lent = lend::any(random, call, state);
            if lent.edges.len() == WORDS && !random.one_in(12) {
                lent.edges.clone_from(&edges);
            }
            run.check(call, &mut lent);
        }
    }
}

/// The state of a reading in any stage, its numbers at their ends now and then.
pub fn by_hand(random: &mut Random, feed: &Feed) -> Vec<u8> {
    let most = MOST_RANGES as u64;
    let any = bytes::number(random);
    let there = feed.first.saturating_add(random.below(12) as u64);
    let noting = Noting {
        stage: random.pick(&[
            Stage::Settings,
            Stage::Records,
            Stage::Records,
            Stage::Records,
            Stage::Done,
            Stage::SettingsRefused,
        ]),
        session: feed.name,
        highest: match random.below(4) {
            0 => bytes::number(random),
            _ => bytes::near(random, there),
        },
        left: match random.below(3) {
            0 => random.below(4) as u32,
            _ => u32::MAX - random.below(4) as u32,
        },
        closed: random.pick(&[0, 0, 1, 2, 3, 5, most - 1, most, most, most + 1, any]),
        refused: random.one_in(8),
    };
    let mut state = layout::noting_bytes(&noting);
    bytes::by_hand(random, &mut state, Some(layout::STAGE));
    match random.below(16) {
        0 => state[layout::REFUSED] = random.byte(),
        1 => {
            let left = bytes::number(random).to_le_bytes();
            state[layout::LEFT..][..8].copy_from_slice(&left);
        }
        _ => {}
    }
    state
}

/// Edges of a state: most often they rise, around the feed's numbers, and the last one is the highest next number or
/// lies below it.
fn edges(random: &mut Random, feed: &Feed, state: &[u8]) -> Vec<u64> {
    let mut edges = lend::edges(random);
    let noting = layout::noting(state);
    let many = 2 * noting.closed.min(MOST_RANGES as u64) as usize + 1;
    if random.one_in(4) {
        return edges;
    }
    let steps: Vec<u64> = (0..many).map(|_| random.between(1, 3) as u64).collect();
    let total: u64 = steps.iter().sum();
    let back = random.below(total as usize + 1) as u64;
    let mut at = feed.first.saturating_sub(back).min(u64::MAX - total);
    for (edge, step) in edges.iter_mut().zip(steps) {
        at += step;
        *edge = at;
    }
    edges
}

/// A reading in a chain, with its edges.
struct Kept {
    state: Vec<u8>,
    edges: Vec<u64>,
}

impl Kept {
    fn start(run: &mut Run, random: &mut Random) -> Kept {
        let mut state = vec![0; layout::MISSING];
        lend::chained(run, random, &Call::MissingStart, &mut state);
        let edges = lend::edges(random);
        Kept { state, edges }
    }

    /// Makes a call with buffers that are large enough, and hands on what it leaves.
    fn call(&mut self, run: &mut Run, random: &mut Random, call: &Call) -> Lent {
        let mut lent = lend::roomy(random, call, &self.state);
        lent.edges.clone_from(&self.edges);
        run.check(call, &mut lent);
        self.state = lent.state[..layout::MISSING].to_vec();
        self.edges.clone_from(&lent.edges);
        lent
    }

    /// The capture in pieces of up to a size: what isn't used is kept and fed again.
    fn read(&mut self, run: &mut Run, random: &mut Random, capture: &[u8], most: usize) {
        let (mut kept, mut there) = (0, 0);
        while there < capture.len() {
            there = (there + random.between(0, most)).min(capture.len());
            let bytes = &capture[kept..there];
            let lent = self.call(run, random, &Call::MissingFeed { bytes });
            kept += lent.words[0] as usize;
            if there - kept > 65_536 {
                run.fail("a feed left more than 65,536 bytes to keep");
            }
            if random.one_in(8) {
                self.call(run, random, &Call::MissingCount);
            }
        }
        let bytes = &capture[kept..];
        self.call(run, random, &Call::MissingFinish { bytes });
    }

    /// What is printed is what order 11 says of the whole capture.
    fn print(&mut self, run: &mut Run, random: &mut Random, capture: &[u8]) -> &'static str {
        let lent = self.call(run, random, &Call::MissingWrite);
        let text = missing::text(capture);
        if lent.out[..lent.words[0] as usize] != text {
            run.fail("what is missing by pieces isn't what is missing from the whole");
        }
        let printed = match text.first() {
            Some(b'r') => "ranges=refused",
            _ if text.starts_with(b"settings") => "settings=refused",
            _ => "list",
        };
        run.note("missing_text", printed);
        printed
    }
}

fn pieces(run: &mut Run, random: &mut Random) {
    let feed = capture::feed(random);
    let capture = capture::capture(random, &feed);
    let most = capture.len() / random.between(1, 20) + 1;
    let mut kept = Kept::start(run, random);
    kept.read(run, random, &capture, most);
    kept.print(run, random, &capture);
    let place = random.below(4) as u64;
    kept.call(run, random, &Call::MissingRange { place });
    // At once, which is also how the types read it.
    let bytes = &capture;
    let mut whole = Kept::start(run, random);
    whole.call(run, random, &Call::MissingFinish { bytes });
    if whole.state != kept.state {
        run.fail("a capture in pieces leaves another state than the whole");
    }
}

/// As many ranges as are kept, from the front, from the back or in any order; and perhaps one more, by any kind of
/// datagram.
fn many(run: &mut Run, random: &mut Random) {
    let name = b"READROOM01";
    let one = |number: u64| capture::record(&mold::raw(name, number, 1, &[vec![]]));
    let room = 2 * MOST_RANGES as u64 + 4;
    let start = bytes::number(random).clamp(1, u64::MAX - room);
    let mut numbers: Vec<u64> = (0..MOST_RANGES as u64)
        .map(|hole| start + 1 + 2 * hole)
        .collect();
    match random.below(3) {
        0 => numbers.reverse(),
        1 => shuffle(random, &mut numbers),
        _ => {}
    }
    let mut capture = format!("session=READROOM01\nnext={start}\nlimit=1\n").into_bytes();
    capture.extend(numbers.iter().flat_map(|&number| one(number)));
    let past = start + 2 * MOST_RANGES as u64 + 1;
    let is_past = random.one_in(2);
    match is_past {
        true if random.one_in(2) => capture.extend(one(past)),
        true => capture.extend(capture::record(&mold::raw(name, past, 0, &[]))),
        // One that is there, and one that closes a gap.
        false => capture.extend([one(past - 2), one(start)].concat()),
    }
    let mut kept = Kept::start(run, random);
    kept.read(run, random, &capture, 60_000);
    let printed = kept.print(run, random, &capture);
    if (printed == "ranges=refused") != is_past {
        run.fail("another number of ranges is refused");
    }
    let drawn = if is_past {
        "4,097 ranges"
    } else {
        "4,096 ranges"
    };
    run.note("missing_many", drawn);
}

fn shuffle(random: &mut Random, numbers: &mut [u64]) {
    for last in (1..numbers.len()).rev() {
        numbers.swap(last, random.below(last + 1));
    }
}
