//! Calls of the captures' functions: whole captures, states made by hand, and captures cut into pieces.

use super::capture;
use super::feed::Feed;
use super::{bytes, lend};
use crate::call::Call;
use crate::layout;
use crate::random::Random;
use crate::reference::capture::{Capture, Stage};
use crate::reference::early::Early;
use crate::reference::BLANK;
use crate::run::Run;

pub fn single(run: &mut Run, random: &mut Random) {
    let feed = capture::feed(random);
    let bytes = capture::capture(random, &feed);
    let call = Call::CaptureReport { capture: &bytes };
    lend::single(run, random, &call, None);
    lend::single(run, random, &Call::CaptureStart, None);
    for _ in 0..4 {
        let state = by_hand(random, &feed);
        let state = (!random.one_in(24)).then_some(state.as_slice());
        let records = capture::records(random, &feed, 6);
        let bytes = if random.one_in(3) { &bytes } else { &records };
        lend::single(run, random, &Call::CaptureFeed { bytes }, state);
        lend::single(run, random, &Call::CaptureFinish { bytes }, state);
        lend::single(run, random, &Call::CaptureWrite, state);
    }
}

/// The state of a reading in any stage, its counts at their ends now and then; sometimes its receiver has no name, as no
/// settings leave it.
pub fn by_hand(random: &mut Random, feed: &Feed) -> Vec<u8> {
    let receiver = Early {
        session: random.pick(&[feed.name, feed.name, feed.name, BLANK]),
        next: feed.first,
        limit: bytes::count(random),
        ended: random.one_in(8),
        held: Default::default(),
    };
    let capture = Capture {
        receiver,
        stage: random.pick(&[
            Stage::Settings,
            Stage::Records,
            Stage::Records,
            Stage::Done,
            Stage::SettingsRefused,
        ]),
        records: match random.below(3) {
            0 => u32::MAX - random.below(4) as u32,
            _ => random.below(10) as u32,
        },
        delivered: line(random),
        old: line(random),
        quiet: line(random),
        asked: line(random),
        refused: line(random),
    };
    let mut state = layout::capture_bytes(&capture, &[0; layout::CAPTURE], &vec![]);
    if random.one_in(3) {
        let held = random.word().to_le_bytes();
        state[layout::CAPTURE_RECEIVER + layout::HELD..][..8].copy_from_slice(&held);
        let lengths = &mut state[layout::CAPTURE_RECEIVER + layout::LENGTHS..][..128];
        random.fill(lengths);
    }
    bytes::by_hand(random, &mut state, Some(layout::STAGE));
    match random.below(16) {
        0 => bytes::by_hand(random, &mut state[layout::CAPTURE_RECEIVER..], None),
        1 => {
            let records = bytes::number(random).to_le_bytes();
            state[layout::RECORDS..][..8].copy_from_slice(&records);
        }
        _ => {}
    }
    state
}

/// What one line of the report counts.
fn line(random: &mut Random) -> u64 {
    match random.below(4) {
        0 => u64::MAX - random.below(3) as u64,
        _ => bytes::number(random),
    }
}

/// A whole capture in pieces: what isn't used is kept and fed again, and the report is the whole capture's.
pub fn pieces(run: &mut Run, random: &mut Random) {
    let feed = capture::feed(random);
    let capture = capture::capture(random, &feed);
    let (mut state, mut slots) = (vec![0; layout::CAPTURE], lend::slots(random));
    lend::chained(run, random, &Call::CaptureStart, &mut state);
    let mut kept = 0;
    let mut there = 0;
    let most = capture.len() / random.between(1, 20) + 1;
    while there < capture.len() {
        there = (there + random.between(0, most)).min(capture.len());
        let bytes = &capture[kept..there];
        let feed = Call::CaptureFeed { bytes };
        let (_, lent) = lend::chained_with(run, random, &feed, &mut state, &mut slots);
        kept += lent.words[0] as usize;
        if there - kept > 65_536 {
            run.fail("a feed left more than 65,536 bytes to keep");
        }
        if random.one_in(4) {
            lend::single(run, random, &Call::CaptureWrite, Some(&state));
        }
        if lent.words[1] == 1 {
            break;
        }
    }
    let bytes = &capture[kept..there];
    let finish = Call::CaptureFinish { bytes };
    lend::chained_with(run, random, &finish, &mut state, &mut slots);
    let (_, lent) = lend::chained(run, random, &Call::CaptureWrite, &mut state);
    let in_pieces = &lent.out[..lent.words[0] as usize];
    let call = Call::CaptureReport { capture: &capture };
    let (_, lent) = lend::chained(run, random, &call, &mut vec![]);
    if in_pieces != &lent.out[..lent.words[0] as usize] {
        run.fail("a capture in pieces has another report than the whole");
    }
}
