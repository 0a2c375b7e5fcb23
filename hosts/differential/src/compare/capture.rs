//! The captures' functions.

use super::{early, Expected};
use crate::call::{Call, Lent};
use crate::layout;
use crate::reference::capture::{self, Capture, Kept, Stage, Tail, MOST_RECORDS};

pub fn answer(call: &Call, lent: &Lent) -> Option<Expected> {
    Some(match *call {
        Call::CaptureStart => {
            let nothing = [0; layout::CAPTURE];
            let state = layout::capture_bytes(&Capture::start(), &nothing, &vec![]);
            Expected::answer("started").state(state)
        }
        Call::CaptureFeed { bytes } => feed(lent, bytes),
        Call::CaptureFinish { bytes } => finish(lent, bytes),
        Call::CaptureWrite => report(layout::capture(&lent.state, &[]).report()),
        Call::CaptureReport { capture } => report(capture::report(capture)),
        _ => return None,
    })
}

fn feed(lent: &Lent, bytes: &[u8]) -> Expected {
    let mut capture = layout::capture(&lent.state, &lent.slots);
    let from = capture.stage;
    let mut kept = vec![];
    let used = capture.feed(bytes, &mut kept);
    let outcome = match (from, capture.stage) {
        (Stage::Settings, Stage::Settings) => "settings, need more",
        (Stage::Settings, Stage::SettingsRefused) => "settings, refused",
        (Stage::Settings, _) => "settings, read",
        (Stage::Records, _) if capture.records == MOST_RECORDS => "records, the most there are",
        (Stage::Records, _) if used == bytes.len() => "records, all used",
        (Stage::Records, _) => "records, some kept",
        (Stage::Done, _) => "done before",
        (Stage::SettingsRefused, _) => "refused before",
    };
    let over = capture.is_over();
    let fed = Expected::answer(outcome).words(&[used as u64, u64::from(over)]);
    // Where nothing was used and more may come, no byte changes, of a state made by hand neither.
    if used == 0 && !over {
        return fed;
    }
    left(fed, &capture, lent, &kept)
}

/// With the state and the slots as the call leaves them.
fn left(answer: Expected, capture: &Capture, lent: &Lent, kept: &Kept) -> Expected {
    let mut answer = answer.state(layout::capture_bytes(capture, &lent.state, kept));
    answer.slots = early::patches(kept);
    answer
}

fn finish(lent: &Lent, bytes: &[u8]) -> Expected {
    let mut capture = layout::capture(&lent.state, &lent.slots);
    let from = capture.stage;
    let mut kept = vec![];
    let tail = capture.finish(bytes, &mut kept);
    let outcome = match (from, tail) {
        (Stage::Settings, _) if capture.stage == Stage::SettingsRefused => "settings, refused",
        (Stage::Settings, Tail::CutShort) => "settings, cut short",
        (Stage::Settings, _) => "settings, whole",
        (Stage::Records, Tail::CutShort) => "records, cut short",
        (Stage::Records, Tail::Ignored) => "records, the most there are",
        (Stage::Records, Tail::None) => "records, whole",
        (Stage::Done, _) => "done before",
        (Stage::SettingsRefused, _) => "refused before",
    };
    left(Expected::answer(outcome), &capture, lent, &kept)
}

fn report(report: Vec<u8>) -> Expected {
    let outcome = if report.starts_with(b"settings") {
        "settings=refused"
    } else {
        "report"
    };
    let mut expected = Expected::written(report);
    expected.outcome = outcome;
    expected
}
