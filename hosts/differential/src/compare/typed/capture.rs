//! `eiderwagon::capture`.

use super::{same, same_bytes, same_state};
use crate::call::Call;
use crate::compare::Expected;
use crate::layout;
use crate::reference::capture::{self as reference, Capture, Kept};
use crate::reference::early::{Early, Number};
use eiderwagon::capture::{self, Counts, Fed, Reading, Stage};
use std::collections::BTreeMap;

pub fn difference(call: &Call, expected: &Expected, out: &mut [u8]) -> Option<String> {
    match *call {
        Call::CaptureStart => {
            let started = Reading::start();
            same_state(expected, started.as_bytes(), started.as_bytes())
        }
        Call::CaptureReport { capture } => {
            let wanted = reference::report(capture);
            same("report", capture::report(capture), text(&wanted))
                .or_else(|| in_pieces(capture, expected, out))
        }
        _ => None,
    }
}

/// A reading is had from its start alone, so the other functions are compared along a whole capture: in three pieces,
/// what isn't used being fed again.
fn in_pieces(capture: &[u8], expected: &Expected, out: &mut [u8]) -> Option<String> {
    let mut reading = Reading::start();
    let mut wanted = Capture::start();
    let mut kept = vec![];
    let mut used = 0;
    for end in [capture.len() / 3, capture.len() / 3 * 2] {
        let piece = &capture[used..end];
        let fed = reading.feed(piece);
        let difference = same("feed", fed, reference_feed(&mut wanted, piece, &mut kept))
            .or_else(|| same_reading(&reading, &wanted, &kept));
        if difference.is_some() {
            return difference;
        }
        used += fed.used;
    }
    reading.finish(&capture[used..]);
    wanted.finish(&capture[used..], &mut kept);
    same_reading(&reading, &wanted, &kept).or_else(|| same_bytes(expected, reading.write(out)))
}

fn reference_feed(capture: &mut Capture, piece: &[u8], kept: &mut Kept) -> Fed {
    let used = capture.feed(piece, kept);
    let over = capture.is_over();
    Fed { used, over }
}

/// `kept` is all that the reading has held so far: so the lengths of what is in its slots are those that it started with,
/// 0, and these.
fn same_reading(reading: &Reading, wanted: &Capture, kept: &Kept) -> Option<String> {
    same("report", reading.report(), text(&wanted.report()))
        .or_else(|| same("reading", as_reference(reading), wanted.clone()))
        .or_else(|| {
            let bytes = layout::capture_bytes(wanted, &[0; layout::CAPTURE], kept);
            same("reading", reading.as_bytes().as_slice(), bytes.as_slice())
        })
}

fn as_reference(reading: &Reading) -> Capture {
    let Counts {
        records,
        delivered,
        old,
        quiet,
        asked,
        refused,
    } = reading.counts();
    Capture {
        receiver: Early {
            session: reading.session(),
            next: reading.next(),
            limit: reading.limit(),
            ended: reading.is_ended(),
            held: held(reading),
        },
        stage: match reading.stage() {
            Stage::Settings => reference::Stage::Settings,
            Stage::Records => reference::Stage::Records,
            Stage::Done => reference::Stage::Done,
            Stage::SettingsRefused => reference::Stage::SettingsRefused,
        },
        records,
        delivered,
        old,
        quiet,
        asked,
        refused,
    }
}

fn held(reading: &Reading) -> BTreeMap<Number, Vec<u8>> {
    let receiver = &reading.as_bytes()[layout::CAPTURE_RECEIVER..];
    let held = layout::early(receiver, reading.slots()).held;
    assert_eq!(held.len(), reading.held_count() as usize);
    held
}

fn text(report: &[u8]) -> String {
    String::from_utf8(report.to_vec()).expect("a report is text")
}
