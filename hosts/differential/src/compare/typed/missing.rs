//! `eiderwagon::missing`.

use super::{same, same_state};
use crate::call::Call;
use crate::compare::Expected;
use crate::reference::missing as reference;
use eiderwagon::missing::Missing;

pub fn difference(call: &Call, expected: &Expected) -> Option<String> {
    match *call {
        Call::MissingStart => {
            let started = Missing::start();
            same_state(expected, started.as_bytes(), started.as_bytes())
        }
        // A reading is had from its start alone, so that the bytes are a capture of their own, good or bad.
        Call::MissingFinish { bytes } => in_pieces(bytes),
        _ => None,
    }
}

/// In three pieces, what isn't used being fed again.
fn in_pieces(capture: &[u8]) -> Option<String> {
    let mut missing = Missing::start();
    let mut used = 0;
    for end in [capture.len() / 3, capture.len() / 3 * 2] {
        used += missing.feed(&capture[used..end]).used;
    }
    missing.finish(&capture[used..]);
    let wanted = String::from_utf8(reference::text(capture)).expect("a printable name is text");
    same("text", missing.text(), wanted.clone())
        .or_else(|| same("ranges", listed(&missing), listing(&wanted)))
}

/// The lines of the ranges and of the summary; none where nothing is listed.
fn listed(missing: &Missing) -> Option<String> {
    let numbers = missing.summary()?.numbers;
    let range = |range: std::ops::RangeInclusive<u64>| {
        format!("from={}\nto={}\n", range.start(), range.end())
    };
    let ranges: String = missing.ranges().map(range).collect();
    Some(format!("{ranges}missing={numbers}\n"))
}

/// The same lines of a text.
fn listing(text: &str) -> Option<String> {
    let (_, lines) = { text.strip_prefix("session=") }?.split_once('\n')?;
    Some(lines.to_string())
}
