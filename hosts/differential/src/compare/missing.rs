//! The functions for what is missing from a capture.

use super::{edges, Expected};
use crate::call::{Call, Lent};
use crate::layout::{self, Noting};
use crate::reference::capture::{record, settings, Stage, LONGEST_SETTINGS, MOST_RECORDS};
use crate::reference::missing::{listing, said_by};

pub fn answer(call: &Call, lent: &Lent) -> Option<Expected> {
    let noting = layout::noting(&lent.state);
    Some(match *call {
        Call::MissingStart => {
            Expected::answer("started").state(layout::noting_bytes(&Noting::start()))
        }
        Call::MissingFeed { bytes } => feed(noting, &lent.edges, bytes),
        Call::MissingFinish { bytes } => finish(noting, &lent.edges, bytes),
        Call::MissingCount => count(&noting, &lent.edges),
        Call::MissingRange { place } => range(&noting, &lent.edges, place),
        Call::MissingWrite => write(&noting, &lent.edges),
        _ => return None,
    })
}

/// Whether nothing that follows is looked at.
fn is_over(stage: Stage) -> bool {
    matches!(stage, Stage::Done | Stage::SettingsRefused)
}

/// Reads settings, if they come next, and all whole records that may be read, and answers how many bytes were used.
fn read(noting: &mut Noting, words: &mut [u64], bytes: &[u8]) -> usize {
    let mut rest = bytes;
    if noting.stage == Stage::Settings {
        match settings(&mut rest) {
            Some(good) => {
                words[0] = good.next;
                *noting = Noting::opened(good.session, good.next);
            }
            None => noting.stage = Stage::SettingsRefused,
        }
    }
    if noting.stage == Stage::Records {
        while let Some(datagram) = record(rest).filter(|_| noting.left > 0) {
            rest = &rest[2 + datagram.len()..];
            noting.left -= 1;
            if let Some(said) = said_by(&noting.session, datagram) {
                edges::note(noting, words, said);
            }
        }
        if noting.left == 0 {
            noting.stage = Stage::Done;
        }
    }
    if is_over(noting.stage) {
        return bytes.len();
    }
    bytes.len() - rest.len()
}

fn feed(mut noting: Noting, lent: &[u64], bytes: &[u8]) -> Expected {
    let (from, was_refused) = (noting.stage, noting.refused);
    let mut words = lent.to_vec();
    let waits = from == Stage::Settings && bytes.len() < LONGEST_SETTINGS;
    let used = if waits {
        0
    } else {
        read(&mut noting, &mut words, bytes)
    };
    let over = is_over(noting.stage);
    let outcome = match (from, noting.stage) {
        (Stage::Settings, Stage::Settings) => "settings, need more",
        (Stage::Settings, Stage::SettingsRefused) => "settings, refused",
        (Stage::Settings, _) => "settings, read",
        (Stage::Records, Stage::Done) => "records, the most there are",
        (Stage::Records, _) if !was_refused && noting.refused => "records, too many ranges",
        (Stage::Records, _) if was_refused => "records, refused before",
        (Stage::Records, _) if used == bytes.len() => "records, all used",
        (Stage::Records, _) => "records, some kept",
        (Stage::Done, _) => "done before",
        (Stage::SettingsRefused, _) => "refused before",
    };
    let mut fed = Expected::answer(outcome).words(&[used as u64, u64::from(over)]);
    fed.edges = words;
    // Where nothing was used and more may come, no byte changes, of a state made by hand neither.
    if used > 0 || over {
        fed.state = Some(layout::noting_bytes(&noting));
    }
    fed
}

fn finish(mut noting: Noting, lent: &[u64], bytes: &[u8]) -> Expected {
    let from = noting.stage;
    let mut words = lent.to_vec();
    let used = read(&mut noting, &mut words, bytes);
    let outcome = match (from, noting.stage) {
        (Stage::Settings, Stage::SettingsRefused) => "settings, refused",
        (Stage::Settings, _) if used < bytes.len() => "settings, cut short",
        (Stage::Settings, _) => "settings, whole",
        (Stage::Records, Stage::Done) => "records, the most there are",
        (Stage::Records, _) if used < bytes.len() => "records, cut short",
        (Stage::Records, _) => "records, whole",
        (Stage::Done, _) => "done before",
        (Stage::SettingsRefused, _) => "refused before",
    };
    if noting.stage == Stage::Records {
        noting.stage = Stage::Done;
    }
    let mut finished = Expected::answer(outcome).state(layout::noting_bytes(&noting));
    finished.edges = words;
    finished
}

/// The ranges that are listed; none, and why, where settings are due or bad, or ranges refused.
fn listed(noting: &Noting, words: &[u64]) -> Result<Vec<(u128, u128)>, &'static str> {
    match noting.stage {
        Stage::Settings | Stage::SettingsRefused => Err("settings=refused"),
        _ if !edges::is_usable(noting) => Err("ranges=refused"),
        _ => Ok(edges::ranges(noting, words)),
    }
}

fn count(noting: &Noting, words: &[u64]) -> Expected {
    match listed(noting, words) {
        Ok(ranges) => {
            let total = edges::total(&ranges) as u64;
            let outcome = if ranges.is_empty() { "none" } else { "some" };
            Expected::answer(outcome).words(&[1, ranges.len() as u64, total])
        }
        Err(why) => Expected::answer(why).words(&[0, 0, 0]),
    }
}

fn range(noting: &Noting, words: &[u64], place: u64) -> Expected {
    let ranges = match listed(noting, words) {
        Ok(ranges) => ranges,
        Err(why) => return Expected::answer(why).words(&[0, 0, 0]),
    };
    let there = usize::try_from(place)
        .ok()
        .and_then(|place| ranges.get(place));
    match there {
        Some(&(from, to)) => Expected::answer("range").words(&[1, from as u64, to as u64]),
        None => Expected::answer("no such place").words(&[0, 0, 0]),
    }
}

fn write(noting: &Noting, words: &[u64]) -> Expected {
    let (outcome, text) = match listed(noting, words) {
        Ok(ranges) => {
            let total = edges::total(&ranges);
            ("list", listing(&noting.session, &ranges, total))
        }
        Err(why) => (why, format!("{why}\n").into_bytes()),
    };
    let mut written = Expected::written(text);
    written.outcome = outcome;
    written
}

impl Noting {
    /// A fresh one: no name, no numbers, and its ranges refused.
    fn start() -> Noting {
        Noting {
            stage: Stage::Settings,
            session: crate::reference::BLANK,
            highest: 0,
            left: 0,
            closed: 0,
            refused: true,
        }
    }

    /// One whose settings were just read.
    fn opened(session: [u8; 10], next: u64) -> Noting {
        Noting {
            stage: Stage::Records,
            session,
            highest: next,
            left: MOST_RECORDS,
            closed: 0,
            refused: false,
        }
    }
}
