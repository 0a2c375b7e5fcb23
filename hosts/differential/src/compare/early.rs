//! The functions of the receiver that keeps early messages.

use super::{grounds, name, Expected};
use crate::call::{Call, Lent};
use crate::layout::{self, Cursor, Walk, SLOTS};
use crate::reference::early::{Delivered, Early, Lies, Number, Row, Step};
use crate::reference::mold::{self, Kind};

pub fn answer(call: &Call, lent: &Lent) -> Option<Expected> {
    Some(match *call {
        Call::EarlyStart {
            session,
            next,
            limit,
        } => start(Early::start(name(session), next, limit)),
        Call::EarlyTake { datagram } => take(lent, datagram),
        Call::EarlyDeliver { datagram } => deliver(lent, datagram),
        Call::EarlyCount {
            state,
            slots,
            datagram,
        } => count(state, slots, datagram),
        Call::EarlyLocate {
            state,
            slots,
            datagram,
            place,
        } => locate(state, slots, datagram, place),
        Call::EarlyWalk {
            state,
            slots,
            datagram,
        } => walk(state, slots, datagram),
        Call::EarlyNext {
            state,
            slots,
            datagram,
        } => next(&lent.state, state, slots, datagram),
        _ => return None,
    })
}

fn start(started: Result<Early, u32>) -> Expected {
    match started {
        Ok(early) => {
            let state = layout::early_bytes(&early, &[0; layout::EARLY], &vec![]);
            Expected::answer("started").state(state)
        }
        Err(refusal) => Expected::refusal(refusal),
    }
}

fn take(lent: &Lent, datagram: &[u8]) -> Expected {
    let before = layout::early(&lent.state, &lent.slots);
    let mut after = before.clone();
    let step = match after.take(datagram, lent.slots.len() == SLOTS) {
        Ok(step) => step,
        Err(number) => {
            let mut refusal = Expected::refusal(number);
            if number == 17 && !before.is_named() {
                refusal.outcome = grounds::BLANK_NAME;
            }
            return refusal;
        }
    };
    let mut taken = Expected::answer(outcome(&before, &step, datagram))
        .words(&words(&before, &step))
        .state(layout::early_bytes(&after, &lent.state, &step.kept));
    taken.slots = patches(&step.kept);
    taken
}

/// What is written to the slots: each message that is held anew, from the first byte of its slot on.
pub fn patches(kept: &[(Number, Vec<u8>)]) -> Vec<(usize, Vec<u8>)> {
    let patch = |(number, message): &(Number, Vec<u8>)| (layout::slot_at(*number), message.clone());
    kept.iter().map(patch).collect()
}

fn words(before: &Early, step: &Step) -> [u64; 7] {
    let many = step.delivered.len() as u64;
    let [what, first, count, skipped] = match step.row {
        Row::Deliver => [1, before.next, many, step.skipped],
        Row::Old => [2, 0, 0, 0],
        Row::Quiet => [3, 0, 0, 0],
        Row::Ahead => [4, 0, 0, 0],
        Row::Ended => [5, 0, 0, 0],
    };
    let [asks, from, wanted] = match step.request {
        Some((from, wanted)) => [1, from, wanted],
        None => [0, 0, 0],
    };
    [what, first, count, skipped, asks, from, wanted]
}

/// As a take, with the places of what is delivered.
fn deliver(lent: &Lent, datagram: &[u8]) -> Expected {
    let mut taken = take(lent, datagram);
    taken.places = places(&lent.state, &lent.slots, datagram);
    taken
}

/// Three words for each message that is delivered, in order: whether it lies in the slots, its offset, its length.
pub fn places(state: &[u8], slots: &[u8], datagram: &[u8]) -> Vec<u64> {
    let delivered = will_deliver(state, slots, datagram);
    delivered
        .iter()
        .flat_map(|message| part(message)[1..].to_vec())
        .collect()
}

fn will_deliver(state: &[u8], slots: &[u8], datagram: &[u8]) -> Vec<Delivered> {
    layout::early(state, slots).will_deliver(datagram, slots.len() == SLOTS)
}

/// The words of a message that is there.
fn part(message: &Delivered) -> [u64; 4] {
    let (held, offset) = match message.lies {
        Lies::InSlots => (1, layout::slot_at(message.number.into())),
        Lies::InDatagram(message) => (0, message.offset),
    };
    [1, held, offset as u64, message.bytes.len() as u64]
}

fn is_refused(state: &[u8], slots: &[u8], datagram: &[u8]) -> bool {
    let right = slots.len() == SLOTS;
    layout::early(state, slots).take(datagram, right).is_err()
}

fn count(state: &[u8], slots: &[u8], datagram: &[u8]) -> Expected {
    let many = will_deliver(state, slots, datagram).len();
    let outcome = match many {
        0 if is_refused(state, slots, datagram) => "none, refused",
        0 => "none",
        _ => "some",
    };
    Expected::answer(outcome).words(&[many as u64])
}

fn locate(state: &[u8], slots: &[u8], datagram: &[u8], place: u16) -> Expected {
    let delivered = will_deliver(state, slots, datagram);
    match delivered.get(usize::from(place)) {
        Some(message) => Expected::answer(lies(&message.lies)).words(&part(message)),
        None if is_refused(state, slots, datagram) => {
            Expected::answer("none, refused").words(&[0; 4])
        }
        None => Expected::answer("no such place").words(&[0; 4]),
    }
}

fn lies(lies: &Lies) -> &'static str {
    match lies {
        Lies::InSlots => "in the slots",
        Lies::InDatagram(_) => "in the datagram",
    }
}

/// At the expected number, and in the datagram behind the messages with lower ones; of a datagram that the reader refuses
/// at place 20, with no messages there.
fn walk(state: &[u8], slots: &[u8], datagram: &[u8]) -> Expected {
    let early = layout::early(state, slots);
    let many = will_deliver(state, slots, datagram).len();
    let mut cursor = Cursor::first(0);
    if let Ok(read) = mold::read(datagram) {
        let lower = early.next.saturating_sub(read.number);
        let skipped = lower.min(read.messages.len() as u64) as usize;
        cursor = Cursor::first(read.messages.len() - skipped);
        if skipped > 0 {
            cursor.place = read.messages[skipped - 1].end() as u64;
        }
    }
    let outcome = match many {
        0 if is_refused(state, slots, datagram) => "none, refused",
        0 => "none",
        _ => "messages",
    };
    let walk = Walk {
        number: early.next,
        left: many as u16,
        cursor,
    };
    Expected::answer(outcome).state(layout::walk_bytes(walk))
}

fn next(cursor: &[u8], state: &[u8], slots: &[u8], datagram: &[u8]) -> Expected {
    let nothing = |outcome| Expected::answer(outcome).words(&[0; 4]);
    let Some(walk) = layout::walk(cursor) else {
        return nothing("none, not open");
    };
    if walk.left == 0 {
        return nothing("none left");
    }
    let Cursor { place, left } = walk.cursor;
    let there = (left > 0).then(|| mold::block(datagram, usize::try_from(place).ok()?));
    let there = there.flatten();
    let held = layout::early(state, slots).held.remove(&walk.number.into());
    let (outcome, words) = match (held, there) {
        (Some(held), _) => {
            let offset = layout::slot_at(walk.number.into()) as u64;
            ("in the slots", [1, 1, offset, held.len() as u64])
        }
        (None, Some(own)) => {
            let (offset, length) = (own.offset as u64, own.length as u64);
            ("in the datagram", [1, 0, offset, length])
        }
        (None, None) => return nothing("none, walk of another datagram"),
    };
    let cursor = match there {
        Some(own) => Cursor {
            place: own.end() as u64,
            left: left - 1,
        },
        None => walk.cursor,
    };
    let moved = Walk {
        number: walk.number.saturating_add(1),
        left: walk.left - 1,
        cursor,
    };
    Expected::answer(outcome)
        .words(&words)
        .state(layout::walk_bytes(moved))
}

/// The answers by what is delivered, held and asked for, so that each is drawn in each of its ways.
fn outcome(before: &Early, step: &Step, datagram: &[u8]) -> &'static str {
    if !before.is_named() {
        return naming(step.row);
    }
    let read = mold::read(datagram).expect("it was taken");
    let asks = step.request.is_some();
    match step.row {
        Row::Deliver => delivering(step, read.messages.len()),
        Row::Old if asks => "old and ask",
        Row::Old if read.kind == Kind::Data => "old data",
        Row::Old => "old heartbeat",
        Row::Quiet if asks => "quiet and ask",
        Row::Quiet => "quiet",
        Row::Ahead if !step.kept.is_empty() => "ahead, held",
        Row::Ahead => match read.kind {
            Kind::Data => "ahead, not held",
            Kind::Heartbeat => "ahead, heartbeat",
            Kind::EndOfSession => "ahead, end",
        },
        Row::Ended if !before.held.is_empty() => "ended, some held",
        Row::Ended => "ended",
    }
}

fn delivering(step: &Step, carried: usize) -> &'static str {
    let own = |message: &&Delivered| message.lies != Lies::InSlots;
    let own = step.delivered.iter().filter(own).count();
    let covers = own + (step.skipped as usize) < carried;
    match step.delivered.len() > own {
        _ if step.request.is_some() => "deliver and ask",
        true if step.delivered.len() - own == 64 => "deliver all slots",
        true if covers => "deliver held that it carries too",
        true => "deliver held",
        false if step.skipped > 0 => "deliver the rest",
        false => "deliver all",
    }
}

/// The answer that a receiver without a name is named by.
fn naming(row: Row) -> &'static str {
    match row {
        Row::Deliver => "named by deliver",
        Row::Old => "named by old",
        Row::Quiet => "named by quiet",
        Row::Ahead => "named by ahead",
        Row::Ended => "named by ended",
    }
}
