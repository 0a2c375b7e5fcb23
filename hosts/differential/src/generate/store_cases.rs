//! The branch store: each ground drawn by itself, on both sides of its bound, and several at once.

use super::{bytes, lend, mold};
use crate::call::{Call, Lent};
use crate::compare::grounds;
use crate::random::Random;
use crate::reference::mold::{END, HEADER};
use crate::reference::store::blocks;
use crate::run::Run;

/// Messages as they are lent, with the first one's number.
pub struct Messages {
    pub first: u64,
    pub lengths: Vec<u16>,
    pub data: Vec<u8>,
}

impl Messages {
    /// In a bad one each part is bad as often as it is good.
    pub fn new(random: &mut Random, bad: usize) -> Messages {
        let lengths = lengths(random);
        let sum: usize = lengths.iter().map(|&length| usize::from(length)).sum();
        let size = match random.below(2 * bad) {
            0 => sum + 1,
            1 => sum.saturating_sub(1),
            _ => sum,
        };
        let highest = u64::MAX - lengths.len() as u64;
        let first = match random.below(2 * bad) {
            0 => 0,
            1 => highest.saturating_add(1),
            2 => highest,
            3 => random.pick(&[u64::MAX - 1, u64::MAX]),
            4 => bytes::number(random),
            _ => random.pick(&[1, 1, 5, 70]),
        };
        Messages {
            first,
            lengths,
            data: random.bytes(size),
        }
    }

    /// The number one past the last, as far as there are numbers.
    fn behind(&self) -> u64 {
        self.first.saturating_add(self.lengths.len() as u64)
    }
}

fn lengths(random: &mut Random) -> Vec<u16> {
    match random.below(400) {
        // more messages than a datagram can count
        0 => vec![0; 65_536],
        1..20 => vec![],
        20..40 => (0..3)
            .map(|_| random.pick(&[0, 40_000, 65_484, 65_485, 65_486]))
            .collect(),
        _ => {
            let count = random.between(1, 9);
            let length = |_| random.pick(&[0, 0, 1, 2, 7, 40, 300]);
            (0..count).map(length).collect()
        }
    }
}

/// The size of a packet: at its bounds, at what some messages need, and one byte off.
pub fn size(random: &mut Random, bad: usize, from: &[u16]) -> u64 {
    if random.one_in(bad) {
        return random.pick(&[0, 20, 21, 65_508, 65_509, 1 << 32, u64::MAX]);
    }
    let some = &from[..random.between(0, from.len().min(4))];
    let needed = HEADER as u64 + blocks(some);
    match random.below(8) {
        0 => random.pick(&[22, 23, 65_506, 65_507]),
        1 => 22 + random.below(60) as u64,
        2 => needed.saturating_sub(1),
        3 => needed + 1,
        4 => 1_500,
        _ => needed,
    }
    .clamp(22, 65_507)
}

pub fn case(run: &mut Run, random: &mut Random) {
    for _ in 0..5 {
        one(run, random, 12);
    }
    for _ in 0..6 {
        one(run, random, 3);
    }
}

fn one(run: &mut Run, random: &mut Random, bad: usize) {
    let session = mold::name(random);
    let messages = Messages::new(random, bad);
    let place = random.below(messages.lengths.len() + 1);
    let name = lent_name(random, &session, bad);
    let request = request(random, &session, &messages, place, bad);
    let call = Call::StoreAnswer {
        session: &name,
        first: messages.first,
        lengths: &messages.lengths,
        data: &messages.data,
        size: size(random, bad, &messages.lengths[place..]),
        request: &request,
    };
    let mut lent = if bad > 6 {
        lend::any(random, &call, None)
    } else {
        lend::lacking(random, &call, None)
    };
    note_bounds(run, &session, &messages, &call, &lent);
    run.check(&call, &mut lent);
}

/// A name of ten bytes, or of another size.
pub fn lent_name(random: &mut Random, name: &[u8], bad: usize) -> Vec<u8> {
    let mut lent = name.to_vec();
    match random.below(3 * bad) {
        0 => lent.truncate(9),
        1 => lent.push(b' '),
        2 => lent.truncate(random.below(10)),
        _ => {}
    }
    lent
}

/// A request for the message at a place, whose name, number, count and size are bad or not, each by itself.
fn request(
    random: &mut Random,
    session: &[u8; 10],
    messages: &Messages,
    place: usize,
    bad: usize,
) -> Vec<u8> {
    let mut name = *session;
    if random.one_in(bad) {
        name[random.below(10)] ^= 1 << random.below(8);
    }
    let number = match random.below(3 * bad) {
        0 => 0,
        1 => messages.first.saturating_sub(1),
        2 => messages.behind(),
        3 => random.pick(&[1, messages.behind().saturating_sub(1), u64::MAX]),
        _ => messages.first.saturating_add(place as u64),
    };
    let count = match random.below(2 * bad) {
        0 => 0,
        1 => END,
        2 => END - 1,
        _ => random.between(1, 5) as u16,
    };
    let mut request = mold::raw(&name, number, count, &[]);
    match random.below(3 * bad) {
        0 => request.truncate(random.pick(&[0, 10, 18, 19, 19])),
        1 => request.push(0),
        2 => request.extend(random.bytes_under(6)),
        _ => {}
    }
    request
}

/// The bounds of a packet's size.
pub fn note_size(run: &mut Run, size: u64) {
    match size {
        21 => run.note("packet_size", "21"),
        22 => run.note("packet_size", "22"),
        65_507 => run.note("packet_size", "65,507"),
        65_508 => run.note("packet_size", "65,508"),
        _ => {}
    }
}

/// The bounds of a first number, and of how much data there is.
pub fn note_messages(run: &mut Run, first: &'static str, data: &'static str, messages: &Messages) {
    match messages.first {
        0 => run.note(first, "0"),
        1 => run.note(first, "1"),
        _ => {}
    }
    let many = messages.lengths.len() as u64;
    if many > 0 {
        match u64::MAX - messages.first {
            left if left == many => run.note(first, "the last number is 2^64 - 2"),
            left if left + 1 == many => run.note(first, "the last number is 2^64 - 1"),
            _ => {}
        }
    }
    let sum: usize = { messages.lengths.iter() }
        .map(|&length| usize::from(length))
        .sum();
    match messages.data.len() {
        there if there == sum => run.note(data, "as the lengths say"),
        there if there + 1 == sum => run.note(data, "one byte short"),
        there if there == sum + 1 => run.note(data, "one byte more"),
        _ => {}
    }
}

/// The bounds of an output, where the call needs one.
pub fn note_output(run: &mut Run, what: &'static str, call: &Call, lent: &Lent) {
    let needed = grounds::output_needed(call, &lent.state);
    if needed > 0 && lent.out.len() == needed {
        run.note(what, "the packet's size");
    }
    if lent.out.len() + 1 == needed {
        run.note(what, "one byte less");
    }
}

fn note_bounds(run: &mut Run, session: &[u8; 10], messages: &Messages, call: &Call, lent: &Lent) {
    let Call::StoreAnswer {
        session: name,
        size,
        request,
        ..
    } = *call
    else {
        return;
    };
    note_size(run, size);
    note_messages(run, "store_first", "store_data", messages);
    note_output(run, "store_output", call, lent);
    match request.len() {
        19 => run.note("store_request", "19 bytes"),
        20 => run.note("store_request", "20 bytes"),
        21 => run.note("store_request", "21 bytes"),
        _ => {}
    }
    match name.len() {
        9 => run.note("store_name", "nine bytes"),
        11 => run.note("store_name", "eleven bytes"),
        _ => {}
    }
    if request.len() != HEADER {
        return;
    }
    let differing = { request[..10].iter().zip(session) }.filter(|(a, b)| a != b);
    match differing.count() {
        0 => run.note("store_name", "the same"),
        1 => run.note("store_name", "one byte differs"),
        _ => {}
    }
    let number = u64::from_be_bytes(request[10..18].try_into().expect("eight bytes"));
    note_wanted(run, messages, number, size);
    match u16::from_be_bytes([request[18], request[19]]) {
        0 => run.note("store_count", "0"),
        1 => run.note("store_count", "1"),
        65_534 => run.note("store_count", "65,534"),
        END => run.note("store_count", "65,535"),
        _ => {}
    }
}

fn note_wanted(run: &mut Run, messages: &Messages, number: u64, size: u64) {
    match number {
        0 => run.note("store_wanted", "0"),
        1 => run.note("store_wanted", "1"),
        _ => {}
    }
    let many = messages.lengths.len() as u64;
    let Some(place) = number.checked_sub(messages.first) else {
        if number + 1 == messages.first {
            run.note("store_wanted", "one below the first");
        }
        return;
    };
    if many == 0 {
        return;
    }
    if place == 0 {
        run.note("store_wanted", "the first");
    }
    if place + 1 == many {
        run.note("store_wanted", "the last");
    }
    if place == many {
        run.note("store_wanted", "one past the last");
    }
    let length = messages.lengths.get(place as usize).copied();
    match length.map(|length| HEADER as u64 + blocks(&[length])) {
        Some(alone) if alone == size => run.note("store_message", "the size is its own"),
        Some(alone) if alone == size.wrapping_add(1) => {
            run.note("store_message", "the size is one byte less")
        }
        _ => {}
    }
}
