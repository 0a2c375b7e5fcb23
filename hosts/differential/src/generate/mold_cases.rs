//! Single calls of the MoldUDP64 functions.

use super::{bytes, lend, mold, write_back};
use crate::call::Call;
use crate::layout::{self, Cursor};
use crate::random::Random;
use crate::reference::mold::{HEADER, LARGEST};
use crate::reference::receiver::Receiver;
use crate::reference::{Name, BLANK};
use crate::run::Run;

/// One datagram: read, looked into by place, and walked.
pub fn read(run: &mut Run, random: &mut Random) {
    let session = mold::name(random);
    let number = bytes::number(random);
    let datagram = mold::any(random, &session, number);
    let datagram = datagram.as_slice();
    lend::single(run, random, &Call::MoldRead { datagram }, None);
    for _ in 0..2 {
        let place = place(random, datagram);
        lend::single(run, random, &Call::MoldLocate { datagram, place }, None);
    }
    lend::single(run, random, &Call::MoldWalk { datagram }, None);
    walk(run, random, datagram);
    next_anywhere(run, random, datagram);
    receiver_walk(run, random, datagram);
    write_back::datagram(run, random, datagram);
    let request = mold::request(random);
    let request = request.as_slice();
    lend::single(run, random, &Call::MoldReadRequest { request }, None);
    write_back::request(run, random, request);
}

/// A place at, before or behind the datagram's count.
fn place(random: &mut Random, datagram: &[u8]) -> u16 {
    let count = match datagram.get(18..20) {
        Some(count) => u16::from_be_bytes([count[0], count[1]]),
        None => 1,
    };
    match random.below(8) {
        0..4 => random.below(usize::from(count) + 1) as u16,
        4 => count.saturating_sub(1),
        5 => count.saturating_add(1),
        _ => bytes::count(random),
    }
}

/// Walks a datagram to its end and once more, or a few messages of a long one.
fn walk(run: &mut Run, random: &mut Random, datagram: &[u8]) {
    let mut cursor = vec![0; layout::CURSOR];
    lend::chained(run, random, &Call::MoldWalk { datagram }, &mut cursor);
    for _ in 0..8 {
        let (_, lent) = lend::chained(run, random, &Call::MoldNext { datagram }, &mut cursor);
        if lent.words[0] == 0 {
            break;
        }
    }
}

/// A cursor that was set for another datagram, or made by hand, or of random bytes.
fn next_anywhere(run: &mut Run, random: &mut Random, datagram: &[u8]) {
    let size = datagram.len() as u64;
    let place = match random.below(6) {
        0 => HEADER as u64,
        1 => bytes::near(random, size),
        2 => bytes::number(random),
        _ => random.below(datagram.len() + 3) as u64,
    };
    let left = bytes::count(random);
    let mut cursor = layout::cursor_bytes(Cursor { place, left });
    bytes::by_hand(random, &mut cursor, None);
    let cursor = (!random.one_in(8)).then_some(cursor.as_slice());
    lend::single(run, random, &Call::MoldNext { datagram }, cursor);
}

/// The walk over delivered messages: numbers that a deliver answer could have, and others.
fn receiver_walk(run: &mut Run, random: &mut Random, datagram: &[u8]) {
    let count = match datagram.get(18..20) {
        Some(count) => u16::from_be_bytes([count[0], count[1]]),
        None => 1,
    };
    let skipped = random.below(usize::from(count).max(1)) as u16;
    let (count, skipped) = match random.below(8) {
        0 => (bytes::count(random), skipped),
        1 => (count - skipped, bytes::count(random)),
        2 => (bytes::count(random), bytes::count(random)),
        _ => (count - skipped, skipped),
    };
    let call = Call::ReceiverWalk {
        datagram,
        count,
        skipped,
    };
    lend::single(run, random, &call, None);
    let mut cursor = vec![0; layout::CURSOR];
    lend::chained(run, random, &call, &mut cursor);
    let too_many = count.checked_add(skipped).is_none();
    for _ in 0..2 {
        let (_, lent) = lend::chained(run, random, &Call::MoldNext { datagram }, &mut cursor);
        if too_many && lent.words[0] != 0 {
            run.fail("a walk over more than 65,535 messages has one");
        }
    }
}

/// The writers; what is written is read back.
pub fn write(run: &mut Run, random: &mut Random) {
    let session = mold::name(random);
    let session = bytes::lent_name(random, &session);
    let session = session.as_slice();
    write_data(run, random, session);
    let next = bytes::number(random);
    let heartbeat = Call::MoldWriteHeartbeat { session, next };
    write_and_read(run, random, &heartbeat);
    write_and_read(run, random, &Call::MoldWriteEnd { session, next });
    let request = Call::MoldWriteRequest {
        session,
        first: bytes::number(random),
        count: bytes::count(random),
    };
    write_and_read(run, random, &request);
}

fn write_and_read(run: &mut Run, random: &mut Random, call: &Call) {
    let mut lent = lend::any(random, call, None);
    if run.check(call, &mut lent) != 0 {
        return;
    }
    let written = &lent.out[..lent.words[0] as usize];
    let read = match call {
        Call::MoldWriteRequest { .. } => Call::MoldReadRequest { request: written },
        _ => Call::MoldRead { datagram: written },
    };
    lend::single(run, random, &read, None);
}

fn write_data(run: &mut Run, random: &mut Random, session: &[u8]) {
    let lengths = lengths(random);
    let sum: usize = lengths.iter().map(|&length| usize::from(length)).sum();
    let size = match random.below(12) {
        0 => sum + 1,
        1 => sum.saturating_sub(1),
        2 => random.below(40),
        _ => sum,
    };
    let data = random.bytes(size);
    let first = match random.below(3) {
        0 => bytes::near(random, u64::MAX - lengths.len() as u64),
        _ => bytes::number(random),
    };
    let call = Call::MoldWriteData {
        session,
        first,
        lengths: &lengths,
        data: &data,
    };
    write_and_read(run, random, &call);
}

fn lengths(random: &mut Random) -> Vec<u16> {
    match random.below(400) {
        0..2 => vec![0; random.pick(&[65_533, 65_534, 65_535, 65_536])],
        2 => vec![0; random.pick(&[32_743, 32_744])],
        3..10 => around_the_largest(random),
        10..50 => vec![],
        _ => {
            let count = random.between(1, 8);
            let length = |_| random.pick(&[0, 0, 1, 2, 7, 40, 300]);
            (0..count).map(length).collect()
        }
    }
}

/// Lengths whose datagram is as large as it may be, or one byte more or less.
fn around_the_largest(random: &mut Random) -> Vec<u16> {
    let count = random.between(1, 5);
    let mut rest = LARGEST - 1 + random.below(3) - HEADER - 2 * count;
    let mut lengths = vec![];
    for _ in 1..count {
        let length = random.below(rest);
        lengths.push(length as u16);
        rest -= length;
    }
    lengths.push(rest as u16);
    lengths
}

/// One datagram at a receiver: started, made by hand, or of random bytes.
pub fn receive(run: &mut Run, random: &mut Random) {
    let session = mold::receivers_name(random);
    let next = bytes::number(random);
    let limit = bytes::count(random);
    start(run, random, &session, next, limit);
    let state = layout::receiver_bytes(&Receiver {
        session,
        next,
        limit,
        ended: random.one_in(8),
    });
    for _ in 0..3 {
        let sent = mold::sent_name(random, &session);
        let number = match random.below(4) {
            0 => bytes::number(random),
            _ => bytes::near(random, next),
        };
        let datagram = mold::any(random, &sent, number);
        let datagram = datagram.as_slice();
        let mut state = state.clone();
        bytes::by_hand(random, &mut state, None);
        let state = (!random.one_in(20)).then_some(state.as_slice());
        lend::single(run, random, &Call::ReceiverTake { datagram }, state);
        lend::single(run, random, &Call::ReceiverDeliver { datagram }, state);
    }
    deliver(run, random, &session, next.max(1));
}

/// A datagram that delivers, with exactly the places that it needs, and with one word less. It names a receiver whose
/// name isn't known.
fn deliver(run: &mut Run, random: &mut Random, session: &Name, next: u64) {
    let many = match random.below(60) {
        0 => (LARGEST - HEADER) / 2,
        _ => random.between(1, 6),
    };
    let next = next.min(u64::MAX - many as u64);
    let old = random.below(many.min(next as usize));
    let length = if many > 6 { 0 } else { random.below(4) };
    let number = next - old as u64;
    let sent = match *session == BLANK {
        true => b"READROOM01",
        false => session,
    };
    let datagram = mold::raw(sent, number, many as u16, &vec![vec![7; length]; many]);
    let call = Call::ReceiverDeliver {
        datagram: &datagram,
    };
    let state = layout::receiver_bytes(&Receiver {
        session: *session,
        next,
        limit: 1,
        ended: false,
    });
    let mut lent = lend::roomy(random, &call, &state);
    let needed = 2 * (many - old);
    lent.places.resize(needed - 1, 7);
    if run.check(&call, &mut lent) != 41 {
        run.fail("a word less than the places need is enough");
    }
    run.note("places", "one word less");
    lent.places.resize(needed, 7);
    if run.check(&call, &mut lent) != 0 {
        run.fail("as many words as the places need aren't enough");
    }
    run.note("places", "as many as are laid");
    if many > 6 {
        run.note("places", "of the most messages");
    }
    // It is old now, and needs no place.
    lent.places.clear();
    if run.check(&call, &mut lent) != 0 {
        run.fail("no message needs a place");
    }
    run.note("places", "none for no message");
}

fn start(run: &mut Run, random: &mut Random, session: &[u8], next: u64, limit: u16) {
    let session = bytes::lent_name(random, session);
    let call = Call::ReceiverStart {
        session: &session,
        next,
        limit,
    };
    lend::single(run, random, &call, None);
}
