//! The transmitter: single calls with each ground on both sides of its bound, and runs sent whole, by turns and by
//! place.

use super::store_cases::{lent_name, note_messages, note_output, note_size, size, Messages};
use super::{bytes, lend, mold};
use crate::call::{Call, Lent};
use crate::layout;
use crate::random::Random;
use crate::reference::mold::{read, HEADER};
use crate::reference::store::blocks;
use crate::reference::transmitter::{self, Progress};
use crate::reference::Name;
use crate::run::Run;

pub fn case(run: &mut Run, random: &mut Random) {
    for bad in [12, 12, 12, 3, 3, 3, 3] {
        one(run, random, bad);
    }
    whole(run, random);
}

/// The reference's run of these messages.
fn run_of(messages: &Messages, size: u64) -> transmitter::Run<'_> {
    transmitter::Run {
        first: messages.first,
        lengths: &messages.lengths,
        data: &messages.data,
        size,
    }
}

/// How many packets a run has.
fn packets(run: &transmitter::Run) -> u64 {
    let all = run.lengths.len() as u64;
    (0..all)
        .find(|&place| run.group_at(place).is_none())
        .unwrap_or(all)
}

fn one(run: &mut Run, random: &mut Random, bad: usize) {
    let mut messages = Messages::new(random, bad);
    // the reference walks from the start for each place
    messages.lengths.truncate(1_000);
    let from = random.below(messages.lengths.len() + 1);
    let size = size(random, bad, &messages.lengths[from..]);
    let name = mold::name(random);
    let session = lent_name(random, &name, bad);
    let cut = run_of(&messages, size);
    let last = packets(&cut);
    let place = match random.below(6) {
        0 => last,
        1 => last.saturating_sub(1),
        2 => bytes::number(random),
        _ => random.below(last as usize + 1) as u64,
    };
    let (first, lengths, data) = (messages.first, &messages.lengths[..], &messages.data[..]);
    let session = session.as_slice();
    let packet = Call::TransmitterPacket {
        session,
        first,
        lengths,
        data,
        size,
        place,
    };
    let start = Call::TransmitterStart {
        first,
        lengths,
        data,
        size,
    };
    let next = Call::TransmitterNext {
        session,
        first,
        lengths,
        data,
        size,
    };
    note_size(run, size);
    note_messages(run, "run_first", "run_data", &messages);
    note_run(run, &cut, place, last);
    let lent = check(run, random, &packet, None, bad);
    note_output(run, "run_output", &packet, &lent);
    check(run, random, &start, None, bad);
    for place in [0, place, place] {
        let state = progress(random, &cut, place, bad);
        let lent = check(run, random, &next, Some(&state), bad);
        note_output(run, "run_output", &next, &lent);
        match lent.state.len() {
            16 => run.note("turn_state", "16 bytes"),
            17 => run.note("turn_state", "17 bytes"),
            _ => {}
        }
    }
}

/// Makes the call, and hands back what was lent to it.
fn check(
    run: &mut Run,
    random: &mut Random,
    call: &Call,
    state: Option<&[u8]>,
    bad: usize,
) -> Lent {
    let lent = if bad > 6 {
        lend::any(random, call, state)
    } else {
        lend::lacking(random, call, state)
    };
    run.check(call, &mut lent.clone());
    lent
}

fn note_run(run: &mut Run, cut: &transmitter::Run, place: u64, packets: u64) {
    if place + 1 == packets {
        run.note("run_place", "the last");
    }
    if packets > 0 && place == packets {
        run.note("run_place", "one past the last");
    }
    let longest = cut.lengths.iter().copied().max();
    match longest.map(|longest| HEADER as u64 + blocks(&[longest])) {
        Some(alone) if alone == cut.size => {
            run.note("run_message", "the size is the longest's own")
        }
        Some(alone) if alone == cut.size.wrapping_add(1) => {
            run.note("run_message", "the size is one byte less")
        }
        _ => {}
    }
}

/// A transmitter that turns lead to, one of another run or made by hand, or bytes of another kind.
fn progress(random: &mut Random, cut: &transmitter::Run, place: u64, bad: usize) -> Vec<u8> {
    let all = Progress {
        messages: cut.lengths.len() as u64,
        bytes: cut.data.len() as u64,
    };
    let mut progress = cut.group_at(place).map_or(all, |group| group.from);
    if random.one_in(bad) {
        progress.messages = match random.below(4) {
            0 => 0,
            1 => bytes::number(random),
            _ => bytes::near(random, all.messages),
        };
    }
    if random.one_in(bad) {
        progress.bytes = match random.below(3) {
            0 => bytes::number(random),
            _ => bytes::near(random, all.bytes),
        };
    }
    let mut state = layout::transmitter_bytes(progress);
    bytes::by_hand(random, &mut state, None);
    state
}

/// A good run: its packets by turns are those by place, and what is read back is the run.
fn whole(run: &mut Run, random: &mut Random) {
    let session = mold::name(random);
    let mut messages = Messages::new(random, 1_000);
    messages.lengths.truncate(1_000);
    let longest = messages.lengths.iter().copied().max().unwrap_or(0);
    let least = HEADER as u64 + blocks(&[longest]);
    let size = (least + random.below(40) as u64).min(65_507);
    if run_of(&messages, size).check().is_err() {
        return;
    }
    let (first, lengths, data) = (messages.first, &messages.lengths[..], &messages.data[..]);
    let start = Call::TransmitterStart {
        first,
        lengths,
        data,
        size,
    };
    let mut state = vec![0; layout::TRANSMITTER];
    lend::chained(run, random, &start, &mut state);
    let mut sent = vec![];
    loop {
        let next = Call::TransmitterNext {
            session: &session,
            first,
            lengths,
            data,
            size,
        };
        let (code, lent) = lend::chained(run, random, &next, &mut state);
        let place = sent.len() as u64;
        let packet = Call::TransmitterPacket {
            session: &session,
            first,
            lengths,
            data,
            size,
            place,
        };
        let (same_code, by_place) = lend::chained(run, random, &packet, &mut vec![]);
        if code != same_code || written(code, &lent) != written(code, &by_place) {
            run.fail("a packet by turns isn't the one by place");
        }
        run.note("turns", "by turns as by place");
        if code != 0 {
            break;
        }
        sent.push(written(code, &lent).to_vec());
    }
    read_back(run, &session, &messages, &sent);
}

fn written(code: u32, lent: &Lent) -> &[u8] {
    match code {
        0 => &lent.out[..lent.words[0] as usize],
        _ => &[],
    }
}

fn read_back(run: &mut Run, session: &Name, messages: &Messages, sent: &[Vec<u8>]) {
    let (mut number, mut lengths, mut data) = (messages.first, vec![], vec![]);
    for packet in sent {
        let Ok(datagram) = read(packet) else {
            run.fail("a packet can't be read");
        };
        if datagram.session != *session || datagram.number != number {
            run.fail("a packet of another name or number");
        }
        number += datagram.messages.len() as u64;
        for message in datagram.messages {
            lengths.push(message.length as u16);
            data.extend_from_slice(&packet[message.offset..message.end()]);
        }
    }
    if lengths != messages.lengths || data != messages.data {
        run.fail("what is read back isn't the run");
    }
    run.note("turns", "read back whole");
}
