//! The receiver that keeps early messages: a feed whose packets swap places, double and get lost; receivers and walks made
//! by hand; and what is said of a datagram before it is taken.

use super::feed::Feed;
use super::{bytes, early_bounds, early_lists, lend, mold};
use crate::call::Call;
use crate::layout::{self, Cursor, Walk, EARLY, HELD, LENGTHS, SLOTS, WALK};
use crate::random::Random;
use crate::reference::early::{Early, SLOT};
use crate::reference::mold::END;
use crate::reference::{Name, BLANK};
use crate::run::Run;

pub fn case(run: &mut Run, random: &mut Random) {
    match random.below(9) {
        0..2 => swapped(run, random),
        2 => starts(run, random),
        3 => early_bounds::case(run, random),
        4 => early_lists::case(run, random),
        _ => by_hand_case(run, random),
    }
}

/// A receiver and its slots, as a host keeps them.
#[derive(Clone)]
pub struct Kept {
    pub state: Vec<u8>,
    pub slots: Vec<u8>,
}

impl Kept {
    pub fn receiver(&self) -> Early {
        layout::early(&self.state, &self.slots)
    }
}

fn starts(run: &mut Run, random: &mut Random) {
    for _ in 0..4 {
        let session = mold::receivers_name(random);
        let call = Call::EarlyStart {
            session: &bytes::lent_name(random, &session),
            next: bytes::number(random),
            limit: bytes::count(random),
        };
        lend::single(run, random, &call, None);
    }
}

/// A feed with messages around the longest that a slot holds, and more of them than there are slots.
pub fn feed(random: &mut Random) -> Feed {
    let mut feed = Feed::new(random);
    let behind = feed.behind();
    let more = random.pick(&[0, 0, 30, 100]).min(u64::MAX - behind);
    feed.messages
        .extend((0..more).map(|_| random.bytes_under(4)));
    for message in &mut feed.messages {
        if random.one_in(12) {
            message.resize(random.pick(&[SLOT - 1, SLOT, SLOT + 1]), 7);
        }
    }
    feed
}

/// Datagrams of a feed in another order: each is looked at before it is taken, and taken one way or the other.
fn swapped(run: &mut Run, random: &mut Random) {
    let feed = feed(random);
    let name = random.pick(&[feed.name, feed.name, BLANK]);
    let start = Call::EarlyStart {
        session: &name,
        next: feed.first,
        limit: random.pick(&[1, 2, 5, 100, 65_534]),
    };
    let mut kept = Kept {
        state: vec![0; EARLY],
        slots: lend::slots(random),
    };
    lend::chained(run, random, &start, &mut kept.state);
    let honest = feed.name != BLANK && !random.one_in(3);
    let mut delivered = vec![];
    for _ in 0..random.between(4, 24) {
        let datagram = near(random, &feed, kept.receiver().next);
        if honest && !feed.is_true(&datagram) {
            continue;
        }
        if random.one_in(3) {
            look(run, random, &kept, &datagram);
        }
        delivered.extend(take(run, random, &mut kept, &datagram));
    }
    let there = (kept.receiver().next - feed.first) as usize;
    if honest && name != BLANK && delivered != feed.messages[..there] {
        run.fail("condition 3: other messages were delivered than the session's");
    }
}

/// What the line brings: often something that is ahead, as far as the window reaches and a little further.
pub fn near(random: &mut Random, feed: &Feed, next: u64) -> Vec<u8> {
    let ahead = random.pick(&[1, 1, 2, 3, 5, 60, 63, 64, 65]);
    match random.below(4) {
        0..2 => feed.datagram(random, next),
        2 => feed.datagram(random, next.saturating_add(ahead)),
        _ => feed.data_near(random, next.saturating_add(ahead)),
    }
}

/// Takes a datagram, and hands back the messages that it delivers.
pub fn take(run: &mut Run, random: &mut Random, kept: &mut Kept, datagram: &[u8]) -> Vec<Vec<u8>> {
    let before = kept.slots.clone();
    let at_once = random.one_in(2);
    let call = match at_once {
        true => Call::EarlyDeliver { datagram },
        false => Call::EarlyTake { datagram },
    };
    let wanted = walked(run, random, kept, datagram);
    let Kept { state, slots } = kept;
    let (code, lent) = lend::chained_with(run, random, &call, state, slots);
    let delivers = code == 0 && lent.words[0] == 1;
    let many = if delivers { lent.words[2] as usize } else { 0 };
    if wanted.len() != many.min(WALKED) {
        run.fail("a walk has other messages than the step delivers");
    }
    if delivers && *slots != before {
        run.fail("a step that delivers changes a slot");
    }
    if at_once && delivers {
        let at = |place: &[u64]| message(place[0], place[1], place[2], slots, datagram);
        let laid = lent.places.chunks_exact(3).take(many.min(WALKED));
        if laid.map(at).ne(wanted.iter().cloned()) {
            run.fail("the places are others than the walk's");
        }
    }
    wanted
}

/// How many messages of one datagram are walked: a long one, not of the feed, may have 32,743.
const WALKED: usize = 200;

fn message(held: u64, offset: u64, length: u64, slots: &[u8], datagram: &[u8]) -> Vec<u8> {
    let bytes = if held == 1 { slots } else { datagram };
    bytes[offset as usize..][..length as usize].to_vec()
}

/// What a walk says beforehand.
fn walked(run: &mut Run, random: &mut Random, kept: &Kept, datagram: &[u8]) -> Vec<Vec<u8>> {
    let (state, slots) = (kept.state.as_slice(), kept.slots.as_slice());
    let call = Call::EarlyWalk {
        state,
        slots,
        datagram,
    };
    let mut cursor = vec![0; WALK];
    lend::chained(run, random, &call, &mut cursor);
    let next = Call::EarlyNext {
        state,
        slots,
        datagram,
    };
    let mut messages = vec![];
    while messages.len() < WALKED {
        let (_, lent) = lend::chained(run, random, &next, &mut cursor);
        if lent.words[0] == 0 {
            break;
        }
        messages.push(message(
            lent.words[1],
            lent.words[2],
            lent.words[3],
            slots,
            datagram,
        ));
    }
    messages
}

/// The functions that only read, with what they are lent now and then too short or of another size.
fn look(run: &mut Run, random: &mut Random, kept: &Kept, datagram: &[u8]) {
    let (mut state, mut slots) = (kept.state.clone(), kept.slots.clone());
    match random.below(24) {
        0 => state.truncate(random.below(EARLY)),
        1 => lend::other_slots(random, &mut slots),
        2..5 => state.extend(random.bytes_between(1, 4)),
        _ => {}
    }
    let (state, slots) = (state.as_slice(), slots.as_slice());
    let call = Call::EarlyCount {
        state,
        slots,
        datagram,
    };
    lend::single(run, random, &call, None);
    let far = bytes::count(random);
    let call = Call::EarlyLocate {
        state,
        slots,
        datagram,
        place: random.pick(&[0, 0, 1, 2, 3, 64, far]),
    };
    lend::single(run, random, &call, None);
    let call = Call::EarlyWalk {
        state,
        slots,
        datagram,
    };
    lend::single(run, random, &call, None);
    let call = Call::EarlyNext {
        state,
        slots,
        datagram,
    };
    let walk = walk_by_hand(random, &kept.receiver(), datagram);
    let walk = (!random.one_in(12)).then_some(walk.as_slice());
    lend::single(run, random, &call, walk);
}

/// A walk at a held number or near the expected one, at the datagram's first block or anywhere.
fn walk_by_hand(random: &mut Random, early: &Early, datagram: &[u8]) -> Vec<u8> {
    let held: Vec<u64> = early.held.keys().map(|&number| number as u64).collect();
    let near = bytes::near(random, early.next);
    let number = match random.below(4) {
        0 if !held.is_empty() => random.pick(&held),
        1 => bytes::number(random),
        _ => near,
    };
    let anywhere = random.below(datagram.len() + 3) as u64;
    let far = bytes::number(random);
    let walk = Walk {
        number,
        left: random.pick(&[0, 1, 1, 2, 65_535]),
        cursor: Cursor {
            place: random.pick(&[20, 20, 20, anywhere, far]),
            left: random.pick(&[0, 1, 1, 2, 65_535]),
        },
    };
    let mut bytes = layout::walk_bytes(walk);
    super::bytes::by_hand(random, &mut bytes, None);
    bytes
}

/// One datagram at a receiver made by hand: any word, lengths of any size, numbers near the last there is.
fn by_hand_case(run: &mut Run, random: &mut Random) {
    let session = mold::receivers_name(random);
    let next = bytes::number(random);
    let kept = by_hand(random, &session, next);
    for _ in 0..2 {
        let sent = mold::sent_name(random, &session);
        let ahead = random.pick(&[0, 0, 1, 2, 63, 64, 65, 200]);
        let number = bytes::near(random, next.saturating_add(ahead));
        let datagram = match random.below(6) {
            0 => mold::any(random, &sent, number),
            1 => long_ones(random, &sent, number),
            2..5 => {
                let below = next.saturating_sub(random.below(2) as u64);
                mold::raw(&sent, below.max(1), random.pick(&[0, END]), &[])
            }
            _ => at(random, &sent, next),
        };
        let datagram = datagram.as_slice();
        let state = Some(kept.state.as_slice());
        let slots = &kept.slots;
        lend::single_with(run, random, &Call::EarlyTake { datagram }, state, slots);
        lend::single_with(run, random, &Call::EarlyDeliver { datagram }, state, slots);
        look(run, random, &kept, datagram);
    }
}

/// Messages that stand around the longest that a slot holds.
fn long_ones(random: &mut Random, session: &Name, number: u64) -> Vec<u8> {
    let sizes = [0, SLOT - 1, SLOT, SLOT + 1];
    let many = random.between(1, 3);
    let messages: Vec<Vec<u8>> = (0..many)
        .map(|_| vec![random.byte(); random.pick(&sizes)])
        .collect();
    mold::raw(session, number, many as u16, &messages)
}

/// Some messages of which one is expected.
fn at(random: &mut Random, session: &Name, next: u64) -> Vec<u8> {
    let many = random.between(1, 5) as u64;
    let first = next.saturating_sub(random.below(many as usize) as u64);
    let messages: Vec<Vec<u8>> = (0..many).map(|_| random.bytes_under(4)).collect();
    mold::raw(session, first, many as u16, &messages)
}

fn by_hand(random: &mut Random, session: &Name, next: u64) -> Kept {
    let any = random.word();
    let word = random.pick(&[0, 1, 2, 0b1011, 1 << 63, any & 0xFF, any, u64::MAX]);
    let early = Early {
        session: *session,
        next,
        limit: bytes::count(random),
        ended: random.one_in(8),
        held: Default::default(),
    };
    let mut state = layout::early_bytes(&early, &[0; EARLY], &vec![]);
    state[HELD..LENGTHS].copy_from_slice(&word.to_le_bytes());
    for length in state[LENGTHS..].chunks_exact_mut(2) {
        let any = random.word() as u16;
        let made_up = random.pick(&[0, 1, 5, 5, 1_023, 1_024, 1_025, 65_535, any]);
        length.copy_from_slice(&u16::to_be_bytes(made_up));
    }
    super::bytes::by_hand(random, &mut state, None);
    let slots = lend::slots(random);
    debug_assert_eq!(slots.len(), SLOTS);
    Kept { state, slots }
}
