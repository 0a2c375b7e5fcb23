//! The comparison itself: a library with one fault in it is caught, whichever of these the fault is.

use differential::call::{Call, Lent};
use differential::compare::fixed_sizes;
use differential::library::Library;
use differential::run_with;
use differential::stand_in::StandIn;
use std::panic::{catch_unwind, set_hook, take_hook, AssertUnwindSafe};

/// Changes what a call did; `before` are the buffers as they were lent.
type Fault = fn(call: &Call, before: &Lent, code: &mut u32, after: &mut Lent);

struct Faulty(Fault);

impl Library for Faulty {
    fn call(&mut self, call: &Call, lent: &mut Lent) -> u32 {
        let before = lent.clone();
        let mut code = StandIn.call(call, lent);
        self.0(call, &before, &mut code, lent);
        code
    }
}

fn touch<T: Copy + std::ops::Not<Output = T>>(place: Option<&mut T>) {
    if let Some(place) = place {
        *place = !*place;
    }
}

/// Faults of handling lent memory, in any function.
const HANDLING: &[(&str, Fault)] = &[
    ("a refusal sets a word", |_, _, code, after| {
        if *code != 0 {
            touch(after.words.first_mut());
        }
    }),
    ("a refusal zeroes the words", |_, _, code, after| {
        if *code != 0 {
            after.words.fill(0);
        }
    }),
    ("a refusal begins to write", |call, _, code, after| {
        if *code != 0 && call.function().contains("write") {
            touch(after.out.first_mut());
        }
    }),
    ("a refused step moves the state", |call, _, code, after| {
        if *code != 0 && call.function().ends_with("step") {
            touch(after.state.last_mut());
        }
    }),
    (
        "a step that needs more tidies the state",
        |call, _, code, after| {
            let stepped = matches!(call, Call::ClientStep { .. }) && *code == 0;
            if stepped && after.words[0] == 0 && after.state[0] != 0xE4 {
                after.state[0] = 0;
            }
        },
    ),
    (
        "a feed of nothing tidies the state",
        |call, _, code, after| {
            let fed = matches!(call, Call::CaptureFeed { .. }) && *code == 0;
            if fed && after.words[..2] == [0, 0] {
                let stage = if after.state[1] == 2 { 2 } else { 1 };
                after.state[1] = stage;
            }
        },
    ),
    (
        "a cursor is laid where no message is there",
        |call, _, code, after| {
            let moved = matches!(call, Call::MoldNext { .. }) && *code == 0;
            if moved && after.words[0] == 0 && after.state[0] != 0xE1 {
                after.state[..11].copy_from_slice(&[0xE1, 0, 0, 0, 0, 0, 0, 0, 0, 0, 0]);
            }
        },
    ),
    (
        "a refused turn moves the transmitter on",
        |call, _, code, after| {
            let turned = matches!(call, Call::TransmitterNext { .. });
            if turned && *code == 41 {
                touch(after.state.get_mut(1));
            }
        },
    ),
    (
        "a refused start closes the state",
        |call, _, code, after| {
            if *code == 19 && call.function().ends_with("start") {
                after.state.fill(0);
            }
        },
    ),
    ("a word behind the answer is set", |call, _, code, after| {
        if *code == 0 {
            touch(after.words.get_mut(fixed_sizes(call).0));
        }
    }),
    ("a byte behind the state is set", |call, _, code, after| {
        if *code == 0 {
            touch(after.state.get_mut(fixed_sizes(call).1));
        }
    }),
    ("a writer writes one byte more", |call, _, code, after| {
        if *code == 0 && call.function().contains("write") {
            let size = after.words[0] as usize;
            touch(after.out.get_mut(size));
        }
    }),
    ("a refusal lays a place", |_, _, code, after| {
        if *code == 41 {
            touch(after.places.first_mut());
        }
    }),
    (
        "a word behind the last place is set",
        |call, _, code, after| {
            if laid(call, *code, after) {
                touch(after.places.get_mut(2 * after.words[2] as usize));
            }
        },
    ),
    (
        "an answer that delivers nothing clears the places",
        |call, _, code, after| {
            if *code == 0 && !laid(call, *code, after) {
                after.places.fill(0);
            }
        },
    ),
    (
        "too few places move the receiver on",
        |call, before, code, after| {
            if let Call::ReceiverDeliver { datagram } = *call {
                if *code == 41 && before.state.len() >= 21 {
                    let mut taken = before.clone();
                    StandIn.call(&Call::ReceiverTake { datagram }, &mut taken);
                    after.state = taken.state;
                }
            }
        },
    ),
    ("a refusal writes to a slot", |_, _, code, after| {
        if *code != 0 {
            touch(after.slots.first_mut());
        }
    }),
    (
        "a byte behind a held message is set",
        |call, before, code, after| {
            if is_early(call) && *code == 0 && after.slots != before.slots {
                touch(after.slots.last_mut());
            }
        },
    ),
    ("what delivers clears its slots", |call, _, code, after| {
        if is_early(call) && *code == 0 && after.words[0] == 1 {
            after.slots.fill(0);
        }
    }),
    (
        "a walk is laid where no message is there",
        |call, _, code, after| {
            let moved = matches!(call, Call::EarlyNext { .. }) && *code == 0;
            if moved && after.words[0] == 0 && after.state[0] != 0xE8 {
                after.state[..21].fill(0);
            }
        },
    ),
    (
        "an early place behind the last is set",
        |call, _, code, after| {
            if matches!(call, Call::EarlyDeliver { .. }) && *code == 0 {
                touch(after.places.get_mut(3 * after.words[2] as usize));
            }
        },
    ),
    ("a refusal writes to an edge", |_, _, code, after| {
        if *code != 0 {
            touch(after.edges.first_mut());
        }
    }),
    ("a word behind the edges is set", |call, _, code, after| {
        if matches!(call, Call::MissingFeed { .. }) && *code == 0 {
            touch(after.edges.last_mut());
        }
    }),
    (
        "what is only asked moves an edge",
        |call, _, code, after| {
            if matches!(call, Call::MissingCount) && *code == 0 {
                touch(after.edges.first_mut());
            }
        },
    ),
    (
        "a feed for what is missing tidies the state",
        |call, _, code, after| {
            let fed = matches!(call, Call::MissingFeed { .. }) && *code == 0;
            if fed && after.words[..2] == [0, 0] {
                after.state[36] = after.state[36].min(1);
            }
        },
    ),
    (
        "a text with little room is written all the same",
        |call, before, code, after| {
            let lent = before.state.len() >= 37 && before.edges.len() == 8_193;
            let asked = matches!(call, Call::MissingWrite) && *code == 41;
            if asked && lent && !before.words.is_empty() && before.out.len() >= 17 {
                let mut roomy = before.clone();
                roomy.out.resize(204_898, 0);
                *code = StandIn.call(call, &mut roomy);
                let size = roomy.words[0] as usize;
                if size <= after.out.len() {
                    after.words.clone_from(&roomy.words);
                    after.out[..size].copy_from_slice(&roomy.out[..size]);
                } else {
                    *code = 41;
                }
            }
        },
    ),
    ("a short output is filled", |call, _, code, after| {
        if *code == 41 && call.function() == "capture_report" {
            after.out.fill(b'=');
        }
    }),
];

/// Whether a call delivered with places.
fn laid(call: &Call, code: u32, after: &Lent) -> bool {
    matches!(call, Call::ReceiverDeliver { .. }) && code == 0 && after.words[0] == 1
}

/// Whether a call is a step of the receiver that keeps early messages.
fn is_early(call: &Call) -> bool {
    matches!(call, Call::EarlyTake { .. } | Call::EarlyDeliver { .. })
}

/// Where its word of held numbers stands.
const HELD: std::ops::Range<usize> = 21..29;

/// Whether such a step was answered so.
fn answered_early(call: &Call, code: u32, after: &Lent, answer: u64) -> bool {
    is_early(call) && code == 0 && after.words[0] == answer
}

/// Asks for nothing beside an answer.
fn ask_nothing(answer: u64, call: &Call, code: u32, after: &mut Lent) {
    if answered_early(call, code, after, answer) {
        after.words[4..7].fill(0);
    }
}

/// How far a datagram lies ahead of a receiver.
fn ahead(datagram: &[u8], state: &[u8]) -> u64 {
    let next = u64::from_le_bytes(state[11..19].try_into().expect("eight bytes"));
    u64::from_be_bytes(datagram[10..18].try_into().expect("eight bytes")) - next
}

/// A name of ten spaces.
const BLANK: &[u8] = &[b' '; 10];

/// The name in a state that is whole.
fn name_in(state: &[u8]) -> Option<&[u8]> {
    (state.len() >= 21).then(|| &state[1..11])
}

/// What a receiver's call lends a datagram by; none of another function, nor with a receiver that is too short.
fn taken<'c>(call: &Call<'c>, before: &Lent) -> Option<&'c [u8]> {
    let (Call::ReceiverTake { datagram } | Call::ReceiverDeliver { datagram }) = *call else {
        return None;
    };
    name_in(&before.state).map(|_| datagram)
}

/// Whether a call by a receiver without a name was answered so.
fn answered_unnamed(call: &Call, before: &Lent, code: u32, after: &Lent, answer: u64) -> bool {
    let is_unnamed = name_in(&before.state) == Some(BLANK);
    taken(call, before).is_some() && is_unnamed && code == 0 && after.words[0] == answer
}

/// Forgets the name that an answer gave.
fn forget(answer: u64, call: &Call, before: &Lent, code: u32, after: &mut Lent) {
    if answered_unnamed(call, before, code, after, answer) {
        after.state[1..11].copy_from_slice(BLANK);
    }
}

/// Names a receiver without a name by a datagram that was refused so.
fn name_by_a_refused_one(
    refusals: std::ops::RangeInclusive<u32>,
    call: &Call,
    before: &Lent,
    code: u32,
    after: &mut Lent,
) {
    let Some(name) = taken(call, before).and_then(|datagram| datagram.get(..10)) else {
        return;
    };
    if name_in(&before.state) == Some(BLANK) && refusals.contains(&code) {
        after.state[1..11].copy_from_slice(name);
    }
}

/// Answers as with another name in the state, or in the datagram; a refusal leaves the state as it was.
fn call_with(call: &Call, name: &[u8], before: &Lent, code: &mut u32, after: &mut Lent) {
    after.clone_from(before);
    after.state[1..11].copy_from_slice(name);
    *code = StandIn.call(call, after);
    if *code != 0 {
        after.clone_from(before);
    }
}

/// Takes back an answer, and gives a refusal instead.
fn refuse(number: u32, before: &Lent, code: &mut u32, after: &mut Lent) {
    *code = number;
    after.clone_from(before);
}

/// Faults of a rule, document 01's own list of errors first, and at the end those of the orders.
const RULES: &[(&str, Fault)] = &[
    (
        "a password counts up to its first zero byte",
        |call, before, code, after| {
            if let Call::ServerStep { accounts, stream } = *call {
                let mut padded = stream.to_vec();
                if let Some(password) = padded.get_mut(9..19) {
                    let text = password.iter().position(|&byte| byte == 0).unwrap_or(10);
                    password[text..].fill(b' ');
                }
                after.clone_from(before);
                let stream = &padded;
                *code = StandIn.call(&Call::ServerStep { accounts, stream }, after);
            }
        },
    ),
    (
        "65,535 is read as that many blocks",
        |call, before, code, after| {
            if matches!(call, Call::MoldRead { .. }) && *code == 0 && after.words[0] == 3 {
                refuse(15, before, code, after);
            }
        },
    ),
    (
        "a datagram that begins before n is old",
        |call, before, code, after| {
            let taken = matches!(call, Call::ReceiverTake { .. }) && *code == 0;
            if taken && after.words[0] == 1 && after.words[3] > 0 {
                after.words[..4].copy_from_slice(&[2, 0, 0, 0]);
                after.state.clone_from(&before.state);
            }
        },
    ),
    ("it asks without the limit", |call, before, code, after| {
        if let Call::ReceiverTake { datagram } = call {
            if *code == 0 && after.words[0] == 4 {
                after.words[2] = ahead(datagram, &before.state);
            }
        }
    }),
    (
        "it asks for a number cut to 16 bits",
        |call, before, code, after| {
            if let Call::ReceiverTake { datagram } = call {
                if *code == 0 && after.words[0] == 4 {
                    let cut = u64::from(ahead(datagram, &before.state) as u16);
                    after.words[2] = after.words[2].min(cut);
                }
            }
        },
    ),
    ("an end of session ahead ends", |call, _, code, after| {
        if let Call::ReceiverTake { datagram } = call {
            if *code == 0 && after.words[0] == 4 && datagram[18..20] == [0xFF; 2] {
                after.words[..4].copy_from_slice(&[5, 0, 0, 0]);
                after.state[0] = 0;
            }
        }
    }),
    (
        "a number field has no leading zeros",
        |call, before, code, after| {
            if let Call::SoupRead { stream, .. } = call {
                let leading = |field: Option<&[u8]>| field.is_some_and(|field| field[0] == b'0');
                if *code == 0 && after.words[0] == u64::from(b'A') && leading(stream.get(13..33)) {
                    refuse(25, before, code, after);
                }
            }
        },
    ),
    (
        "a closed server takes debug packets",
        |call, _, code, after| {
            if let Call::ServerStep { stream, .. } = call {
                if *code == 32 && stream[2] == b'+' {
                    *code = 0;
                    let size = 2 + u64::from(u16::from_be_bytes([stream[0], stream[1]]));
                    after.words[..5].copy_from_slice(&[6, size, 0, 0, 0]);
                }
            }
        },
    ),
    (
        "a scan that was stopped forgets its counts",
        |call, _, _, after| {
            let scanned = matches!(call, Call::SoupScan { .. }) && after.words.len() >= 3;
            if scanned && (21..=25).contains(&after.words[2]) {
                after.words[..2].fill(0);
            }
        },
    ),
    (
        "a largest datagram is refused",
        |call, before, code, after| {
            if let Call::MoldRead { datagram } = call {
                if *code == 0 && datagram.len() == 65_507 {
                    refuse(12, before, code, after);
                }
            }
        },
    ),
    (
        "a full account table is refused",
        |call, before, code, after| {
            if let Call::ServerStep { accounts, .. } = call {
                if accounts.len() / 16 == 1_024 {
                    refuse(19, before, code, after);
                }
            }
        },
    ),
    (
        "a message at 2^64 - 1 is delivered",
        |call, before, code, after| {
            if matches!(call, Call::ClientStep { .. }) && *code == 34 {
                *code = 0;
                after.words[..5].copy_from_slice(&[3, 3, u64::MAX, 3, 0]);
                after.state.clone_from(&before.state);
            }
        },
    ),
    (
        "too few words come before every other ground",
        |call, before, code, after| {
            if before.words.len() < fixed_sizes(call).0 {
                refuse(41, before, code, after);
            }
        },
    ),
    (
        "a short state comes before a bad datagram",
        |call, before, code, after| {
            let taken = matches!(call, Call::ReceiverTake { .. });
            if taken && before.state.len() < fixed_sizes(call).1 {
                refuse(41, before, code, after);
            }
        },
    ),
    (
        "a short server comes before a number too high",
        |call, before, code, after| {
            let moved = matches!(call, Call::ServerSetLast { .. });
            if moved && before.state.len() < fixed_sizes(call).1 {
                refuse(41, before, code, after);
            }
        },
    ),
    (
        "a name that is too long is cut",
        |call, before, code, after| {
            if let Call::ServerStart { session, last } = *call {
                let session = session.get(..10).unwrap_or(session);
                after.clone_from(before);
                *code = StandIn.call(&Call::ServerStart { session, last }, after);
            }
        },
    ),
    (
        "a server of any first byte is open",
        |call, before, code, after| {
            if let Call::ServerStep { .. } = call {
                let mut open = before.clone();
                if let (Some(first), Some(1 | 2)) = (open.state.first_mut(), before.state.get(19)) {
                    *first = 0xE3;
                }
                *code = StandIn.call(call, &mut open);
                if *code != 0 {
                    open.clone_from(before);
                }
                after.clone_from(&open);
            }
        },
    ),
    (
        "a reply that has no room is a step all the same",
        |call, before, code, after| {
            if let Call::ServerReply { accounts, stream } = *call {
                if *code == 41 && before.state.len() >= 20 {
                    let mut stepped = before.clone();
                    StandIn.call(&Call::ServerStep { accounts, stream }, &mut stepped);
                    after.state = stepped.state;
                }
            }
        },
    ),
    (
        "places begin with the skipped messages",
        |call, _, code, after| {
            if laid(call, *code, after) && after.words[3] > 0 {
                after.places[0] = 22;
            }
        },
    ),
    ("a place is that of its length", |call, _, code, after| {
        if laid(call, *code, after) {
            after.places[0] -= 2;
        }
    }),
    ("an empty message has no place", |call, _, code, after| {
        if laid(call, *code, after) {
            let all = 2 * after.words[2] as usize;
            let kept: Vec<u64> = { after.places[..all].chunks_exact(2) }
                .filter(|place| place[1] > 0)
                .flatten()
                .copied()
                .collect();
            after.places[..kept.len()].copy_from_slice(&kept);
        }
    }),
    (
        "places are needed for all of the datagram",
        |call, before, code, after| {
            let needed = 2 * (after.words.get(2..4)).map_or(0, |w| w[0].wrapping_add(w[1]));
            if laid(call, *code, after) && (before.places.len() as u64) < needed {
                refuse(41, before, code, after);
            }
        },
    ),
    ("an ask needs places too", |call, before, code, after| {
        let asked = matches!(call, Call::ReceiverDeliver { .. }) && *code == 0;
        if asked && after.words[0] == 4 && before.places.is_empty() {
            refuse(41, before, code, after);
        }
    }),
    (
        "a request past the store's end is refused",
        |call, before, code, after| {
            if let Call::StoreAnswer {
                first,
                lengths,
                request,
                ..
            } = *call
            {
                if *code != 0 {
                    return;
                }
                let wanted = u16::from_be_bytes([request[18], request[19]]);
                let number = u64::from_be_bytes(request[10..18].try_into().expect("eight bytes"));
                let there = first + lengths.len() as u64 - number;
                if there < u64::from(wanted) {
                    refuse(51, before, code, after);
                }
            }
        },
    ),
    (
        "a store without a name has another one",
        |call, before, code, after| {
            if let Call::StoreAnswer { session, .. } = call {
                if session.len() != 10 && *code == 41 {
                    refuse(53, before, code, after);
                }
            }
        },
    ),
    (
        "an answer needs room for the whole size",
        |call, before, code, after| {
            if let Call::StoreAnswer { size, .. } = call {
                if *code == 0 && (before.out.len() as u64) < *size {
                    refuse(41, before, code, after);
                }
            }
        },
    ),
    (
        "only the packet that is asked for is looked at",
        |call, before, code, after| {
            if let Call::TransmitterPacket { lengths, size, .. } = call {
                let first = lengths.first().map_or(0, |&length| u64::from(length));
                if *code == 52 && 22 + first <= *size {
                    refuse(54, before, code, after);
                }
            }
        },
    ),
    ("an empty run has a packet", |call, _, code, _| {
        if let Call::TransmitterPacket { lengths, place, .. } = call {
            if *code == 54 && *place == 0 && lengths.is_empty() {
                *code = 0;
            }
        }
    }),
    (
        "a datagram that isn't well-formed names a receiver",
        |call, before, code, after| name_by_a_refused_one(11..=16, call, before, *code, after),
    ),
    (
        "a datagram after the end names a receiver",
        |call, before, code, after| name_by_a_refused_one(18..=18, call, before, *code, after),
    ),
    (
        "an end below the number names a receiver",
        |call, before, code, after| name_by_a_refused_one(20..=20, call, before, *code, after),
    ),
    (
        "too few places name a receiver",
        |call, before, code, after| name_by_a_refused_one(41..=41, call, before, *code, after),
    ),
    ("what delivers names nobody", |call, before, code, after| {
        forget(1, call, before, *code, after)
    }),
    ("what is old names nobody", |call, before, code, after| {
        forget(2, call, before, *code, after)
    }),
    ("what is quiet names nobody", |call, before, code, after| {
        forget(3, call, before, *code, after)
    }),
    ("what asks names nobody", |call, before, code, after| {
        forget(4, call, before, *code, after)
    }),
    ("what ends names nobody", |call, before, code, after| {
        forget(5, call, before, *code, after)
    }),
    ("a name is learned twice", |call, before, code, after| {
        if *code == 17 && taken(call, before).is_some() {
            call_with(call, BLANK, before, code, after);
        }
    }),
    (
        "a blank name is a name like any other",
        |call, before, code, after| {
            let Some(datagram) = taken(call, before) else {
                return;
            };
            let is_well_formed = !(11..=16).contains(code);
            if is_well_formed && name_in(&before.state) == Some(BLANK) {
                if &datagram[..10] != BLANK {
                    return refuse(17, before, code, after);
                }
                // One that has the datagram's name, before and after.
                let named = [b"READROOM01", &datagram[10..]].concat();
                let datagram = named.as_slice();
                let call = match call {
                    Call::ReceiverTake { .. } => Call::ReceiverTake { datagram },
                    _ => Call::ReceiverDeliver { datagram },
                };
                call_with(&call, b"READROOM01", before, code, after);
                after.state[1..11].copy_from_slice(BLANK);
            }
        },
    ),
    (
        "a name that begins with a space is blank",
        |call, before, code, after| {
            let is_spaced = name_in(&before.state).is_some_and(|name| name[0] == b' ');
            if *code == 17 && taken(call, before).is_some() && is_spaced {
                call_with(call, BLANK, before, code, after);
            }
        },
    ),
    (
        "an ended receiver without a name has another one",
        |call, before, code, after| {
            let is_unnamed = name_in(&before.state) == Some(BLANK);
            if *code == 18 && taken(call, before).is_some() && is_unnamed {
                refuse(17, before, code, after);
            }
        },
    ),
    ("what delivers doesn't ask", |call, _, code, after| {
        ask_nothing(1, call, *code, after)
    }),
    ("what is old doesn't ask", |call, _, code, after| {
        ask_nothing(2, call, *code, after)
    }),
    ("what is quiet doesn't ask", |call, _, code, after| {
        ask_nothing(3, call, *code, after)
    }),
    ("what ends still holds", |call, before, code, after| {
        if answered_early(call, *code, after, 5) {
            after.state[HELD].copy_from_slice(&before.state[HELD]);
        }
    }),
    (
        "an ask reaches past what is held",
        |call, before, code, after| {
            if let Call::EarlyTake { datagram } = *call {
                let is_ahead = answered_early(call, *code, after, 4);
                if is_ahead && after.words[6] < u64::from(u16::MAX) {
                    after.words[6] = ahead(datagram, &before.state).min(after.words[6] + 64);
                }
            }
        },
    ),
    (
        "held messages aren't counted",
        |call, before, code, after| {
            if answered_early(call, *code, after, 1) && before.state[HELD] != after.state[HELD] {
                after.words[2] = 1;
            }
        },
    ),
    (
        "the word shifts by the run alone",
        |call, _, code, after| {
            if answered_early(call, *code, after, 1) {
                let word = u64::from_le_bytes(after.state[HELD].try_into().expect("eight bytes"));
                after.state[HELD].copy_from_slice(&(word << 1).to_le_bytes());
            }
        },
    ),
    (
        "a length is laid with its low byte first",
        |call, before, code, after| {
            if answered_early(call, *code, after, 4) && before.state != after.state {
                for length in after.state[29..157].chunks_exact_mut(2) {
                    length.swap(0, 1);
                }
            }
        },
    ),
    (
        "slots of another size come behind 20",
        |call, before, code, after| {
            if is_early(call) && *code == 19 {
                let mut lent = before.clone();
                lent.slots.resize(65_536, 7);
                if StandIn.call(call, &mut lent) == 20 {
                    refuse(20, before, code, after);
                }
            }
        },
    ),
    (
        "a message that is held is had from the datagram",
        |call, _, code, after| {
            if matches!(call, Call::EarlyLocate { .. }) && *code == 0 {
                after.words[1] = 0;
            }
        },
    ),
    (
        "a capture doesn't count a request beside an answer",
        |call, before, code, after| {
            if matches!(call, Call::CaptureFeed { .. }) && *code == 0 {
                let grew = after.state[191..199] != before.state[191..199];
                if grew && after.state[175..183] != before.state[175..183] {
                    after.state[191..199].copy_from_slice(&before.state[191..199]);
                }
            }
        },
    ),
    (
        "a start without a name is refused",
        |call, before, code, after| {
            if let Call::ReceiverStart { session, .. } = call {
                if *code == 0 && *session == BLANK {
                    refuse(19, before, code, after);
                }
            }
        },
    ),
    (
        "a missing range ends at its edge",
        |call, _, code, after| {
            let found = matches!(call, Call::MissingRange { .. }) && *code == 0;
            if found && after.words[0] == 1 {
                after.words[2] = after.words[2].wrapping_add(1);
            }
        },
    ),
    (
        "the last missing range isn't counted",
        |call, _, code, after| {
            if matches!(call, Call::MissingCount) && *code == 0 {
                after.words[1] = after.words[1].saturating_sub(1);
            }
        },
    ),
    ("missing numbers wrap", |call, _, code, after| {
        if matches!(call, Call::MissingCount) && *code == 0 && after.words[2] == u64::MAX {
            after.words[2] = 0;
        }
    }),
    ("4,096 ranges are refused", |call, _, code, after| {
        let fed = matches!(call, Call::MissingFeed { .. }) && *code == 0;
        if fed && after.state[28..36] == 4_096u64.to_le_bytes() {
            after.state[36] = 1;
        }
    }),
    (
        "ranges that are too many are kept",
        |call, before, code, after| {
            let fed = matches!(call, Call::MissingFeed { .. }) && *code == 0;
            if fed && before.state[36] == 0 {
                after.state[36] = 0;
            }
        },
    ),
    (
        "a datagram of another session counts as missing's own",
        |call, before, code, after| {
            if let Call::MissingFeed { bytes } = *call {
                let named = bytes
                    .get(2..12)
                    .filter(|name| before.state.get(2..12) != Some(name));
                let records = before.state.get(1) == Some(&2) && *code == 0;
                if let (Some(name), true) = (named, records) {
                    let own = before.state[2..12].to_vec();
                    after.clone_from(before);
                    after.state[2..12].copy_from_slice(name);
                    *code = StandIn.call(call, after);
                    after.state[2..12].copy_from_slice(&own);
                }
            }
        },
    ),
    ("a last number falls", |call, before, code, after| {
        if let Call::ServerSetLast { last } = call {
            if *code == 19 && *last < u64::MAX {
                *code = 0;
                after.clone_from(before);
                after.state[11..19].copy_from_slice(&last.to_le_bytes());
            }
        }
    }),
];

fn is_caught(fault: Fault) -> bool {
    let run = || run_with(&mut Faulty(fault), 1, 240_000);
    // Only the comparison's own panic counts, and none of the fault's.
    let Err(panic) = catch_unwind(AssertUnwindSafe(run)) else {
        return false;
    };
    let words = panic.downcast_ref::<String>();
    words.is_some_and(|words| words.starts_with("seed 1, case "))
}

#[test]
fn every_fault_is_caught() {
    // A fault that is caught is no failure: its panic isn't to be printed.
    let hook = take_hook();
    set_hook(Box::new(|_| {}));
    let without = is_caught(|_, _, _, _| {});
    let all = HANDLING.iter().chain(RULES);
    let missed: Vec<&str> = all
        .filter(|(_, fault)| !is_caught(*fault))
        .map(|(name, _)| *name)
        .collect();
    set_hook(hook);
    assert!(!without, "a stand-in without a fault is caught");
    assert_eq!(missed, Vec::<&str>::new());
}
