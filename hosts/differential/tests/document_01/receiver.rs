//! "Either side of the line" and the table, for the receiver; and order 12, the name that it learns.

use crate::{ask, data, end, heartbeat, words, NAME, TOP};
use differential::call::Call;

const BLANK: &[u8; 10] = b"          ";

fn receiver(next: u64, limit: u16) -> Vec<u8> {
    receiver_of(NAME, next, limit)
}

fn receiver_of(session: &[u8; 10], next: u64, limit: u16) -> Vec<u8> {
    let call = Call::ReceiverStart {
        session,
        next,
        limit,
    };
    let answer = ask(&call, &[0; 21]);
    assert_eq!(answer.code, 0);
    answer.state
}

fn next_of(state: &[u8]) -> u64 {
    u64::from_le_bytes(state[11..19].try_into().expect("eight bytes"))
}

/// The answer's code and words, and the expected number afterwards.
fn take(state: &[u8], datagram: &[u8]) -> (u32, [u64; 4], u64) {
    let answer = ask(&Call::ReceiverTake { datagram }, state);
    let (code, words) = words(&answer);
    (code, words, next_of(&answer.state))
}

#[test]
fn receiver_lines() {
    let two: &[&[u8]] = &[b"a", b"b"];
    let three: &[&[u8]] = &[b"a", b"b", b"c"];
    assert_eq!(take(&receiver(3, 100), &data(5, two)), (0, [4, 3, 2, 0], 3));
    assert_eq!(take(&receiver(3, 1), &data(5, two)), (0, [4, 3, 1, 0], 3));
    assert_eq!(take(&receiver(3, 9), &data(2, three)), (0, [1, 3, 2, 1], 5));
    assert_eq!(take(&receiver(3, 9), &data(3, three)), (0, [1, 3, 3, 0], 6));
    assert_eq!(take(&receiver(5, 9), &data(2, three)), (0, [2, 0, 0, 0], 5));
    assert_eq!(take(&receiver(5, 9), &heartbeat(4)), (0, [2, 0, 0, 0], 5));
    assert_eq!(take(&receiver(5, 9), &heartbeat(5)), (0, [3, 0, 0, 0], 5));
    assert_eq!(take(&receiver(5, 9), &heartbeat(6)), (0, [4, 5, 1, 0], 5));
    assert_eq!(take(&receiver(5, 9), &end(99)), (0, [4, 5, 9, 0], 5));
    assert_eq!(take(&receiver(5, 9), &end(5)), (0, [5, 0, 0, 0], 5));
    assert_eq!(take(&receiver(5, 9), &end(4)), (20, [0; 4], 5));
    let far = take(&receiver(1, 65_534), &heartbeat(TOP));
    assert_eq!(far, (0, [4, 1, 65_534, 0], 1));
}

#[test]
fn receiver_refusals() {
    let running = receiver(5, 9);
    let ended = ask(&Call::ReceiverTake { datagram: &end(5) }, &running).state;
    assert_eq!(take(&ended, &end(5)).0, 18);
    assert_eq!(take(&ended, &heartbeat(5)).0, 18);
    let mut other = heartbeat(5);
    other[0] ^= 0x20;
    assert_eq!(take(&ended, &other).0, 17);
    assert_eq!(take(&running, &other).0, 17);
    other.push(0);
    assert_eq!(take(&running, &other).0, 16);
    for (next, limit) in [(0, 1), (1, 0), (1, 65_535)] {
        let call = Call::ReceiverStart {
            session: NAME,
            next,
            limit,
        };
        let answer = ask(&call, &[7; 21]);
        assert_eq!((answer.code, answer.state), (19, vec![7; 21]));
    }
    assert_eq!(next_of(&receiver(TOP, 65_534)), TOP);
}

/// The same answers by the call that lays places: two words for each delivered message, and those behind them stay.
#[test]
fn delivered_places() {
    let three = &data(2, &[b"a", b"", b"ccc"]) as &[u8];
    let deliver = |next: u64, datagram: &[u8]| {
        let state = receiver(next, 9);
        let answer = ask(&Call::ReceiverDeliver { datagram }, &state);
        let (code, words) = words(&answer);
        assert_eq!(
            (code, words, next_of(&answer.state)),
            take(&state, datagram)
        );
        answer.places
    };
    assert_eq!(deliver(2, three), [22, 1, 25, 0, 27, 3, 7, 7]);
    assert_eq!(deliver(3, three), [25, 0, 27, 3, 7, 7, 7, 7]);
    assert_eq!(deliver(4, three), [27, 3, 7, 7, 7, 7, 7, 7]);
    for (next, datagram) in [
        (5, three),
        (1, three),
        (5, &heartbeat(4)),
        (5, &heartbeat(5)),
        (5, &heartbeat(6)),
        (5, &end(5)),
        (5, &end(4)),
        (5, &three[..29]),
    ] {
        assert_eq!(deliver(next, datagram), [7; 8]);
    }
}

/// A message of no bytes is delivered, and counted.
#[test]
fn empty_messages_are_delivered() {
    let datagram = data(1, &[b"", b""]);
    let datagram = datagram.as_slice();
    assert_eq!(take(&receiver(2, 1), datagram), (0, [1, 2, 1, 1], 3));
    let walk = Call::ReceiverWalk {
        datagram,
        count: 1,
        skipped: 1,
    };
    let cursor = ask(&walk, &[0; 11]).state;
    let first = ask(&Call::MoldNext { datagram }, &cursor);
    assert_eq!(words(&first), (0, [1, 24, 0]));
    let behind = ask(&Call::MoldNext { datagram }, &first.state);
    assert_eq!(words(&behind), (0, [0, 0, 0]));
    assert_eq!(behind.state, first.state);
}

/// The datagram under another name.
fn of_name(name: &[u8; 10], mut datagram: Vec<u8>) -> Vec<u8> {
    datagram[..10].copy_from_slice(name);
    datagram
}

/// The code and the name that a datagram leaves, by both calls.
fn named(state: &[u8], datagram: &[u8]) -> (u32, [u8; 10]) {
    let name = |call: Call| {
        let answer = ask(&call, state);
        let name = answer.state[1..11].try_into().expect("ten bytes");
        (answer.code, name)
    };
    let by_take = name(Call::ReceiverTake { datagram });
    assert_eq!(name(Call::ReceiverDeliver { datagram }), by_take);
    by_take
}

/// Order 12: each answer of the table names a receiver that was started on a blank name.
#[test]
fn any_answer_names() {
    let blank = receiver_of(BLANK, 3, 9);
    for (datagram, answer) in [
        (data(3, &[b"c"]), 1),
        (data(2, &[b"b", b"c"]), 1),
        (data(2, &[b"b"]), 2),
        (heartbeat(2), 2),
        (heartbeat(3), 3),
        (data(5, &[b"e"]), 4),
        (heartbeat(4), 4),
        (end(4), 4),
        (end(3), 5),
    ] {
        assert_eq!(take(&blank, &datagram).1[0], answer);
        assert_eq!(named(&blank, &datagram), (0, *NAME));
        // But for its name it answers as one that was started on that name.
        assert_eq!(take(&blank, &datagram), take(&receiver(3, 9), &datagram));
    }
}

/// What the reader or the receiver refuses doesn't: until there is a name, 17's ground is a blank one.
#[test]
fn no_refusal_names() {
    let blank = receiver_of(BLANK, 3, 9);
    let mut long = heartbeat(3);
    long.push(0);
    for (datagram, refusal) in [
        (heartbeat(3)[..19].to_vec(), 11),
        (heartbeat(0), 13),
        (data(TOP, &[b"a"]), 14),
        (data(3, &[b"c"])[..22].to_vec(), 15),
        (long, 16),
        (of_name(BLANK, data(3, &[b"c"])), 17),
        (of_name(BLANK, heartbeat(9)), 17),
        (of_name(BLANK, end(2)), 17),
        (end(2), 20),
    ] {
        assert_eq!(named(&blank, &datagram), (refusal, *BLANK));
    }
    // Names that are nearly blank are names.
    for name in [b"         1", b"1         ", b" \0        ", &[0; 10]] {
        let datagram = of_name(name, heartbeat(3));
        assert_eq!(named(&blank, &datagram), (0, *name));
    }
}

/// From then on 17's ground is another name, and the name stays.
#[test]
fn a_name_is_learned_once() {
    let blank = receiver_of(BLANK, 3, 9);
    let datagram = &heartbeat(3);
    let learned = ask(&Call::ReceiverTake { datagram }, &blank).state;
    assert_eq!(learned, receiver(3, 9));
    for other in [b"READROOM02", BLANK] {
        assert_eq!(named(&learned, &of_name(other, heartbeat(3))), (17, *NAME));
    }
    assert_eq!(named(&learned, &data(3, &[b"c"])), (0, *NAME));
}

/// A refused start is blank and ended: 17 to a blank name, and 18 to every other. So is a reading's receiver until its
/// settings are read.
#[test]
fn a_refused_start_has_no_name() {
    let reading = ask(&Call::CaptureStart, &[7; 207]).state;
    let mut by_hand = receiver_of(BLANK, 1, 1);
    by_hand[0] = 0;
    assert_eq!(reading[2..23], by_hand);
    for datagram in [data(1, &[b"a"]), heartbeat(1), end(1), end(9)] {
        assert_eq!(named(&by_hand, &datagram), (18, *BLANK));
        let blank = of_name(BLANK, datagram);
        assert_eq!(named(&by_hand, &blank), (17, *BLANK));
    }
}

/// A reading whose receiver was given no name by hand learns one too, and reports it.
#[test]
fn a_reading_made_by_hand_learns() {
    let mut bytes = b"session=READROOM01\nnext=3\nlimit=9\n".to_vec();
    bytes.resize(60, 0);
    let reading = ask(&Call::CaptureStart, &[7; 207]).state;
    let mut reading = ask(&Call::CaptureFeed { bytes: &bytes }, &reading).state;
    reading[3..13].copy_from_slice(BLANK);
    let record = [&[0, 20], &heartbeat(3)[..]].concat();
    let reading = ask(&Call::CaptureFeed { bytes: &record }, &reading).state;
    let report = ask(&Call::CaptureWrite, &reading);
    let text = String::from_utf8_lossy(&report.out[..report.words[0] as usize]).into_owned();
    assert!(text.starts_with("session=READROOM01\nnext=3\n"), "{text}");
}
