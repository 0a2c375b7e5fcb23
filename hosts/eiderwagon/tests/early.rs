//! The receiver that keeps early messages: what is held, what it delivers, and what it asks for.

mod feed;

use eiderwagon::early::{Answer, EarlyReceiver};
use eiderwagon::mold::Request;
use eiderwagon::{raw, Fault, Ground};
use feed::{data, end, heartbeat, NAME};

/// A receiver at a number, with the limit 100.
fn at(next: u64) -> EarlyReceiver {
    EarlyReceiver::start(NAME, next, 100).unwrap()
}

/// What is delivered, with the numbers, and what is asked for.
type Given = (Vec<(u64, Vec<u8>)>, Option<(u64, u16)>);

fn given(receiver: &mut EarlyReceiver, datagram: &[u8]) -> Given {
    let taken = receiver.take(datagram).unwrap();
    let messages = match taken.answer {
        Answer::Deliver(messages) => messages.map(|(n, m)| (n, m.to_vec())).collect(),
        _ => vec![],
    };
    let asked = taken.request.map(|Request { session, first, count }| {
        assert_eq!(&session, NAME);
        (first, count)
    });
    (messages, asked)
}

/// Messages with their numbers.
fn numbered(first: u64, messages: &[&[u8]]) -> Vec<(u64, Vec<u8>)> {
    (first..).zip(messages.iter().map(|m| m.to_vec())).collect()
}

#[test]
fn a_start_has_its_settings() {
    let receiver = EarlyReceiver::start(NAME, 7, 100).unwrap();
    assert_eq!(receiver.session(), Some(*NAME));
    assert_eq!((receiver.next(), receiver.limit(), receiver.is_ended()), (7, 100, false));
    assert_eq!(receiver.held_count(), 0);
    let shown =
        "EarlyReceiver { session: \"READROOM01\", next: 7, limit: 100, ended: false, held: 0 }";
    assert_eq!(format!("{receiver:?}"), shown);
}

#[test]
fn bad_settings_are_refused() {
    for (next, limit) in [(0, 1), (1, 0), (1, 65535)] {
        let refusal = EarlyReceiver::start(NAME, next, limit).unwrap_err();
        assert_eq!((refusal.ground(), refusal.fault()), (Ground::BadSetting, Fault::Caller));
    }
    assert!(EarlyReceiver::start(NAME, u64::MAX, 65534).is_ok());
}

#[test]
fn swapped_neighbours_are_all_delivered() {
    let mut receiver = at(1);
    let ahead = given(&mut receiver, &data(3, &[b"three", b""]));
    assert_eq!(ahead, (vec![], Some((1, 2))));
    let all: [&[u8]; 4] = [b"one", b"two", b"three", b""];
    assert_eq!(given(&mut receiver, &data(1, &all[..2])), (numbered(1, &all), None));
    assert_eq!((receiver.next(), receiver.held_count()), (5, 0));
}

#[test]
fn a_second_gap_is_asked_for_beside_what_is_delivered() {
    let mut receiver = at(1);
    receiver.take(&data(5, &[b"five"])).unwrap();
    receiver.take(&data(2, &[b"two"])).unwrap();
    let delivered = numbered(1, &[b"one", b"two"]);
    assert_eq!(given(&mut receiver, &data(1, &[b"one"])), (delivered, Some((3, 2))));
    // old and quiet ask too, and a heartbeat ahead asks for no more than is missing before the held
    for (next, answer) in [(2, Answer::Old), (3, Answer::Quiet), (9, Answer::Ahead)] {
        let datagram = heartbeat(next);
        let taken = receiver.take(&datagram).unwrap();
        let asked = taken.request.map(|request| (request.first, request.count));
        assert_eq!((taken.answer, asked), (answer, Some((3, 2))));
    }
}

#[test]
fn what_is_held_stays_as_it_came_first() {
    let mut receiver = at(1);
    receiver.take(&data(2, &[b"first"])).unwrap();
    receiver.take(&data(2, &[b"second"])).unwrap();
    let (all, _) = given(&mut receiver, &data(1, &[b"one", b"third"]));
    assert_eq!(all, numbered(1, &[b"one", b"first"]));
}

#[test]
fn a_slot_holds_1024_bytes_and_64_numbers_are_held() {
    let (fits, long) = ([7; 1024], [7; 1025]);
    let mut receiver = at(1);
    receiver.take(&data(2, &[&long])).unwrap();
    assert_eq!(receiver.held_count(), 0);
    receiver.take(&data(2, &[&fits])).unwrap();
    assert_eq!(receiver.held_count(), 1);
    receiver.take(&data(65, &[b"the last", b"one too far"])).unwrap();
    assert_eq!(receiver.held_count(), 2);
    // the expected one is delivered at any length
    let (all, asked) = given(&mut receiver, &data(1, &[&long]));
    assert_eq!(all, numbered(1, &[&long, &fits]));
    assert_eq!(asked, Some((3, 62)));
}

#[test]
fn all_slots_are_delivered_at_once() {
    let mut receiver = at(1);
    let messages: Vec<Vec<u8>> = (2..=65u8).map(|n| vec![n; 9]).collect();
    let messages: Vec<&[u8]> = messages.iter().map(Vec::as_slice).collect();
    receiver.take(&data(2, &messages)).unwrap();
    assert_eq!(receiver.held_count(), 64);
    let (all, asked) = given(&mut receiver, &data(1, &[b"one"]));
    assert_eq!((&all[1..], asked), (&numbered(2, &messages)[..], None));
    assert_eq!(receiver.next(), 66);
}

#[test]
fn there_is_room_for_every_datagram() {
    let mut receiver = at(1);
    let many = raw::MOST_PLACES / raw::PLACE_WORDS;
    receiver.take(&data(64, &[b"early", b"early"])).unwrap();
    let messages = receiver.take(&data(1, &vec![&[][..]; many])).map(|taken| match taken.answer {
        Answer::Deliver(messages) => messages.len(),
        other => panic!("{other:?}"),
    });
    assert_eq!(messages, Ok(many));
}

#[test]
fn an_end_holds_nothing() {
    let mut receiver = at(1);
    receiver.take(&data(3, &[b"three"])).unwrap();
    let end = end(1);
    let taken = receiver.take(&end).unwrap();
    assert_eq!((taken.answer, taken.request), (Answer::Ended, None));
    assert!(receiver.is_ended());
    assert_eq!(receiver.held_count(), 0);
    assert_eq!(receiver.take(&heartbeat(1)).unwrap_err().ground(), Ground::SessionEnded);
}

#[test]
fn a_refused_datagram_leaves_the_receiver_as_it_was() {
    let mut receiver = at(5);
    receiver.take(&data(7, &[b"seven"])).unwrap();
    let (state, slots) = (*receiver.as_bytes(), *receiver.slots());
    let mut other = data(5, &[b"five"]);
    other[9] = b'2';
    for (number, datagram) in [(11, &b"nineteen bytes only"[..]), (17, &other), (20, &end(4))] {
        let refusal = receiver.take(datagram).unwrap_err();
        assert_eq!((refusal.number(), refusal.fault()), (number, Fault::Peer));
    }
    assert!(*receiver.as_bytes() == state && *receiver.slots() == slots);
}

#[test]
fn a_name_is_learned_from_a_datagram_ahead() {
    let mut receiver = EarlyReceiver::start_unnamed(1, 100).unwrap();
    assert_eq!(receiver.session(), None);
    let taken = receiver.take(&data(2, &[b"two"])).map(|taken| taken.request);
    assert_eq!(taken, Ok(Some(Request { session: *NAME, first: 1, count: 1 })));
    assert_eq!(receiver.session(), Some(*NAME));
}

/// The functions that say beforehand what a datagram will deliver say what it then delivers.
#[test]
fn what_will_be_delivered_is_delivered() {
    let mut receiver = at(1);
    receiver.take(&data(3, &[b"three"])).unwrap();
    let datagram = data(1, &[b"one", b"two"]);
    let (state, slots) = (*receiver.as_bytes(), *receiver.slots());
    let mut count = [0; raw::EARLY_COUNT_WORDS];
    assert_eq!(raw::early_count(&state, &slots, &datagram, &mut count), raw::OK);
    let mut walk = [0; raw::WALK_SIZE];
    assert_eq!(raw::early_walk(&state, &slots, &datagram, &mut walk), raw::OK);
    let mut before = vec![];
    for place in 0..count[raw::EARLY_COUNT_COUNT] as u16 {
        let (mut found, mut walked) = ([0; raw::PART_WORDS], [0; raw::PART_WORDS]);
        let code = raw::early_locate(&state, &slots, &datagram, place, &mut found);
        assert_eq!((code, found[raw::PART_FOUND]), (raw::OK, 1));
        assert_eq!(raw::early_next(&mut walk, &state, &slots, &datagram, &mut walked), raw::OK);
        assert_eq!(found, walked);
        let bytes = if found[raw::PART_HELD] == 1 { &slots[..] } else { &datagram[..] };
        let (offset, length) = (found[raw::PART_OFFSET], found[raw::PART_LENGTH]);
        before.push(bytes[offset as usize..][..length as usize].to_vec());
    }
    let (after, _) = given(&mut receiver, &datagram);
    assert_eq!(after.into_iter().map(|(_, message)| message).collect::<Vec<_>>(), before);
}
