//! All messages of a datagram by one call: as `take` answers them.

mod feed;

use eiderwagon::receiver::{Answer, Places, Receiver};
use eiderwagon::{raw, Fault};
use feed::{data, end, heartbeat, NAME};

/// A receiver at a number, with the limit 100.
fn at(next: u64) -> Receiver {
    Receiver::start(NAME, next, 100).unwrap()
}

/// Takes a datagram both ways: the answer, with its messages gathered.
fn both_ways<'a>(
    receiver: &mut Receiver,
    places: &mut Places,
    datagram: &'a [u8],
) -> Vec<&'a [u8]> {
    let mut other = at(receiver.next());
    let one_by_one = other.take(datagram).map(gathered);
    let at_once = receiver.take_all(datagram, places).map(gathered);
    assert_eq!(at_once, one_by_one);
    assert_eq!(*receiver, other);
    match at_once {
        Ok(Answer::Deliver { messages, .. }) => messages,
        _ => vec![],
    }
}

fn gathered<'a>(answer: Answer<impl Iterator<Item = &'a [u8]>>) -> Answer<Vec<&'a [u8]>> {
    match answer {
        Answer::Deliver { first, messages } => {
            Answer::Deliver { first, messages: messages.collect() }
        }
        Answer::Old => Answer::Old,
        Answer::Quiet => Answer::Quiet,
        Answer::Ask(request) => Answer::Ask(request),
        Answer::Ended => Answer::Ended,
        _ => unreachable!("the table has no other answer"),
    }
}

#[test]
fn every_answer_is_the_one_of_take() {
    let places = &mut Places::new();
    let three: [&[u8]; 3] = [b"three", b"", b"five"];
    assert_eq!(both_ways(&mut at(3), places, &data(3, &three)), three);
    assert_eq!(both_ways(&mut at(4), places, &data(3, &three)), three[1..]);
    assert_eq!(both_ways(&mut at(5), places, &data(3, &three)), three[2..]);
    for (next, datagram) in [
        (6, data(3, &three)),
        (2, data(3, &three)),
        (3, heartbeat(3)),
        (3, heartbeat(7)),
        (3, end(3)),
        (3, end(2)),
        (3, b"nineteen bytes only".to_vec()),
        (3, vec![]),
    ] {
        assert!(both_ways(&mut at(next), places, &datagram).is_empty());
    }
}

#[test]
fn the_messages_are_counted_and_can_be_had_again() {
    let places = &mut Places::new();
    let datagram = data(3, &[b"three", b"", b"five"]);
    let Ok(Answer::Deliver { mut messages, .. }) = at(3).take_all(&datagram, places) else {
        panic!("it delivers");
    };
    assert_eq!(messages.len(), 3);
    assert_eq!(messages.next(), Some(&b"three"[..]));
    assert_eq!(messages.len(), 2);
    let again = messages.clone();
    assert_eq!(messages, again);
    assert_eq!(format!("{messages:?}"), "[[], [102, 105, 118, 101]]");
    assert_eq!(messages.by_ref().count(), 2);
    assert_eq!((messages.next(), messages.len(), again.len()), (None, 0, 2));
    assert_ne!(messages, again);
}

/// Messages outlive the places that they were found by: they are parts of the datagram.
#[test]
fn one_memory_serves_all_datagrams() {
    let (mut receiver, mut places) = (at(1), Places::default());
    let datagrams =
        [data(1, &[b"one"]), data(2, &[b"two", b"three", b"four"]), data(5, &[b"five"])];
    let mut shown = vec![];
    for datagram in &datagrams {
        if let Ok(Answer::Deliver { messages, .. }) = receiver.take_all(datagram, &mut places) {
            shown.extend(messages);
        }
    }
    assert_eq!(shown, [&b"one"[..], b"two", b"three", b"four", b"five"]);
    assert_eq!(receiver.next(), 6);
}

/// A datagram of nothing but empty messages has the most places.
#[test]
fn there_is_room_for_every_datagram() {
    let many = raw::MOST_PLACES / raw::PLACE_WORDS;
    let datagram = data(1, &vec![&[][..]; many]);
    assert_eq!(datagram.len(), raw::LARGEST_DATAGRAM - 1);
    assert_eq!(both_ways(&mut at(1), &mut Places::new(), &datagram).len(), many);

    let [mut words, mut places] = [vec![0; raw::TAKE_WORDS], vec![7; raw::MOST_PLACES]];
    let mut state = *at(1).as_bytes();
    let few = &mut places[1..];
    let code = raw::receiver_deliver(&mut state, &datagram, &mut words, few);
    assert_eq!((code, &state), (raw::REFUSED_OUTPUT_SHORT, at(1).as_bytes()));
    assert!(places.iter().all(|&word| word == 7));
    let code = raw::receiver_deliver(&mut state, &datagram, &mut words, &mut places);
    assert_eq!((code, words[raw::TAKE_COUNT]), (raw::OK, many as u64));
    assert_eq!(places[raw::MOST_PLACES - raw::PLACE_WORDS..], [datagram.len() as u64, 0]);
}

#[test]
fn a_refused_datagram_leaves_the_receiver_as_it_was() {
    let (mut receiver, mut places) = (at(5), Places::new());
    let mut other = data(5, &[b"five"]);
    other[9] = b'2';
    let refusal = receiver.take_all(&other, &mut places).unwrap_err();
    assert_eq!((refusal.number(), refusal.fault()), (17, Fault::Peer));
    assert_eq!(receiver, at(5));
}
