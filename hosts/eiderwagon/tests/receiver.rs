//! The receiver: its table, line by line.

mod feed;

use eiderwagon::mold::{self, Request};
use eiderwagon::receiver::{Answer, Receiver};
use eiderwagon::Ground;
use feed::{data, end, heartbeat, NAME};

/// A receiver at a number, with the limit 100.
fn at(next: u64) -> Receiver {
    Receiver::start(NAME, next, 100).unwrap()
}

/// Takes a datagram that delivers: the first number, and the messages.
fn delivered<'a>(receiver: &mut Receiver, datagram: &'a [u8]) -> (u64, Vec<&'a [u8]>) {
    match receiver.take(datagram).unwrap() {
        Answer::Deliver { first, messages } => (first, messages.collect()),
        other => panic!("{other:?}"),
    }
}

#[test]
fn a_start_has_its_settings() {
    let receiver = Receiver::start(NAME, 7, 100).unwrap();
    assert_eq!(receiver.session(), Some(*NAME));
    assert_eq!((receiver.next(), receiver.limit(), receiver.is_ended()), (7, 100, false));
    let shown = "Receiver { session: \"READROOM01\", next: 7, limit: 100, ended: false }";
    assert_eq!(format!("{receiver:?}"), shown);
}

#[test]
fn bad_settings_are_refused() {
    for (next, limit) in [(0, 1), (1, 0), (1, 65535)] {
        let refusal = Receiver::start(NAME, next, limit).unwrap_err();
        assert_eq!(refusal.ground(), Ground::BadSetting);
    }
    assert!(Receiver::start(NAME, u64::MAX, 65534).is_ok());
}

#[test]
fn new_messages_are_delivered() {
    let mut receiver = at(3);
    let datagram = data(3, &[b"three", b"", b"five"]);
    let three: Vec<&[u8]> = vec![b"three", b"", b"five"];
    assert_eq!(delivered(&mut receiver, &datagram), (3, three));
    assert_eq!(receiver.next(), 6);
}

#[test]
fn messages_that_were_had_are_skipped() {
    let mut receiver = at(3);
    let datagram = data(1, &[b"one", b"two", b"three"]);
    assert_eq!(delivered(&mut receiver, &datagram), (3, vec![&b"three"[..]]));
    assert_eq!(receiver.next(), 4);
}

#[test]
fn what_was_had_is_old() {
    let mut receiver = at(5);
    assert_eq!(receiver.take(&data(2, &[b"two", b"three", b"four"])), Ok(Answer::Old));
    assert_eq!(receiver.take(&heartbeat(4)), Ok(Answer::Old));
    assert_eq!(receiver, at(5));
}

#[test]
fn a_heartbeat_at_the_next_number_is_quiet() {
    let mut receiver = at(5);
    assert_eq!(receiver.take(&heartbeat(5)), Ok(Answer::Quiet));
    assert_eq!(receiver, at(5));
}

#[test]
fn what_is_ahead_asks() {
    let mut receiver = at(3);
    let wanted = Answer::Ask(Request { session: *NAME, first: 3, count: 2 });
    for ahead in [data(5, &[b"five"]), heartbeat(5), end(5)] {
        assert_eq!(receiver.take(&ahead), Ok(wanted.clone()));
        assert_eq!(receiver, at(3));
    }
}

#[test]
fn it_asks_for_no_more_than_its_limit() {
    let mut receiver = Receiver::start(NAME, 1, 65534).unwrap();
    let wanted = Answer::Ask(Request { session: *NAME, first: 1, count: 65534 });
    assert_eq!(receiver.take(&heartbeat(u64::MAX)), Ok(wanted));
}

#[test]
fn an_end_at_the_next_number_ends() {
    let mut receiver = at(5);
    assert_eq!(receiver.take(&end(5)), Ok(Answer::Ended));
    assert!(receiver.is_ended());
    assert_eq!(receiver.next(), 5);
}

#[test]
fn a_refused_datagram_leaves_the_receiver_as_it_was() {
    let mut receiver = at(5);
    let mut other = data(5, &[b"five"]);
    other[9] = b'2';
    assert_eq!(receiver.take(b"nineteen bytes only").unwrap_err().number(), 11);
    assert_eq!(receiver.take(&other).unwrap_err().number(), 17);
    assert_eq!(receiver.take(&end(4)).unwrap_err().number(), 20);
    assert_eq!(receiver, at(5));
}

#[test]
fn an_ended_receiver_takes_nothing_more() {
    let mut receiver = at(5);
    receiver.take(&end(5)).unwrap();
    let before = *receiver.as_bytes();
    for late in [data(5, &[b"five"]), heartbeat(5), end(5)] {
        assert_eq!(receiver.take(&late).unwrap_err().ground(), Ground::SessionEnded);
    }
    let other = mold::write_heartbeat(b"READROOM02", 5, &mut [0; 20]).unwrap().to_vec();
    assert_eq!(receiver.take(&other).unwrap_err().ground(), Ground::SessionDiffers);
    assert_eq!(*receiver.as_bytes(), before);
}

#[test]
fn a_receiver_that_is_started_at_the_number_reached_goes_on_there() {
    let mut receiver = at(1);
    receiver.take(&data(1, &[b"one"])).unwrap();
    let again = Receiver::start(&receiver.session().unwrap(), receiver.next(), receiver.limit());
    assert_eq!(again, Ok(receiver));
}
