//! A receiver that was started without a name: what names it, and what doesn't.

use eiderwagon::mold::{self, Request};
use eiderwagon::receiver::{Answer, Places, Receiver};
use eiderwagon::{raw, Ground};

const NAME: &[u8; 10] = b"READROOM01";
const OTHER: &[u8; 10] = b"READROOM02";
const BLANK: &[u8; 10] = b"          ";

/// A receiver without a name that expects message 5.
fn unnamed() -> Receiver {
    Receiver::start_unnamed(5, 100).unwrap()
}

fn data(name: &[u8; 10], first: u64, messages: &[&[u8]]) -> Vec<u8> {
    mold::write_data(name, first, messages, &mut [0; 100]).unwrap().to_vec()
}

fn heartbeat(name: &[u8; 10], next: u64) -> Vec<u8> {
    mold::write_heartbeat(name, next, &mut [0; 20]).unwrap().to_vec()
}

fn end(name: &[u8; 10], next: u64) -> Vec<u8> {
    mold::write_end_of_session(name, next, &mut [0; 20]).unwrap().to_vec()
}

/// What names it leaves it as a receiver that was started on that name, with either call.
fn assert_named_by(datagram: &[u8]) {
    let mut by_name = Receiver::start(NAME, 5, 100).unwrap();
    let answer = by_name.take(datagram).unwrap();
    let mut receiver = unnamed();
    assert_eq!(receiver.take(datagram).unwrap(), answer);
    assert_eq!(receiver.session(), Some(*NAME));
    assert_eq!(receiver, by_name);
    let mut at_once = unnamed();
    at_once.take_all(datagram, &mut Places::new()).unwrap();
    assert_eq!(at_once, by_name);
}

/// What is refused leaves it without a name, with either call.
fn assert_refused(datagram: &[u8], number: u32) {
    let mut receiver = unnamed();
    assert_eq!(receiver.take(datagram).unwrap_err().number(), number);
    let refusal = receiver.take_all(datagram, &mut Places::new()).unwrap_err();
    assert_eq!(refusal.number(), number);
    assert_eq!((receiver.session(), receiver), (None, unnamed()));
}

#[test]
fn a_start_without_a_name_is_one_on_ten_spaces() {
    let receiver = unnamed();
    assert_eq!(receiver.session(), None);
    assert_eq!((receiver.next(), receiver.limit(), receiver.is_ended()), (5, 100, false));
    assert_eq!(Receiver::start(BLANK, 5, 100), Ok(receiver));
    for (next, limit) in [(0, 1), (1, 0), (1, 65535)] {
        let refusal = Receiver::start_unnamed(next, limit).unwrap_err();
        assert_eq!(refusal.ground(), Ground::BadSetting);
    }
}

#[test]
fn data_names() {
    assert_named_by(&data(NAME, 5, &[b"five", b""]));
    assert_named_by(&data(NAME, 4, &[b"four", b"five"]));
}

#[test]
fn what_is_old_names() {
    assert_named_by(&data(NAME, 3, &[b"three", b"four"]));
    assert_named_by(&heartbeat(NAME, 4));
}

#[test]
fn a_heartbeat_at_its_number_names() {
    assert_named_by(&heartbeat(NAME, 5));
}

/// The request has the name that it was learned with.
#[test]
fn what_is_ahead_names() {
    for ahead in [data(NAME, 7, &[b"seven"]), heartbeat(NAME, 7), end(NAME, 7)] {
        assert_named_by(&ahead);
        let request = Request { session: *NAME, first: 5, count: 2 };
        assert_eq!(unnamed().take(&ahead), Ok(Answer::Ask(request)));
        assert_eq!(unnamed().take_all(&ahead, &mut Places::new()), Ok(Answer::Ask(request)));
    }
}

#[test]
fn an_end_names() {
    assert_named_by(&end(NAME, 5));
    let mut receiver = unnamed();
    assert_eq!(receiver.take(&end(NAME, 5)), Ok(Answer::Ended));
    assert_eq!(receiver.take(&heartbeat(NAME, 5)).unwrap_err().ground(), Ground::SessionEnded);
    assert_eq!(receiver.take(&heartbeat(OTHER, 5)).unwrap_err().ground(), Ground::SessionDiffers);
}

#[test]
fn a_broken_datagram_names_nobody() {
    assert_refused(b"nineteen bytes only", 11);
    assert_refused(&data(NAME, 5, &[b"five"])[..25], 15);
    assert_refused(&[&heartbeat(NAME, 5)[..], b"?"].concat(), 16);
}

/// Nine spaces and a digit are a name.
#[test]
fn a_blank_name_is_none() {
    for blank in [data(BLANK, 5, &[b"five"]), heartbeat(BLANK, 5), end(BLANK, 5), end(BLANK, 4)] {
        assert_refused(&blank, 17);
    }
    let mut receiver = unnamed();
    receiver.take(&heartbeat(b"         1", 5)).unwrap();
    assert_eq!(receiver.session(), Some(*b"         1"));
}

#[test]
fn an_end_below_its_number_names_nobody() {
    assert_refused(&end(NAME, 4), 20);
}

#[test]
fn a_name_is_learned_once() {
    let mut receiver = unnamed();
    receiver.take(&heartbeat(NAME, 5)).unwrap();
    for other in [OTHER, BLANK] {
        for datagram in [data(other, 5, &[b"five"]), heartbeat(other, 5), end(other, 5)] {
            let refusal = receiver.take(&datagram).unwrap_err();
            assert_eq!(refusal.ground(), Ground::SessionDiffers);
        }
    }
    assert_eq!(receiver.session(), Some(*NAME));
    assert_eq!(receiver.take(&end(NAME, 5)), Ok(Answer::Ended));
}

/// What a refused start gives is blank and ended. The types have none, but a reading's receiver is one until its
/// settings are read.
#[test]
fn a_refused_start_is_blank_and_ended() {
    let mut reading = [0; raw::CAPTURE_SIZE];
    assert_eq!(raw::capture_start(&mut reading), raw::OK);
    let receiver = &mut reading[raw::CAPTURE_RECEIVER_AT..][..raw::RECEIVER_SIZE];
    for (name, refusal) in
        [(BLANK, raw::REFUSED_SESSION_DIFFERS), (NAME, raw::REFUSED_SESSION_ENDED)]
    {
        for datagram in [data(name, 1, &[b"one"]), heartbeat(name, 1), end(name, 1)] {
            let code = raw::receiver_take(receiver, &datagram, &mut [0; raw::TAKE_WORDS]);
            assert_eq!(raw::number(code), refusal);
        }
    }
    assert_eq!(receiver[raw::RECEIVER_SESSION_AT..][..raw::SESSION_SIZE], *BLANK);
}
