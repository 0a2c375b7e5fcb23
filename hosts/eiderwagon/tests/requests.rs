//! The pacing of requests.

use eiderwagon::mold::Request;
use eiderwagon::receiver::Requests;
use std::time::Duration;

fn ask(first: u64, count: u16) -> Request {
    Request { session: *b"READROOM01", first, count }
}

const fn at(milliseconds: u64) -> Duration {
    Duration::from_millis(milliseconds)
}

#[test]
fn the_first_ask_is_due() {
    assert!(Requests::new(at(20)).due(&ask(3, 1), at(0)));
    assert!(Requests::new(Duration::MAX).due(&ask(3, 1), at(0)));
}

#[test]
fn the_same_ask_is_due_again_when_the_pause_is_over() {
    let mut requests = Requests::new(at(20));
    let due: Vec<u64> = (0..70).filter(|&now| requests.due(&ask(3, 1), at(now))).collect();
    assert_eq!(due, [0, 20, 40, 60]);
}

/// Each datagram ahead asks for more, and the first request is on its way all the same.
#[test]
fn an_ask_for_more_from_the_same_number_is_the_same() {
    let mut requests = Requests::new(at(20));
    assert!(requests.due(&ask(3, 1), at(0)));
    assert!(!requests.due(&ask(3, 2), at(1)));
    assert!(!requests.due(&ask(3, 65534), at(19)));
    assert!(requests.due(&ask(3, 65534), at(20)));
}

#[test]
fn an_ask_from_another_number_is_due_at_once() {
    let mut requests = Requests::new(at(20));
    assert!(requests.due(&ask(3, 2), at(0)));
    assert!(requests.due(&ask(4, 1), at(1)));
    assert!(!requests.due(&ask(4, 1), at(20)));
    assert!(requests.due(&ask(4, 1), at(21)));
}

#[test]
fn an_ask_of_another_session_is_another() {
    let mut requests = Requests::new(at(20));
    assert!(requests.due(&ask(3, 1), at(0)));
    assert!(requests.due(&Request { session: *b"READROOM02", ..ask(3, 1) }, at(1)));
}

#[test]
fn an_ask_that_was_not_due_does_not_prolong_the_pause() {
    let mut requests = Requests::new(at(20));
    assert!(requests.due(&ask(3, 1), at(0)));
    assert!(!requests.due(&ask(3, 1), at(15)));
    assert!(requests.due(&ask(3, 1), at(25)));
}

#[test]
fn a_time_that_goes_back_is_no_time() {
    let mut requests = Requests::new(at(20));
    assert!(requests.due(&ask(3, 1), at(100)));
    assert!(!requests.due(&ask(3, 1), at(50)));
    assert!(!requests.due(&ask(3, 1), at(119)));
    assert!(requests.due(&ask(3, 1), at(120)));
}

#[test]
fn without_a_pause_every_ask_is_due() {
    let mut requests = Requests::new(Duration::ZERO);
    assert!((0..5).all(|now| requests.due(&ask(3, 1), at(now / 2))));
}
