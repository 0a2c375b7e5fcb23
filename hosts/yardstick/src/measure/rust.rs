//! The yardstick's side: the same with the receiver and the walk in ordinary Rust.

pub mod sessions;

use super::glance;
use yardstick::captures::Capture;
use yardstick::mold::{Messages, Place, Refusal};
use yardstick::receiver::{Answer, Receiver};
use yardstick::{LIMIT, NEXT, SESSION};

fn started() -> Receiver {
    Receiver::start(*SESSION, NEXT, LIMIT).expect("the start is good")
}

/// The library's number of an answer, or the refusal's.
#[inline(always)]
fn number(answer: &Result<Answer, Refusal>) -> u64 {
    match answer {
        Ok(Answer::Deliver { .. }) => 1,
        Ok(Answer::Old) => 2,
        Ok(Answer::Quiet) => 3,
        Ok(Answer::Ask { .. }) => 4,
        Ok(Answer::Ended) => 5,
        Err(refusal) => *refusal as u64,
    }
}

/// A call for each datagram, as the library's take is.
#[inline(never)]
fn called_take(receiver: &mut Receiver, datagram: &[u8]) -> Result<Answer, Refusal> {
    receiver.take(datagram)
}

pub fn takes(capture: &Capture) -> u64 {
    let (mut receiver, mut sum) = (started(), 0);
    for datagram in capture.datagrams() {
        sum += number(&called_take(&mut receiver, datagram));
    }
    sum
}

pub fn walks(capture: &Capture) -> u64 {
    walks_with(capture, |messages| messages.next())
}

pub fn walks_by_calls(capture: &Capture) -> u64 {
    walks_with(capture, called_next)
}

/// A call for each message, as the library's next is.
#[inline(never)]
fn called_next<'a>(messages: &mut Messages<'a>) -> Option<&'a [u8]> {
    messages.next()
}

#[inline(always)]
fn walks_with(
    capture: &Capture,
    next: impl for<'a> Fn(&mut Messages<'a>) -> Option<&'a [u8]>,
) -> u64 {
    let (mut receiver, mut sum) = (started(), 0);
    for datagram in capture.datagrams() {
        let answer = called_take(&mut receiver, datagram);
        sum += number(&answer);
        if let Ok(Answer::Deliver { count, skipped, .. }) = answer {
            let mut messages = Messages::new(datagram, count, skipped);
            while let Some(message) = next(&mut messages) {
                sum += glance(message);
            }
        }
    }
    sum
}

/// One call for each datagram, and then its messages by the places that it laid.
pub fn deliveries(capture: &Capture) -> u64 {
    let mut places = [Place::default(); super::PLACES];
    let (mut receiver, mut sum) = (started(), 0);
    for datagram in capture.datagrams() {
        let answer = called_deliver(&mut receiver, datagram, &mut places);
        sum += number(&answer);
        if let Ok(Answer::Deliver { count, .. }) = answer {
            for place in &places[..count.into()] {
                sum += glance(&datagram[place.offset..place.offset + place.length]);
            }
        }
    }
    sum
}

/// A call for each datagram, as the library's deliver is.
#[inline(never)]
fn called_deliver(
    receiver: &mut Receiver,
    datagram: &[u8],
    places: &mut [Place],
) -> Result<Answer, Refusal> {
    receiver.deliver(datagram, places)
}
