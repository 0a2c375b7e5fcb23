//! The library's side: the calls that a host makes.

pub mod sessions;

use super::glance;
use eiderwagon::raw;
use yardstick::captures::Capture;
use yardstick::host::{Delivered, Host};

pub fn takes(capture: &Capture) -> u64 {
    let (mut host, mut sum) = (Host::start(), 0);
    for datagram in capture.datagrams() {
        let (code, words) = host.take(datagram);
        sum += u64::from(code) + words[raw::TAKE_ANSWER];
    }
    sum
}

pub fn walks(capture: &Capture) -> u64 {
    let (mut host, mut sum) = (Host::start(), 0);
    for datagram in capture.datagrams() {
        let (code, words) = host.take(datagram);
        sum += u64::from(code) + words[raw::TAKE_ANSWER];
        if words[raw::TAKE_ANSWER] == raw::RECEIVER_DELIVER {
            for message in &mut Delivered::new(datagram, &words) {
                sum += glance(message);
            }
        }
    }
    sum
}

/// One call for each datagram, and then its messages by the places that it laid.
pub fn deliveries(capture: &Capture) -> u64 {
    let mut places = [0; 2 * super::PLACES];
    let (mut host, mut sum) = (Host::start(), 0);
    for datagram in capture.datagrams() {
        let (code, words) = host.deliver(datagram, &mut places);
        sum += u64::from(code) + words[raw::TAKE_ANSWER];
        if words[raw::TAKE_ANSWER] == raw::RECEIVER_DELIVER {
            let laid = &places[..2 * words[raw::TAKE_COUNT] as usize];
            for place in laid.chunks_exact(2) {
                let (offset, length) = (place[0] as usize, place[1] as usize);
                sum += glance(&datagram[offset..offset + length]);
            }
        }
    }
    sum
}
