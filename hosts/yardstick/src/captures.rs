//! Captures, generated from a seed: what the library and the yardstick are both fed.

mod feed;

use crate::mold::{BLANK, HEADER};
use crate::LATER;
use feed::Feed;
use std::ops::Range;

/// Datagrams one behind the other, as a socket's ring has them.
#[derive(Default)]
pub struct Capture {
    bytes: Vec<u8>,
    places: Vec<Range<usize>>,
}

impl Capture {
    pub fn len(&self) -> usize {
        self.places.len()
    }

    pub fn is_empty(&self) -> bool {
        self.places.is_empty()
    }

    /// The datagrams' bytes, all together.
    pub fn size(&self) -> usize {
        self.bytes.len()
    }

    #[inline]
    pub fn datagrams(&self) -> impl Iterator<Item = &[u8]> {
        self.places.iter().map(|place| &self.bytes[place.clone()])
    }

    fn push(&mut self, datagram: &[u8]) {
        let from = self.bytes.len();
        self.bytes.extend_from_slice(datagram);
        self.places.push(from..self.bytes.len());
    }

    fn push_all(&mut self, datagrams: &[Vec<u8>]) {
        datagrams.iter().for_each(|datagram| self.push(datagram));
    }
}

/// Data in order, nothing missing.
pub fn in_order(seed: u64, datagrams: usize) -> Capture {
    let (mut feed, mut capture) = (Feed::new(seed), Capture::default());
    for _ in 0..datagrams {
        capture.push(&feed.data());
    }
    capture
}

/// As `in_order`, until so many bytes are there.
pub fn in_order_of_size(seed: u64, bytes: usize) -> Capture {
    let (mut feed, mut capture) = (Feed::new(seed), Capture::default());
    while capture.size() < bytes {
        capture.push(&feed.data());
    }
    capture
}

/// Data of which one group in five is lost, swapped or doubled, or repeats messages in other datagrams. A datagram ahead isn't
/// kept, so what came early comes again.
pub fn troubled(seed: u64, datagrams: usize) -> Capture {
    let (mut feed, mut capture) = (Feed::new(seed), Capture::default());
    while capture.len() < datagrams {
        let mut four: Vec<_> = (0..4).map(|_| feed.data()).collect();
        match feed.random.below(20) {
            0 => capture.push_all(&four[1..]),
            1 => capture.push(&four[1]),
            2 => four = four.iter().flat_map(|d| [d.clone(), d.clone()]).collect(),
            3 => four.push(feed.overlapping()),
            _ => {}
        }
        capture.push_all(&four);
    }
    capture
}

/// The same heartbeat again and again: nothing is missing.
pub fn heartbeats(datagrams: usize) -> Capture {
    let mut capture = Capture::default();
    for _ in 0..datagrams {
        capture.push(&feed::heartbeat(crate::NEXT));
    }
    capture
}

/// Every answer, and every refusal that a datagram can draw: anything that a line may bring while the session runs, its end, and
/// anything after it.
pub fn everything(seed: u64, datagrams: usize) -> Capture {
    let (mut feed, mut capture) = (Feed::new(seed), Capture::default());
    let after_the_end = datagrams / 8;
    capture.push(&feed.data());
    for _ in after_the_end + 2..datagrams {
        capture.push(&feed.anything());
    }
    capture.push(&feed.end());
    for _ in 0..after_the_end {
        capture.push(&feed.anything());
    }
    capture
}

/// A few datagrams for a receiver at `LATER` that has no name yet: anything that a line may bring, or the end, each time
/// perhaps with a blank name.
pub fn for_unnamed(seed: u64) -> Capture {
    let (mut feed, mut capture) = (Feed::at(seed, LATER), Capture::default());
    for _ in 0..6 {
        let mut datagram = match feed.random.below(6) {
            0 => feed.end(),
            _ => feed.anything(),
        };
        if feed.random.one_in(3) && datagram.len() >= HEADER {
            datagram[..BLANK.len()].copy_from_slice(BLANK);
        }
        capture.push(&datagram);
    }
    capture
}
