//! The messages that a datagram delivers, of the datagram itself and of the slots.

use crate::call::pointed;
use crate::raw;
use std::fmt;
use std::iter::FusedIterator;
use std::slice::ChunksExact;

/// The messages that a datagram delivers, each with its number, some of them perhaps empty.
#[derive(Clone)]
pub struct Delivered<'a> {
    number: u64,
    slots: &'a [u8],
    datagram: &'a [u8],
    places: ChunksExact<'a, u64>,
}

/// How many messages there are at most in the slots.
const SLOTS: usize = raw::SLOTS_SIZE / raw::SLOT_SIZE;

/// Where a datagram's header says how many messages it has.
const COUNT_AT: usize = raw::MOLD_HEADER_SIZE - 2;

/// At least as many words as a datagram's places can need: for as many messages as its header says,
/// each with a block of two bytes or more, and for the slots'.
pub(super) fn room_for<'p>(places: &'p mut Vec<u64>, datagram: &[u8]) -> &'p mut [u64] {
    let count = datagram.get(COUNT_AT..raw::MOLD_HEADER_SIZE).unwrap_or(&[0, 0]);
    let said = usize::from(u16::from_be_bytes([count[0], count[1]]));
    let blocks = datagram.len().saturating_sub(raw::MOLD_HEADER_SIZE) / 2;
    let most = (said.min(blocks) + SLOTS) * raw::EARLY_PLACE_WORDS;
    let most = most.min(raw::EARLY_MOST_PLACES);
    if places.len() < most {
        places.resize(most, 0);
    }
    places
}

impl<'a> Delivered<'a> {
    /// The first one has this number.
    pub(super) fn new(number: u64, slots: &'a [u8], datagram: &'a [u8], laid: &'a [u64]) -> Self {
        let places = laid.chunks_exact(raw::EARLY_PLACE_WORDS);
        Delivered { number, slots, datagram, places }
    }
}

impl<'a> Iterator for Delivered<'a> {
    type Item = (u64, &'a [u8]);

    #[inline]
    fn next(&mut self) -> Option<(u64, &'a [u8])> {
        let place = self.places.next()?;
        let bytes = match place[raw::EARLY_PLACE_HELD] {
            0 => self.datagram,
            _ => self.slots,
        };
        let (offset, length) = (place[raw::EARLY_PLACE_OFFSET], place[raw::EARLY_PLACE_LENGTH]);
        let number = self.number;
        self.number += 1;
        Some((number, pointed(bytes, offset, length)))
    }

    #[inline]
    fn size_hint(&self) -> (usize, Option<usize>) {
        self.places.size_hint()
    }
}

impl ExactSizeIterator for Delivered<'_> {}
impl FusedIterator for Delivered<'_> {}

/// The same messages are left, with the same numbers.
impl PartialEq for Delivered<'_> {
    fn eq(&self, other: &Self) -> bool {
        self.clone().eq(other.clone())
    }
}

impl Eq for Delivered<'_> {}

impl fmt::Debug for Delivered<'_> {
    fn fmt(&self, f: &mut fmt::Formatter<'_>) -> fmt::Result {
        f.debug_list().entries(self.clone()).finish()
    }
}
