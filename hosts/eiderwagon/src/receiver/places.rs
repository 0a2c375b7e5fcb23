//! The places of the messages that one call delivers.

use crate::call::pointed;
use crate::raw;
use std::fmt;
use std::iter::FusedIterator;
use std::slice::ChunksExact;

/// Memory for the places of a datagram's messages, to be lent to
/// [`Receiver::take_all`](super::Receiver::take_all) again and again.
///
/// It grows with the largest datagram that it is lent for, up to 512 KiB: so no datagram is refused
/// for want of places.
#[derive(Clone, Debug, Default)]
pub struct Places {
    words: Vec<u64>,
}

impl Places {
    /// None yet: they are had as datagrams come.
    pub const fn new() -> Self {
        Places { words: Vec::new() }
    }

    /// At least as many words as a datagram's places can need. A message has a block of two bytes or
    /// more behind the header, and a place has two words: so a word for each byte is enough.
    pub(super) fn room_for(&mut self, datagram: &[u8]) -> &mut [u64] {
        let blocks = datagram.len().saturating_sub(raw::MOLD_HEADER_SIZE);
        let most = blocks.min(raw::MOST_PLACES);
        if self.words.len() < most {
            self.words.resize(most, 0);
        }
        &mut self.words
    }
}

/// The messages that a datagram delivers, found by their places, some of them perhaps empty.
#[derive(Clone)]
pub struct Delivered<'a, 'p> {
    datagram: &'a [u8],
    places: ChunksExact<'p, u64>,
}

impl<'a, 'p> Delivered<'a, 'p> {
    pub(super) fn new(datagram: &'a [u8], places: &'p [u64], count: u16) -> Self {
        let laid = &places[..usize::from(count) * raw::PLACE_WORDS];
        Delivered { datagram, places: laid.chunks_exact(raw::PLACE_WORDS) }
    }
}

impl<'a> Iterator for Delivered<'a, '_> {
    type Item = &'a [u8];

    #[inline]
    fn next(&mut self) -> Option<&'a [u8]> {
        let place = self.places.next()?;
        Some(pointed(self.datagram, place[raw::PLACE_OFFSET], place[raw::PLACE_LENGTH]))
    }

    #[inline]
    fn size_hint(&self) -> (usize, Option<usize>) {
        self.places.size_hint()
    }
}

impl ExactSizeIterator for Delivered<'_, '_> {}
impl FusedIterator for Delivered<'_, '_> {}

/// The same messages are left.
impl PartialEq for Delivered<'_, '_> {
    fn eq(&self, other: &Self) -> bool {
        self.clone().eq(other.clone())
    }
}

impl Eq for Delivered<'_, '_> {}

impl fmt::Debug for Delivered<'_, '_> {
    fn fmt(&self, f: &mut fmt::Formatter<'_>) -> fmt::Result {
        f.debug_list().entries(self.clone()).finish()
    }
}
