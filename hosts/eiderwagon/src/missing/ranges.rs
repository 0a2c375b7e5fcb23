//! The missing ranges, one after another.

use super::Missing;
use std::iter::FusedIterator;
use std::ops::{Range, RangeInclusive};

/// The missing ranges of a capture, rising, from either end. Both numbers of a range are missing
/// themselves, and no range touches the next.
#[derive(Clone)]
pub struct Ranges<'m> {
    missing: &'m Missing,
    places: Range<u64>,
}

impl<'m> Ranges<'m> {
    pub(super) fn new(missing: &'m Missing) -> Self {
        let many = missing.summary().unwrap_or_default().ranges;
        Ranges { missing, places: 0..many }
    }

    fn at(&self, place: u64) -> RangeInclusive<u64> {
        self.missing.range(place).expect("so many ranges are there")
    }
}

impl Iterator for Ranges<'_> {
    type Item = RangeInclusive<u64>;

    fn next(&mut self) -> Option<RangeInclusive<u64>> {
        let place = self.places.next()?;
        Some(self.at(place))
    }

    fn size_hint(&self) -> (usize, Option<usize>) {
        self.places.size_hint()
    }
}

impl DoubleEndedIterator for Ranges<'_> {
    fn next_back(&mut self) -> Option<RangeInclusive<u64>> {
        let place = self.places.next_back()?;
        Some(self.at(place))
    }
}

impl ExactSizeIterator for Ranges<'_> {}

impl FusedIterator for Ranges<'_> {}
