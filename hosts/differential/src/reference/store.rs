//! Document 02, order 1: a branch store answers re-requests.

use super::mold::{self, HEADER};
use super::{Name, Refusal};

/// The bounds of a packet's size, which counts the header.
pub const LEAST_SIZE: u64 = 22;
pub const LARGEST_SIZE: u64 = 65_507;

/// What is lent: a session, joined message data, their lengths, the first one's number.
#[derive(Clone, Copy, Debug)]
pub struct Store<'a> {
    pub session: Name,
    pub first: u64,
    pub lengths: &'a [u16],
    pub data: &'a [u8],
}

pub fn is_size(size: u64) -> bool {
    (LEAST_SIZE..=LARGEST_SIZE).contains(&size)
}

/// How many bytes messages take in a packet, their own length bytes included.
pub fn blocks(lengths: &[u16]) -> u64 {
    lengths.iter().map(|&length| 2 + u64::from(length)).sum()
}

/// How many of these messages, from the first on, a packet of a size holds whole.
pub fn most_that_fit(lengths: &[u16], size: u64) -> usize {
    let mut full = HEADER as u64;
    let fits = lengths.iter().take_while(|&&length| {
        full += 2 + u64::from(length);
        full <= size
    });
    fits.count()
}

impl<'a> Store<'a> {
    /// The first number is at least 1, and the one behind the last at most 2^64 - 1.
    pub fn numbers_are_good(&self) -> bool {
        let behind = self.first.checked_add(self.lengths.len() as u64);
        self.first > 0 && behind.is_some()
    }

    pub fn adds_up(&self) -> bool {
        let sum: usize = { self.lengths.iter() }
            .map(|&length| usize::from(length))
            .sum();
        sum == self.data.len()
    }

    /// The place of a number, if the store has it.
    pub fn place(&self, number: u64) -> Option<usize> {
        let place = number.checked_sub(self.first)?;
        (place < self.lengths.len() as u64).then_some(place as usize)
    }

    /// The lengths of the messages that an answer holds: from a place on, up to a count, as many as fit.
    pub fn chosen(&self, place: usize, count: u16, size: u64) -> &'a [u16] {
        let there = &self.lengths[place..];
        let wanted = &there[..there.len().min(usize::from(count))];
        &wanted[..most_that_fit(wanted, size)]
    }

    /// The one packet that answers a request.
    pub fn answer(&self, size: u64, request: &[u8]) -> Result<Vec<u8>, Refusal> {
        if !is_size(size) || !self.numbers_are_good() {
            return Err(19);
        }
        if !self.adds_up() {
            return Err(44);
        }
        let request = mold::read_request(request)?;
        if request.session != self.session {
            return Err(53);
        }
        let place = self.place(request.first).ok_or(51u32)?;
        let chosen = self.chosen(place, request.count, size);
        if chosen.is_empty() {
            return Err(52);
        }
        let before: usize = { self.lengths[..place].iter() }
            .map(|&length| usize::from(length))
            .sum();
        let held: usize = chosen.iter().map(|&length| usize::from(length)).sum();
        let data = &self.data[before..before + held];
        mold::write_data(&self.session, request.first, chosen, data)
    }
}
