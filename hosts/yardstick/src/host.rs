//! The library's receiver as a host calls it, through the wrapper's raw functions.

pub mod sessions;

use crate::mold::{Session, BLANK};
use crate::{LIMIT, NEXT, SESSION};
use eiderwagon::raw;

pub type TakeWords = [u64; raw::TAKE_WORDS];

#[derive(Clone, Copy, Debug, PartialEq, Eq)]
pub struct Host {
    state: [u8; raw::RECEIVER_SIZE],
}

impl Host {
    pub fn start() -> Host {
        Host::start_on(SESSION, NEXT)
    }

    pub fn start_on(session: &Session, next: u64) -> Host {
        let mut state = [0; raw::RECEIVER_SIZE];
        let code = raw::receiver_start(session, next, LIMIT, &mut state);
        assert_eq!(code, raw::OK, "the start is refused");
        Host { state }
    }

    /// The code, and the words, which a refusal leaves at 0.
    #[inline]
    pub fn take(&mut self, datagram: &[u8]) -> (u32, TakeWords) {
        let mut words = [0; raw::TAKE_WORDS];
        let code = raw::receiver_take(&mut self.state, datagram, &mut words);
        (code, words)
    }

    /// As `take`, and two words for each delivered message: its offset and its length.
    #[inline]
    pub fn deliver(&mut self, datagram: &[u8], places: &mut [u64]) -> (u32, TakeWords) {
        let mut words = [0; raw::TAKE_WORDS];
        let code = raw::receiver_deliver(&mut self.state, datagram, &mut words, places);
        (code, words)
    }

    /// None until it is learned.
    pub fn session(&self) -> Option<&Session> {
        let (_, bytes) = self.state.split_at(raw::RECEIVER_SESSION_AT);
        bytes.first_chunk().filter(|&name| name != BLANK)
    }

    pub fn next(&self) -> u64 {
        let (_, bytes) = self.state.split_at(raw::RECEIVER_NEXT_AT);
        u64::from_le_bytes(*bytes.first_chunk().expect("eight bytes"))
    }

    pub fn is_ended(&self) -> bool {
        self.state[raw::RECEIVER_CODE_AT] != raw::RECEIVER_OPEN
    }
}

/// The messages that a deliver answer delivers, by a call of next for each.
pub struct Delivered<'a> {
    datagram: &'a [u8],
    cursor: [u8; raw::CURSOR_SIZE],
}

impl<'a> Delivered<'a> {
    #[inline]
    pub fn new(datagram: &'a [u8], words: &TakeWords) -> Self {
        let [_, _, count, skipped] = words.map(|word| word as u16);
        let mut delivered = Delivered {
            datagram,
            cursor: [0; raw::CURSOR_SIZE],
        };
        raw::receiver_walk(datagram, count, skipped, &mut delivered.cursor);
        delivered
    }
}

impl<'a> Iterator for Delivered<'a> {
    type Item = &'a [u8];

    #[inline]
    fn next(&mut self) -> Option<&'a [u8]> {
        let mut words = [0; raw::NEXT_WORDS];
        raw::mold_next(&mut self.cursor, self.datagram, &mut words);
        let [found, offset, length] = words.map(|word| word as usize);
        (found == 1).then(|| &self.datagram[offset..offset + length])
    }
}
