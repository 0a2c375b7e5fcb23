//! What is missing from a capture: the numbers that no datagram of its session carries.
//!
//! Settings and records are those of a [capture](crate::capture). Missing is every number from
//! `next=` of the settings to just below the highest next number, but for those that a datagram
//! carries, however early or late it came, after the end of the session too.
//!
//! ```
//! use eiderwagon::missing::Missing;
//! use eiderwagon::mold;
//!
//! let name = b"READROOM01";
//! let mut file = b"session=READROOM01\nnext=1\nlimit=100\n".to_vec();
//! let mut record = |datagram: &[u8]| {
//!     file.extend((datagram.len() as u16).to_be_bytes());
//!     file.extend(datagram);
//! };
//! let mut out = [0; 64];
//! record(mold::write_data(name, 1, &[b"one", b"two"], &mut out)?);
//! record(mold::write_data(name, 5, &[b"five"], &mut out)?);
//! record(mold::write_end_of_session(name, 8, &mut out)?);
//!
//! let mut missing = Missing::start();
//! let mut kept = Vec::new();
//! for piece in file.chunks(7) {
//!     kept.extend(piece);
//!     kept.drain(..missing.feed(&kept).used);
//! }
//! missing.finish(&kept);
//! assert!(missing.ranges().eq([3..=4, 6..=7]));
//! assert_eq!(missing.summary().map(|summary| summary.numbers), Some(4));
//! assert_eq!(
//!     missing.text(),
//!     "session=READROOM01\nfrom=3\nto=4\nfrom=6\nto=7\nmissing=4\n"
//! );
//! # Ok::<(), eiderwagon::Refusal>(())
//! ```

mod ranges;

pub use ranges::Ranges;

use crate::call::{check, field, number, sure, words, written};
use crate::capture::{Fed, Stage};
use crate::{raw, Refusal, Session};
use std::fmt;
use std::ops::RangeInclusive;

/// A capture that is read for what is missing. It has its own edges, 64 KiB of memory.
#[derive(PartialEq, Eq)]
pub struct Missing {
    state: [u8; raw::MISSING_SIZE],
    edges: Box<[u64; raw::MISSING_EDGES]>,
}

/// How much is missing.
#[derive(Clone, Copy, Debug, Default, PartialEq, Eq)]
pub struct Summary {
    /// The missing ranges, at most 4,096.
    pub ranges: u64,
    /// The numbers that they have.
    pub numbers: u64,
}

impl Missing {
    /// Starts the reading of a capture.
    pub fn start() -> Self {
        let mut state = [0; raw::MISSING_SIZE];
        sure(check(raw::missing_start(&mut state)));
        // They may be any words at first.
        let edges = vec![0; raw::MISSING_EDGES].into_boxed_slice();
        Missing { state, edges: edges.try_into().expect("so many words") }
    }

    /// Feeds some bytes, after which more may come. Which are used, and when it is over, is as at
    /// [`Reading::feed`](crate::capture::Reading::feed).
    pub fn feed(&mut self, bytes: &[u8]) -> Fed {
        let Missing { state, edges } = self;
        let [used, over] = sure(words(|w| raw::missing_feed(state, &mut edges[..], bytes, w)));
        Fed { used: used as usize, over: over == 1 }
    }

    /// Feeds the last bytes: those that were kept, with what came behind them. A record that is cut
    /// short says nothing.
    pub fn finish(&mut self, bytes: &[u8]) {
        sure(check(raw::missing_finish(&mut self.state, &mut self.edges[..], bytes)));
    }

    /// How much is missing so far; none where no settings were read, and where the ranges are
    /// [refused](Self::is_refused).
    pub fn summary(&self) -> Option<Summary> {
        let count: [u64; raw::MISSING_COUNT_WORDS] =
            sure(words(|w| raw::missing_count(&self.state, &self.edges[..], w)));
        (count[raw::MISSING_COUNT_LISTED] == 1).then_some(Summary {
            ranges: count[raw::MISSING_COUNT_RANGES],
            numbers: count[raw::MISSING_COUNT_NUMBERS],
        })
    }

    /// The missing ranges so far, rising; none where there is no [`summary`](Self::summary).
    pub fn ranges(&self) -> Ranges<'_> {
        Ranges::new(self)
    }

    /// The missing range at a place, from 0.
    pub fn range(&self, place: u64) -> Option<RangeInclusive<u64>> {
        let range: [u64; raw::MISSING_RANGE_WORDS] =
            sure(words(|w| raw::missing_range(&self.state, &self.edges[..], place, w)));
        let there = range[raw::MISSING_RANGE_FOUND] == 1;
        there.then(|| range[raw::MISSING_RANGE_FROM]..=range[raw::MISSING_RANGE_TO])
    }

    /// What is missing so far as text: a line for the session, two for each range and one for how
    /// many numbers are missing; or `settings=refused` or `ranges=refused` alone.
    pub fn text(&self) -> String {
        let mut out = vec![0; raw::MISSING_TEXT];
        String::from_utf8_lossy(sure(self.write(&mut out))).into_owned()
    }

    /// Writes the text, and hands back the part of `out` that it takes. Whatever the text,
    /// [`raw::MISSING_TEXT`] bytes are needed.
    pub fn write<'o>(&self, out: &'o mut [u8]) -> Result<&'o [u8], Refusal> {
        written(out, |out, words| raw::missing_write(&self.state, &self.edges[..], out, words))
    }

    /// How far it is.
    pub fn stage(&self) -> Stage {
        let open = self.state[raw::MISSING_CODE_AT] == raw::MISSING_OPEN;
        Stage::of(open, self.state[raw::MISSING_STAGE_AT])
    }

    /// Whether a record needed more than 4,096 ranges, so that none are listed. While no settings
    /// were read it says so too.
    pub fn is_refused(&self) -> bool {
        self.state[raw::MISSING_REFUSED_AT] != 0
    }

    /// The session; ten spaces while no settings were read.
    pub fn session(&self) -> Session {
        field(&self.state, raw::MISSING_SESSION_AT)
    }

    /// The highest next number so far; 0 while no settings were read.
    pub fn highest(&self) -> u64 {
        number(&self.state, raw::MISSING_HIGHEST_AT)
    }

    /// The state's bytes, as `include/eiderwagon.h` lays them out.
    pub fn as_bytes(&self) -> &[u8; raw::MISSING_SIZE] {
        &self.state
    }

    /// The words of the edges.
    pub fn edges(&self) -> &[u64; raw::MISSING_EDGES] {
        &self.edges
    }
}

impl fmt::Debug for Missing {
    fn fmt(&self, f: &mut fmt::Formatter<'_>) -> fmt::Result {
        f.debug_struct("Missing")
            .field("stage", &self.stage())
            .field("session", &format_args!("\"{}\"", self.session().escape_ascii()))
            .field("highest", &self.highest())
            .field("summary", &self.summary())
            .finish()
    }
}
