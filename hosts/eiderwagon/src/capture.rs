//! Captures: a session followed through recorded datagrams, and the report of it.
//!
//! A capture is three lines of settings and then records, each a length of two bytes, the high one
//! first, and a datagram. The receiver that takes them keeps [early](crate::early) messages.
//!
//! ```
//! use eiderwagon::{capture, mold};
//!
//! let name = b"READROOM01";
//! let mut file = b"session=READROOM01\nnext=1\nlimit=100\n".to_vec();
//! let mut record = |datagram: &[u8]| {
//!     file.extend((datagram.len() as u16).to_be_bytes());
//!     file.extend(datagram);
//! };
//! let mut out = [0; 64];
//! record(mold::write_data(name, 1, &[b"one", b"two"], &mut out)?);
//! record(mold::write_data(name, 5, &[b"five"], &mut out)?);
//! record(mold::write_heartbeat(name, 6, &mut out)?);
//! record(mold::write_data(name, 2, &[b"two", b"three", b"four"], &mut out)?);
//! record(mold::write_data(name, 1, &[b"one", b"two"], &mut out)?);
//! record(mold::write_data(name, 5, &[b"five"], &mut out)?);
//! record(mold::write_heartbeat(name, 6, &mut out)?);
//! record(b"nineteen bytes only");
//! record(mold::write_end_of_session(name, 6, &mut out)?);
//!
//! assert_eq!(
//!     capture::report(&file),
//!     "session=READROOM01\n\
//!      next=6\n\
//!      ended=yes\n\
//!      delivered=5\n\
//!      old=2\n\
//!      quiet=1\n\
//!      asked=2\n\
//!      refused=1\n"
//! );
//! # Ok::<(), eiderwagon::Refusal>(())
//! ```

use crate::call::{check, field, number, small_number, sure, words, written};
use crate::early::{new_slots, Slots};
use crate::{raw, Refusal, Session};
use std::fmt;

/// The report of a whole capture: eight lines, or `settings=refused` alone.
pub fn report(capture: &[u8]) -> String {
    text(|out, words| raw::capture_report(capture, out, words))
}

/// A capture that is read in pieces. It has its own slots, 64 KiB of memory.
///
/// ```
/// use eiderwagon::capture::{self, Reading};
///
/// let file = b"session=READROOM01\nnext=1\nlimit=100\n\0\x05short";
/// let mut reading = Reading::start();
/// let mut kept = Vec::new();
/// for piece in file.chunks(7) {
///     kept.extend(piece);
///     let fed = reading.feed(&kept);
///     kept.drain(..fed.used);
///     if fed.over {
///         break;
///     }
/// }
/// reading.finish(&kept);
/// assert_eq!(reading.report(), capture::report(file));
/// assert_eq!((reading.next(), reading.counts().refused), (1, 1));
/// ```
#[derive(PartialEq, Eq)]
pub struct Reading {
    state: [u8; raw::CAPTURE_SIZE],
    slots: Slots,
}

/// What became of a piece.
#[derive(Clone, Copy, Debug, PartialEq, Eq)]
pub struct Fed {
    /// How many bytes were used. Keep the others, at most 65,536, and feed them again in front of
    /// the next piece.
    pub used: usize,
    /// Whether the reading is over, by bad settings or with 2^32 - 1 records, so that nothing that
    /// follows changes the report. While the settings are due, fewer than 57 bytes are too few to
    /// tell.
    pub over: bool,
}

/// How far a reading is.
#[derive(Clone, Copy, Debug, PartialEq, Eq)]
pub enum Stage {
    /// The settings come next.
    Settings,
    /// Records come next.
    Records,
    /// It is finished.
    Done,
    /// The settings were bad.
    SettingsRefused,
}

impl Stage {
    /// The stage that a byte means, in a state that is open or not.
    pub(crate) fn of(open: bool, byte: u8) -> Self {
        match (open, byte) {
            (true, raw::CAPTURE_RECORDS) => Stage::Records,
            (true, _) => Stage::Settings,
            (false, raw::CAPTURE_DONE) => Stage::Done,
            (false, _) => Stage::SettingsRefused,
        }
    }
}

/// What a reading has counted so far.
#[derive(Clone, Copy, Debug, Default, PartialEq, Eq)]
pub struct Counts {
    /// Records read, at most 2^32 - 1.
    pub records: u32,
    /// Messages delivered.
    pub delivered: u64,
    /// Answers old.
    pub old: u64,
    /// Answers quiet.
    pub quiet: u64,
    /// Requests drawn, those beside another answer too.
    pub asked: u64,
    /// Refusals.
    pub refused: u64,
}

impl Reading {
    /// Starts the reading of a capture.
    pub fn start() -> Self {
        let mut state = [0; raw::CAPTURE_SIZE];
        sure(check(raw::capture_start(&mut state)));
        Reading { state, slots: new_slots() }
    }

    /// Feeds some bytes, after which more may come.
    pub fn feed(&mut self, bytes: &[u8]) -> Fed {
        let Reading { state, slots } = self;
        let [used, over] = sure(words(|w| raw::capture_feed(state, &mut slots[..], bytes, w)));
        Fed { used: used as usize, over: over == 1 }
    }

    /// Feeds the last bytes: those that were kept, with what came behind them.
    pub fn finish(&mut self, bytes: &[u8]) {
        sure(check(raw::capture_finish(&mut self.state, &mut self.slots[..], bytes)));
    }

    /// The report of what was read so far, or `settings=refused` while no settings were read.
    pub fn report(&self) -> String {
        text(|out, words| raw::capture_write(&self.state, out, words))
    }

    /// Writes the report, and hands back the part of `out` that it takes; 256 bytes are enough.
    pub fn write<'o>(&self, out: &'o mut [u8]) -> Result<&'o [u8], Refusal> {
        written(out, |out, words| raw::capture_write(&self.state, out, words))
    }

    /// How far it is.
    pub fn stage(&self) -> Stage {
        let open = self.state[raw::CAPTURE_CODE_AT] == raw::CAPTURE_OPEN;
        Stage::of(open, self.state[raw::CAPTURE_STAGE_AT])
    }

    /// What it has counted so far.
    pub fn counts(&self) -> Counts {
        let records = number(&self.state, raw::CAPTURE_RECORDS_AT);
        Counts {
            records: u32::try_from(records).unwrap_or(u32::MAX),
            delivered: number(&self.state, raw::CAPTURE_DELIVERED_AT),
            old: number(&self.state, raw::CAPTURE_OLD_AT),
            quiet: number(&self.state, raw::CAPTURE_QUIET_AT),
            asked: number(&self.state, raw::CAPTURE_ASKED_AT),
            refused: number(&self.state, raw::CAPTURE_REFUSED_AT),
        }
    }

    /// The bytes of the slots, in which messages are held that came before their turn.
    pub fn slots(&self) -> &[u8; raw::SLOTS_SIZE] {
        &self.slots
    }

    /// The session that is followed; ten spaces while no settings were read.
    pub fn session(&self) -> Session {
        field(self.receiver(), raw::EARLY_SESSION_AT)
    }

    /// The number of the next message; 1 while no settings were read.
    pub fn next(&self) -> u64 {
        number(self.receiver(), raw::EARLY_NEXT_AT)
    }

    /// The most messages that are asked for at once; 1 while no settings were read.
    pub fn limit(&self) -> u16 {
        small_number(self.receiver(), raw::EARLY_LIMIT_AT)
    }

    /// Whether the session is over, or no settings were read.
    pub fn is_ended(&self) -> bool {
        self.receiver()[raw::EARLY_CODE_AT] != raw::EARLY_OPEN
    }

    /// How many messages are held for later, at most 64.
    pub fn held_count(&self) -> u32 {
        number(self.receiver(), raw::EARLY_HELD_AT).count_ones()
    }

    /// The bytes of the receiver that it has.
    fn receiver(&self) -> &[u8] {
        &self.state[raw::CAPTURE_RECEIVER_AT..][..raw::EARLY_SIZE]
    }

    /// The state's bytes, as `include/eiderwagon.h` lays them out.
    pub fn as_bytes(&self) -> &[u8; raw::CAPTURE_SIZE] {
        &self.state
    }
}

impl fmt::Debug for Reading {
    fn fmt(&self, f: &mut fmt::Formatter<'_>) -> fmt::Result {
        f.debug_struct("Reading")
            .field("stage", &self.stage())
            .field("session", &format_args!("\"{}\"", self.session().escape_ascii()))
            .field("next", &self.next())
            .field("held", &self.held_count())
            .field("counts", &self.counts())
            .finish()
    }
}

/// A report as text, which it is: the settings take no other name.
fn text(write: impl FnOnce(&mut [u8], &mut [u64]) -> u32) -> String {
    let mut out = [0; raw::LARGEST_REPORT];
    String::from_utf8_lossy(sure(written(&mut out, write))).into_owned()
}
