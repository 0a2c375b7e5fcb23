//! What a followed run was: its gaps, its refusals and its shape, in memory that doesn't grow.

use crate::columns::Columns;
use std::collections::BTreeMap;
use std::fmt;

/// A record, as a person finds it again.
#[derive(Clone, Copy, Debug, PartialEq)]
pub struct Mark {
    /// Its place in the capture, from 1.
    pub record: u64,
    /// Where it came from, of a pcap.
    pub frame: Option<Frame>,
}

/// A frame of a pcap.
#[derive(Clone, Copy, Debug, PartialEq)]
pub struct Frame {
    /// Its place in the file, from 1, as tcpdump and Wireshark number it.
    pub number: u64,
    /// When it was captured, in seconds since 1970.
    pub seconds: f64,
}

/// Numbers that the receiver was without while a later one was known.
#[derive(Clone, Copy, Debug, PartialEq)]
pub struct Gap {
    pub from: u64,
    pub to: u64,
    /// The record that showed it.
    pub opened: Mark,
    /// How many requests asked for numbers of it.
    pub asked: u64,
    /// The record after which none of its numbers was missing; none while it is open.
    pub closed: Option<Mark>,
    /// Whether it closed because the session ended below it, and not because its numbers came.
    pub by_end: bool,
}

/// The refusals of one number.
#[derive(Clone, Copy, Debug, PartialEq)]
pub struct Refused {
    pub times: u64,
    pub first: Mark,
}

/// A run, followed to its end.
#[derive(Debug)]
pub struct Run {
    /// The session's name, as text.
    pub session: String,
    /// The first number expected.
    pub start: u64,
    /// The next number expected at the end.
    pub next: u64,
    /// The highest next number that a datagram told.
    pub told: u64,
    pub records: u64,
    pub delivered: u64,
    pub asked: u64,
    pub refused: u64,
    /// The record that ended the session.
    pub ended: Option<Mark>,
    /// The gaps, as they opened; so many as are listed.
    pub gaps: Vec<Gap>,
    /// How many more there were than are listed.
    pub more_gaps: u64,
    /// How many stayed open, of all.
    pub open_gaps: u64,
    /// By number of the refusal; a record that is cut short has none, and stands at 0.
    pub refusals: BTreeMap<u32, Refused>,
    /// Its shape, for the picture.
    pub columns: Columns,
}

impl fmt::Display for Mark {
    fn fmt(&self, f: &mut fmt::Formatter<'_>) -> fmt::Result {
        write!(f, "record {}", self.record)?;
        match self.frame {
            Some(frame) => write!(f, " (frame {})", frame.number),
            None => Ok(()),
        }
    }
}

impl Gap {
    /// How many seconds it was open, where the frames tell. A clock that was set back doesn't.
    fn seconds(&self) -> Option<f64> {
        let seconds = self.closed?.frame?.seconds - self.opened.frame?.seconds;
        (seconds >= 0.0).then_some(seconds)
    }
}

impl fmt::Display for Gap {
    fn fmt(&self, f: &mut fmt::Formatter<'_>) -> fmt::Result {
        write!(f, "{}", self.from)?;
        if self.from < self.to {
            write!(f, " to {}", self.to)?;
        }
        write!(f, ": opened at {}", self.opened)?;
        match self.asked {
            0 => write!(f, ", never asked for")?,
            1 => write!(f, ", asked for once")?,
            times => write!(f, ", asked for {times} times")?,
        }
        match self.closed {
            Some(end) if self.by_end => write!(f, ", closed by the session's end at {end}")?,
            Some(closed) => write!(f, ", closed at {closed}")?,
            None => write!(f, ", still open")?,
        }
        match self.seconds() {
            Some(seconds) => write!(f, " after {seconds:.6} s"),
            None => Ok(()),
        }
    }
}
