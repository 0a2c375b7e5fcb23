//! A capture handed to the library in pieces, with a look at the records that it used.

use crate::choice::{read_settings, Settings};
use crate::failure::Outcome;
use crate::run::Frame;
use crate::source::{Import, Source};
use eiderwagon::capture::{Fed, Reading};
use eiderwagon::missing::Missing;
use std::collections::VecDeque;

/// The most bytes that settings take.
const SETTINGS: usize = 57;
/// A record's length stands before it, in so many bytes.
const LENGTH: usize = 2;

/// A reading of the library's that takes pieces.
pub trait Takes {
    fn feed(&mut self, bytes: &[u8]) -> Fed;
    fn finish(&mut self, bytes: &[u8]);
}

impl Takes for Reading {
    fn feed(&mut self, bytes: &[u8]) -> Fed {
        Reading::feed(self, bytes)
    }

    fn finish(&mut self, bytes: &[u8]) {
        Reading::finish(self, bytes)
    }
}

impl Takes for Missing {
    fn feed(&mut self, bytes: &[u8]) -> Fed {
        Missing::feed(self, bytes)
    }

    fn finish(&mut self, bytes: &[u8]) {
        Missing::finish(self, bytes)
    }
}

/// A capture, of which the first piece was read.
pub struct Pieces {
    source: Source,
    kept: Vec<u8>,
    is_more: bool,
    /// The settings; none where they are refused.
    pub settings: Option<Settings>,
    /// The first bytes, to say what is wrong with them.
    pub head: Vec<u8>,
    /// Whether it has as many records as are read, so that what follows isn't.
    pub is_full: bool,
}

/// A record that the file's end cuts short.
#[derive(Clone, Copy, Debug, PartialEq)]
pub struct CutRecord {
    /// Where it begins in the capture, in bytes from 0.
    pub at: u64,
    /// How many bytes of its datagram are there.
    pub has: usize,
    /// How many there should be; none where its length is cut, too.
    pub wants: Option<usize>,
}

impl Pieces {
    pub fn open(mut source: Source) -> Outcome<Self> {
        let mut kept = Vec::new();
        let is_more = source.fill(&mut kept)?;
        let settings = read_settings(&kept[..kept.len().min(SETTINGS)]);
        let head = kept[..kept.len().min(2 * SETTINGS)].to_vec();
        Ok(Pieces { source, kept, is_more, settings, head, is_full: false })
    }

    /// What was seen in a pcap.
    pub fn import(&self) -> Option<&Import> {
        match &self.source {
            Source::Capture(..) => None,
            Source::Pcap(import) => Some(import),
        }
    }

    /// Hands everything to a reading, and shows each run of whole records that it used, with the
    /// frames that they came from.
    pub fn read<R: Takes>(
        &mut self,
        reading: &mut R,
        mut look: impl FnMut(&R, Records, Option<&mut VecDeque<Frame>>),
    ) -> Outcome<Option<CutRecord>> {
        let mut before_records = self.settings.map_or(0, |settings| settings.size);
        let mut used = 0;
        while self.is_more {
            let fed = reading.feed(&self.kept);
            if fed.used > 0 && self.settings.is_some() {
                let records = Records { bytes: &self.kept[before_records..fed.used] };
                look(reading, records, self.source.frames());
                before_records = 0;
            }
            used += fed.used as u64;
            self.kept.drain(..fed.used);
            if fed.over {
                // of settings that are refused nothing more is read, and of records so many
                self.is_full = self.settings.is_some();
                return Ok(None);
            }
            self.is_more = self.source.fill(&mut self.kept)?;
        }
        reading.finish(&self.kept);
        if self.settings.is_none() {
            return Ok(None);
        }
        let rest = Records { bytes: &self.kept[before_records..] };
        let whole = rest.whole();
        look(reading, Records { bytes: &rest.bytes[..whole] }, self.source.frames());
        let at = used + (before_records + whole) as u64;
        Ok(cut_record(&rest.bytes[whole..], at))
    }
}

fn cut_record(bytes: &[u8], at: u64) -> Option<CutRecord> {
    match bytes {
        [] => None,
        [_] => Some(CutRecord { at, has: 0, wants: None }),
        [high, low, has @ ..] => {
            let wants = u16::from_be_bytes([*high, *low]);
            Some(CutRecord { at, has: has.len(), wants: Some(wants.into()) })
        }
    }
}

/// Records one after the other, each without its length.
#[derive(Clone, Copy)]
pub struct Records<'a> {
    bytes: &'a [u8],
}

impl Records<'_> {
    /// How many bytes the whole ones take.
    fn whole(&self) -> usize {
        self.map(|record| LENGTH + record.len()).sum()
    }
}

impl<'a> Iterator for Records<'a> {
    type Item = &'a [u8];

    fn next(&mut self) -> Option<&'a [u8]> {
        let (length, behind) = self.bytes.split_first_chunk::<LENGTH>()?;
        let length = usize::from(u16::from_be_bytes(*length));
        let record = behind.get(..length)?;
        self.bytes = &behind[length..];
        Some(record)
    }
}
