//! Document 01, "The capture program": settings, records, report; order 12's rule of the session; and order 6, by which
//! the receiver that keeps early messages takes the records, and the report counts both parts of its answers.

use super::early::{Early, Number, Row};
use super::{text, Name};

pub const MOST_RECORDS: u32 = u32::MAX;

/// How many bytes a feed waits for before it looks at settings, by the header: as many as the longest ones have, with 20 digits and
/// with 5.
pub const LONGEST_SETTINGS: usize = 57;

#[derive(Clone, Copy, Debug, PartialEq, Eq)]
pub enum Stage {
    /// The three settings lines come next.
    Settings,
    Records,
    /// Nothing more is read.
    Done,
    SettingsRefused,
}

#[derive(Clone, Debug, PartialEq, Eq)]
pub struct Capture {
    pub receiver: Early,
    pub stage: Stage,
    pub records: u32,
    pub delivered: u64,
    pub old: u64,
    pub quiet: u64,
    pub asked: u64,
    pub refused: u64,
}

/// Messages with their numbers, in the order in which they are held.
pub type Kept = Vec<(Number, Vec<u8>)>;

/// What stood behind the last record read.
#[derive(Clone, Copy, Debug, PartialEq, Eq)]
pub enum Tail {
    None,
    CutShort,
    Ignored,
}

impl Capture {
    pub fn start() -> Capture {
        Capture {
            receiver: Early::refused(),
            stage: Stage::Settings,
            records: 0,
            delivered: 0,
            old: 0,
            quiet: 0,
            asked: 0,
            refused: 0,
        }
    }

    /// Reads what can be read of `bytes`, after which more may come. Answers how many bytes need not be kept. What the
    /// receiver holds anew is gathered in `kept`.
    pub fn feed(&mut self, bytes: &[u8], kept: &mut Kept) -> usize {
        if self.stage == Stage::Settings && bytes.len() < LONGEST_SETTINGS {
            return 0;
        }
        self.read(bytes, kept)
    }

    /// Reads the last bytes: a record cut short is one refusal, and one of the records. Bytes behind the last record that may be read
    /// are ignored.
    pub fn finish(&mut self, bytes: &[u8], kept: &mut Kept) -> Tail {
        let used = self.read(bytes, kept);
        if self.records == MOST_RECORDS {
            return Tail::Ignored;
        }
        if self.stage != Stage::Records {
            return Tail::None;
        }
        self.stage = Stage::Done;
        if used == bytes.len() {
            return Tail::None;
        }
        self.records += 1;
        self.refused = self.refused.saturating_add(1);
        Tail::CutShort
    }

    /// Reads settings, if they come next, and all whole records that may be read. Of a reading that is over all bytes are used.
    fn read(&mut self, bytes: &[u8], kept: &mut Kept) -> usize {
        let mut used = 0;
        if self.stage == Stage::Settings {
            used = self.read_settings(bytes);
        }
        if self.stage == Stage::Records {
            used += self.read_records(&bytes[used..], kept);
        }
        if self.stage == Stage::Records && self.records == MOST_RECORDS {
            self.stage = Stage::Done;
        }
        if self.is_over() {
            return bytes.len();
        }
        used
    }

    /// Whether the reading is over: at its end, with the most records, or by bad settings.
    pub fn is_over(&self) -> bool {
        matches!(self.stage, Stage::Done | Stage::SettingsRefused)
    }

    fn read_settings(&mut self, bytes: &[u8]) -> usize {
        let mut rest = bytes;
        match settings(&mut rest) {
            // With the settings the run begins, and its counts with it. Only a state made by hand has others before.
            Some(receiver) => {
                *self = Capture {
                    receiver,
                    stage: Stage::Records,
                    ..Capture::start()
                }
            }
            None => self.stage = Stage::SettingsRefused,
        }
        bytes.len() - rest.len()
    }

    fn read_records(&mut self, bytes: &[u8], kept: &mut Kept) -> usize {
        let mut used = 0;
        while self.records < MOST_RECORDS {
            let Some(datagram) = record(&bytes[used..]) else {
                return used;
            };
            used += 2 + datagram.len();
            self.records += 1;
            self.count(datagram, kept);
        }
        used
    }

    /// A datagram that delivers, or is old or quiet, and asks, counts in both lines; one that is ahead only asks.
    fn count(&mut self, datagram: &[u8], kept: &mut Kept) {
        let Ok(step) = self.receiver.take(datagram, true) else {
            return add(&mut self.refused, 1);
        };
        match step.row {
            Row::Deliver => add(&mut self.delivered, step.delivered.len() as u64),
            Row::Old => add(&mut self.old, 1),
            Row::Quiet => add(&mut self.quiet, 1),
            Row::Ahead | Row::Ended => {}
        }
        if step.request.is_some() {
            add(&mut self.asked, 1);
        }
        kept.extend(step.kept);
    }

    /// The report as it is printed.
    pub fn report(&self) -> Vec<u8> {
        if matches!(self.stage, Stage::Settings | Stage::SettingsRefused) {
            return b"settings=refused\n".to_vec();
        }
        let ended = if self.receiver.ended { "yes" } else { "no" };
        let mut report = b"session=".to_vec();
        report.extend_from_slice(&self.receiver.session);
        let lines = format!(
            "\nnext={}\nended={ended}\ndelivered={}\nold={}\nquiet={}\nasked={}\nrefused={}\n",
            self.receiver.next, self.delivered, self.old, self.quiet, self.asked, self.refused
        );
        report.extend_from_slice(lines.as_bytes());
        report
    }
}

fn add(line: &mut u64, more: u64) {
    *line = line.saturating_add(more);
}

/// The report of a whole capture.
pub fn report(capture: &[u8]) -> Vec<u8> {
    let mut reading = Capture::start();
    reading.finish(capture, &mut vec![]);
    reading.report()
}

/// The datagram of the record at the front, if the record is whole.
pub fn record(bytes: &[u8]) -> Option<&[u8]> {
    let length = u16::from_be_bytes([*bytes.first()?, *bytes.get(1)?]);
    bytes.get(2..2 + usize::from(length))
}

/// Takes the three lines off the front, if they are good.
pub fn settings(rest: &mut &[u8]) -> Option<Early> {
    literal(rest, b"session=")?;
    let session = printable_name(rest)?;
    if text::is_blank(&session) {
        return None;
    }
    literal(rest, b"\nnext=")?;
    let next = number_line(rest)?;
    literal(rest, b"limit=")?;
    let limit = number_line(rest)?;
    Early::start(session, next, u16::try_from(limit).ok()?).ok()
}

fn literal(rest: &mut &[u8], wanted: &[u8]) -> Option<()> {
    *rest = rest.strip_prefix(wanted)?;
    Some(())
}

fn printable_name(rest: &mut &[u8]) -> Option<Name> {
    let (name, behind) = rest.split_first_chunk()?;
    *rest = behind;
    let printable = name.iter().all(|byte| (0x20..=0x7E).contains(byte));
    printable.then_some(*name)
}

/// A number without leading zeros, and its line feed.
fn number_line(rest: &mut &[u8]) -> Option<u64> {
    let end = rest.iter().position(|&byte| byte == b'\n')?;
    let (digits, behind) = rest.split_at(end);
    *rest = &behind[1..];
    let leading_zero = digits.len() > 1 && digits[0] == b'0';
    if leading_zero || !digits.iter().all(u8::is_ascii_digit) {
        return None;
    }
    // No digits and too many of them are refused here.
    std::str::from_utf8(digits).ok()?.parse().ok()
}
