//! The capture program in ordinary Rust: settings and records from one buffer, and the report.

mod buffer;
mod settings;

use crate::early::Early;
use crate::mold::split_block;
use crate::receiver::{Answer, Receiver};
use buffer::Buffer;
use std::fmt::{self, Display, Formatter};
use std::io::{self, Read};

/// The report of a capture, as it is printed.
pub fn report(input: impl Read) -> io::Result<String> {
    let mut buffer = Buffer::new(input);
    while buffer.bytes().len() < settings::LARGEST && buffer.read_on()? {}
    let Some((receiver, size)) = settings::read(buffer.bytes()) else {
        return Ok("settings=refused\n".to_string());
    };
    buffer.use_up(size);
    let mut tally = Tally::new(receiver);
    loop {
        let used = tally.take_records(buffer.bytes());
        buffer.use_up(used);
        if tally.is_full() {
            break;
        }
        if !buffer.read_on()? {
            tally.take_rest(buffer.bytes());
            break;
        }
    }
    Ok(tally.to_string())
}

struct Tally {
    receiver: Early,
    records: u32,
    delivered: u64,
    old: u64,
    quiet: u64,
    asked: u64,
    refused: u64,
}

impl Tally {
    fn new(receiver: Receiver) -> Tally {
        Tally {
            receiver: Early::new(receiver),
            records: 0,
            delivered: 0,
            old: 0,
            quiet: 0,
            asked: 0,
            refused: 0,
        }
    }

    /// No more records are read than that.
    fn is_full(&self) -> bool {
        self.records == u32::MAX
    }

    /// Takes all whole records, and answers how many bytes they are.
    fn take_records(&mut self, bytes: &[u8]) -> usize {
        let mut rest = bytes;
        while !self.is_full() {
            let Some((datagram, behind)) = split_block(rest) else {
                break;
            };
            self.take(datagram);
            rest = behind;
        }
        bytes.len() - rest.len()
    }

    fn take(&mut self, datagram: &[u8]) {
        self.records += 1;
        let Ok((answer, request)) = self.receiver.take(datagram) else {
            self.refused += 1;
            return;
        };
        match answer {
            Answer::Deliver { count, .. } => self.delivered += u64::from(count),
            Answer::Old => self.old += 1,
            Answer::Quiet => self.quiet += 1,
            Answer::Ask { .. } | Answer::Ended => {}
        }
        self.asked += u64::from(request.is_some());
    }

    /// What is left at the end of the input is a record that was cut short.
    fn take_rest(&mut self, bytes: &[u8]) {
        if !bytes.is_empty() {
            self.refused += 1;
        }
    }
}

impl Display for Tally {
    fn fmt(&self, f: &mut Formatter<'_>) -> fmt::Result {
        let receiver = self.receiver.receiver();
        let session = receiver.session().expect("settings have a name");
        let session = String::from_utf8_lossy(session);
        writeln!(f, "session={session}")?;
        writeln!(f, "next={}", receiver.next())?;
        let ended = if receiver.is_ended() { "yes" } else { "no" };
        writeln!(f, "ended={ended}")?;
        writeln!(f, "delivered={}", self.delivered)?;
        writeln!(f, "old={}", self.old)?;
        writeln!(f, "quiet={}", self.quiet)?;
        writeln!(f, "asked={}", self.asked)?;
        writeln!(f, "refused={}", self.refused)
    }
}
