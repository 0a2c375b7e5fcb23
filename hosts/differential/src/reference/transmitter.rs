//! Document 02, order 14: our own transmitter cuts a run of messages into packets.

use super::mold::{self, HEADER};
use super::store::{blocks, is_size, most_that_fit};
use super::{Name, Refusal};

/// A run: lent lengths and joined data, a first number, and the size of its packets.
#[derive(Clone, Copy, Debug)]
pub struct Run<'a> {
    pub first: u64,
    pub lengths: &'a [u16],
    pub data: &'a [u8],
    pub size: u64,
}

/// How far packets that went out have come: so many messages, and so many bytes of their data.
#[derive(Clone, Copy, Debug, Default, PartialEq, Eq)]
pub struct Progress {
    pub messages: u64,
    pub bytes: u64,
}

/// A packet to be: how far it goes on from, and the lengths of its messages.
#[derive(Clone, Copy, Debug, PartialEq, Eq)]
pub struct Group<'a> {
    pub from: Progress,
    pub lengths: &'a [u16],
}

impl Group<'_> {
    pub fn data_size(&self) -> u64 {
        self.lengths.iter().map(|&length| u64::from(length)).sum()
    }

    /// How many bytes its packet has; none where it holds no message.
    pub fn packet_size(&self) -> u64 {
        match self.lengths {
            [] => 0,
            lengths => HEADER as u64 + blocks(lengths),
        }
    }

    pub fn behind(&self) -> Progress {
        Progress {
            messages: self.from.messages + self.lengths.len() as u64,
            bytes: self.from.bytes + self.data_size(),
        }
    }
}

impl<'a> Run<'a> {
    pub fn adds_up(&self) -> bool {
        let sum: usize = { self.lengths.iter() }
            .map(|&length| usize::from(length))
            .sum();
        sum == self.data.len()
    }

    pub fn numbers_run_out(&self) -> bool {
        self.first.checked_add(self.lengths.len() as u64).is_none()
    }

    pub fn has_a_long_message(&self) -> bool {
        { self.lengths.iter() }.any(|&length| HEADER as u64 + blocks(&[length]) > self.size)
    }

    /// The grounds over the whole run.
    pub fn check(&self) -> Result<(), Refusal> {
        if !is_size(self.size) {
            return Err(19);
        }
        if !self.adds_up() {
            return Err(44);
        }
        if self.first == 0 {
            return Err(13);
        }
        if self.numbers_run_out() {
            return Err(14);
        }
        if self.has_a_long_message() {
            return Err(52);
        }
        Ok(())
    }

    /// The most messages that fit, of those behind a progress; none where none is left.
    pub fn group(&self, from: Progress) -> Group<'a> {
        let left = usize::try_from(from.messages)
            .ok()
            .and_then(|from| self.lengths.get(from..));
        let left = left.unwrap_or(&[]);
        let lengths = &left[..most_that_fit(left, self.size)];
        Group { from, lengths }
    }

    /// The group at a place. A message that fits no packet, for which a run is refused, stands here alone.
    pub fn group_at(&self, place: u64) -> Option<Group<'a>> {
        let (mut from, mut at) = (Progress::default(), 0);
        while (from.messages as usize) < self.lengths.len() {
            let mut group = self.group(from);
            if group.lengths.is_empty() {
                group.lengths = &self.lengths[from.messages as usize..][..1];
            }
            if at == place {
                return Some(group);
            }
            from = group.behind();
            at += 1;
        }
        None
    }

    fn write(&self, session: &Name, group: &Group) -> Result<Vec<u8>, Refusal> {
        let from = group.from.bytes as usize;
        let size = group.data_size() as usize;
        // messages of no bytes may stand past the end
        let data = self.data.get(from..from + size).unwrap_or(&[]);
        mold::write_data(
            session,
            self.first + group.from.messages,
            group.lengths,
            data,
        )
    }

    /// The packet at a place, from 0.
    pub fn packet(&self, session: &Name, place: u64) -> Result<Vec<u8>, Refusal> {
        self.check()?;
        let group = self.group_at(place).ok_or(54u32)?;
        self.write(session, &group)
    }

    /// The next packet and the progress behind it. The header says of a progress that anyone may have made up: the
    /// grounds are then about this packet alone, and 54, that no message is left, comes before them.
    pub fn next(&self, session: &Name, from: Progress) -> Result<(Vec<u8>, Progress), Refusal> {
        if !is_size(self.size) {
            return Err(19);
        }
        if from.messages >= self.lengths.len() as u64 {
            return Err(54);
        }
        let group = self.group(from);
        if !self.has_data_of(&group) {
            return Err(44);
        }
        if self.first == 0 && from.messages == 0 {
            return Err(13);
        }
        if self.group_runs_out(&group) {
            return Err(14);
        }
        if group.lengths.is_empty() {
            return Err(52);
        }
        Ok((self.write(session, &group)?, group.behind()))
    }

    pub fn has_data_of(&self, group: &Group) -> bool {
        let there = (self.data.len() as u64).saturating_sub(group.from.bytes);
        group.data_size() <= there
    }

    pub fn group_runs_out(&self, group: &Group) -> bool {
        let count = group.lengths.len() as u64;
        let behind = self.first.checked_add(group.from.messages);
        behind
            .and_then(|number| number.checked_add(count))
            .is_none()
    }
}
