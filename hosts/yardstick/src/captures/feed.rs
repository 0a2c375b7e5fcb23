//! A transmitter that sends what is due, or anything else.

use crate::mold::{END, LARGEST};
use crate::{NEXT, SESSION};
use differential::random::Random;

pub struct Feed {
    pub random: Random,
    /// The number of the next message that is due.
    next: u64,
}

fn header(number: u64, count: u16) -> Vec<u8> {
    [&SESSION[..], &number.to_be_bytes(), &count.to_be_bytes()].concat()
}

pub fn heartbeat(number: u64) -> Vec<u8> {
    header(number, 0)
}

impl Feed {
    pub fn new(seed: u64) -> Feed {
        Feed::at(seed, NEXT)
    }

    pub fn at(seed: u64, next: u64) -> Feed {
        Feed {
            random: Random::new(seed, 0),
            next,
        }
    }

    /// 1 to 30 messages that are due.
    pub fn data(&mut self) -> Vec<u8> {
        let count = self.count();
        self.due(self.next, count)
    }

    /// Messages that are due, behind some that came before.
    pub fn overlapping(&mut self) -> Vec<u8> {
        let first = self.before();
        let count = self.count() + (self.next - first) as u16;
        self.due(first, count)
    }

    /// The end of the session: nothing is due any more.
    pub fn end(&self) -> Vec<u8> {
        header(self.next, END)
    }

    /// Data that is due half of the time, so that the numbers move on; else a datagram from before or ahead, or one that has a
    /// fault.
    pub fn anything(&mut self) -> Vec<u8> {
        match self.random.below(8) {
            0..=3 => self.data(),
            4 => self.overlapping(),
            5 => self.elsewhere(),
            _ => {
                let datagram = self.elsewhere();
                self.spoilt(datagram)
            }
        }
    }

    fn count(&mut self) -> u16 {
        self.random.between(1, 30) as u16
    }

    /// A number up to 50 below the one that is due; the first data makes room for one.
    fn before(&mut self) -> u64 {
        let back = self.random.between(1, 50) as u64;
        self.next.saturating_sub(back).max(NEXT)
    }

    fn due(&mut self, first: u64, count: u16) -> Vec<u8> {
        self.next = first + u64::from(count);
        self.messages(first, count)
    }

    /// Messages of 10 to 60 bytes, and one in fifty of none.
    fn messages(&mut self, first: u64, count: u16) -> Vec<u8> {
        let mut datagram = header(first, count);
        for _ in 0..count {
            let none = self.random.one_in(50);
            let size = if none { 0 } else { self.random.between(10, 60) };
            datagram.extend((size as u16).to_be_bytes());
            datagram.extend(self.random.bytes(size));
        }
        datagram
    }

    /// One message, in a datagram of the largest size or of a byte more.
    fn large(&mut self, first: u64) -> Vec<u8> {
        let mut datagram = header(first, 1);
        let size = LARGEST + self.random.below(2);
        let length = size - datagram.len() - 2;
        datagram.extend((length as u16).to_be_bytes());
        datagram.resize(size, 0);
        datagram
    }

    /// A datagram that leaves the receiver as it is: no message in it is due, and no end is at the number that is.
    fn elsewhere(&mut self) -> Vec<u8> {
        let (before, due) = (self.before(), self.next);
        let ahead = due + self.random.between(1, 300) as u64;
        match self.random.below(8) {
            0 => self.messages(before, (due - before).min(30) as u16),
            1 => header(before, 0),
            2 => header(due, 0),
            3 => header(before, END),
            4 => self.messages(ahead, 3),
            // the last numbers that there are, or one too many
            5 => {
                let many = 30 + self.random.below(2) as u16;
                self.messages(u64::MAX - 30, many)
            }
            6 => self.large(ahead),
            _ => header(ahead, self.random.pick(&[0, END])),
        }
    }

    fn spoilt(&mut self, mut datagram: Vec<u8>) -> Vec<u8> {
        let cut = self.random.between(1, 9);
        match self.random.below(7) {
            0 => datagram.truncate(self.random.below(20)),
            1 => datagram.resize(LARGEST + cut, 0),
            2 => datagram[10..18].fill(0),
            3 => datagram[10..18].fill(255),
            4 => datagram.truncate(datagram.len() - cut),
            5 => datagram.resize(datagram.len() + cut, 0),
            _ => datagram[self.random.below(10)] ^= 1,
        }
        datagram
    }
}
