//! The receiver that keeps early messages in ordinary Rust: order 6 above the plain receiver.

use crate::mold::{Messages, Refusal, END};
use crate::receiver::{Answer, Receiver};

const SLOTS: usize = 64;
const SLOT: usize = 1_024;

/// So much memory is zeroed when a receiver starts, and kept.
type Slots = Box<[u8; SLOTS * SLOT]>;

pub struct Early {
    receiver: Receiver,
    /// The held numbers, a bit each: the lowest stands for the expected number + 1.
    held: u64,
    lengths: [u16; SLOTS],
    slots: Slots,
}

/// What is asked for beside an answer: the first number, and how many.
pub type Request = Option<(u64, u16)>;

impl Early {
    pub fn new(receiver: Receiver) -> Self {
        let slots = vec![0; SLOTS * SLOT].into_boxed_slice();
        Early {
            receiver,
            held: 0,
            lengths: [0; SLOTS],
            slots: slots.try_into().expect("so many bytes"),
        }
    }

    pub fn receiver(&self) -> &Receiver {
        &self.receiver
    }

    /// A message that is held.
    pub fn held(&self, number: u64) -> Option<&[u8]> {
        let behind = number.checked_sub(self.receiver.next() + 1)?;
        let slot = (number % SLOTS as u64) as usize;
        let is_held = behind < SLOTS as u64 && self.held >> behind & 1 == 1;
        is_held.then(|| &self.slots[slot * SLOT..][..self.lengths[slot].into()])
    }

    /// The plain answer by the number before the step, of which a deliver counts the held messages too; an ask stands for
    /// a datagram that is ahead.
    pub fn take(&mut self, datagram: &[u8]) -> Result<(Answer, Request), Refusal> {
        let mut answer = self.receiver.take(datagram)?;
        let mut request = None;
        match &mut answer {
            Answer::Ask { first, count } => {
                request = Some((*first, *count));
                self.keep(datagram);
            }
            Answer::Deliver { first, count, .. } if self.held != 0 => {
                let end = *first + u64::from(*count);
                *count = self.move_on(*first, end);
            }
            Answer::Ended => self.held = 0,
            _ => {}
        }
        if self.held != 0 {
            let missing = (self.held.trailing_zeros() + 1).min(self.receiver.limit().into());
            request = Some((self.receiver.next(), missing as u16));
        }
        Ok((answer, request))
    }

    /// From a number to just below another all is delivered, with what is held there and behind: how many that is.
    fn move_on(&mut self, first: u64, end: u64) -> u16 {
        let mut next = first;
        while next < end {
            let run = self.held.trailing_ones();
            self.held = self.held.checked_shr(run + 1).unwrap_or(0);
            next += u64::from(run) + 1;
        }
        self.receiver.move_to(next);
        (next - first) as u16
    }

    /// Holds what a datagram ahead has, as far as there are slots.
    #[cold]
    fn keep(&mut self, datagram: &[u8]) {
        let number = u64::from_be_bytes(datagram[10..18].try_into().unwrap());
        let count = u16::from_be_bytes([datagram[18], datagram[19]]);
        if count == END {
            return;
        }
        let next = self.receiver.next();
        for (number, message) in (number..).zip(Messages::new(datagram, count, 0)) {
            let behind = number - next - 1;
            if behind >= SLOTS as u64 {
                return;
            }
            if message.len() <= SLOT && self.held >> behind & 1 == 0 {
                self.held |= 1 << behind;
                let slot = (number % SLOTS as u64) as usize;
                self.lengths[slot] = message.len() as u16;
                self.slots[slot * SLOT..][..message.len()].copy_from_slice(message);
            }
        }
    }
}

#[cfg(test)]
mod tests {
    use super::*;
    use crate::SESSION;

    fn data(first: u64, messages: &[&[u8]]) -> Vec<u8> {
        let mut bytes = SESSION.to_vec();
        bytes.extend(first.to_be_bytes());
        bytes.extend((messages.len() as u16).to_be_bytes());
        for message in messages {
            bytes.extend((message.len() as u16).to_be_bytes());
            bytes.extend(*message);
        }
        bytes
    }

    #[test]
    fn a_gap_is_closed() {
        let mut early = Early::new(Receiver::start(*SESSION, 1, 100).unwrap());
        let ahead = early.take(&data(3, &[b"three", b"four"])).unwrap();
        assert_eq!(ahead, (Answer::Ask { first: 1, count: 2 }, Some((1, 2))));
        assert_eq!(early.held(3), Some(&b"three"[..]));
        let (answer, request) = early.take(&data(1, &[b"one", b"two"])).unwrap();
        let all = Answer::Deliver {
            first: 1,
            count: 4,
            skipped: 0,
        };
        assert_eq!((answer, request, early.receiver().next()), (all, None, 5));
        assert_eq!(early.held(3), None);
    }

    #[test]
    fn all_slots_are_delivered() {
        let mut early = Early::new(Receiver::start(*SESSION, 1, 100).unwrap());
        early.take(&data(2, &[&b"x"[..]; 66])).unwrap();
        let (answer, request) = early.take(&data(1, &[b"one"])).unwrap();
        assert!(matches!(answer, Answer::Deliver { count: 65, .. }));
        assert_eq!((request, early.receiver().next()), (None, 66));
    }
}
