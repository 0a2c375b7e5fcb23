//! Document 01, "The receiver": its start, and its table; and order 12, how it learns its session's name.

use super::mold::{self, Datagram, Kind};
use super::{Name, Refusal, BLANK};

pub const LARGEST_LIMIT: u16 = 65_534;

#[derive(Clone, Debug, PartialEq, Eq)]
pub struct Receiver {
    /// Blank until it is learned.
    pub session: Name,
    /// The expected number, n in document 01.
    pub next: u64,
    /// How many messages it asks for at most.
    pub limit: u16,
    pub ended: bool,
}

#[derive(Clone, Copy, Debug, PartialEq, Eq)]
pub enum Answer {
    Deliver {
        first: u64,
        count: u64,
        skipped: u64,
    },
    Old,
    Quiet,
    Ask {
        first: u64,
        count: u64,
    },
    Ended,
}

/// 17 and 18, of a receiver of either kind: another session than its own, or, while it has no name, a blank one; and
/// an end that it has come to.
pub fn may_take(own: &Name, ended: bool, session: &Name) -> Result<(), Refusal> {
    let differs = match *own == BLANK {
        true => *session == BLANK,
        false => session != own,
    };
    if differs {
        return Err(17);
    }
    if ended {
        return Err(18);
    }
    Ok(())
}

impl Receiver {
    pub fn start(session: Name, next: u64, limit: u16) -> Result<Receiver, Refusal> {
        if next == 0 || limit == 0 || limit > LARGEST_LIMIT {
            return Err(19);
        }
        Ok(Receiver {
            session,
            next,
            limit,
            ended: false,
        })
    }

    /// What a refused start gives: ended, its name blank, its numbers 1.
    pub fn refused() -> Receiver {
        Receiver {
            session: BLANK,
            next: 1,
            limit: 1,
            ended: true,
        }
    }

    pub fn is_named(&self) -> bool {
        self.session != BLANK
    }

    /// A receiver without a name takes that of the first datagram that neither the reader nor the receiver refuses,
    /// whatever it answers.
    pub fn take(&mut self, datagram: &[u8]) -> Result<Answer, Refusal> {
        let datagram = mold::read(datagram)?;
        may_take(&self.session, self.ended, &datagram.session)?;
        let answer = self.answer(&datagram)?;
        if !self.is_named() {
            self.session = datagram.session;
        }
        Ok(answer)
    }

    /// The table; 20 stands beside it.
    fn answer(&mut self, datagram: &Datagram) -> Result<Answer, Refusal> {
        let number = datagram.number;
        if number > self.next {
            let count = (number - self.next).min(u64::from(self.limit));
            return Ok(Answer::Ask {
                first: self.next,
                count,
            });
        }
        match datagram.kind {
            Kind::Data => Ok(self.take_data(number, datagram.messages.len() as u64)),
            Kind::Heartbeat if number < self.next => Ok(Answer::Old),
            Kind::Heartbeat => Ok(Answer::Quiet),
            Kind::EndOfSession if number < self.next => Err(20),
            Kind::EndOfSession => {
                self.ended = true;
                Ok(Answer::Ended)
            }
        }
    }

    /// Data that begins at the expected number or before it.
    fn take_data(&mut self, number: u64, count: u64) -> Answer {
        let behind = number + count;
        if behind <= self.next {
            return Answer::Old;
        }
        let first = self.next;
        self.next = behind;
        Answer::Deliver {
            first,
            count: behind - first,
            skipped: first - number,
        }
    }
}
