//! The plain receiver in ordinary Rust: document 01's table, and the name that order 12 lets it learn.

use crate::mold::{Datagram, Kind, Messages, Place, Refusal, Session, BLANK};

pub const LARGEST_LIMIT: u16 = 65_534;

#[derive(Clone, Copy, Debug, PartialEq, Eq)]
pub enum Answer {
    /// `mold::Messages::new` walks over them.
    Deliver {
        first: u64,
        count: u16,
        skipped: u16,
    },
    Old,
    Quiet,
    Ask {
        first: u64,
        count: u16,
    },
    Ended,
}

#[derive(Clone, Debug, PartialEq, Eq)]
pub struct Receiver {
    /// None until it is learned.
    session: Option<Session>,
    next: u64,
    limit: u16,
    ended: bool,
}

impl Receiver {
    pub fn start(session: Session, next: u64, limit: u16) -> Result<Self, Refusal> {
        if next == 0 || !(1..=LARGEST_LIMIT).contains(&limit) {
            return Err(Refusal::BadSetting);
        }
        Ok(Receiver {
            session: (session != *BLANK).then_some(session),
            next,
            limit,
            ended: false,
        })
    }

    pub fn session(&self) -> Option<&Session> {
        self.session.as_ref()
    }

    pub fn next(&self) -> u64 {
        self.next
    }

    pub fn limit(&self) -> u16 {
        self.limit
    }

    /// Held messages were delivered too.
    pub(crate) fn move_to(&mut self, next: u64) {
        self.next = next;
    }

    pub fn is_ended(&self) -> bool {
        self.ended
    }

    #[inline]
    pub fn take(&mut self, datagram: &[u8]) -> Result<Answer, Refusal> {
        let Datagram {
            session,
            number,
            kind,
        } = Datagram::read(datagram)?;
        match &self.session {
            Some(name) if name == session => self.answer(number, kind),
            Some(_) => Err(Refusal::SessionDiffers),
            None => self.learn(session, number, kind),
        }
    }

    /// Any answer names a receiver that has no name yet.
    #[cold]
    fn learn(&mut self, session: &Session, number: u64, kind: Kind) -> Result<Answer, Refusal> {
        if session == BLANK {
            return Err(Refusal::SessionDiffers);
        }
        let answer = self.answer(number, kind)?;
        self.session = Some(*session);
        Ok(answer)
    }

    /// A datagram of its own session.
    #[inline]
    fn answer(&mut self, number: u64, kind: Kind) -> Result<Answer, Refusal> {
        if self.ended {
            return Err(Refusal::SessionEnded);
        }
        if number > self.next {
            return Ok(self.ask(number));
        }
        match kind {
            Kind::Data { count } => Ok(self.take_data(number, count)),
            Kind::Heartbeat if number < self.next => Ok(Answer::Old),
            Kind::Heartbeat => Ok(Answer::Quiet),
            Kind::EndOfSession if number < self.next => Err(Refusal::EndBelowExpected),
            Kind::EndOfSession => {
                self.ended = true;
                Ok(Answer::Ended)
            }
        }
    }

    /// Takes a datagram, and lays the place of each delivered message into a lent slice. Where that
    /// is too short nothing changes.
    #[inline]
    pub fn deliver(&mut self, datagram: &[u8], out: &mut [Place]) -> Result<Answer, Refusal> {
        let mut after = self.clone();
        let answer = after.take(datagram)?;
        if let Answer::Deliver { count, skipped, .. } = answer {
            let out = out.get_mut(..count.into()).ok_or(Refusal::OutputShort)?;
            let places = Messages::new(datagram, count, skipped).places(datagram);
            for (laid, place) in out.iter_mut().zip(places) {
                *laid = place;
            }
        }
        *self = after;
        Ok(answer)
    }

    fn ask(&self, number: u64) -> Answer {
        let missing = number - self.next;
        Answer::Ask {
            first: self.next,
            count: missing.min(self.limit.into()) as u16,
        }
    }

    /// Data that begins at the expected number or before it.
    fn take_data(&mut self, number: u64, count: u16) -> Answer {
        let (first, end) = (self.next, number + u64::from(count));
        if end <= first {
            return Answer::Old;
        }
        self.next = end;
        Answer::Deliver {
            first,
            count: (end - first) as u16,
            skipped: (first - number) as u16,
        }
    }
}
