//! The client's end of a session.

use super::from_server::FromServer;
use super::{fields, front, Answer, Front, Refusal, BLANK};
use crate::mold::Session;

#[derive(Clone, Copy, Debug, PartialEq, Eq)]
pub enum Phase {
    Asked,
    In,
    Ended,
    Closed,
}

#[derive(Clone, Debug, PartialEq, Eq)]
pub struct Client {
    session: Session,
    /// The number that was asked for, and once in that of the next message.
    number: u64,
    phase: Phase,
}

impl Client {
    pub fn start(session: Session, number: u64) -> Result<Self, Refusal> {
        if !fields::is_session_or_blank(&session) {
            return Err(Refusal::BadSetting);
        }
        Ok(Client {
            session,
            number,
            phase: Phase::Asked,
        })
    }

    pub fn session(&self) -> &Session {
        &self.session
    }

    pub fn number(&self) -> u64 {
        self.number
    }

    pub fn phase(&self) -> Phase {
        self.phase
    }

    /// Takes the packet at the front of the server's stream. A call, as the library's is.
    #[inline(never)]
    pub fn step<'a>(&mut self, stream: &'a [u8]) -> Result<Front<Answer<'a>>, Refusal> {
        let Some((packet, size)) = front::read(stream)? else {
            return Ok(None);
        };
        let answer = match self.phase {
            Phase::Asked => self.take_asked(packet)?,
            Phase::In => self.take_in(packet)?,
            Phase::Ended | Phase::Closed => return Err(Refusal::StateClosed),
        };
        Ok(Some((answer, size)))
    }

    fn take_asked<'a>(&mut self, packet: FromServer<'a>) -> Result<Answer<'a>, Refusal> {
        match packet {
            FromServer::Accepted { session, number } => self.enter(session, number),
            FromServer::Rejected { reason } => {
                self.phase = Phase::Closed;
                Ok(Answer::Rejected { reason })
            }
            FromServer::Debug => Ok(Answer::Debug),
            _ => Err(Refusal::PacketNotTaken),
        }
    }

    /// The session and the number have to be those asked for, where any were.
    fn enter<'a>(&mut self, session: &Session, number: u64) -> Result<Answer<'a>, Refusal> {
        let other_session = self.session != *BLANK && self.session != *session;
        let other_number = self.number != 0 && self.number != number;
        if other_session || other_number {
            return Err(Refusal::LoginNotAsked);
        }
        *self = Client {
            session: *session,
            number,
            phase: Phase::In,
        };
        Ok(Answer::Accepted { number })
    }

    fn take_in<'a>(&mut self, packet: FromServer<'a>) -> Result<Answer<'a>, Refusal> {
        match packet {
            FromServer::Sequenced { message } => {
                let number = self.number;
                self.number = number.checked_add(1).ok_or(Refusal::NumbersUsedUp)?;
                Ok(Answer::Sequenced { number, message })
            }
            FromServer::Heartbeat => Ok(Answer::Heartbeat),
            FromServer::Debug => Ok(Answer::Debug),
            FromServer::End => {
                self.phase = Phase::Ended;
                Ok(Answer::Over)
            }
            _ => Err(Refusal::PacketNotTaken),
        }
    }
}
