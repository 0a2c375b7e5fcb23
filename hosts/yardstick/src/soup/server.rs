//! The server's end of a session.

use super::from_client::FromClient;
use super::login::{self, Account, MOST_ACCOUNTS};
use super::{fields, front, Answer, Front, Refusal};
use crate::mold::Session;

#[derive(Clone, Copy, Debug, PartialEq, Eq)]
pub enum Phase {
    Waiting,
    In,
    Closed,
}

#[derive(Clone, Debug, PartialEq, Eq)]
pub struct Server {
    session: Session,
    /// The highest message number, 0 if there is none.
    last: u64,
    phase: Phase,
}

impl Server {
    pub fn start(session: Session, last: u64) -> Result<Self, Refusal> {
        if !fields::is_session(&session) || last == u64::MAX {
            return Err(Refusal::BadSetting);
        }
        Ok(Server {
            session,
            last,
            phase: Phase::Waiting,
        })
    }

    pub fn session(&self) -> &Session {
        &self.session
    }

    pub fn last(&self) -> u64 {
        self.last
    }

    pub fn phase(&self) -> Phase {
        self.phase
    }

    /// Takes the packet at the front of the client's stream. A call, as the library's is.
    #[inline(never)]
    pub fn step<'a>(
        &mut self,
        accounts: &[Account],
        stream: &'a [u8],
    ) -> Result<Front<Answer<'a>>, Refusal> {
        if accounts.len() > MOST_ACCOUNTS {
            return Err(Refusal::BadSetting);
        }
        let Some((packet, size)) = front::read(stream)? else {
            return Ok(None);
        };
        let answer = match self.phase {
            Phase::Waiting => self.take_waiting(accounts, packet)?,
            Phase::In => self.take_in(packet)?,
            Phase::Closed => return Err(Refusal::StateClosed),
        };
        Ok(Some((answer, size)))
    }

    fn take_waiting<'a>(
        &mut self,
        accounts: &[Account],
        packet: FromClient,
    ) -> Result<Answer<'a>, Refusal> {
        match packet {
            FromClient::Login(login) => {
                let decided = login::decide(accounts, &login, &self.session, self.last);
                Ok(self.answer_login(decided))
            }
            FromClient::Debug => Ok(Answer::Debug),
            _ => Err(Refusal::PacketNotTaken),
        }
    }

    fn answer_login<'a>(&mut self, decided: Result<u64, u8>) -> Answer<'a> {
        match decided {
            Ok(number) => {
                self.phase = Phase::In;
                Answer::Accepted { number }
            }
            Err(reason) => {
                self.phase = Phase::Closed;
                Answer::Rejected { reason }
            }
        }
    }

    fn take_in<'a>(&mut self, packet: FromClient<'a>) -> Result<Answer<'a>, Refusal> {
        match packet {
            FromClient::Unsequenced { message } => Ok(Answer::Unsequenced { message }),
            FromClient::Heartbeat => Ok(Answer::Heartbeat),
            FromClient::Debug => Ok(Answer::Debug),
            FromClient::Logout => {
                self.phase = Phase::Closed;
                Ok(Answer::LoggedOut)
            }
            _ => Err(Refusal::PacketNotTaken),
        }
    }
}
