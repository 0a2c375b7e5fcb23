//! Document 01, "The lock", the states: the SoupBinTCP session at the server and at the client.

use super::login::{self, Account, Reply, Verdict};
use super::soup::{self, Front, Packet, Sender, PAYLOAD};
use super::text;
use super::{Name, Refusal};

#[derive(Clone, Copy, Debug, PartialEq, Eq)]
pub enum ServerState {
    Waiting,
    In,
    Closed,
}

#[derive(Clone, Debug, PartialEq, Eq)]
pub struct Server {
    pub session: Name,
    pub last: u64,
    pub state: ServerState,
}

/// What a step answers; one kind serves both ends.
#[derive(Clone, Copy, Debug, PartialEq, Eq)]
pub enum Answer {
    NeedMore,
    Accepted {
        number: u64,
    },
    Rejected {
        reason: u8,
    },
    Sequenced {
        number: u64,
        offset: usize,
        length: usize,
    },
    Unsequenced {
        offset: usize,
        length: usize,
    },
    PeerHeartbeat,
    Debug,
    LoggedOut,
    SessionOver,
}

#[derive(Clone, Copy, Debug, PartialEq, Eq)]
pub struct Step {
    pub answer: Answer,
    /// How many bytes of the stream were taken.
    pub taken: usize,
    /// The ground of a login's answer, where one was decided.
    pub verdict: Option<Verdict>,
}

const NEED_MORE: Step = Step {
    answer: Answer::NeedMore,
    taken: 0,
    verdict: None,
};

fn took(answer: Answer, taken: usize) -> Step {
    Step {
        answer,
        taken,
        verdict: None,
    }
}

impl Server {
    pub fn start(session: Name, last: u64) -> Result<Server, Refusal> {
        if !text::is_session(&session) || last > u64::MAX - 1 {
            return Err(19);
        }
        let state = ServerState::Waiting;
        Ok(Server {
            session,
            last,
            state,
        })
    }

    pub fn step(&mut self, accounts: &[Account], stream: &[u8]) -> Result<Step, Refusal> {
        if accounts.len() > login::MOST_ACCOUNTS {
            return Err(19);
        }
        let Front::Packet { packet, size } = soup::read(stream, Sender::Client)? else {
            return Ok(NEED_MORE);
        };
        match (self.state, packet) {
            (ServerState::Closed, _) => Err(32),
            (_, Packet::Debug { .. }) => Ok(took(Answer::Debug, size)),
            (ServerState::Waiting, Packet::Login(login)) => {
                let verdict = login::decide(accounts, &self.session, self.last, &login);
                Ok(self.answer_login(verdict, size))
            }
            (ServerState::In, Packet::Unsequenced { length }) => {
                let offset = PAYLOAD;
                Ok(took(Answer::Unsequenced { offset, length }, size))
            }
            (ServerState::In, Packet::ClientHeartbeat) => Ok(took(Answer::PeerHeartbeat, size)),
            (ServerState::In, Packet::Logout) => {
                self.state = ServerState::Closed;
                Ok(took(Answer::LoggedOut, size))
            }
            _ => Err(31),
        }
    }

    /// Moves the highest message number: it never falls, and is as a start takes it.
    pub fn set_last(&mut self, last: u64) -> Result<(), Refusal> {
        if last < self.last || last > u64::MAX - 1 {
            return Err(19);
        }
        self.last = last;
        Ok(())
    }

    /// A step with the packet that its answer has the server send, if there is room for it. Where it can't be written
    /// the step isn't taken either.
    pub fn reply(
        &mut self,
        accounts: &[Account],
        stream: &[u8],
        room: usize,
    ) -> Result<(Step, Vec<u8>), Refusal> {
        let mut after = self.clone();
        let step = after.step(accounts, stream)?;
        let reply = match step.answer {
            Answer::Accepted { number } => soup::write_accepted(&self.session, number)?,
            Answer::Rejected { reason } => soup::write_rejected(reason)?,
            _ => vec![],
        };
        if reply.len() > room {
            return Err(41);
        }
        *self = after;
        Ok((step, reply))
    }

    fn answer_login(&mut self, verdict: Verdict, taken: usize) -> Step {
        let (state, answer) = match verdict.reply() {
            Reply::Accept(number) => (ServerState::In, Answer::Accepted { number }),
            Reply::Reject(reason) => (ServerState::Closed, Answer::Rejected { reason }),
        };
        self.state = state;
        Step {
            answer,
            taken,
            verdict: Some(verdict),
        }
    }
}

#[derive(Clone, Copy, Debug, PartialEq, Eq)]
pub enum ClientState {
    Asked,
    In,
    Ended,
    Closed,
}

#[derive(Clone, Debug, PartialEq, Eq)]
pub struct Client {
    /// What was asked for; from an accepted login on, the server's.
    pub session: Name,
    /// What was asked for; from an accepted login on, the number of the next message.
    pub number: u64,
    pub state: ClientState,
}

impl Client {
    pub fn start(session: Name, number: u64) -> Result<Client, Refusal> {
        if !text::is_session_or_blank(&session) {
            return Err(19);
        }
        let state = ClientState::Asked;
        Ok(Client {
            session,
            number,
            state,
        })
    }

    pub fn step(&mut self, stream: &[u8]) -> Result<Step, Refusal> {
        let Front::Packet { packet, size } = soup::read(stream, Sender::Server)? else {
            return Ok(NEED_MORE);
        };
        match (self.state, packet) {
            (ClientState::Ended | ClientState::Closed, _) => Err(32),
            (_, Packet::Debug { .. }) => Ok(took(Answer::Debug, size)),
            (ClientState::Asked, Packet::Accepted { session, number }) => {
                self.log_in(session, number)?;
                Ok(took(Answer::Accepted { number }, size))
            }
            (ClientState::Asked, Packet::Rejected { reason }) => {
                self.state = ClientState::Closed;
                Ok(took(Answer::Rejected { reason }, size))
            }
            (ClientState::In, Packet::Sequenced { length }) => {
                let number = self.number;
                self.number = number.checked_add(1).ok_or(34u32)?;
                let offset = PAYLOAD;
                let answer = Answer::Sequenced {
                    number,
                    offset,
                    length,
                };
                Ok(took(answer, size))
            }
            (ClientState::In, Packet::ServerHeartbeat) => Ok(took(Answer::PeerHeartbeat, size)),
            (ClientState::In, Packet::End) => {
                self.state = ClientState::Ended;
                Ok(took(Answer::SessionOver, size))
            }
            _ => Err(31),
        }
    }

    /// A must carry the asked session unless that was blank, and the asked number unless that was 0.
    fn log_in(&mut self, session: Name, number: u64) -> Result<(), Refusal> {
        let session_fits = text::is_blank(&self.session) || self.session == session;
        let number_fits = self.number == 0 || self.number == number;
        if !session_fits || !number_fits {
            return Err(33);
        }
        *self = Client {
            session,
            number,
            state: ClientState::In,
        };
        Ok(())
    }
}
