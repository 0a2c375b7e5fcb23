use super::Step;
use crate::call::{check, field, number, pointed, received, unknown};
use crate::soup::Reason;
use crate::{raw, Refusal, Session};
use std::fmt;

/// The client's end of one connection.
#[derive(PartialEq, Eq)]
pub struct Client {
    state: [u8; raw::CLIENT_SIZE],
}

/// How far a client's end is.
#[derive(Clone, Copy, Debug, PartialEq, Eq)]
pub enum ClientState {
    /// It asks for a login.
    Asked,
    /// It is logged in.
    In,
    /// The server ended the session.
    Ended,
    /// The login was rejected.
    Closed,
}

/// What a client's end answers to a server's packet.
#[derive(Clone, Copy, Debug, PartialEq, Eq)]
#[non_exhaustive]
pub enum ClientAnswer<'a> {
    /// No whole packet yet: read on.
    NeedMore,
    /// The login is accepted.
    Accepted {
        /// The number of the next message.
        number: u64,
    },
    /// The login is rejected, and this end closed.
    Rejected(Reason),
    /// A message for the client's program.
    Sequenced {
        /// Its number.
        number: u64,
        /// The message, as a part of the stream.
        message: &'a [u8],
    },
    /// The server is alive.
    Heartbeat,
    /// A debug packet, to be ignored.
    Debug,
    /// The server ends the session.
    SessionOver,
}

impl Client {
    /// Starts a client's end with what its login request asks for: a session, all spaces for any,
    /// and the number of the next message wanted, 0 for the most recent one.
    pub fn start(session: &Session, number: u64) -> Result<Self, Refusal> {
        let mut state = [0; raw::CLIENT_SIZE];
        check(raw::client_start(session, number, &mut state))?;
        Ok(Client { state })
    }

    /// Takes the packet at the front of the server's stream.
    pub fn step<'a>(&mut self, stream: &'a [u8]) -> Result<Step<ClientAnswer<'a>>, Refusal> {
        let [what, size, value, offset, length] =
            received(|words| raw::client_step(&mut self.state, stream, words))?;
        let answer = match what {
            raw::SESSION_NEED_MORE => ClientAnswer::NeedMore,
            raw::SESSION_ACCEPTED => ClientAnswer::Accepted { number: value },
            raw::SESSION_REJECTED => ClientAnswer::Rejected(Reason::of(value)),
            raw::SESSION_SEQUENCED => {
                ClientAnswer::Sequenced { number: value, message: pointed(stream, offset, length) }
            }
            raw::SESSION_HEARTBEAT => ClientAnswer::Heartbeat,
            raw::SESSION_DEBUG => ClientAnswer::Debug,
            raw::SESSION_OVER => ClientAnswer::SessionOver,
            other => unknown(other),
        };
        Ok(Step { answer, size: size as usize })
    }

    /// How far it is.
    pub fn state(&self) -> ClientState {
        let open = self.state[raw::CLIENT_CODE_AT] == raw::CLIENT_OPEN;
        match (open, self.state[raw::CLIENT_PHASE_AT]) {
            (true, raw::CLIENT_IN) => ClientState::In,
            (true, _) => ClientState::Asked,
            (false, raw::CLIENT_ENDED) => ClientState::Ended,
            (false, _) => ClientState::Closed,
        }
    }

    /// The session: the one asked for, and from an accepted login on the server's.
    pub fn session(&self) -> Session {
        field(&self.state, raw::CLIENT_SESSION_AT)
    }

    /// The number: the one asked for, and from an accepted login on that of the next message.
    pub fn number(&self) -> u64 {
        number(&self.state, raw::CLIENT_NUMBER_AT)
    }

    /// The state's bytes, as `include/eiderwagon.h` lays them out.
    pub fn as_bytes(&self) -> &[u8; raw::CLIENT_SIZE] {
        &self.state
    }
}

impl fmt::Debug for Client {
    fn fmt(&self, f: &mut fmt::Formatter<'_>) -> fmt::Result {
        f.debug_struct("Client")
            .field("state", &self.state())
            .field("session", &format_args!("\"{}\"", self.session().escape_ascii()))
            .field("number", &self.number())
            .finish()
    }
}
