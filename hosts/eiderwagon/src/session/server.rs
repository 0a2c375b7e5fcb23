use super::{Accounts, Step};
use crate::call::{check, field, number, pointed, received, unknown};
use crate::soup::Reason;
use crate::{raw, Refusal, Session};
use std::fmt;

/// The server's end of one connection.
#[derive(PartialEq, Eq)]
pub struct Server {
    state: [u8; raw::SERVER_SIZE],
}

/// How far a server's end is.
#[derive(Clone, Copy, Debug, PartialEq, Eq)]
pub enum ServerState {
    /// It waits for a login.
    Waiting,
    /// The client is logged in.
    In,
    /// The login was rejected, or the client logged out.
    Closed,
}

/// What a server's end answers to a client's packet.
#[derive(Clone, Copy, Debug, PartialEq, Eq)]
#[non_exhaustive]
pub enum ServerAnswer<'a> {
    /// No whole packet yet: read on.
    NeedMore,
    /// The login is accepted: send the reply, and the messages from this number on.
    Accepted {
        /// The number of the next message.
        number: u64,
    },
    /// The login is rejected, and this end closed: send the reply, and hang up.
    Rejected(Reason),
    /// A message for the server's program.
    Unsequenced(&'a [u8]),
    /// The client is alive.
    Heartbeat,
    /// A debug packet, to be ignored.
    Debug,
    /// The client logs out, and this end is closed: hang up.
    LoggedOut,
}

/// One step of a server with the packet that it has to send.
#[derive(Clone, Copy, Debug, PartialEq, Eq)]
pub struct Replied<'a, 'o> {
    /// The step.
    pub step: Step<ServerAnswer<'a>>,
    /// What to send: a login accepted or rejected, as a part of the output, or no bytes where the
    /// answer isn't one of these.
    pub reply: &'o [u8],
}

impl Server {
    /// Starts a server's end. The session has letters or digits at its right; `last` is the highest
    /// message number, 0 if there is none, and at most 2^64 - 2.
    pub fn start(session: &Session, last: u64) -> Result<Self, Refusal> {
        let mut state = [0; raw::SERVER_SIZE];
        check(raw::server_start(session, last, &mut state))?;
        Ok(Server { state })
    }

    /// Moves the highest message number, as messages are added: a login looks at it. It is refused
    /// with 19 where the number would fall, or is above 2^64 - 2.
    pub fn set_last(&mut self, last: u64) -> Result<(), Refusal> {
        check(raw::server_set_last(&mut self.state, last))
    }

    /// Takes the packet at the front of the client's stream, and writes the reply to a login into
    /// `out`, for which [`raw::LARGEST_REPLY`] bytes are enough. Where they are too few, the login
    /// isn't taken: it is still in front.
    pub fn reply<'a, 'o>(
        &mut self,
        accounts: &Accounts<'_>,
        stream: &'a [u8],
        out: &'o mut [u8],
    ) -> Result<Replied<'a, 'o>, Refusal> {
        let (state, accounts) = (&mut self.state, accounts.as_bytes());
        let [what, size, value, length, _, written] =
            received(|words| raw::server_reply(state, accounts, stream, out, words))?;
        let step = step(stream, what, size, [value, length]);
        Ok(Replied { step, reply: &out[..written as usize] })
    }

    /// Takes the packet at the front of the client's stream, and writes nothing: what a login is to
    /// be replied is in the answer. [`reply`](Self::reply) writes it too.
    pub fn step<'a>(
        &mut self,
        accounts: &Accounts<'_>,
        stream: &'a [u8],
    ) -> Result<Step<ServerAnswer<'a>>, Refusal> {
        let [what, size, value, length, _] =
            received(|w| raw::server_step(&mut self.state, accounts.as_bytes(), stream, w))?;
        Ok(step(stream, what, size, [value, length]))
    }

    /// How far it is.
    pub fn state(&self) -> ServerState {
        let open = self.state[raw::SERVER_CODE_AT] == raw::SERVER_OPEN;
        match (open, self.state[raw::SERVER_PHASE_AT]) {
            (true, raw::SERVER_IN) => ServerState::In,
            (true, _) => ServerState::Waiting,
            (false, _) => ServerState::Closed,
        }
    }

    /// The session.
    pub fn session(&self) -> Session {
        field(&self.state, raw::SERVER_SESSION_AT)
    }

    /// The highest message number. No step moves it, and only a login looks at it;
    /// [`set_last`](Self::set_last) moves it as messages are added.
    pub fn last(&self) -> u64 {
        number(&self.state, raw::SERVER_LAST_AT)
    }

    /// The state's bytes, as `include/eiderwagon.h` lays them out.
    pub fn as_bytes(&self) -> &[u8; raw::SERVER_SIZE] {
        &self.state
    }
}

/// The words of a step, and the stream that it was taken from, as an answer.
fn step(stream: &[u8], what: u64, size: u64, [value, length]: [u64; 2]) -> Step<ServerAnswer<'_>> {
    let answer = match what {
        raw::SESSION_NEED_MORE => ServerAnswer::NeedMore,
        raw::SESSION_ACCEPTED => ServerAnswer::Accepted { number: value },
        raw::SESSION_REJECTED => ServerAnswer::Rejected(Reason::of(value)),
        raw::SESSION_UNSEQUENCED => ServerAnswer::Unsequenced(pointed(stream, value, length)),
        raw::SESSION_HEARTBEAT => ServerAnswer::Heartbeat,
        raw::SESSION_DEBUG => ServerAnswer::Debug,
        raw::SESSION_LOGGED_OUT => ServerAnswer::LoggedOut,
        other => unknown(other),
    };
    Step { answer, size: size as usize }
}

impl fmt::Debug for Server {
    fn fmt(&self, f: &mut fmt::Formatter<'_>) -> fmt::Result {
        f.debug_struct("Server")
            .field("state", &self.state())
            .field("session", &format_args!("\"{}\"", self.session().escape_ascii()))
            .field("last", &self.last())
            .finish()
    }
}
