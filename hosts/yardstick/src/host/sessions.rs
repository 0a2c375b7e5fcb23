//! The library's sessions as a host calls them, through the wrapper's raw functions.

use crate::mold::Session;
use crate::soup::{client, server};
use eiderwagon::raw;

/// Both ends have as many words.
pub type StepWords = [u64; raw::CLIENT_STEP_WORDS];

pub struct Client {
    state: [u8; raw::CLIENT_SIZE],
}

impl Client {
    /// The code of a refusal, where the start is refused.
    pub fn start(session: &Session, number: u64) -> Result<Client, u32> {
        let mut state = [0; raw::CLIENT_SIZE];
        match raw::client_start(session, number, &mut state) {
            raw::OK => Ok(Client { state }),
            code => Err(code),
        }
    }

    /// The code, and the words, which a refusal leaves at 0.
    #[inline]
    pub fn step(&mut self, stream: &[u8]) -> (u32, StepWords) {
        let mut words = [0; raw::CLIENT_STEP_WORDS];
        let code = raw::client_step(&mut self.state, stream, &mut words);
        (code, words)
    }

    pub fn session(&self) -> &Session {
        part(&self.state, raw::CLIENT_SESSION_AT)
    }

    pub fn number(&self) -> u64 {
        u64::from_le_bytes(*part(&self.state, raw::CLIENT_NUMBER_AT))
    }

    pub fn phase(&self) -> client::Phase {
        let is_open = self.state[raw::CLIENT_CODE_AT] == raw::CLIENT_OPEN;
        match (is_open, self.state[raw::CLIENT_PHASE_AT]) {
            (true, raw::CLIENT_IN) => client::Phase::In,
            (true, _) => client::Phase::Asked,
            (false, raw::CLIENT_ENDED) => client::Phase::Ended,
            (false, _) => client::Phase::Closed,
        }
    }
}

#[derive(Clone, Copy)]
pub struct Server {
    state: [u8; raw::SERVER_SIZE],
}

impl Server {
    /// The code of a refusal, where the start is refused.
    pub fn start(session: &Session, last: u64) -> Result<Server, u32> {
        let mut state = [0; raw::SERVER_SIZE];
        match raw::server_start(session, last, &mut state) {
            raw::OK => Ok(Server { state }),
            code => Err(code),
        }
    }

    /// The code, and the words, which a refusal leaves at 0.
    #[inline]
    pub fn step(&mut self, accounts: &[u8], stream: &[u8]) -> (u32, StepWords) {
        let mut words = [0; raw::SERVER_STEP_WORDS];
        let code = raw::server_step(&mut self.state, accounts, stream, &mut words);
        (code, words)
    }

    pub fn session(&self) -> &Session {
        part(&self.state, raw::SERVER_SESSION_AT)
    }

    pub fn last(&self) -> u64 {
        u64::from_le_bytes(*part(&self.state, raw::SERVER_LAST_AT))
    }

    pub fn phase(&self) -> server::Phase {
        let is_open = self.state[raw::SERVER_CODE_AT] == raw::SERVER_OPEN;
        match (is_open, self.state[raw::SERVER_PHASE_AT]) {
            (true, raw::SERVER_IN) => server::Phase::In,
            (true, _) => server::Phase::Waiting,
            (false, _) => server::Phase::Closed,
        }
    }
}

fn part<const N: usize>(state: &[u8], at: usize) -> &[u8; N] {
    state[at..].first_chunk().expect("the state has the part")
}
