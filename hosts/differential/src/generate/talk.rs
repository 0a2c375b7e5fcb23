//! A whole session between two ends: the login, then packets both ways, streams cut into pieces, now and then damaged.

use super::{accounts, bytes, lend, session_cases, soup};
use crate::call::Call;
use crate::layout;
use crate::random::Random;
use crate::reference::session::ServerState;
use crate::reference::Name;
use crate::run::Run;

/// One end with the bytes that came for it and weren't taken yet.
struct End {
    state: Vec<u8>,
    stream: Vec<u8>,
}

struct Talk {
    accounts: Vec<u8>,
    session: Name,
    server: End,
    client: End,
}

pub fn case(run: &mut Run, random: &mut Random) {
    let mut talk = start(run, random);
    talk.log_in(run, random);
    for _ in 0..random.between(3, 25) {
        talk.send_to_client(run, random);
        talk.send_to_server(run, random);
        talk.take(run, random);
    }
}

fn start(run: &mut Run, random: &mut Random) -> Talk {
    let session = soup::good_session(random);
    let last = random.pick(&[0, 1, 5, 100, u64::MAX - 3, u64::MAX - 2, u64::MAX - 1]);
    let asked_session = random.pick(&[session, *b"          "]);
    let asked = match random.below(4) {
        0 => 0,
        1 => bytes::near(random, last),
        _ => last + 1,
    };
    let server = Call::ServerStart {
        session: &session,
        last,
    };
    let client = Call::ClientStart {
        session: &asked_session,
        number: asked,
    };
    let mut talk = Talk {
        accounts: accounts::table(random),
        session,
        server: End::new(layout::SERVER),
        client: End::new(layout::CLIENT),
    };
    lend::chained(run, random, &server, &mut talk.server.state);
    lend::chained(run, random, &client, &mut talk.client.state);
    talk
}

/// The bytes that a writer wrote; none where it refused.
fn written(run: &mut Run, random: &mut Random, call: &Call) -> Vec<u8> {
    let (code, lent) = lend::chained(run, random, call, &mut vec![]);
    if code != 0 {
        return vec![];
    }
    lent.out[..lent.words[0] as usize].to_vec()
}

impl End {
    fn new(size: usize) -> End {
        End {
            state: vec![0; size],
            stream: vec![],
        }
    }
}

impl Talk {
    /// The client asks with what its state holds.
    fn log_in(&mut self, run: &mut Run, random: &mut Random) {
        let entry = accounts::entry(random, &self.accounts);
        let asked = layout::client(&self.client.state);
        let call = Call::SoupWriteLogin {
            username: &entry.0,
            password: &entry.1,
            session: &asked.session,
            number: asked.number,
        };
        let mut login = written(run, random, &call);
        if login.is_empty() || random.one_in(8) {
            let server = layout::server(&self.server.state);
            login = session_cases::login_at(random, &self.accounts, &server);
        }
        self.server.stream.extend(login);
    }

    fn send_to_server(&mut self, run: &mut Run, random: &mut Random) {
        let payload = soup::payload(random);
        let payload = payload.as_slice();
        let sent = match random.below(40) {
            0..8 => written(run, random, &Call::SoupWriteUnsequenced { payload }),
            8..14 => written(run, random, &Call::SoupWriteClientHeartbeat),
            14..17 => written(run, random, &Call::SoupWriteDebug { payload }),
            17 => written(run, random, &Call::SoupWriteLogout),
            18 => soup::any_stream(random, true),
            _ => vec![],
        };
        self.server.stream.extend(sent);
    }

    fn send_to_client(&mut self, run: &mut Run, random: &mut Random) {
        let payload = soup::payload(random);
        let payload = payload.as_slice();
        let sent = match random.below(40) {
            0..14 => written(run, random, &Call::SoupWriteSequenced { payload }),
            14..20 => written(run, random, &Call::SoupWriteServerHeartbeat),
            20..23 => written(run, random, &Call::SoupWriteDebug { payload }),
            23 => written(run, random, &Call::SoupWriteEnd),
            24 => soup::any_stream(random, false),
            _ => vec![],
        };
        // A server sends nothing before it has answered the login, but for a mistake now and then.
        if layout::server(&self.server.state).state != ServerState::Waiting || random.one_in(20) {
            self.client.stream.extend(sent);
        }
    }

    /// Both ends take a packet each; a stream that is refused is thrown away, as a host would hang up.
    fn take(&mut self, run: &mut Run, random: &mut Random) {
        self.server_takes(run, random);
        self.client_takes(run, random);
    }

    fn server_takes(&mut self, run: &mut Run, random: &mut Random) {
        if random.one_in(8) {
            self.add_messages(run, random);
        }
        let there = self.server.stream.len();
        let size = if random.one_in(3) {
            random.below(there + 1)
        } else {
            there
        };
        if random.one_in(2) {
            return self.server_replies(run, random, size);
        }
        let call = Call::ServerStep {
            accounts: &self.accounts,
            stream: &self.server.stream[..size],
        };
        let (code, lent) = lend::chained(run, random, &call, &mut self.server.state);
        if code != 0 {
            self.server.stream.clear();
            return;
        }
        self.server.stream.drain(..lent.words[1] as usize);
        let answer = match lent.words[0] {
            1 => Call::SoupWriteAccepted {
                session: &self.session,
                number: lent.words[2],
            },
            2 => Call::SoupWriteRejected {
                reason: lent.words[2] as u8,
            },
            _ => return,
        };
        let answer = written(run, random, &answer);
        if answer.is_empty() {
            run.fail("a server answered what can't be written");
        }
        self.client.stream.extend(answer);
    }

    /// The same by the step that writes its reply.
    fn server_replies(&mut self, run: &mut Run, random: &mut Random, size: usize) {
        let call = Call::ServerReply {
            accounts: &self.accounts,
            stream: &self.server.stream[..size],
        };
        let (code, lent) = lend::chained(run, random, &call, &mut self.server.state);
        if code != 0 {
            self.server.stream.clear();
            return;
        }
        self.server.stream.drain(..lent.words[1] as usize);
        let reply = &lent.out[..lent.words[5] as usize];
        self.client.stream.extend(reply);
    }

    /// The server's last number rises, also while its client is in.
    fn add_messages(&mut self, run: &mut Run, random: &mut Random) {
        let last = layout::server(&self.server.state).last;
        let last = bytes::near(random, last);
        let call = Call::ServerSetLast { last };
        lend::chained(run, random, &call, &mut self.server.state);
    }

    fn client_takes(&mut self, run: &mut Run, random: &mut Random) {
        let there = self.client.stream.len();
        let size = if random.one_in(3) {
            random.below(there + 1)
        } else {
            there
        };
        let call = Call::ClientStep {
            stream: &self.client.stream[..size],
        };
        let (code, lent) = lend::chained(run, random, &call, &mut self.client.state);
        if code != 0 {
            self.client.stream.clear();
            return;
        }
        self.client.stream.drain(..lent.words[1] as usize);
    }
}
