//! The library and the yardstick at each packet: the same answer, the same end after it.

use super::fronts::{compare_fronts, FRONTS};
use super::in_words::{step_name, step_words};
use super::Drawn;
use crate::host::sessions as host;
use crate::soup::client::Client;
use crate::soup::from_client::FromClient;
use crate::soup::from_server::FromServer;
use crate::soup::server::Server;
use crate::soup::{Answer, Front, Refusal};
use crate::talks::{self, Talk};
use differential::random::Random;

pub const CLIENTS: &[&str] = &[
    "bad start",
    "more",
    "accepted",
    "rejected by A",
    "rejected by S",
    "sequenced",
    "heartbeat",
    "debug",
    "over",
    "21",
    "22",
    "23",
    "24",
    "25",
    "31",
    "32",
    "33",
    "34",
];
pub const SERVERS: &[&str] = &[
    "bad start",
    "more",
    "accepted",
    "rejected by A",
    "rejected by S",
    "unsequenced",
    "heartbeat",
    "debug",
    "logged out",
    "19",
    "21",
    "22",
    "23",
    "24",
    "25",
    "31",
    "32",
];

/// What was drawn at the fronts of streams, at clients and at servers.
pub struct Everything {
    pub fronts: Drawn,
    pub clients: Drawn,
    pub servers: Drawn,
}

impl Everything {
    /// Panics where an outcome was never drawn.
    pub fn assert_everything(&self) {
        for drawn in [&self.fronts, &self.clients, &self.servers] {
            drawn.assert_everything();
        }
    }
}

/// So many talks with each end. Panics at the first difference.
pub fn compare_talks(seed: u64, talks: usize) -> Everything {
    let random = &mut Random::new(seed, 0);
    let (mut fronts, mut clients, mut servers) =
        (Drawn::new(FRONTS), Drawn::new(CLIENTS), Drawn::new(SERVERS));
    for _ in 0..talks {
        let (client, server) = (talks::any_client(random), talks::any_server(random));
        for stream in &client.streams {
            compare_fronts::<FromServer>(stream, &mut fronts);
        }
        for stream in &server.streams {
            compare_fronts::<FromClient>(stream, &mut fronts);
        }
        compare_client(&client, &mut clients);
        compare_server(&server, &mut servers);
    }
    Everything {
        fronts,
        clients,
        servers,
    }
}

/// Goes through a stream, a packet at a time, until none is taken.
pub fn each_front<'a>(stream: &'a [u8], mut take: impl FnMut(&'a [u8]) -> Option<usize>) {
    let mut rest = stream;
    while let Some(size) = take(rest) {
        rest = &rest[size..];
    }
}

/// Starts a client and steps it through all streams with both. Panics at the first difference.
pub fn compare_client(talk: &Talk, drawn: &mut Drawn) {
    let started = host::Client::start(&talk.session, talk.number);
    let client = Client::start(talk.session, talk.number);
    let Some((mut host, mut client)) = both(started, client, drawn) else {
        return;
    };
    for stream in &talk.streams {
        each_front(stream, |rest| {
            let words = host.step(rest);
            let step = client.step(rest);
            assert_eq!(words, step_words(step, rest), "the client at {rest:?}");
            assert_eq!(host.session(), client.session(), "after {rest:?}");
            assert_eq!(host.number(), client.number(), "after {rest:?}");
            assert_eq!(host.phase(), client.phase(), "after {rest:?}");
            drawn.add(step_name(step));
            if let Ok(Some((Answer::Sequenced { .. }, _))) = step {
                drawn.messages += 1;
            }
            size(&step)
        });
    }
}

/// Starts a server and steps it through all streams with both. Panics at the first difference.
pub fn compare_server(talk: &Talk, drawn: &mut Drawn) {
    let started = host::Server::start(&talk.session, talk.number);
    let server = Server::start(talk.session, talk.number);
    let Some((mut host, mut server)) = both(started, server, drawn) else {
        return;
    };
    for stream in &talk.streams {
        each_front(stream, |rest| {
            let words = host.step(&talk.table, rest);
            let step = server.step(&talk.accounts, rest);
            assert_eq!(words, step_words(step, rest), "the server at {rest:?}");
            assert_eq!(host.session(), server.session(), "after {rest:?}");
            assert_eq!(host.last(), server.last(), "after {rest:?}");
            assert_eq!(host.phase(), server.phase(), "after {rest:?}");
            drawn.add(step_name(step));
            if let Ok(Some((Answer::Unsequenced { .. }, _))) = step {
                drawn.messages += 1;
            }
            size(&step)
        });
    }
}

/// Both are started, or both are refused by the same number.
fn both<A, B>(
    library: Result<A, u32>,
    rust: Result<B, Refusal>,
    drawn: &mut Drawn,
) -> Option<(A, B)> {
    match (library, rust) {
        (Ok(library), Ok(rust)) => Some((library, rust)),
        (library, rust) => {
            let rust = rust.err().map(|refusal| refusal as u32);
            assert_eq!(library.err(), rust, "a start");
            drawn.add("bad start".to_string());
            None
        }
    }
}

fn size<T>(taken: &Result<Front<T>, Refusal>) -> Option<usize> {
    let (_, size) = taken.as_ref().ok()?.as_ref()?;
    Some(*size)
}
