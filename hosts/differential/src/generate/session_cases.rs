//! Single calls of both ends of a SoupBinTCP session: states started, made by hand, and of random bytes.

use super::{accounts, bytes, lend, soup};
use crate::call::Call;
use crate::layout;
use crate::random::Random;
use crate::reference::session::{Client, ClientState, Server, ServerState};
use crate::reference::Name;
use crate::run::Run;

pub fn server(run: &mut Run, random: &mut Random) {
    let session = soup::session(random);
    let last = bytes::number(random);
    let lent = bytes::lent_name(random, &session);
    let call = Call::ServerStart {
        session: &lent,
        last,
    };
    lend::single(run, random, &call, None);
    for _ in 0..6 {
        // A session that no start takes is one of a state made by hand.
        let session = if random.one_in(12) {
            soup::session(random)
        } else {
            soup::good_session(random)
        };
        let server = Server {
            session,
            last,
            state: random.pick(&[
                ServerState::Waiting,
                ServerState::Waiting,
                ServerState::In,
                ServerState::Closed,
            ]),
        };
        server_step(run, random, &server);
    }
}

fn server_step(run: &mut Run, random: &mut Random, server: &Server) {
    let accounts = accounts::table(random);
    let stream = if random.one_in(2) {
        let login = login_at(random, &accounts, server);
        soup::stream(random, login)
    } else {
        soup::any_stream(random, true)
    };
    let state = by_hand(random, layout::server_bytes(server));
    let (accounts, stream) = (accounts.as_slice(), stream.as_slice());
    let step = Call::ServerStep { accounts, stream };
    lend::single(run, random, &step, state.as_deref());
    let reply = Call::ServerReply { accounts, stream };
    lend::single(run, random, &reply, state.as_deref());
    if let Some(state) = state {
        set_last(run, random, &state);
        reply_is_a_step_and_a_writer(run, random, &state, accounts, stream);
    }
}

fn set_last(run: &mut Run, random: &mut Random, state: &[u8]) {
    let last = match random.below(4) {
        0 => bytes::number(random),
        _ => bytes::near(random, layout::server(state).last),
    };
    lend::single(run, random, &Call::ServerSetLast { last }, Some(state));
}

/// The step that writes its reply answers as the step alone does, and leaves the same state; what it writes is what the
/// writer does.
fn reply_is_a_step_and_a_writer(
    run: &mut Run,
    random: &mut Random,
    state: &[u8],
    accounts: &[u8],
    stream: &[u8],
) {
    let (mut by_step, mut by_reply) = (state.to_vec(), state.to_vec());
    let step = Call::ServerStep { accounts, stream };
    let (code, stepped) = lend::chained(run, random, &step, &mut by_step);
    let reply = Call::ServerReply { accounts, stream };
    let (reply_code, replied) = lend::chained(run, random, &reply, &mut by_reply);
    if code != 0 {
        if reply_code != code {
            run.fail("a reply is refused on another ground than its step");
        }
        return;
    }
    let session = layout::server(state).session;
    let writer = match stepped.words[0] {
        1 => Call::SoupWriteAccepted {
            session: &session,
            number: stepped.words[2],
        },
        2 => Call::SoupWriteRejected {
            reason: stepped.words[2] as u8,
        },
        _ => {
            let alike = reply_code == 0 && by_reply == by_step && replied.words[5] == 0;
            if !alike || replied.words[..5] != stepped.words[..5] {
                run.fail("a reply to no login is another step");
            }
            return;
        }
    };
    let (written, lent) = lend::chained(run, random, &writer, &mut vec![]);
    let alike = match reply_code {
        0 => {
            let size = replied.words[5] as usize;
            written == 0
                && by_reply == by_step
                && replied.words[..5] == stepped.words[..5]
                && replied.out[..size] == lent.out[..lent.words[0] as usize]
        }
        refused => written == refused && by_reply == state,
    };
    if !alike {
        run.fail("a reply isn't its step and what the writer writes");
    }
}

/// A login that comes close to being accepted at this server.
pub fn login_at(random: &mut Random, accounts: &[u8], server: &Server) -> Vec<u8> {
    let entry = accounts::entry(random, accounts);
    let session = match random.below(8) {
        0..4 => server.session,
        4..7 => *b"          ",
        _ => soup::session(random),
    };
    let number = match random.below(8) {
        0..2 => 0,
        2..6 => bytes::near(random, server.last),
        6 => random.below(3) as u64,
        _ => bytes::number(random),
    };
    soup::login(random, &entry, &session, number)
}

/// A state as it is, or with bytes made by hand, or none: then random bytes stand for it.
fn by_hand(random: &mut Random, mut state: Vec<u8>) -> Option<Vec<u8>> {
    bytes::by_hand(random, &mut state, Some(layout::PHASE));
    (!random.one_in(24)).then_some(state)
}

pub fn client(run: &mut Run, random: &mut Random) {
    let session = soup::session(random);
    let number = bytes::number(random);
    let lent = bytes::lent_name(random, &session);
    let call = Call::ClientStart {
        session: &lent,
        number,
    };
    lend::single(run, random, &call, None);
    for _ in 0..6 {
        let client = Client {
            session: any_asked(random),
            number,
            state: random.pick(&[
                ClientState::Asked,
                ClientState::Asked,
                ClientState::In,
                ClientState::In,
                ClientState::Ended,
                ClientState::Closed,
            ]),
        };
        client_step(run, random, &client);
    }
}

fn any_asked(random: &mut Random) -> Name {
    if random.one_in(3) {
        *b"          "
    } else {
        soup::good_session(random)
    }
}

fn client_step(run: &mut Run, random: &mut Random, client: &Client) {
    let stream = if random.one_in(3) {
        let accepted = accepted_for(random, client);
        soup::stream(random, accepted)
    } else {
        soup::any_stream(random, false)
    };
    let state = by_hand(random, layout::client_bytes(client));
    let call = Call::ClientStep { stream: &stream };
    lend::single(run, random, &call, state.as_deref());
}

/// A login accepted that carries what this client asked for, or nearly.
fn accepted_for(random: &mut Random, client: &Client) -> Vec<u8> {
    let session = match random.below(6) {
        0 => soup::session(random),
        _ if client.session == *b"          " => soup::good_session(random),
        _ => client.session,
    };
    let number = match random.below(6) {
        0 => bytes::near(random, client.number),
        1 => bytes::number(random),
        _ => client.number.max(1),
    };
    soup::accepted(random, &session, number)
}
