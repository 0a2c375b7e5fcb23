//! `eiderwagon::session`.

use super::soup::reason;
use super::{front, numbered, reach, same, same_state};
use crate::call::Call;
use crate::compare::Expected;
use crate::layout;
use crate::reference::session as reference;
use crate::reference::session::Answer;
use eiderwagon::session::{
    Accounts, Client, ClientAnswer, ClientState, Replied, Server, ServerAnswer, ServerState, Step,
};

pub fn difference(
    call: &Call,
    state: &[u8],
    expected: &Expected,
    out: &mut [u8],
) -> Option<String> {
    match *call {
        Call::ServerStart { session, last } => {
            let session = front(session);
            let typed = Server::start(&session, last).map(|server| of_server(&server));
            let wanted = reference::Server::start(session, last);
            same("server", numbered(typed), wanted)
        }
        Call::ServerSetLast { last } => set_last(&front(state), last, expected),
        Call::ServerStep { accounts, stream } => {
            server_step(&front(state), accounts, stream, expected)
        }
        Call::ServerReply { accounts, stream } => {
            server_reply(&front(state), accounts, stream, expected, out)
        }
        Call::ClientStart { session, number } => {
            let session = front(session);
            let typed = Client::start(&session, number).map(|client| of_client(&client));
            let wanted = reference::Client::start(session, number);
            same("client", numbered(typed), wanted)
        }
        Call::ClientStep { stream } => client_step(&front(state), stream, expected),
        _ => None,
    }
}

fn of_server(server: &Server) -> reference::Server {
    reference::Server {
        session: server.session(),
        last: server.last(),
        state: match server.state() {
            ServerState::Waiting => reference::ServerState::Waiting,
            ServerState::In => reference::ServerState::In,
            ServerState::Closed => reference::ServerState::Closed,
        },
    }
}

fn of_client(client: &Client) -> reference::Client {
    reference::Client {
        session: client.session(),
        number: client.number(),
        state: match client.state() {
            ClientState::Asked => reference::ClientState::Asked,
            ClientState::In => reference::ClientState::In,
            ClientState::Ended => reference::ClientState::Ended,
            ClientState::Closed => reference::ClientState::Closed,
        },
    }
}

fn set_last(state: &[u8; layout::SERVER], last: u64, expected: &Expected) -> Option<String> {
    let mut server = reach::server(state)?;
    let mut wanted = layout::server(state);
    same(
        "last",
        numbered(server.set_last(last)),
        wanted.set_last(last),
    )
    .or_else(|| same("server", of_server(&server), wanted))
    .or_else(|| same_state(expected, state, server.as_bytes()))
}

fn server_step(
    state: &[u8; layout::SERVER],
    accounts: &[u8],
    stream: &[u8],
    expected: &Expected,
) -> Option<String> {
    let mut server = reach::server(state)?;
    let mut wanted = layout::server(state);
    let step = wanted.step(&layout::accounts(accounts), stream);
    let typed = numbered(server.step(&Accounts::from_bytes(accounts), stream));
    same("step", typed, step.map(|step| typed_step(&step, stream)))
        .or_else(|| same("server", of_server(&server), wanted))
        .or_else(|| same_state(expected, state, server.as_bytes()))
}

fn server_reply(
    state: &[u8; layout::SERVER],
    accounts: &[u8],
    stream: &[u8],
    expected: &Expected,
    out: &mut [u8],
) -> Option<String> {
    let mut server = reach::server(state)?;
    let mut wanted = layout::server(state);
    let replied = wanted.reply(&layout::accounts(accounts), stream, out.len());
    let typed = server.reply(&Accounts::from_bytes(accounts), stream, out);
    let typed = numbered(typed).map(|Replied { step, reply }| (step, reply.to_vec()));
    let replied = replied.map(|(step, reply)| (typed_step(&step, stream), reply));
    same("reply", typed, replied)
        .or_else(|| same("server", of_server(&server), wanted))
        .or_else(|| same_state(expected, state, server.as_bytes()))
}

fn typed_step<'a>(step: &reference::Step, stream: &'a [u8]) -> Step<ServerAnswer<'a>> {
    Step {
        answer: server_answer(&step.answer, stream),
        size: step.taken,
    }
}

fn server_answer<'a>(answer: &Answer, stream: &'a [u8]) -> ServerAnswer<'a> {
    match *answer {
        Answer::NeedMore => ServerAnswer::NeedMore,
        Answer::Accepted { number } => ServerAnswer::Accepted { number },
        Answer::Rejected { reason: letter } => {
            ServerAnswer::Rejected(reason(letter).expect("A or S"))
        }
        Answer::Unsequenced { offset, length } => {
            ServerAnswer::Unsequenced(&stream[offset..offset + length])
        }
        Answer::PeerHeartbeat => ServerAnswer::Heartbeat,
        Answer::Debug => ServerAnswer::Debug,
        Answer::LoggedOut => ServerAnswer::LoggedOut,
        Answer::Sequenced { .. } | Answer::SessionOver => unreachable!("a client's answer"),
    }
}

fn client_step(state: &[u8; layout::CLIENT], stream: &[u8], expected: &Expected) -> Option<String> {
    let mut client = reach::client(state)?;
    let mut wanted = layout::client(state);
    let step = wanted.step(stream).map(|step| Step {
        answer: client_answer(&step.answer, stream),
        size: step.taken,
    });
    same("step", numbered(client.step(stream)), step)
        .or_else(|| same("client", of_client(&client), wanted))
        .or_else(|| same_state(expected, state, client.as_bytes()))
}

fn client_answer<'a>(answer: &Answer, stream: &'a [u8]) -> ClientAnswer<'a> {
    match *answer {
        Answer::NeedMore => ClientAnswer::NeedMore,
        Answer::Accepted { number } => ClientAnswer::Accepted { number },
        Answer::Rejected { reason: letter } => {
            ClientAnswer::Rejected(reason(letter).expect("A or S"))
        }
        Answer::Sequenced {
            number,
            offset,
            length,
        } => ClientAnswer::Sequenced {
            number,
            message: &stream[offset..offset + length],
        },
        Answer::PeerHeartbeat => ClientAnswer::Heartbeat,
        Answer::Debug => ClientAnswer::Debug,
        Answer::SessionOver => ClientAnswer::SessionOver,
        Answer::Unsequenced { .. } | Answer::LoggedOut => unreachable!("a server's answer"),
    }
}
