//! The functions of both ends of a SoupBinTCP session.

use super::soup::bad_field;
use super::{grounds, name, refusal_name, Expected};
use crate::call::Call;
use crate::layout;
use crate::reference::login::Verdict;
use crate::reference::session::{Answer, Client, ClientState, Server, ServerState, Step};

pub fn answer(call: &Call, state: &[u8]) -> Option<Expected> {
    Some(match *call {
        Call::ServerStart { session, last } => match Server::start(name(session), last) {
            Ok(server) => Expected::answer("started").state(layout::server_bytes(&server)),
            Err(refusal) => Expected::refusal(refusal),
        },
        Call::ServerSetLast { last } => set_last(state, last),
        Call::ServerStep { accounts, stream } => server_step(state, accounts, stream),
        Call::ServerReply { accounts, stream } => server_reply(state, accounts, stream),
        Call::ClientStart { session, number } => match Client::start(name(session), number) {
            Ok(client) => Expected::answer("started").state(layout::client_bytes(&client)),
            Err(refusal) => Expected::refusal(refusal),
        },
        Call::ClientStep { stream } => client_step(state, stream),
        _ => return None,
    })
}

fn set_last(state: &[u8], last: u64) -> Expected {
    let mut server = layout::server(state);
    let falls = last < server.last;
    let Err(refusal) = server.set_last(last) else {
        return Expected::answer("moved").state(layout::server_bytes(&server));
    };
    let mut refused = Expected::refusal(refusal);
    refused.outcome = if falls {
        grounds::LAST_FALLS
    } else {
        grounds::LAST_TOO_HIGH
    };
    refused
}

fn server_step(state: &[u8], accounts: &[u8], stream: &[u8]) -> Expected {
    let mut server = layout::server(state);
    let from = server.state;
    let step = server.step(&layout::accounts(accounts), stream);
    let outcome = server_outcome(from, &step, stream);
    step_answer(step, outcome, layout::server_bytes(&server))
}

/// A step, its reply, and how many bytes that has.
fn server_reply(state: &[u8], accounts: &[u8], stream: &[u8]) -> Expected {
    let mut server = layout::server(state);
    let from = server.state;
    let replied = server.reply(&layout::accounts(accounts), stream, usize::MAX);
    let (step, reply) = match replied {
        Ok((step, reply)) => (Ok(step), reply),
        Err(refusal) => (Err(refusal), vec![]),
    };
    let outcome = server_outcome(from, &step, stream);
    let refused = step.is_err();
    let mut expected = step_answer(step, outcome, layout::server_bytes(&server));
    if !refused {
        expected.words.push(reply.len() as u64);
        expected.out = reply;
    }
    expected
}

fn client_step(state: &[u8], stream: &[u8]) -> Expected {
    let mut client = layout::client(state);
    let from = client.state;
    let step = client.step(stream);
    let outcome = client_outcome(from, &step, stream);
    step_answer(step, outcome, layout::client_bytes(&client))
}

/// A step's words, and its state afterwards in the one form that the header gives. Where more is needed no byte
/// changes, also of a state that was made by hand.
fn step_answer(step: Result<Step, u32>, outcome: &'static str, state: Vec<u8>) -> Expected {
    let step = match step {
        Ok(step) => step,
        Err(refusal) => {
            let mut expected = Expected::refusal(refusal);
            expected.outcome = outcome;
            return expected;
        }
    };
    let (kind, values) = match step.answer {
        Answer::NeedMore => (0, [0; 3]),
        Answer::Accepted { number } => (1, [number, 0, 0]),
        Answer::Rejected { reason } => (2, [u64::from(reason), 0, 0]),
        Answer::Sequenced {
            number,
            offset,
            length,
        } => (3, [number, offset as u64, length as u64]),
        Answer::Unsequenced { offset, length } => (4, [offset as u64, length as u64, 0]),
        Answer::PeerHeartbeat => (5, [0; 3]),
        Answer::Debug => (6, [0; 3]),
        Answer::LoggedOut => (7, [0; 3]),
        Answer::SessionOver => (8, [0; 3]),
    };
    let words = [kind, step.taken as u64, values[0], values[1], values[2]];
    let answer = Expected::answer(outcome).words(&words);
    if step.answer == Answer::NeedMore {
        return answer;
    }
    answer.state(state)
}

/// The cell of the table of states and packets that a step met, or what came before the table.
fn server_outcome(state: ServerState, step: &Result<Step, u32>, stream: &[u8]) -> &'static str {
    use ServerState::{Closed, In, Waiting};
    match step {
        Err(31 | 32) => {}
        Err(25) => return bad_field(stream),
        Err(refusal) => return refusal_name(*refusal),
        Ok(step) if step.answer == Answer::NeedMore => {
            return match state {
                Waiting => "waiting, need more",
                In => "in, need more",
                Closed => "closed, need more",
            }
        }
        Ok(step) => {
            if let Some(verdict) = step.verdict {
                return verdict_name(verdict);
            }
        }
    }
    match (state, stream[2]) {
        (Waiting, b'+') => "waiting, +",
        (Waiting, b'U') => "31 waiting, U",
        (Waiting, b'R') => "31 waiting, R",
        (Waiting, b'O') => "31 waiting, O",
        (In, b'L') => "31 in, L",
        (In, b'U') => "in, U",
        (In, b'R') => "in, R",
        (In, b'+') => "in, +",
        (In, b'O') => "in, O",
        (Closed, b'L') => "32 closed, L",
        (Closed, b'U') => "32 closed, U",
        (Closed, b'R') => "32 closed, R",
        (Closed, b'+') => "32 closed, +",
        (Closed, b'O') => "32 closed, O",
        (state, letter) => unreachable!("{state:?} met letter {letter}"),
    }
}

fn verdict_name(verdict: Verdict) -> &'static str {
    match verdict {
        Verdict::GrantedLatest(_) => "A, the latest",
        Verdict::GrantedAsked(_) => "A, as asked",
        Verdict::EntryUnsound => "J with A, unsound entry",
        Verdict::NoRecord => "J with A, no record",
        Verdict::OtherPassword => "J with A, another password",
        Verdict::OtherSession => "J with S, another session",
        Verdict::NumberTooHigh => "J with S, number too high",
    }
}

fn client_outcome(state: ClientState, step: &Result<Step, u32>, stream: &[u8]) -> &'static str {
    use ClientState::{Asked, Closed, Ended, In};
    match step {
        Err(31 | 32) => {}
        Err(25) => return bad_field(stream),
        Err(refusal) => return refusal_name(*refusal),
        Ok(step) if step.answer == Answer::NeedMore => {
            return match state {
                Asked => "asked, need more",
                In => "in, need more",
                Ended => "ended, need more",
                Closed => "closed, need more",
            }
        }
        Ok(_) => {}
    }
    match (state, stream[2]) {
        (Asked, b'A') => "asked, A",
        (Asked, b'J') => "asked, J",
        (Asked, b'+') => "asked, +",
        (Asked, b'S') => "31 asked, S",
        (Asked, b'H') => "31 asked, H",
        (Asked, b'Z') => "31 asked, Z",
        (In, b'A') => "31 in, A",
        (In, b'J') => "31 in, J",
        (In, b'+') => "in, +",
        (In, b'S') => "in, S",
        (In, b'H') => "in, H",
        (In, b'Z') => "in, Z",
        (Ended, b'A') => "32 ended, A",
        (Ended, b'J') => "32 ended, J",
        (Ended, b'+') => "32 ended, +",
        (Ended, b'S') => "32 ended, S",
        (Ended, b'H') => "32 ended, H",
        (Ended, b'Z') => "32 ended, Z",
        (Closed, b'A') => "32 closed, A",
        (Closed, b'J') => "32 closed, J",
        (Closed, b'+') => "32 closed, +",
        (Closed, b'S') => "32 closed, S",
        (Closed, b'H') => "32 closed, H",
        (Closed, b'Z') => "32 closed, Z",
        (state, letter) => unreachable!("{state:?} met letter {letter}"),
    }
}
