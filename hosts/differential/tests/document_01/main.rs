//! Document 01's own examples and table rows, and the rules of orders 6 and 11, with the values that stand there: of
//! the reference, and of the library.

mod captures;
mod datagrams;
mod early;
mod login;
mod missing;
mod packets;
mod receiver;
mod sessions;
mod states;

use differential::call::{Call, Lent};
use differential::library::{Archive, Library};
use differential::stand_in::StandIn;

const NAME: &[u8; 10] = b"READROOM01";
const TOP: u64 = u64::MAX;

struct Answer {
    code: u32,
    words: [u64; 7],
    out: Vec<u8>,
    state: Vec<u8>,
    places: Vec<u64>,
    slots: Vec<u8>,
    edges: Vec<u64>,
}

fn lent(state: &[u8]) -> Lent {
    Lent {
        words: vec![0; 7],
        out: vec![0; 70_000],
        state: state.to_vec(),
        places: vec![7; 8],
        slots: vec![7; 65_536],
        edges: vec![7; 8_193],
    }
}

/// Asks both, who have to agree.
fn ask(call: &Call, state: &[u8]) -> Answer {
    ask_with(call, lent(state))
}

/// The same with these buffers.
fn ask_with(call: &Call, lent: Lent) -> Answer {
    let mut by_reference = lent.clone();
    let mut by_library = lent;
    let code = StandIn.call(call, &mut by_reference);
    let library_code = Archive.call(call, &mut by_library);
    let agree = library_code == code && by_library == by_reference;
    assert!(
        agree,
        "{call}reference {code}:\n{by_reference}library {library_code}:\n{by_library}"
    );
    Answer {
        code,
        words: std::array::from_fn(|at| by_library.words.get(at).copied().unwrap_or(0)),
        out: by_library.out,
        state: by_library.state,
        places: by_library.places,
        slots: by_library.slots,
        edges: by_library.edges,
    }
}

/// The code and the first words of an answer.
fn words<const N: usize>(answer: &Answer) -> (u32, [u64; N]) {
    (answer.code, answer.words[..N].try_into().expect("N words"))
}

fn header(number: u64, count: u16) -> Vec<u8> {
    let mut bytes = NAME.to_vec();
    bytes.extend(number.to_be_bytes());
    bytes.extend(count.to_be_bytes());
    bytes
}

fn data(number: u64, messages: &[&[u8]]) -> Vec<u8> {
    let mut bytes = header(number, messages.len() as u16);
    for message in messages {
        bytes.extend((message.len() as u16).to_be_bytes());
        bytes.extend(*message);
    }
    bytes
}

fn heartbeat(number: u64) -> Vec<u8> {
    header(number, 0)
}

fn end(number: u64) -> Vec<u8> {
    header(number, 65_535)
}

fn packet(letter: u8, payload: &[u8]) -> Vec<u8> {
    let length = 1 + payload.len() as u16;
    [&length.to_be_bytes()[..], &[letter], payload].concat()
}

fn accepted(session: &[u8; 10], number: &str) -> Vec<u8> {
    packet(
        b'A',
        &[session, format!("{number:>20}").as_bytes()].concat(),
    )
}
