//! What the header promises for each call, worked out by the reference; and the comparison with what the library did.

mod capture;
mod early;
pub mod edges;
pub mod grounds;
mod missing;
mod mold;
mod receiver;
mod session;
mod soup;
mod store;
mod transmitter;
pub mod typed;

use crate::call::{Call, Input, Lent};
use crate::layout::{CURSOR, CURSOR_CODE};
use crate::reference::{Name, Refusal};
use std::hint::black_box;

/// What a call has to do.
#[derive(Clone, Debug)]
pub struct Expected {
    pub code: u32,
    /// What kind of answer it is, for the coverage: from the header's own comments, sometimes in finer kinds.
    pub outcome: &'static str,
    /// The words that are set, from the first on.
    pub words: Vec<u64>,
    /// The bytes that are written to the output, from the first on.
    pub out: Vec<u8>,
    /// The words of places that are laid, from the first on.
    pub places: Vec<u64>,
    /// The bytes that are written to the slots, each with its place, in order.
    pub slots: Vec<(usize, Vec<u8>)>,
    /// The words of edges afterwards, from the first on.
    pub edges: Vec<u64>,
    /// The state or cursor afterwards; none where it stays.
    pub state: Option<Vec<u8>>,
    /// Whether it is left open where the cursor stands: then its code and what stands behind it are compared.
    pub cursor_anywhere: bool,
}

impl Expected {
    fn answer(outcome: &'static str) -> Expected {
        Expected {
            code: 0,
            outcome,
            words: vec![],
            out: vec![],
            places: vec![],
            slots: vec![],
            edges: vec![],
            state: None,
            cursor_anywhere: false,
        }
    }

    fn refusal(code: Refusal) -> Expected {
        let mut refusal = Expected::answer(refusal_name(code));
        refusal.code = code;
        refusal
    }

    fn words(mut self, words: &[u64]) -> Expected {
        self.words = words.to_vec();
        self
    }

    fn state(mut self, state: Vec<u8>) -> Expected {
        self.state = Some(state);
        self
    }

    /// A writer's answer: the bytes, and how many they are.
    fn written(out: Vec<u8>) -> Expected {
        let mut answer = Expected::answer("written").words(&[out.len() as u64]);
        answer.out = out;
        answer
    }

    fn writer(result: Result<Vec<u8>, Refusal>) -> Expected {
        result.map_or_else(Expected::refusal, Expected::written)
    }

    /// Does to the lent buffers what the call has to do. A refusal does nothing.
    pub fn apply(&self, lent: &mut Lent) -> u32 {
        lent.words[..self.words.len()].copy_from_slice(&self.words);
        lent.out[..self.out.len()].copy_from_slice(&self.out);
        lent.places[..self.places.len()].copy_from_slice(&self.places);
        for (at, bytes) in &self.slots {
            lent.slots[*at..][..bytes.len()].copy_from_slice(bytes);
        }
        lent.edges[..self.edges.len()].copy_from_slice(&self.edges);
        if let Some(state) = &self.state {
            lent.state[..state.len()].copy_from_slice(state);
        }
        self.code
    }
}

/// A refusal's number as the name of an outcome.
pub fn refusal_name(code: Refusal) -> &'static str {
    match code {
        11 => "11",
        12 => "12",
        13 => "13",
        14 => "14",
        15 => "15",
        16 => "16",
        17 => "17",
        18 => "18",
        19 => "19",
        20 => "20",
        21 => "21",
        22 => "22",
        23 => "23",
        24 => "24",
        25 => "25",
        31 => "31",
        32 => "32",
        33 => "33",
        34 => "34",
        41 => "41",
        42 => "42",
        44 => "44",
        46 => "46",
        47 => "47",
        48 => "48",
        51 => "51",
        52 => "52",
        53 => "53",
        54 => "54",
        _ => unreachable!("no document has a refusal {code}"),
    }
}

/// How many words and how many bytes of a state or cursor a function has.
pub fn fixed_sizes(call: &Call) -> (usize, usize) {
    use crate::layout::{CAPTURE, CLIENT, CURSOR, EARLY, MISSING, RECEIVER, SERVER};
    use crate::layout::{TRANSMITTER, WALK};
    use Call::*;
    match call {
        MoldRead { .. } | MoldLocate { .. } | SoupRead { .. } | SoupScan { .. } => (3, 0),
        MoldReadRequest { .. } => (2, 0),
        MoldWalk { .. } | ReceiverWalk { .. } => (0, CURSOR),
        MoldNext { .. } => (3, CURSOR),
        ReceiverStart { .. } => (0, RECEIVER),
        ReceiverTake { .. } | ReceiverDeliver { .. } => (4, RECEIVER),
        EarlyStart { .. } => (0, EARLY),
        EarlyTake { .. } | EarlyDeliver { .. } => (7, EARLY),
        EarlyLocate { .. } => (4, 0),
        EarlyWalk { .. } => (0, WALK),
        EarlyNext { .. } => (4, WALK),
        TransmitterStart { .. } => (0, TRANSMITTER),
        TransmitterNext { .. } => (1, TRANSMITTER),
        ServerStart { .. } | ServerSetLast { .. } => (0, SERVER),
        ServerStep { .. } => (5, SERVER),
        ServerReply { .. } => (6, SERVER),
        ClientStart { .. } => (0, CLIENT),
        ClientStep { .. } => (5, CLIENT),
        CaptureStart | CaptureFinish { .. } => (0, CAPTURE),
        CaptureFeed { .. } => (2, CAPTURE),
        CaptureWrite => (1, CAPTURE),
        MissingStart | MissingFinish { .. } => (0, MISSING),
        MissingFeed { .. } => (2, MISSING),
        MissingCount | MissingRange { .. } => (3, MISSING),
        MissingWrite => (1, MISSING),
        _ => (1, 0),
    }
}

/// What the call has to do with these buffers: the first of the grounds that apply, or its answer.
pub fn expect(call: &Call, lent: &Lent) -> Expected {
    let Some(&first) = grounds::of(call, lent).first() else {
        return answer(call, lent);
    };
    let number = grounds::number(first);
    if grounds::is_of_what_is_lent(first) {
        let mut refusal = Expected::refusal(number);
        refusal.outcome = first;
        return refusal;
    }
    // The rules, taken step by step, end at the ground that is the first of all those looked at one by one.
    let refusal = answer(call, lent);
    assert_eq!(
        refusal.code, number,
        "the reference's steps and its grounds: {call}"
    );
    refusal
}

/// What the call has to do where every buffer has room.
pub fn answer(call: &Call, lent: &Lent) -> Expected {
    let state = &lent.state;
    mold::answer(call, state)
        .or_else(|| receiver::answer(call, state))
        .or_else(|| early::answer(call, lent))
        .or_else(|| store::answer(call))
        .or_else(|| transmitter::answer(call, state))
        .or_else(|| soup::answer(call))
        .or_else(|| session::answer(call, state))
        .or_else(|| capture::answer(call, lent))
        .or_else(|| missing::answer(call, lent))
        .expect("every function belongs to one of these")
}

/// A lent name. One of another size is refused, but some grounds come before that, and look at none of its bytes.
fn name(lent: &[u8]) -> Name {
    fixed(lent)
}

fn fixed<const N: usize>(lent: &[u8]) -> [u8; N] {
    lent.try_into().unwrap_or([0; N])
}

/// A copy of all that the call only reads.
pub fn copy_of_inputs(call: &Call) -> Vec<u8> {
    let mut copy = Vec::new();
    for (_, input) in call.inputs() {
        match input {
            Input::Bytes(bytes) => copy.extend_from_slice(bytes),
            Input::Lengths(lengths) => {
                copy.extend(lengths.iter().flat_map(|length| length.to_ne_bytes()))
            }
            Input::Number(_) => {}
        }
    }
    copy
}

/// What differs between what was promised and what was done, if anything does. `after` is `before` as the library left
/// it.
pub fn difference(
    call: &Call,
    copy: &[u8],
    expected: &Expected,
    before: &Lent,
    code: u32,
    after: &Lent,
) -> Option<String> {
    let mut wanted = before.clone();
    let wanted_code = expected.apply(&mut wanted);
    if expected.cursor_anywhere {
        wanted.state[..CURSOR].copy_from_slice(&after.state[..CURSOR]);
        wanted.state[0] = CURSOR_CODE;
    }
    // The compiler takes what is only lent for reading as unchanged; it is to be looked at all the same.
    let untouched = copy == copy_of_inputs(black_box(call));
    if code == wanted_code && *after == wanted && untouched {
        return None;
    }
    Some(format!(
        "{call}lent:\n{before}wanted {wanted_code} ({}):\n{wanted}got {code}:\n{after}inputs untouched: {untouched}",
        expected.outcome
    ))
}
