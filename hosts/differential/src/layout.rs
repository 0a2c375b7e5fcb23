//! The byte layouts of states and cursors, as the header gives them. Decoding is total: any bytes are a state.

use crate::reference::capture::{Capture, Kept, Stage, MOST_RECORDS};
use crate::reference::early::{Early, Number, SLOT};
use crate::reference::login::Account;
use crate::reference::mold::HEADER;
use crate::reference::receiver::Receiver;
use crate::reference::session::{Client, ClientState, Server, ServerState};
use crate::reference::transmitter::Progress;
use crate::reference::Name;

pub const CURSOR: usize = 11;
pub const RECEIVER: usize = 21;
pub const SERVER: usize = 20;
pub const CLIENT: usize = 20;
pub const CAPTURE: usize = 207;
pub const TRANSMITTER: usize = 17;
pub const EARLY: usize = 157;
pub const WALK: usize = 21;
pub const MISSING: usize = 37;
pub const MISSING_TEXT: usize = 204_898;
pub const SLOTS: usize = 65_536;
pub const ACCOUNT: usize = 16;

/// The first byte of each kind's state while it is open. No two are the same, and none is 0.
pub const CURSOR_CODE: u8 = 0xE1;
pub const RECEIVER_CODE: u8 = 0xE2;
pub const SERVER_CODE: u8 = 0xE3;
pub const CLIENT_CODE: u8 = 0xE4;
pub const CAPTURE_CODE: u8 = 0xE5;
pub const TRANSMITTER_CODE: u8 = 0xE6;
pub const EARLY_CODE: u8 = 0xE7;
pub const WALK_CODE: u8 = 0xE8;
pub const MISSING_CODE: u8 = 0xE9;
pub const CODES: [u8; 9] = [
    CURSOR_CODE,
    RECEIVER_CODE,
    SERVER_CODE,
    CLIENT_CODE,
    CAPTURE_CODE,
    TRANSMITTER_CODE,
    EARLY_CODE,
    WALK_CODE,
    MISSING_CODE,
];

/// Where the parts stand that are made by hand: a session's phase, a reading's stage, its receiver, and how many
/// records it read.
pub const PHASE: usize = 19;
pub const STAGE: usize = 1;
pub const CAPTURE_RECEIVER: usize = 2;
pub const RECORDS: usize = 159;

/// The same of a reading for what is missing: how many records are left, its ranges with both edges, and the byte by
/// which they are refused.
pub const LEFT: usize = 20;
pub const CLOSED: usize = 28;
pub const REFUSED: usize = 36;

/// A reading of a capture for what is missing. The edges of its ranges stand in lent words.
#[derive(Clone, Debug, PartialEq, Eq)]
pub struct Noting {
    pub stage: Stage,
    pub session: Name,
    pub highest: u64,
    /// Records that may still be read.
    pub left: u32,
    /// The ranges that have both edges.
    pub closed: u64,
    pub refused: bool,
}

/// A place in a datagram, and how many messages are left from there.
#[derive(Clone, Copy, Debug, PartialEq, Eq)]
pub struct Cursor {
    pub place: u64,
    pub left: u16,
}

impl Cursor {
    /// At the first of so many messages, perhaps none.
    pub fn first(messages: usize) -> Cursor {
        Cursor {
            place: HEADER as u64,
            left: messages as u16,
        }
    }
}

/// As many bytes as a state has. One that lacks some is refused, but what it lacks is looked at first: then it is all
/// zeros, which is never open.
fn whole<const N: usize>(bytes: &[u8]) -> [u8; N] {
    bytes.get(..N).map_or([0; N], |bytes| array(bytes, 0))
}

fn array<const N: usize>(bytes: &[u8], at: usize) -> [u8; N] {
    bytes[at..at + N].try_into().expect("so many bytes")
}

fn number64(bytes: &[u8], at: usize) -> u64 {
    u64::from_le_bytes(array(bytes, at))
}

fn number16(bytes: &[u8], at: usize) -> u16 {
    u16::from_le_bytes(array(bytes, at))
}

/// The first byte that is laid: 0 for a state that isn't open.
fn code(code: u8, open: bool) -> u8 {
    if open {
        code
    } else {
        0
    }
}

/// What isn't open has no place, and no messages left.
pub fn cursor(bytes: &[u8]) -> Option<Cursor> {
    let bytes = whole::<CURSOR>(bytes);
    (bytes[0] == CURSOR_CODE).then(|| Cursor {
        place: number64(&bytes, 1),
        left: number16(&bytes, 9),
    })
}

pub fn cursor_bytes(cursor: Cursor) -> Vec<u8> {
    [
        &[CURSOR_CODE][..],
        &cursor.place.to_le_bytes(),
        &cursor.left.to_le_bytes(),
    ]
    .concat()
}

/// What isn't open is past every message.
pub fn transmitter(bytes: &[u8]) -> Progress {
    let bytes = whole::<TRANSMITTER>(bytes);
    if bytes[0] != TRANSMITTER_CODE {
        return Progress {
            messages: u64::MAX,
            bytes: 0,
        };
    }
    Progress {
        messages: number64(&bytes, 1),
        bytes: number64(&bytes, 9),
    }
}

pub fn transmitter_bytes(progress: Progress) -> Vec<u8> {
    [
        &[TRANSMITTER_CODE][..],
        &progress.messages.to_le_bytes(),
        &progress.bytes.to_le_bytes(),
    ]
    .concat()
}

/// What isn't open is ended; its session and its numbers still count.
pub fn receiver(bytes: &[u8]) -> Receiver {
    let bytes = whole::<RECEIVER>(bytes);
    Receiver {
        session: array(&bytes, 1),
        next: number64(&bytes, 11),
        limit: number16(&bytes, 19),
        ended: bytes[0] != RECEIVER_CODE,
    }
}

pub fn receiver_bytes(receiver: &Receiver) -> Vec<u8> {
    [
        &[code(RECEIVER_CODE, !receiver.ended)][..],
        &receiver.session,
        &receiver.next.to_le_bytes(),
        &receiver.limit.to_le_bytes(),
    ]
    .concat()
}

/// Where the word of held numbers and the lengths of what is in the slots stand in a receiver that keeps early messages.
pub const HELD: usize = 21;
pub const LENGTHS: usize = 29;

/// What isn't open is ended; its session, its numbers and what it holds still count.
pub fn early(bytes: &[u8], slots: &[u8]) -> Early {
    let bytes = whole::<EARLY>(bytes);
    let next = number64(&bytes, 11);
    let word = number64(&bytes, HELD);
    let marked = (0..64).filter(|bit| word >> bit & 1 == 1);
    let held = marked.map(|bit| {
        let number = Number::from(next) + 1 + bit;
        (number, slot_part(&bytes, slots, number).to_vec())
    });
    Early {
        session: array(&bytes, 1),
        next,
        limit: number16(&bytes, 19),
        ended: bytes[0] != EARLY_CODE,
        held: held.collect(),
    }
}

/// Where the slot of a number begins, and where its length stands in a receiver.
pub fn slot_at(number: Number) -> usize {
    (number % 64) as usize * SLOT
}

fn length_at(number: Number) -> usize {
    LENGTHS + (number % 64) as usize * 2
}

/// What lies in the slot of a number. A length that was made up ends with the slots.
fn slot_part<'s>(state: &[u8], slots: &'s [u8], number: Number) -> &'s [u8] {
    let at = length_at(number);
    let length = usize::from(u16::from_be_bytes([state[at], state[at + 1]]));
    let from = slots.get(slot_at(number)..).unwrap_or_default();
    &from[..length.min(from.len())]
}

/// The receiver behind a step that held some messages anew: their lengths are laid, and no others change.
pub fn early_bytes(early: &Early, before: &[u8], kept: &Kept) -> Vec<u8> {
    let mut word = 0;
    for number in early.held.keys() {
        word |= 1u64 << (number - Number::from(early.next) - 1);
    }
    let mut bytes = [
        &[code(EARLY_CODE, !early.ended)][..],
        &early.session,
        &early.next.to_le_bytes(),
        &early.limit.to_le_bytes(),
        &word.to_le_bytes(),
        &before[LENGTHS..EARLY],
    ]
    .concat();
    for (number, message) in kept {
        let length = message.len() as u16;
        bytes[length_at(*number)..][..2].copy_from_slice(&length.to_be_bytes());
    }
    bytes
}

/// A walk over what a datagram will deliver: a number and how many are left, beside a cursor over the datagram's own.
#[derive(Clone, Copy, Debug, PartialEq, Eq)]
pub struct Walk {
    pub number: u64,
    pub left: u16,
    pub cursor: Cursor,
}

/// What isn't open has no messages left.
pub fn walk(bytes: &[u8]) -> Option<Walk> {
    let bytes = whole::<WALK>(bytes);
    let cursor = Cursor {
        place: number64(&bytes, 11),
        left: number16(&bytes, 19),
    };
    (bytes[0] == WALK_CODE).then(|| Walk {
        number: number64(&bytes, 1),
        left: number16(&bytes, 9),
        cursor,
    })
}

pub fn walk_bytes(walk: Walk) -> Vec<u8> {
    [
        &[WALK_CODE][..],
        &walk.number.to_le_bytes(),
        &walk.left.to_le_bytes(),
        &walk.cursor.place.to_le_bytes(),
        &walk.cursor.left.to_le_bytes(),
    ]
    .concat()
}

/// What is open is in by phase 2, and waiting by every other one.
pub fn server(bytes: &[u8]) -> Server {
    let bytes = whole::<SERVER>(bytes);
    Server {
        session: array(&bytes, 1),
        last: number64(&bytes, 11),
        state: match (bytes[0] == SERVER_CODE, bytes[PHASE]) {
            (true, 2) => ServerState::In,
            (true, _) => ServerState::Waiting,
            (false, _) => ServerState::Closed,
        },
    }
}

pub fn server_bytes(server: &Server) -> Vec<u8> {
    let phase = match server.state {
        ServerState::Waiting => 1,
        ServerState::In => 2,
        ServerState::Closed => 0,
    };
    let first = code(SERVER_CODE, server.state != ServerState::Closed);
    session_bytes(first, &server.session, server.last, phase)
}

/// What both ends of a session have.
fn session_bytes(first: u8, session: &Name, number: u64, phase: u8) -> Vec<u8> {
    [&[first][..], session, &number.to_le_bytes(), &[phase]].concat()
}

/// What is open is in by phase 2, and has asked by every other one; what isn't is ended by phase 3, and else closed.
pub fn client(bytes: &[u8]) -> Client {
    let bytes = whole::<CLIENT>(bytes);
    Client {
        session: array(&bytes, 1),
        number: number64(&bytes, 11),
        state: match (bytes[0] == CLIENT_CODE, bytes[PHASE]) {
            (true, 2) => ClientState::In,
            (true, _) => ClientState::Asked,
            (false, 3) => ClientState::Ended,
            (false, _) => ClientState::Closed,
        },
    }
}

pub fn client_bytes(client: &Client) -> Vec<u8> {
    let (open, phase) = match client.state {
        ClientState::Asked => (true, 1),
        ClientState::In => (true, 2),
        ClientState::Ended => (false, 3),
        ClientState::Closed => (false, 0),
    };
    session_bytes(
        code(CLIENT_CODE, open),
        &client.session,
        client.number,
        phase,
    )
}

/// What is open takes records by stage 2, and settings by every other one; what isn't is done by stage 3, and else its
/// settings are refused.
fn stage(is_open: bool, byte: u8) -> Stage {
    match (is_open, byte) {
        (true, 2) => Stage::Records,
        (true, _) => Stage::Settings,
        (false, 3) => Stage::Done,
        (false, _) => Stage::SettingsRefused,
    }
}

/// The first two bytes of a reading.
fn stage_bytes(own: u8, stage: Stage) -> Vec<u8> {
    let (is_open, byte) = match stage {
        Stage::Settings => (true, 1),
        Stage::Records => (true, 2),
        Stage::Done => (false, 3),
        Stage::SettingsRefused => (false, 0),
    };
    vec![code(own, is_open), byte]
}

pub fn noting(bytes: &[u8]) -> Noting {
    let bytes = whole::<MISSING>(bytes);
    let left = number64(&bytes, LEFT).min(u64::from(MOST_RECORDS));
    Noting {
        stage: stage(bytes[0] == MISSING_CODE, bytes[STAGE]),
        session: array(&bytes, 2),
        highest: number64(&bytes, 12),
        left: left as u32,
        closed: number64(&bytes, CLOSED),
        refused: bytes[REFUSED] != 0,
    }
}

/// How many records are left stands there only where records come next.
pub fn noting_bytes(noting: &Noting) -> Vec<u8> {
    let left = match noting.stage {
        Stage::Records => noting.left.into(),
        _ => 0,
    };
    let mut bytes = stage_bytes(MISSING_CODE, noting.stage);
    bytes.extend(noting.session);
    for number in [noting.highest, left, noting.closed] {
        bytes.extend(number.to_le_bytes());
    }
    bytes.push(u8::from(noting.refused));
    bytes
}

pub fn capture(bytes: &[u8], slots: &[u8]) -> Capture {
    let bytes = whole::<CAPTURE>(bytes);
    let records = number64(&bytes, RECORDS).min(u64::from(MOST_RECORDS));
    Capture {
        receiver: early(&bytes[CAPTURE_RECEIVER..], slots),
        stage: stage(bytes[0] == CAPTURE_CODE, bytes[STAGE]),
        records: records as u32,
        delivered: number64(&bytes, 167),
        old: number64(&bytes, 175),
        quiet: number64(&bytes, 183),
        asked: number64(&bytes, 191),
        refused: number64(&bytes, 199),
    }
}

/// The reading behind a call that held some messages anew.
pub fn capture_bytes(capture: &Capture, before: &[u8], kept: &Kept) -> Vec<u8> {
    let mut bytes = stage_bytes(CAPTURE_CODE, capture.stage);
    let before = &before[CAPTURE_RECEIVER..];
    bytes.extend(early_bytes(&capture.receiver, before, kept));
    let numbers = [
        u64::from(capture.records),
        capture.delivered,
        capture.old,
        capture.quiet,
        capture.asked,
        capture.refused,
    ];
    for number in numbers {
        bytes.extend_from_slice(&number.to_le_bytes());
    }
    bytes
}

/// A lent table of accounts: bytes left over behind the last whole record are no record.
pub fn accounts(bytes: &[u8]) -> Vec<Account> {
    let record = |bytes: &[u8]| Account {
        username: bytes[..6].try_into().expect("six bytes"),
        password: bytes[6..].try_into().expect("ten bytes"),
    };
    bytes.chunks_exact(ACCOUNT).map(record).collect()
}
