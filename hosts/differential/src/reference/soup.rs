//! Document 01, "SoupBinTCP packets": the front of a stream, the scan, the writers.

use super::text;
use super::{Name, Refusal};

pub const LARGEST_PAYLOAD: usize = 4_096;

#[derive(Clone, Copy, Debug, PartialEq, Eq)]
pub enum Sender {
    Server,
    Client,
}

#[derive(Clone, Debug, PartialEq, Eq)]
pub struct Login {
    pub username: [u8; 6],
    pub password: [u8; 10],
    pub session: Name,
    pub number: u64,
}

/// A whole packet. Of a message's payload only the length is kept: it begins at byte 3.
#[derive(Clone, Debug, PartialEq, Eq)]
pub enum Packet {
    Debug { length: usize },
    Accepted { session: Name, number: u64 },
    Rejected { reason: u8 },
    Sequenced { length: usize },
    ServerHeartbeat,
    End,
    Login(Login),
    Unsequenced { length: usize },
    ClientHeartbeat,
    Logout,
}

impl Packet {
    pub fn letter(&self) -> u8 {
        match self {
            Packet::Debug { .. } => b'+',
            Packet::Accepted { .. } => b'A',
            Packet::Rejected { .. } => b'J',
            Packet::Sequenced { .. } => b'S',
            Packet::ServerHeartbeat => b'H',
            Packet::End => b'Z',
            Packet::Login(_) => b'L',
            Packet::Unsequenced { .. } => b'U',
            Packet::ClientHeartbeat => b'R',
            Packet::Logout => b'O',
        }
    }
}

/// Where a packet's payload begins.
pub const PAYLOAD: usize = 3;

#[derive(Clone, Debug, PartialEq, Eq)]
pub enum Front {
    NeedMore,
    Packet { packet: Packet, size: usize },
}

/// Reads the front of a stream, in document 01's fixed order.
pub fn read(stream: &[u8], sender: Sender) -> Result<Front, Refusal> {
    if stream.len() < 2 {
        return Ok(Front::NeedMore);
    }
    let length = usize::from(u16::from_be_bytes([stream[0], stream[1]]));
    if length == 0 {
        return Err(21);
    }
    if length - 1 > LARGEST_PAYLOAD {
        return Err(22);
    }
    if stream.len() < PAYLOAD {
        return Ok(Front::NeedMore);
    }
    let letter = stream[2];
    if !sends(sender, letter) {
        return Err(23);
    }
    if fixed_length(letter).is_some_and(|fixed| fixed != length) {
        return Err(24);
    }
    let size = 2 + length;
    if stream.len() < size {
        return Ok(Front::NeedMore);
    }
    let packet = fields(letter, &stream[PAYLOAD..size]).ok_or(25u32)?;
    Ok(Front::Packet { packet, size })
}

pub fn sends(sender: Sender, letter: u8) -> bool {
    match sender {
        Sender::Server => b"+AJSHZ".contains(&letter),
        Sender::Client => b"+LURO".contains(&letter),
    }
}

/// The length that a letter demands, if it demands one.
pub fn fixed_length(letter: u8) -> Option<usize> {
    match letter {
        b'A' => Some(31),
        b'J' => Some(2),
        b'L' => Some(47),
        b'H' | b'Z' | b'R' | b'O' => Some(1),
        _ => None,
    }
}

/// The packet of a known letter and a payload of the right length, if its fields are good.
pub fn fields(letter: u8, payload: &[u8]) -> Option<Packet> {
    let length = payload.len();
    match letter {
        b'+' => Some(Packet::Debug { length }),
        b'A' => accepted(payload),
        b'J' => is_reason(payload[0]).then_some(Packet::Rejected { reason: payload[0] }),
        b'S' => Some(Packet::Sequenced { length }),
        b'H' => Some(Packet::ServerHeartbeat),
        b'Z' => Some(Packet::End),
        b'L' => login(payload),
        b'U' => Some(Packet::Unsequenced { length }),
        b'R' => Some(Packet::ClientHeartbeat),
        b'O' => Some(Packet::Logout),
        _ => unreachable!("the letter is known"),
    }
}

pub fn is_reason(reason: u8) -> bool {
    reason == b'A' || reason == b'S'
}

fn accepted(payload: &[u8]) -> Option<Packet> {
    let (session, number) = payload.split_at(10);
    let number = text::number(number)?;
    let good = text::is_session(session) && number >= 1;
    let session = text::name(session);
    good.then_some(Packet::Accepted { session, number })
}

/// Username and password are not judged here: an unsound entry is the login's matter.
fn login(payload: &[u8]) -> Option<Packet> {
    let number = text::number(&payload[26..46])?;
    let session = &payload[16..26];
    text::is_session_or_blank(session).then(|| {
        Packet::Login(Login {
            username: payload[..6].try_into().expect("six bytes"),
            password: payload[6..16].try_into().expect("ten bytes"),
            session: text::name(session),
            number,
        })
    })
}

#[derive(Clone, Copy, Debug, PartialEq, Eq)]
pub struct Scan {
    pub packets: u64,
    pub bytes: usize,
    /// The refusal of the packet that stopped it; none where it needs more.
    pub stopped_by: Option<Refusal>,
}

/// Passes all good packets at the front of a stream.
pub fn scan(stream: &[u8], sender: Sender) -> Scan {
    let mut packets = 0;
    let mut bytes = 0;
    let stopped_by = loop {
        match read(&stream[bytes..], sender) {
            Err(refusal) => break Some(refusal),
            Ok(Front::NeedMore) => break None,
            Ok(Front::Packet { size, .. }) => {
                packets += 1;
                bytes += size;
            }
        }
    };
    Scan {
        packets,
        bytes,
        stopped_by,
    }
}

fn packet(letter: u8, payload: &[u8]) -> Vec<u8> {
    let length = 1 + payload.len() as u16;
    let mut out = length.to_be_bytes().to_vec();
    out.push(letter);
    out.extend_from_slice(payload);
    out
}

/// Writes one of the packets that carry a message: '+', 'S' or 'U'.
pub fn write_message(letter: u8, payload: &[u8]) -> Result<Vec<u8>, Refusal> {
    if payload.len() > LARGEST_PAYLOAD {
        return Err(22);
    }
    Ok(packet(letter, payload))
}

/// Writes one of the packets that carry nothing: 'H', 'Z', 'R' or 'O'.
pub fn write_bare(letter: u8) -> Vec<u8> {
    packet(letter, &[])
}

pub fn write_accepted(session: &Name, number: u64) -> Result<Vec<u8>, Refusal> {
    if !text::is_session(session) || number == 0 {
        return Err(46);
    }
    let number = text::write_number(number);
    Ok(packet(b'A', &[&session[..], &number].concat()))
}

pub fn write_rejected(reason: u8) -> Result<Vec<u8>, Refusal> {
    if !is_reason(reason) {
        return Err(46);
    }
    Ok(packet(b'J', &[reason]))
}

/// How a whole packet that was read is written back: as it came, with document 01's two exceptions.
pub fn written_back(packet: &[u8]) -> Result<Vec<u8>, Refusal> {
    let mut back = packet.to_vec();
    match packet[2] {
        b'A' => without_leading_zeros(&mut back[13..33]),
        b'L' if !text::is_sound(&packet[3..9]) || !text::is_sound(&packet[9..19]) => {
            return Err(46)
        }
        b'L' => without_leading_zeros(&mut back[29..49]),
        _ => {}
    }
    Ok(back)
}

/// A number field has spaces where leading zeros were; its last digit is none of them.
fn without_leading_zeros(field: &mut [u8]) {
    let before = field[..19].iter_mut().skip_while(|byte| **byte == b' ');
    for zero in before.take_while(|byte| **byte == b'0') {
        *zero = b' ';
    }
}

pub fn write_login(login: &Login) -> Result<Vec<u8>, Refusal> {
    let sound = text::is_sound(&login.username) && text::is_sound(&login.password);
    if !sound || !text::is_session_or_blank(&login.session) {
        return Err(46);
    }
    let number = text::write_number(login.number);
    let payload = [
        &login.username[..],
        &login.password,
        &login.session,
        &number,
    ]
    .concat();
    Ok(packet(b'L', &payload))
}
