//! MoldUDP64 datagrams and requests: good, nearly good, short, long, and of random bytes.

use super::bytes;
use crate::random::Random;
use crate::reference::mold::{END, HEADER, LARGEST};
use crate::reference::{Name, BLANK};

/// Names that differ in little: by case, by one byte, by zero bytes and spaces.
const NAMES: &[&Name] = &[
    b"READROOM01",
    b"READROOM02",
    b"readroom01",
    b"READROOM0\0",
    &BLANK,
    b"         1",
    b" \0        ",
    &[0; 10],
    &[0xFF; 10],
];

pub fn name(random: &mut Random) -> Name {
    match random.below(8) {
        0..4 => *NAMES[0],
        4..7 => *random.pick(NAMES),
        _ => random.array(),
    }
}

/// The name of a receiver: one time in four it isn't known yet.
pub fn receivers_name(random: &mut Random) -> Name {
    match random.one_in(4) {
        true => BLANK,
        false => name(random),
    }
}

/// The name that a datagram for a receiver of this name has: mostly the same, and where that isn't known any, every third
/// time a blank one.
pub fn sent_name(random: &mut Random, receivers: &Name) -> Name {
    match *receivers == BLANK {
        true if random.one_in(3) => BLANK,
        false if !random.one_in(12) => *receivers,
        _ => name(random),
    }
}

/// Bytes in a datagram's form, with no rule kept: number, count and blocks are as they are given.
pub fn raw(session: &Name, number: u64, count: u16, blocks: &[Vec<u8>]) -> Vec<u8> {
    let mut datagram = session.to_vec();
    datagram.extend_from_slice(&number.to_be_bytes());
    datagram.extend_from_slice(&count.to_be_bytes());
    for block in blocks {
        datagram.extend_from_slice(&(block.len() as u16).to_be_bytes());
        datagram.extend_from_slice(block);
    }
    datagram
}

pub fn message(random: &mut Random) -> Vec<u8> {
    let size = match random.below(16) {
        0..4 => 0,
        4..15 => random.below(24),
        _ => random.below(400),
    };
    random.bytes(size)
}

pub fn messages(random: &mut Random, most: usize) -> Vec<Vec<u8>> {
    let count = random.between(1, most);
    (0..count).map(|_| message(random)).collect()
}

/// A good datagram of this name and number.
pub fn good(random: &mut Random, session: &Name, number: u64) -> Vec<u8> {
    match random.below(5) {
        0 => raw(session, number, 0, &[]),
        1 => raw(session, number, END, &[]),
        _ => {
            let most = if random.one_in(50) { 200 } else { 6 };
            let blocks = messages(random, most);
            raw(session, number, blocks.len() as u16, &blocks)
        }
    }
}

/// A datagram around the largest size: few long messages, or very many of no bytes.
pub fn long(random: &mut Random, session: &Name, number: u64) -> Vec<u8> {
    let size = match random.below(8) {
        0..5 => LARGEST - 2 + random.below(6),
        // Sizes that 16 bits don't hold.
        5 => random.pick(&[65_535, 65_536, 65_537, 65_556, 65_558, 131_092]),
        _ => random.between(1_000, 65_600),
    };
    let room = size - HEADER;
    if random.one_in(4) {
        let blocks = vec![vec![]; room / 2];
        return raw(session, number, blocks.len() as u16, &blocks);
    }
    let most = usize::from(u16::MAX).min(room - 4);
    let first = random.between((room - 4) - most, most);
    let blocks = [random.bytes(first), random.bytes(room - 4 - first)];
    raw(session, number, 2, &blocks)
}

/// A good datagram with one of its numbers moved, or cut, or with bytes behind it.
fn nearly_good(random: &mut Random, session: &Name, number: u64) -> Vec<u8> {
    let mut datagram = good(random, session, number);
    let count = u16::from_be_bytes([datagram[18], datagram[19]]);
    match random.below(8) {
        0 => set_count(&mut datagram, count.wrapping_add(1)),
        1 => set_count(&mut datagram, count.wrapping_sub(1)),
        2 => set_count(&mut datagram, bytes::count(random)),
        3 => datagram.truncate(random.pick(&[0, 1, 18, 19, 20, 21, 22])),
        4 => datagram.extend(random.bytes_between(1, 3)),
        5 => {
            datagram.pop();
        }
        6 => move_a_length(random, &mut datagram),
        _ => bytes::damage(random, &mut datagram),
    }
    datagram
}

fn set_count(datagram: &mut [u8], count: u16) {
    datagram[18..20].copy_from_slice(&count.to_be_bytes());
}

/// Moves the length of the first block by one.
fn move_a_length(random: &mut Random, datagram: &mut [u8]) {
    if datagram.len() >= 22 {
        let length = u16::from_be_bytes([datagram[20], datagram[21]]);
        let moved = random.pick(&[length.wrapping_add(1), length.wrapping_sub(1), 65_535]);
        datagram[20..22].copy_from_slice(&moved.to_be_bytes());
    }
}

/// A datagram of any kind, for a receiver or none.
pub fn any(random: &mut Random, session: &Name, number: u64) -> Vec<u8> {
    match random.below(400) {
        0..5 => long(random, session, number),
        5..260 => good(random, session, number),
        260..380 => nearly_good(random, session, number),
        _ => random.bytes_under(60),
    }
}

pub fn request(random: &mut Random) -> Vec<u8> {
    let session = name(random);
    let mut request = raw(&session, bytes::number(random), bytes::count(random), &[]);
    match random.below(8) {
        0 => bytes::damage(random, &mut request),
        1 => request.truncate(random.pick(&[0, 1, 19])),
        2 => request.extend(random.bytes_between(1, 300)),
        _ => {}
    }
    request
}
