//! SoupBinTCP fields, packets and streams: good, nearly good, short, long, and of random bytes.

use super::{accounts, bytes};
use crate::random::Random;
use crate::reference::Name;

const SESSIONS: &[&Name] = &[b"READROOM01", b"  ROOM0001", b"         a", b"  room0001"];
const BAD_SESSIONS: &[&Name] = &[
    b"ROOM0001  ",
    b"RO OM 0001",
    b" READROOM ",
    b"READ-ROOM1",
    b"  ROOM@001",
    b"  ROOM[001",
    b"  ROOM`001",
    b"  ROOM{001",
    b"  ROOM/001",
    b"  ROOM:001",
    &[0; 10],
    b"\0\0ROOM0001",
    b"READROOM0\0",
    b"\tROOM00001",
];

const BAD_NUMBERS: &[&[u8; 20]] = &[
    b"                    ",
    b"18446744073709551616",
    b"18446744073709551620",
    b"20000000000000000000",
    b"99999999999999999999",
    b"1                   ",
    b"                 1 2",
    b"                  +1",
    b"                  -1",
    b"                 0x1",
    b"                1\0\0\0",
    b"                   /",
    b"                   :",
    b"\t                  1",
    &[0; 20],
];

pub fn session(random: &mut Random) -> Name {
    match random.below(16) {
        0..10 => *random.pick(SESSIONS),
        10..12 => *b"          ",
        12..15 => *random.pick(BAD_SESSIONS),
        _ => random.array(),
    }
}

pub fn good_session(random: &mut Random) -> Name {
    *random.pick(SESSIONS)
}

/// A number field: right-justified, perhaps with leading zeros; now and then a bad one.
pub fn number_field(random: &mut Random, number: u64) -> [u8; 20] {
    let digits = number.to_string();
    let zeros = match random.below(8) {
        0 => 20 - digits.len(),
        1 => random.below(21 - digits.len()),
        _ => 0,
    };
    let text = format!("{:>20}", "0".repeat(zeros) + &digits);
    let mut field: [u8; 20] = text.as_bytes().try_into().expect("twenty digits");
    match random.below(24) {
        0 => *random.pick(BAD_NUMBERS),
        1 => {
            field[random.below(20)] = random.pick(b" 09/:aA\0");
            field
        }
        _ => field,
    }
}

/// Bytes in a packet's form, with no rule kept.
pub fn raw(length: u16, letter: u8, payload: &[u8]) -> Vec<u8> {
    let mut packet = length.to_be_bytes().to_vec();
    packet.push(letter);
    packet.extend_from_slice(payload);
    packet
}

pub fn of(letter: u8, payload: &[u8]) -> Vec<u8> {
    raw(1 + payload.len() as u16, letter, payload)
}

pub fn accepted(random: &mut Random, session: &Name, number: u64) -> Vec<u8> {
    let number = number_field(random, number);
    of(b'A', &[&session[..], &number].concat())
}

pub fn login(
    random: &mut Random,
    entry: &([u8; 6], [u8; 10]),
    session: &Name,
    number: u64,
) -> Vec<u8> {
    let number = number_field(random, number);
    of(b'L', &[&entry.0[..], &entry.1, session, &number].concat())
}

pub fn payload(random: &mut Random) -> Vec<u8> {
    let size = match random.below(200) {
        0 => random.between(4_095, 4_098),
        1..50 => 0,
        50..199 => random.below(40),
        _ => random.below(4_096),
    };
    random.bytes(size)
}

/// A packet of this letter, good but for its fields now and then.
pub fn packet(random: &mut Random, letter: u8) -> Vec<u8> {
    match letter {
        b'A' => {
            let session = session(random);
            let number = bytes::number(random);
            accepted(random, &session, number)
        }
        b'J' => of(b'J', &[random.pick(b"AASSASASBas\0 ")]),
        b'L' => {
            let entry = (accounts::username(random), accounts::password(random));
            let session = session(random);
            let number = bytes::number(random);
            login(random, &entry, &session, number)
        }
        b'H' | b'Z' | b'R' | b'O' => of(letter, &[]),
        _ => of(letter, &payload(random)),
    }
}

/// A packet with its length, its letter or some bytes changed.
pub fn spoil(random: &mut Random, packet: &mut Vec<u8>) {
    let length = u16::from_be_bytes([packet[0], packet[1]]);
    let moved = match random.below(9) {
        0 => 0,
        1 => length.wrapping_add(1),
        2 => length.wrapping_sub(1),
        3 => random.pick(&[4_097, 4_098, 4_099, 65_535]),
        4 => {
            let any = random.byte();
            packet[2] = random.pick(&[b"+AJSHZLUROajlu \0B".as_slice(), &[any; 8]].concat());
            length
        }
        5 => {
            packet.push(random.byte());
            length.wrapping_add(1)
        }
        6 => {
            packet.truncate(random.below(packet.len()));
            packet.resize(packet.len().max(2), 0);
            length
        }
        _ => {
            bytes::damage(random, packet);
            return;
        }
    };
    packet[..2].copy_from_slice(&moved.to_be_bytes());
}

pub fn letter_of(random: &mut Random, from_client: bool) -> u8 {
    if from_client {
        random.pick(b"+LLURO")
    } else {
        random.pick(b"+AAJSHZ")
    }
}

/// A stream with this packet at its front: alone, cut, or with bytes behind it.
pub fn stream(random: &mut Random, packet: Vec<u8>) -> Vec<u8> {
    let mut stream = packet;
    if random.one_in(6) {
        spoil(random, &mut stream);
    }
    match random.below(12) {
        0 => stream.truncate(random.below(stream.len() + 1)),
        1 => stream.truncate(random.below(4)),
        2 => {
            stream.pop();
        }
        3..6 => stream.extend(random.bytes_under(8)),
        _ => {}
    }
    stream
}

/// A stream of any kind from one end.
pub fn any_stream(random: &mut Random, from_client: bool) -> Vec<u8> {
    if random.one_in(24) {
        return random.bytes_under(80);
    }
    let wrong_end = random.one_in(30);
    let letter = letter_of(random, from_client != wrong_end);
    let packet = packet(random, letter);
    stream(random, packet)
}

/// Several packets, one behind the other; one of them perhaps spoilt, the last perhaps cut.
pub fn many(random: &mut Random, from_client: bool) -> Vec<u8> {
    let count = if random.one_in(100) {
        300
    } else {
        random.below(7)
    };
    let spoilt = random.below(2 * count + 1);
    let mut stream = vec![];
    for place in 0..count {
        let letter = letter_of(random, from_client);
        let mut packet = packet(random, letter);
        if place == spoilt {
            spoil(random, &mut packet);
        }
        stream.extend(packet);
    }
    if random.one_in(4) {
        stream.truncate(random.below(stream.len() + 1));
    }
    stream
}
