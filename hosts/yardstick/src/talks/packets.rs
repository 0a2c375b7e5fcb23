//! SoupBinTCP packets, written: good ones, and such with something changed.

use crate::mold::Session;
use crate::soup::front::LARGEST;
use crate::soup::login::Account;
use differential::random::Random;

pub fn packet(letter: u8, payload: &[u8]) -> Vec<u8> {
    let length = payload.len() as u16 + 1;
    [&length.to_be_bytes()[..], &[letter], payload].concat()
}

/// A number field, which may be one above what it can hold.
fn digits(number: u128) -> Vec<u8> {
    format!("{number:>20}").into_bytes()
}

pub fn accepted(session: &Session, number: u128) -> Vec<u8> {
    packet(b'A', &[&session[..], &digits(number)].concat())
}

pub fn login(entry: &Account, session: &Session, number: u128) -> Vec<u8> {
    let Account { username, password } = entry;
    let payload = [&username[..], password, session, &digits(number)];
    packet(b'L', &payload.concat())
}

/// A payload of any size that a packet may have, mostly a short one.
pub fn any_payload(random: &mut Random) -> Vec<u8> {
    match random.below(100) {
        0 => random.bytes(usize::from(LARGEST) - 1),
        _ => random.bytes_under(40),
    }
}

/// A buffer with a packet in front, now and then with the same again or a part of it behind.
pub fn stream(random: &mut Random, mut packet: Vec<u8>) -> Vec<u8> {
    if random.one_in(4) {
        spoil(random, &mut packet);
    }
    if random.one_in(4) {
        let behind = packet.clone();
        packet.extend(&behind[..random.below(behind.len() + 1)]);
    }
    packet
}

/// Changes one thing, which may leave the packet good.
fn spoil(random: &mut Random, packet: &mut Vec<u8>) {
    let length = packet.len() as u16 - 2;
    match random.below(8) {
        0 => set_length(packet, 0),
        1 => set_length(packet, random.pick(&[LARGEST, LARGEST + 1, u16::MAX])),
        2 => set_length(packet, length - 1),
        3 => {
            packet.push(b' ');
            set_length(packet, length + 1);
        }
        4 => packet[2] = random.pick(b"+AJSHZLUROasl \0"),
        5 => packet.truncate(random.below(packet.len())),
        _ => {
            let at = random.between(3, packet.len());
            if let Some(byte) = packet.get_mut(at) {
                *byte = random.pick(b" 09AZaz/:@[`{\0");
            }
        }
    }
}

fn set_length(packet: &mut [u8], length: u16) {
    packet[..2].copy_from_slice(&length.to_be_bytes());
}
