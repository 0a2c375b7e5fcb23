//! Numbers, names and damage that several kinds of input share.

use crate::layout::CODES;
use crate::random::Random;

/// Numbers at which something changes: the ends of 64 bits, of 32 and of 16, and small ones.
const EDGES: &[u64] = &[
    0,
    1,
    2,
    3,
    65_533,
    65_534,
    65_535,
    65_536,
    u32::MAX as u64,
    1 << 32,
    1 << 63,
    u64::MAX - 65_535,
    u64::MAX - 65_534,
    u64::MAX - 3,
    u64::MAX - 2,
    u64::MAX - 1,
    u64::MAX,
];

pub fn number(random: &mut Random) -> u64 {
    match random.below(8) {
        0..4 => random.pick(EDGES),
        4..7 => random.below(20) as u64,
        _ => random.word(),
    }
}

/// A number at or near another one.
pub fn near(random: &mut Random, number: u64) -> u64 {
    let step = random.below(4) as u64;
    if random.one_in(2) {
        number.saturating_add(step)
    } else {
        number.saturating_sub(step)
    }
}

pub fn count(random: &mut Random) -> u16 {
    match random.below(8) {
        0..4 => random.pick(&[0, 1, 2, 3, 255, 256, 32_743, 32_744, 65_533, 65_534, 65_535]),
        4..7 => random.below(20) as u16,
        _ => random.word() as u16,
    }
}

/// A size around another one: most often itself, else one off, some off, or none at all.
pub fn size_near(random: &mut Random, size: usize) -> usize {
    match random.below(16) {
        0 => size.saturating_sub(1),
        1 => random.below(size + 1),
        2 => 0,
        3..6 => size + random.between(1, 12),
        _ => size,
    }
}

/// Changes some bytes, one at a time: replaced, moved by one, cut off, put in, taken out.
pub fn damage(random: &mut Random, bytes: &mut Vec<u8>) {
    for _ in 0..random.pick(&[1, 1, 1, 2, 5]) {
        damage_once(random, bytes);
    }
}

fn damage_once(random: &mut Random, bytes: &mut Vec<u8>) {
    let at = random.below(bytes.len() + 1);
    let any = random.byte();
    let put_in = random.pick(&[0, b' ', b'0', b'A', 0xFF, any]);
    match random.below(10) {
        0 => bytes.truncate(at),
        1 => bytes.push(put_in),
        2 => bytes.insert(at, put_in),
        3 => {
            bytes.pop();
        }
        _ if at == bytes.len() => bytes.push(put_in),
        4 => {
            bytes.remove(at);
        }
        5 => bytes[at] = bytes[at].wrapping_add(1),
        6 => bytes[at] = bytes[at].wrapping_sub(1),
        7 => bytes[at] ^= 1 << random.below(8),
        _ => bytes[at] = put_in,
    }
}

/// A state with its first byte, or the one of its phase or stage, made by hand: now and then it is another kind's.
pub fn by_hand(random: &mut Random, state: &mut [u8], phase: Option<usize>) {
    let any = random.byte();
    match random.below(24) {
        0 => state[0] = random.pick(&CODES),
        1 => state[0] = random.pick(&[0, 1, 0xE0, 0xEA, any]),
        2 => state[phase.unwrap_or(0)] = random.pick(&[0, 1, 2, 3, 4, 255, any]),
        3 => {
            state[0] = random.pick(&CODES);
            state[phase.unwrap_or(0)] = random.pick(&[0, 1, 2, 3, 9]);
        }
        _ => {}
    }
}

/// A lent name: now and then too short or longer than needed.
pub fn lent_name(random: &mut Random, name: &[u8]) -> Vec<u8> {
    let mut lent = name.to_vec();
    match random.below(40) {
        0 => {
            lent.pop();
        }
        1 => lent.truncate(random.below(name.len())),
        2..5 => lent.extend(random.bytes_under(5)),
        _ => {}
    }
    lent
}
