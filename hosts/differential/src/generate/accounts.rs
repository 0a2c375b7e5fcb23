//! Usernames, passwords and lent tables of accounts: sound, unsound, doubled, too many.

use crate::layout::ACCOUNT;
use crate::random::Random;

const USERNAMES: &[&str] = &["a", "A1", "alice", "Alice1", "bob", "BOB", "zZ9", "reader"];
const PASSWORDS: &[&str] = &[
    "a",
    "secret",
    "SECRET",
    "secret1",
    "pass123456",
    "0",
    "Z9zZ9z",
];

/// Bytes next to the ranges of letters and digits, and others that are neither.
const NO_TEXT: &[u8] = b"\0 /:@[`{\x7f\x80\xc1\xe1\xff-_\t\n\r";

fn padded<const N: usize>(text: &str) -> [u8; N] {
    let mut field = [b' '; N];
    field[..text.len()].copy_from_slice(text.as_bytes());
    field
}

/// Letters in the other case, here and there.
fn change_case(random: &mut Random, field: &mut [u8]) {
    for byte in field {
        if byte.is_ascii_alphabetic() && random.one_in(4) {
            *byte ^= 0x20;
        }
    }
}

/// Makes a field unsound, or nearly so.
fn spoil(random: &mut Random, field: &mut [u8]) {
    let at = random.below(field.len());
    match random.below(7) {
        0 => field.fill(b' '),
        1 => field.fill(0),
        2 => field[at] = random.pick(NO_TEXT),
        3 => field[0] = b' ',
        4 => field[at..].fill(0),
        5 => field.rotate_right(1),
        _ => random.fill(field),
    }
}

/// Puts something other than spaces behind a field's text: a comparison that ends there would take it.
fn end_early(random: &mut Random, field: &mut [u8]) {
    let text = field.iter().position(|&byte| byte == b' ' || byte == 0);
    let behind = &mut field[text.unwrap_or(0)..];
    match random.below(3) {
        0 => behind.fill(0),
        1 => random.fill(behind),
        _ => {
            if let Some(last) = behind.last_mut() {
                *last = b'x';
            }
        }
    }
}

pub fn username(random: &mut Random) -> [u8; 6] {
    let mut field = padded(random.pick(USERNAMES));
    change_case(random, &mut field);
    if random.one_in(10) {
        spoil(random, &mut field);
    }
    field
}

pub fn password(random: &mut Random) -> [u8; 10] {
    let mut field = padded(random.pick(PASSWORDS));
    change_case(random, &mut field);
    if random.one_in(10) {
        spoil(random, &mut field);
    }
    field
}

/// The first records share few names; behind them each has its own, so that logins are found at every depth of a long table.
fn username_at(random: &mut Random, place: usize) -> [u8; 6] {
    if place < 8 {
        return username(random);
    }
    let mut field = padded(&format!("u{place}"));
    if random.one_in(50) {
        spoil(random, &mut field);
    }
    field
}

/// A table as it is lent, perhaps with bytes left over.
pub fn table(random: &mut Random) -> Vec<u8> {
    let records = match random.below(64) {
        0 => random.pick(&[1_023, 1_024, 1_025]),
        1..8 => 0,
        _ => random.between(1, 6),
    };
    let mut table = Vec::with_capacity(records * ACCOUNT + 15);
    for place in 0..records {
        table.extend_from_slice(&username_at(random, place));
        table.extend_from_slice(&password(random));
    }
    if random.one_in(4) {
        table.extend(random.bytes_under(ACCOUNT));
    }
    table
}

/// Username and password of a login: often those of a record, sometimes with one of them changed.
pub fn entry(random: &mut Random, table: &[u8]) -> ([u8; 6], [u8; 10]) {
    let records = table.len() / ACCOUNT;
    if records == 0 || random.one_in(6) {
        return (username(random), password(random));
    }
    let record = &table[random.below(records) * ACCOUNT..][..ACCOUNT];
    let mut username: [u8; 6] = record[..6].try_into().expect("six bytes");
    let mut password: [u8; 10] = record[6..].try_into().expect("ten bytes");
    change_case(random, &mut username);
    change_case(random, &mut password);
    match random.below(16) {
        0 => spoil(random, &mut username),
        1 => spoil(random, &mut password),
        2 => password[9] = b'x',
        3 => username[5] = b'x',
        4 => end_early(random, &mut username),
        5 => end_early(random, &mut password),
        _ => {}
    }
    (username, password)
}
