//! Accounts and the login.

use crate::{ask, packet, words, NAME, TOP};
use differential::call::Call;

pub fn server(last: u64) -> Vec<u8> {
    let call = Call::ServerStart {
        session: NAME,
        last,
    };
    ask(&call, &[0; 20]).state
}

pub fn login(username: &[u8; 6], password: &[u8; 10], session: &[u8; 10], number: u64) -> Vec<u8> {
    let number = format!("{number:>20}");
    packet(
        b'L',
        &[&username[..], password, session, number.as_bytes()].concat(),
    )
}

/// What a waiting server answers to a login: its first three words, and its state's last byte.
fn log_in(accounts: &[u8], last: u64, stream: &[u8]) -> ([u64; 3], u8) {
    let answer = ask(&Call::ServerStep { accounts, stream }, &server(last));
    let (code, words) = words(&answer);
    assert_eq!(code, 0);
    (words, answer.state[19])
}

pub const BLANK: &[u8; 10] = b"          ";
const NOT_AUTHORIZED: ([u64; 3], u8) = ([2, 49, b'A' as u64], 0);
const NO_SESSION: ([u64; 3], u8) = ([2, 49, b'S' as u64], 0);

fn granted(number: u64) -> ([u64; 3], u8) {
    ([1, 49, number], 2)
}

#[test]
fn passwords() {
    let table = b"alice secret    ";
    let with = |password| log_in(table, 5, &login(b"Alice ", password, BLANK, 1));
    assert_eq!(with(b"SECRET    "), granted(1));
    assert_eq!(with(b"secret\0   "), NOT_AUTHORIZED);
    assert_eq!(with(b"secret   x"), NOT_AUTHORIZED);
    assert_eq!(with(b"secre     "), NOT_AUTHORIZED);
    assert_eq!(with(b" secret   "), NOT_AUTHORIZED);
    let unknown = log_in(table, 5, &login(b"bob   ", b"secret    ", BLANK, 1));
    assert_eq!(unknown, NOT_AUTHORIZED);
}

/// Ten zero bytes and ten spaces, even where a record is blank.
#[test]
fn blank_passwords() {
    let table = b"alice           \0\0\0\0\0\0\0\0\0\0\0\0\0\0\0\0                ";
    for username in [b"alice ", b"      ", &[0; 6]] {
        for password in [&[0; 10], BLANK] {
            let answer = log_in(table, 5, &login(username, password, BLANK, 1));
            assert_eq!(answer, NOT_AUTHORIZED);
        }
    }
}

#[test]
fn first_sound_record_decides() {
    let table = b"al ce secret    alice         x alice first     alice second    ";
    let with = |password| log_in(table, 5, &login(b"ALICE ", password, NAME, 1));
    assert_eq!(with(b"first     "), granted(1));
    assert_eq!(with(b"second    "), NOT_AUTHORIZED);
}

#[test]
fn session_and_number_of_a_login() {
    let table = b"alice secret    ";
    let with = |session, number, last| {
        let stream = login(b"alice ", b"secret    ", session, number);
        log_in(table, last, &stream)
    };
    assert_eq!(with(NAME, 0, 0), granted(1));
    assert_eq!(with(NAME, 0, 5), granted(5));
    assert_eq!(with(NAME, 1, 5), granted(1));
    assert_eq!(with(NAME, 6, 5), granted(6));
    assert_eq!(with(NAME, 7, 5), NO_SESSION);
    assert_eq!(with(NAME, 2, 0), NO_SESSION);
    assert_eq!(with(NAME, TOP, TOP - 1), granted(TOP));
    assert_eq!(with(b"readroom01", 1, 5), NO_SESSION);
    assert_eq!(with(b" READROOM0", 1, 5), NO_SESSION);
}

/// The table over 1,024 comes first, in every state and on an empty stream.
#[test]
fn too_many_accounts() {
    let table = b"alice secret    ".repeat(1_025);
    let step = |accounts: &[u8]| {
        ask(
            &Call::ServerStep {
                accounts,
                stream: &[],
            },
            &server(5),
        )
        .code
    };
    assert_eq!(step(&table), 19);
    assert_eq!(step(&table[..table.len() - 1]), 0);
}
