//! Tables of accounts, and the entries of logins.

use crate::soup::login::{Account, MOST_ACCOUNTS};
use differential::random::Random;

const USERNAMES: [&str; 6] = ["a", "A1", "bob", "BOB", "reader", "zZ9"];
const PASSWORDS: [&str; 5] = ["0", "secret", "SECRET", "secret1", "pass123456"];

fn padded<const N: usize>(text: &str) -> [u8; N] {
    let mut field = [b' '; N];
    field[..text.len()].copy_from_slice(text.as_bytes());
    field
}

pub fn account(username: &str, password: &str) -> Account {
    Account {
        username: padded(username),
        password: padded(password),
    }
}

/// So many accounts with names of their own.
pub fn numbered(count: usize) -> Vec<Account> {
    let numbered = |place| account(&format!("u{place}"), &format!("secret{place}"));
    (0..count).map(numbered).collect()
}

/// A table: mostly some records with few names, so that several have the same one; or as many as
/// there may be, or one more.
pub fn any_table(random: &mut Random) -> Vec<Account> {
    match random.below(40) {
        0 => numbered(MOST_ACCOUNTS + 1),
        1 => numbered(MOST_ACCOUNTS),
        _ => {
            let count = random.below(7);
            (0..count).map(|_| any_account(random)).collect()
        }
    }
}

/// An account, now and then one that isn't sound.
fn any_account(random: &mut Random) -> Account {
    let mut account = account(random.pick(&USERNAMES), random.pick(&PASSWORDS));
    match random.below(12) {
        0 => spoil(random, &mut account.username),
        1 => spoil(random, &mut account.password),
        _ => {}
    }
    account
}

/// The entry of a login: often an account of the table in another case, or nearly one.
pub fn any_entry(random: &mut Random, table: &[Account]) -> Account {
    if table.is_empty() || random.one_in(4) {
        return any_account(random);
    }
    let mut entry = random.pick(table);
    change_case(random, &mut entry.username);
    change_case(random, &mut entry.password);
    match random.below(8) {
        0 => spoil(random, &mut entry.username),
        1 => spoil(random, &mut entry.password),
        2 => entry.password[9] = b'x',
        _ => {}
    }
    entry
}

fn change_case(random: &mut Random, field: &mut [u8]) {
    for byte in field {
        if byte.is_ascii_alphabetic() && random.one_in(4) {
            *byte ^= 0x20;
        }
    }
}

fn spoil(random: &mut Random, field: &mut [u8]) {
    let at = random.below(field.len());
    match random.below(5) {
        0 => field.fill(b' '),
        1 => field.fill(0),
        2 => field[at..].fill(0),
        3 => field.rotate_right(1),
        _ => field[at] = random.pick(b" /:@[`{\0\xff"),
    }
}
