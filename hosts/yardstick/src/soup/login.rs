//! The lock: a table of accounts, and the decision on a login.

use super::from_client::Login;
use super::{fields, BLANK};
use crate::mold::Session;

pub type Username = [u8; 6];
pub type Password = [u8; 10];

pub const MOST_ACCOUNTS: usize = 1_024;

/// The reasons of a rejected login.
const NOT_AUTHORIZED: u8 = b'A';
const SESSION_NOT_AVAILABLE: u8 = b'S';

#[derive(Clone, Copy, Debug, PartialEq, Eq)]
pub struct Account {
    pub username: Username,
    pub password: Password,
}

impl Account {
    fn is_sound(&self) -> bool {
        fields::is_sound(&self.username) && fields::is_sound(&self.password)
    }
}

/// The number that is granted, or the reason of the rejection.
pub fn decide(
    accounts: &[Account],
    login: &Login,
    session: &Session,
    last: u64,
) -> Result<u64, u8> {
    if !is_known(accounts, login.username, login.password) {
        return Err(NOT_AUTHORIZED);
    }
    if login.session != BLANK && login.session != session {
        return Err(SESSION_NOT_AVAILABLE);
    }
    match login.number {
        0 => Ok(last.max(1)),
        wanted if wanted - 1 <= last => Ok(wanted),
        _ => Err(SESSION_NOT_AVAILABLE),
    }
}

/// Whether the first sound record with the username has the password.
fn is_known(accounts: &[Account], username: &Username, password: &Password) -> bool {
    if !fields::is_sound(username) || !fields::is_sound(password) {
        return false;
    }
    accounts
        .iter()
        .find(|account| account.username.eq_ignore_ascii_case(username) && account.is_sound())
        .is_some_and(|account| is_same_password(&account.password, password))
}

/// Every byte is looked at: no difference ends it early.
fn is_same_password(a: &Password, b: &Password) -> bool {
    let pairs = a.iter().zip(b);
    pairs.fold(true, |same, (a, b)| same & a.eq_ignore_ascii_case(b))
}
