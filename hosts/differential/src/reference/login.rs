//! Document 01, "The lock": accounts, and what a login request is answered.

use super::soup::Login;
use super::text;
use super::Name;

pub const MOST_ACCOUNTS: usize = 1_024;

#[derive(Clone, Copy, Debug, PartialEq, Eq)]
pub struct Account {
    pub username: [u8; 6],
    pub password: [u8; 10],
}

/// The answer, with its ground: the grounds of one letter look alike outside, but each is to be drawn.
#[derive(Clone, Copy, Debug, PartialEq, Eq)]
pub enum Verdict {
    GrantedLatest(u64),
    GrantedAsked(u64),
    EntryUnsound,
    NoRecord,
    OtherPassword,
    OtherSession,
    NumberTooHigh,
}

/// What goes into the answer packet: 'A' with a number, or 'J' with a reason.
#[derive(Clone, Copy, Debug, PartialEq, Eq)]
pub enum Reply {
    Accept(u64),
    Reject(u8),
}

impl Verdict {
    pub fn reply(self) -> Reply {
        match self {
            Verdict::GrantedLatest(number) | Verdict::GrantedAsked(number) => Reply::Accept(number),
            Verdict::EntryUnsound | Verdict::NoRecord | Verdict::OtherPassword => {
                Reply::Reject(b'A')
            }
            Verdict::OtherSession | Verdict::NumberTooHigh => Reply::Reject(b'S'),
        }
    }
}

impl Account {
    /// A record is sound when both its fields are.
    fn is_sound(&self) -> bool {
        text::is_sound(&self.username) && text::is_sound(&self.password)
    }
}

/// Decides a login at a server of this session, whose highest message number is `last`.
pub fn decide(accounts: &[Account], session: &Name, last: u64, login: &Login) -> Verdict {
    if !text::is_sound(&login.username) || !text::is_sound(&login.password) {
        return Verdict::EntryUnsound;
    }
    let record = accounts.iter().find(|account| {
        account.is_sound() && account.username.eq_ignore_ascii_case(&login.username)
    });
    let Some(record) = record else {
        return Verdict::NoRecord;
    };
    if !record.password.eq_ignore_ascii_case(&login.password) {
        return Verdict::OtherPassword;
    }
    if !text::is_blank(&login.session) && login.session != *session {
        return Verdict::OtherSession;
    }
    if login.number == 0 {
        return Verdict::GrantedLatest(last.max(1));
    }
    // `wanted - 1 <= last` is `wanted <= last + 1` without wrapping.
    if login.number - 1 > last {
        return Verdict::NumberTooHigh;
    }
    Verdict::GrantedAsked(login.number)
}
