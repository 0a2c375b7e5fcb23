//! The packets that a client sends.

use super::fields;
use super::front::{Length, Packet};
use super::login::{Password, Username};
use crate::mold::Session;

#[derive(Clone, Copy, Debug, PartialEq, Eq)]
pub enum FromClient<'a> {
    Debug,
    Login(Login<'a>),
    Unsequenced { message: &'a [u8] },
    Heartbeat,
    Logout,
}

#[derive(Clone, Copy, Debug, PartialEq, Eq)]
pub struct Login<'a> {
    pub username: &'a Username,
    pub password: &'a Password,
    pub session: &'a Session,
    pub number: u64,
}

impl<'a> Packet<'a> for FromClient<'a> {
    #[inline]
    fn length(letter: u8) -> Option<Length> {
        match letter {
            b'+' | b'U' => Some(Length::Any),
            b'L' => Some(Length::Exactly(47)),
            b'R' | b'O' => Some(Length::Exactly(1)),
            _ => None,
        }
    }

    #[inline]
    fn read(letter: u8, payload: &'a [u8]) -> Option<Self> {
        match letter {
            b'U' => Some(FromClient::Unsequenced { message: payload }),
            b'R' => Some(FromClient::Heartbeat),
            b'O' => Some(FromClient::Logout),
            b'L' => login(payload).map(FromClient::Login),
            _ => Some(FromClient::Debug),
        }
    }
}

fn login(payload: &[u8]) -> Option<Login<'_>> {
    let (username, rest) = payload.split_first_chunk()?;
    let (password, rest) = rest.split_first_chunk()?;
    let (session, digits) = rest.split_first_chunk()?;
    let number = fields::number(digits)?;
    fields::is_session_or_blank(session).then_some(Login {
        username,
        password,
        session,
        number,
    })
}
