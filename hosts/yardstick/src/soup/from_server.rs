//! The packets that a server sends.

use super::fields;
use super::front::{Length, Packet};
use crate::mold::Session;

#[derive(Clone, Copy, Debug, PartialEq, Eq)]
pub enum FromServer<'a> {
    Debug,
    Accepted { session: &'a Session, number: u64 },
    Rejected { reason: u8 },
    Sequenced { message: &'a [u8] },
    Heartbeat,
    End,
}

impl<'a> Packet<'a> for FromServer<'a> {
    #[inline]
    fn length(letter: u8) -> Option<Length> {
        match letter {
            b'+' | b'S' => Some(Length::Any),
            b'A' => Some(Length::Exactly(31)),
            b'J' => Some(Length::Exactly(2)),
            b'H' | b'Z' => Some(Length::Exactly(1)),
            _ => None,
        }
    }

    #[inline]
    fn read(letter: u8, payload: &'a [u8]) -> Option<Self> {
        match letter {
            b'S' => Some(FromServer::Sequenced { message: payload }),
            b'H' => Some(FromServer::Heartbeat),
            b'Z' => Some(FromServer::End),
            b'A' => accepted(payload),
            b'J' => rejected(payload),
            _ => Some(FromServer::Debug),
        }
    }
}

fn accepted(payload: &[u8]) -> Option<FromServer<'_>> {
    let (session, digits) = payload.split_first_chunk()?;
    let number = fields::number(digits)?;
    (number > 0 && fields::is_session(session)).then_some(FromServer::Accepted { session, number })
}

fn rejected(payload: &[u8]) -> Option<FromServer<'_>> {
    match *payload {
        [reason @ (b'A' | b'S')] => Some(FromServer::Rejected { reason }),
        _ => None,
    }
}
