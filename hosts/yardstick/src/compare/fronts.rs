//! The library and the yardstick at the front of a stream.

use super::{sessions::each_front, Drawn};
use crate::soup::from_client::FromClient;
use crate::soup::from_server::FromServer;
use crate::soup::{front, Front, Refusal};
use eiderwagon::raw;

pub const FRONTS: &[&str] = &[
    "more", "+", "A", "J", "S", "H", "Z", "L", "U", "R", "O", "21", "22", "23", "24", "25",
];

/// A packet as the library shows it.
pub trait Packet<'a>: front::Packet<'a> {
    const SENDER: u8;

    /// The letter, and the number or the reason where it has one.
    fn letter_and_value(&self) -> (u8, u64);
}

impl<'a> Packet<'a> for FromServer<'a> {
    const SENDER: u8 = raw::SOUP_FROM_SERVER;

    fn letter_and_value(&self) -> (u8, u64) {
        match *self {
            FromServer::Debug => (b'+', 0),
            FromServer::Accepted { number, .. } => (b'A', number),
            FromServer::Rejected { reason } => (b'J', reason.into()),
            FromServer::Sequenced { .. } => (b'S', 0),
            FromServer::Heartbeat => (b'H', 0),
            FromServer::End => (b'Z', 0),
        }
    }
}

impl<'a> Packet<'a> for FromClient<'a> {
    const SENDER: u8 = raw::SOUP_FROM_CLIENT;

    fn letter_and_value(&self) -> (u8, u64) {
        match *self {
            FromClient::Debug => (b'+', 0),
            FromClient::Login(login) => (b'L', login.number),
            FromClient::Unsequenced { .. } => (b'U', 0),
            FromClient::Heartbeat => (b'R', 0),
            FromClient::Logout => (b'O', 0),
        }
    }
}

/// Reads each packet of a stream with both. Panics at the first difference.
pub fn compare_fronts<'a, P: Packet<'a>>(stream: &'a [u8], drawn: &mut Drawn) {
    each_front(stream, |rest| {
        let mut words = [0; raw::SOUP_READ_WORDS];
        let code = raw::soup_read(rest, P::SENDER, &mut words);
        let read = front::read::<P>(rest);
        assert_eq!((code, words), in_words(&read), "the front {rest:?}");
        drawn.add(name(&read));
        let (_, size) = read.ok()??;
        Some(size)
    });
}

/// The code and the words that the header gives a front.
fn in_words<'a, P: Packet<'a>>(read: &Result<Front<P>, Refusal>) -> (u32, [u64; 3]) {
    match read {
        Ok(Some((packet, size))) => {
            let (letter, value) = packet.letter_and_value();
            (raw::OK, [letter.into(), *size as u64, value])
        }
        Ok(None) => (raw::OK, [0; raw::SOUP_READ_WORDS]),
        Err(refusal) => (*refusal as u32, [0; raw::SOUP_READ_WORDS]),
    }
}

fn name<'a, P: Packet<'a>>(read: &Result<Front<P>, Refusal>) -> String {
    match read {
        Ok(Some((packet, _))) => char::from(packet.letter_and_value().0).to_string(),
        Ok(None) => "more".to_string(),
        Err(refusal) => (*refusal as u32).to_string(),
    }
}
