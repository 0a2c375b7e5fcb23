//! SoupBinTCP logical packets, read from the front of a stream and written.
//!
//! ```
//! use eiderwagon::soup::{self, Front, Packet, Sender, Stop};
//!
//! let mut stream = [0; 64];
//! let size = Packet::SequencedData(b"a message").write(&mut stream)?.len();
//!
//! // All but the last byte came: read on.
//! assert!(matches!(soup::read(&stream[..size - 1], Sender::Server)?, Front::NeedMore));
//! match soup::read(&stream[..size], Sender::Server)? {
//!     Front::Packet { packet: Packet::SequencedData(message), size: taken } => {
//!         assert_eq!((message, taken), (&b"a message"[..], size));
//!     }
//!     other => panic!("{other:?}"),
//! }
//!
//! // Only a server sends sequenced data.
//! let refusal = soup::read(&stream[..size], Sender::Client).unwrap_err();
//! assert_eq!(refusal.number(), 23);
//!
//! // Behind the packet two zero bytes stand, which are a length of 0.
//! let scan = soup::scan(&stream, Sender::Server);
//! assert_eq!((scan.packets, scan.bytes), (1, size));
//! assert!(matches!(scan.stop, Stop::Refused(refusal) if refusal.number() == 21));
//! # Ok::<(), eiderwagon::Refusal>(())
//! ```

use crate::call::{field, received, sure, unknown, words, written};
use crate::{raw, Ground, Refusal, Session};
use std::fmt;

/// Who sends a stream.
#[derive(Clone, Copy, Debug, PartialEq, Eq)]
#[repr(u8)]
pub enum Sender {
    /// The server.
    Server = raw::SOUP_FROM_SERVER,
    /// The client.
    Client = raw::SOUP_FROM_CLIENT,
}

/// A logical packet; messages and texts are parts of the stream that it was read from.
///
/// Packets don't compare, since a login request has a password in it.
#[derive(Clone, Debug)]
pub enum Packet<'a> {
    /// `+`, of either end: text for people, which programs ignore.
    Debug(&'a [u8]),
    /// `A`, of the server.
    LoginAccepted {
        /// The session logged into.
        session: Session,
        /// The number of the next message.
        number: u64,
    },
    /// `J`, of the server.
    LoginRejected(Reason),
    /// `S`, of the server: a message; counting gives its number.
    SequencedData(&'a [u8]),
    /// `H`, of the server.
    ServerHeartbeat,
    /// `Z`, of the server.
    EndOfSession,
    /// `L`, of the client.
    LoginRequest(Login),
    /// `U`, of the client: a message.
    UnsequencedData(&'a [u8]),
    /// `R`, of the client.
    ClientHeartbeat,
    /// `O`, of the client.
    LogoutRequest,
}

/// Why a login is rejected.
#[derive(Clone, Copy, Debug, PartialEq, Eq)]
#[repr(u8)]
pub enum Reason {
    /// `A`: not authorized; the username or the password isn't right.
    NotAuthorized = b'A',
    /// `S`: the session isn't available, or hasn't come as far as the number asked for.
    SessionNotAvailable = b'S',
}

impl Reason {
    pub(crate) fn of(word: u64) -> Reason {
        match u8::try_from(word) {
            Ok(b'A') => Reason::NotAuthorized,
            Ok(b'S') => Reason::SessionNotAvailable,
            _ => unknown(word),
        }
    }
}

/// What a login request asks for.
///
/// It has a password, so it isn't copied unnoticed, isn't shown whole, and compares with nothing:
/// `==` would end at the first byte that differs, and take zero bytes or spaces for a password.
/// Whether a login is right is for [`Server::step`](crate::session::Server::step) to say.
#[derive(Clone)]
pub struct Login {
    /// The username, with spaces on the right.
    pub username: [u8; raw::USERNAME_SIZE],
    /// The password, with spaces on the right.
    pub password: [u8; raw::PASSWORD_SIZE],
    /// The session, with spaces on the left; all spaces for any.
    pub session: Session,
    /// The number of the next message wanted, 0 for the most recent one.
    pub number: u64,
}

impl Login {
    /// Makes the fields from text; an empty session is any. Text that is too long for its field is
    /// refused here, what else a field can't hold by [`Packet::write`].
    pub fn new(
        username: &str,
        password: &str,
        session: &str,
        number: u64,
    ) -> Result<Login, Refusal> {
        Ok(Login {
            username: left_justified(username)?,
            password: left_justified(password)?,
            session: right_justified(session)?,
            number,
        })
    }
}

/// The password isn't shown: it would end up in a log.
impl fmt::Debug for Login {
    fn fmt(&self, f: &mut fmt::Formatter<'_>) -> fmt::Result {
        f.debug_struct("Login")
            .field("username", &format_args!("\"{}\"", self.username.escape_ascii()))
            .field("session", &format_args!("\"{}\"", self.session.escape_ascii()))
            .field("number", &self.number)
            .finish_non_exhaustive()
    }
}

/// Text as a field with spaces on its right, as usernames and passwords are.
pub fn left_justified<const N: usize>(text: &str) -> Result<[u8; N], Refusal> {
    let mut field = [b' '; N];
    let long = Refusal::of_caller(Ground::FieldNotWritten);
    let place = field.get_mut(..text.len()).ok_or(long)?;
    place.copy_from_slice(text.as_bytes());
    Ok(field)
}

/// Text as a field with spaces on its left, as sessions are.
pub fn right_justified<const N: usize>(text: &str) -> Result<[u8; N], Refusal> {
    let mut field = left_justified(text)?;
    field.rotate_left(text.len());
    Ok(field)
}

/// What stands at the front of a stream.
#[derive(Clone, Debug)]
pub enum Front<'a> {
    /// A packet.
    Packet {
        /// The packet.
        packet: Packet<'a>,
        /// How many bytes of the stream it takes.
        size: usize,
    },
    /// No whole packet yet.
    NeedMore,
}

/// Reads the packet at the front of a stream. Bytes that come later never change a packet or a
/// refusal that was given.
pub fn read(stream: &[u8], sender: Sender) -> Result<Front<'_>, Refusal> {
    let [letter, size, value] = received(|words| raw::soup_read(stream, sender as u8, words))?;
    if letter == 0 {
        return Ok(Front::NeedMore);
    }
    let size = size as usize;
    Ok(Front::Packet { packet: packet(letter, &stream[3..size], value), size })
}

/// A packet from its letter and its payload; `value` is the number or the reason in it.
fn packet(letter: u64, payload: &[u8], value: u64) -> Packet<'_> {
    match u8::try_from(letter) {
        Ok(b'+') => Packet::Debug(payload),
        Ok(b'A') => Packet::LoginAccepted { session: field(payload, 0), number: value },
        Ok(b'J') => Packet::LoginRejected(Reason::of(value)),
        Ok(b'S') => Packet::SequencedData(payload),
        Ok(b'H') => Packet::ServerHeartbeat,
        Ok(b'Z') => Packet::EndOfSession,
        Ok(b'L') => Packet::LoginRequest(Login {
            username: field(payload, 0),
            password: field(payload, raw::USERNAME_SIZE),
            session: field(payload, raw::USERNAME_SIZE + raw::PASSWORD_SIZE),
            number: value,
        }),
        Ok(b'U') => Packet::UnsequencedData(payload),
        Ok(b'R') => Packet::ClientHeartbeat,
        Ok(b'O') => Packet::LogoutRequest,
        _ => unknown(letter),
    }
}

impl Packet<'_> {
    /// Writes the packet, and hands back the part of `out` that it takes.
    pub fn write<'o>(&self, out: &'o mut [u8]) -> Result<&'o [u8], Refusal> {
        written(out, |out, words| match self {
            Packet::Debug(text) => raw::soup_write_debug(text, out, words),
            Packet::LoginAccepted { session, number } => {
                raw::soup_write_accepted(session, *number, out, words)
            }
            Packet::LoginRejected(reason) => raw::soup_write_rejected(*reason as u8, out, words),
            Packet::SequencedData(message) => raw::soup_write_sequenced(message, out, words),
            Packet::ServerHeartbeat => raw::soup_write_server_heartbeat(out, words),
            Packet::EndOfSession => raw::soup_write_end(out, words),
            Packet::LoginRequest(Login { username, password, session, number }) => {
                raw::soup_write_login(username, password, session, *number, out, words)
            }
            Packet::UnsequencedData(message) => raw::soup_write_unsequenced(message, out, words),
            Packet::ClientHeartbeat => raw::soup_write_client_heartbeat(out, words),
            Packet::LogoutRequest => raw::soup_write_logout(out, words),
        })
    }
}

/// How far the good packets at the front of a stream go.
#[derive(Clone, Copy, Debug, PartialEq, Eq)]
pub struct Scan {
    /// How many packets.
    pub packets: u64,
    /// How many bytes they take.
    pub bytes: usize,
    /// What stands behind them.
    pub stop: Stop,
}

/// What stands behind the good packets of a stream.
#[derive(Clone, Copy, Debug, PartialEq, Eq)]
pub enum Stop {
    /// No whole packet, perhaps no byte.
    NeedMore,
    /// A packet that is refused.
    Refused(Refusal),
}

/// Passes all good packets at the front of a stream.
pub fn scan(stream: &[u8], sender: Sender) -> Scan {
    let [packets, bytes, number] = sure(words(|words| raw::soup_scan(stream, sender as u8, words)));
    let stop = match u32::try_from(number) {
        Ok(0) => Stop::NeedMore,
        Ok(refused) => Stop::Refused(Refusal::received(refused)),
        Err(_) => unknown(number),
    };
    Scan { packets, bytes: bytes as usize, stop }
}
