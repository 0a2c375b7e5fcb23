//! SoupBinTCP in ordinary Rust: the packets of either end, and the session at both.

pub mod client;
mod fields;
pub mod from_client;
pub mod from_server;
pub mod front;
pub mod login;
pub mod server;

pub use crate::mold::BLANK;

/// Why a start, a packet or a step is refused, by document 01's numbers.
#[derive(Clone, Copy, Debug, PartialEq, Eq)]
pub enum Refusal {
    BadSetting = 19,
    LengthZero = 21,
    PayloadLong = 22,
    LetterNotSent = 23,
    LengthWrong = 24,
    FieldBad = 25,
    PacketNotTaken = 31,
    StateClosed = 32,
    LoginNotAsked = 33,
    NumbersUsedUp = 34,
}

/// What either end answers to a packet.
#[derive(Clone, Copy, Debug, PartialEq, Eq)]
pub enum Answer<'a> {
    Accepted { number: u64 },
    Rejected { reason: u8 },
    Sequenced { number: u64, message: &'a [u8] },
    Unsequenced { message: &'a [u8] },
    Heartbeat,
    Debug,
    LoggedOut,
    Over,
}

/// What was made of the packet at the front of a stream, and the packet's size; none where more
/// bytes are needed.
pub type Front<T> = Option<(T, usize)>;
