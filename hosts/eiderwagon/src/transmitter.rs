//! Our own transmitter: a run of messages cut into packets, each with the most that fit.
//!
//! ```
//! use eiderwagon::mold::Datagram;
//! use eiderwagon::transmitter::Transmitter;
//! use eiderwagon::Ground;
//!
//! // Messages 6 to 8, in packets of at most 29 bytes.
//! let (lengths, joined) = ([3, 0, 5], b"onethree");
//! let mut transmitter = Transmitter::start(b"READROOM01", 6, &lengths, joined, 29)?;
//! let (mut out, mut sent) = ([0; 29], Vec::new());
//! while let Some(packet) = transmitter.next_packet(&mut out)? {
//!     let packet = Datagram::read(packet)?;
//!     sent.push((packet.number(), packet.messages().map(<[u8]>::to_vec).collect::<Vec<_>>()));
//! }
//! assert_eq!(sent, [(6, vec![b"one".to_vec(), vec![]]), (8, vec![b"three".to_vec()])]);
//!
//! // The same packets by place, each at the cost of a walk up to it.
//! assert_eq!(Datagram::read(transmitter.packet(1, &mut out)?)?.number(), 8);
//! assert_eq!(transmitter.packet(2, &mut out).unwrap_err().ground(), Ground::NoSuchPacket);
//!
//! // A message that fits no packet refuses the whole run.
//! let long = Transmitter::start(b"READROOM01", 6, &lengths, joined, 26).unwrap_err();
//! assert_eq!(long.to_string(), "refusal 52: a message alone doesn't fit the packet's size");
//! # Ok::<(), eiderwagon::Refusal>(())
//! ```

use crate::call::{check, number, written};
use crate::{raw, Ground, Refusal, Session};
use std::fmt;

/// A run that was checked once, as a whole, and how far its packets have come.
///
/// It borrows the run, so that every packet is of the run that was started.
#[derive(PartialEq, Eq)]
pub struct Transmitter<'a> {
    session: &'a Session,
    first: u64,
    lengths: &'a [u16],
    joined: &'a [u8],
    size: usize,
    state: [u8; raw::TRANSMITTER_SIZE],
}

impl<'a> Transmitter<'a> {
    /// Starts a run: the first message has number `first`, 1 or more, and a packet at most `size`
    /// bytes, 22 to 65,507, its header included.
    pub fn start(
        session: &'a Session,
        first: u64,
        lengths: &'a [u16],
        joined: &'a [u8],
        size: usize,
    ) -> Result<Self, Refusal> {
        let mut state = [0; raw::TRANSMITTER_SIZE];
        check(raw::transmitter_start(first, lengths, joined, size as u64, &mut state))?;
        Ok(Transmitter { session, first, lengths, joined, size, state })
    }

    /// Writes the next packet, and hands back the part of `out` that it takes; none where all have
    /// gone out. An output that is too short is refused, and the next call writes the same packet.
    pub fn next_packet<'o>(&mut self, out: &'o mut [u8]) -> Result<Option<&'o [u8]>, Refusal> {
        let Transmitter { session, first, lengths, joined, size, ref mut state } = *self;
        let next = written(out, |out, words| {
            raw::transmitter_next(session, first, lengths, joined, size as u64, state, out, words)
        });
        match next {
            Ok(packet) => Ok(Some(packet)),
            Err(refusal) if refusal.ground() == Ground::NoSuchPacket => Ok(None),
            Err(refusal) => Err(refusal),
        }
    }

    /// Writes the packet at a place, from 0, whatever has gone out: a place past the last is
    /// refused. It costs a walk over the whole run and up to the place; to send all packets, take
    /// them in turn.
    pub fn packet<'o>(&self, place: u64, out: &'o mut [u8]) -> Result<&'o [u8], Refusal> {
        let Transmitter { session, first, lengths, joined, size, .. } = *self;
        written(out, |out, words| {
            raw::transmitter_packet(session, first, lengths, joined, size as u64, place, out, words)
        })
    }

    /// How many messages have gone out.
    pub fn sent(&self) -> u64 {
        number(&self.state, raw::TRANSMITTER_MESSAGES_AT)
    }

    /// The state's bytes, as `include/eiderwagon.h` lays them out.
    pub fn as_bytes(&self) -> &[u8; raw::TRANSMITTER_SIZE] {
        &self.state
    }
}

impl fmt::Debug for Transmitter<'_> {
    fn fmt(&self, f: &mut fmt::Formatter<'_>) -> fmt::Result {
        f.debug_struct("Transmitter")
            .field("session", &format_args!("\"{}\"", self.session.escape_ascii()))
            .field("first", &self.first)
            .field("messages", &self.lengths.len())
            .field("size", &self.size)
            .field("sent", &self.sent())
            .finish()
    }
}
