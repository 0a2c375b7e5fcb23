//! MoldUDP64 downstream packets and request packets, read and written.
//!
//! ```
//! use eiderwagon::mold::{self, Datagram, Kind};
//!
//! let mut out = [0; 64];
//! let sent = mold::write_data(b"READROOM01", 7, &[b"first", b"", b"third"], &mut out)?;
//!
//! let datagram = Datagram::read(sent)?;
//! assert_eq!(datagram.session(), b"READROOM01");
//! assert_eq!(datagram.number(), 7);
//! assert_eq!(datagram.kind(), Kind::Data { count: 3 });
//! assert_eq!(datagram.message(2), Some(&b"third"[..]));
//! assert_eq!(datagram.message(3), None);
//! for (number, message) in (7..).zip(datagram.messages()) {
//!     println!("{number}: {}", message.escape_ascii());
//! }
//! # Ok::<(), eiderwagon::Refusal>(())
//! ```

use crate::call::{
    check, count, field, pointed, received, small_number, sure, unknown, words, written,
};
use crate::{raw, Refusal, Session};
use std::fmt;
use std::iter::FusedIterator;

/// A datagram that was read: the lent bytes, and what their header says.
#[derive(Clone, Copy, Debug, PartialEq, Eq)]
pub struct Datagram<'a> {
    bytes: &'a [u8],
    number: u64,
    kind: Kind,
}

/// What a datagram is.
#[derive(Clone, Copy, Debug, PartialEq, Eq)]
pub enum Kind {
    /// It carries messages.
    Data {
        /// How many, from 1 to 65,534.
        count: u16,
    },
    /// It carries none, and says which number comes next.
    Heartbeat,
    /// It carries none, and says that none will follow the ones below its number.
    EndOfSession,
}

impl<'a> Datagram<'a> {
    /// Reads a datagram, which is to be exactly its header and blocks.
    pub fn read(bytes: &'a [u8]) -> Result<Self, Refusal> {
        let [kind, number, messages] = received(|words| raw::mold_read(bytes, words))?;
        let kind = match kind {
            raw::MOLD_DATA => Kind::Data { count: count(messages) },
            raw::MOLD_HEARTBEAT => Kind::Heartbeat,
            raw::MOLD_END_OF_SESSION => Kind::EndOfSession,
            other => unknown(other),
        };
        Ok(Datagram { bytes, number, kind })
    }

    /// Its session.
    pub fn session(&self) -> &'a Session {
        self.bytes.first_chunk().expect("a datagram that was read has a header")
    }

    /// Its sequence number: that of its first message, or of the next one where it has none.
    pub fn number(&self) -> u64 {
        self.number
    }

    /// What it is.
    pub fn kind(&self) -> Kind {
        self.kind
    }

    /// One message by its place, from 0. To visit several, take [`messages`](Self::messages).
    pub fn message(&self, place: u16) -> Option<&'a [u8]> {
        found(self.bytes, sure(words(|words| raw::mold_locate(self.bytes, place, words))))
    }

    /// All messages, in order.
    pub fn messages(&self) -> Messages<'a> {
        Messages::walk(self.bytes, |cursor| raw::mold_walk(self.bytes, cursor))
    }

    /// The lent bytes.
    pub fn as_bytes(&self) -> &'a [u8] {
        self.bytes
    }
}

/// A message, where an answer says that it is there.
fn found(datagram: &[u8], [there, offset, length]: [u64; 3]) -> Option<&[u8]> {
    (there == 1).then(|| pointed(datagram, offset, length))
}

/// Messages of a datagram one after the other, some of them perhaps empty.
#[derive(Clone, PartialEq, Eq)]
pub struct Messages<'a> {
    datagram: &'a [u8],
    cursor: [u8; raw::CURSOR_SIZE],
}

impl<'a> Messages<'a> {
    fn walk(datagram: &'a [u8], set: impl FnOnce(&mut [u8]) -> u32) -> Self {
        let mut cursor = [0; raw::CURSOR_SIZE];
        sure(check(set(&mut cursor)));
        Messages { datagram, cursor }
    }

    /// The messages that a receiver delivers of a datagram.
    pub(crate) fn delivered(datagram: &'a [u8], count: u16, skipped: u16) -> Self {
        Self::walk(datagram, |cursor| raw::receiver_walk(datagram, count, skipped, cursor))
    }
}

impl<'a> Iterator for Messages<'a> {
    type Item = &'a [u8];

    fn next(&mut self) -> Option<&'a [u8]> {
        found(self.datagram, sure(words(|w| raw::mold_next(&mut self.cursor, self.datagram, w))))
    }

    fn size_hint(&self) -> (usize, Option<usize>) {
        let left = small_number(&self.cursor, raw::CURSOR_LEFT_AT).into();
        (left, Some(left))
    }
}

impl ExactSizeIterator for Messages<'_> {}
impl FusedIterator for Messages<'_> {}

impl fmt::Debug for Messages<'_> {
    fn fmt(&self, f: &mut fmt::Formatter<'_>) -> fmt::Result {
        f.debug_list().entries(self.clone()).finish()
    }
}

/// A request: send messages again, from a number on.
///
/// ```
/// use eiderwagon::mold::Request;
///
/// let request = Request { session: *b"READROOM01", first: 3, count: 2 };
/// let mut out = [0; 20];
/// assert_eq!(Request::read(request.write(&mut out)?)?, request);
/// # Ok::<(), eiderwagon::Refusal>(())
/// ```
#[derive(Clone, Copy, Debug, PartialEq, Eq)]
pub struct Request {
    /// The session.
    pub session: Session,
    /// The first number wanted.
    pub first: u64,
    /// How many messages, from 1 to 65,534.
    pub count: u16,
}

impl Request {
    /// Reads a request.
    pub fn read(bytes: &[u8]) -> Result<Self, Refusal> {
        let [first, wanted] = received(|words| raw::mold_read_request(bytes, words))?;
        Ok(Request { session: field(bytes, 0), first, count: count(wanted) })
    }

    /// Writes the request, and hands back the part of `out` that it takes: its first 20 bytes.
    pub fn write<'o>(&self, out: &'o mut [u8]) -> Result<&'o [u8], Refusal> {
        written(out, |out, words| {
            raw::mold_write_request(&self.session, self.first, self.count, out, words)
        })
    }
}

/// Writes messages as one datagram, the first with number `first`, and hands back the part of
/// `out` that it takes. No messages make a heartbeat.
///
/// It joins the messages in memory of its own; [`write_joined`] allocates nothing.
pub fn write_data<'o>(
    session: &Session,
    first: u64,
    messages: &[&[u8]],
    out: &'o mut [u8],
) -> Result<&'o [u8], Refusal> {
    // A message that no length of 16 bits can tell is lent cut down to the largest one that can.
    // The datagram would be over 65,507 bytes either way, so it is refused as the whole one is.
    let told = |message: &&[u8]| u16::try_from(message.len()).unwrap_or(u16::MAX);
    let lengths: Vec<u16> = messages.iter().map(told).collect();
    let cut: Vec<&[u8]> = messages.iter().map(|m| &m[..usize::from(told(m))]).collect();
    write_joined(session, first, &lengths, &cut.concat(), out)
}

/// Writes messages as one datagram, from their lengths and their joined bytes.
pub fn write_joined<'o>(
    session: &Session,
    first: u64,
    lengths: &[u16],
    joined: &[u8],
    out: &'o mut [u8],
) -> Result<&'o [u8], Refusal> {
    written(out, |out, words| raw::mold_write_data(session, first, lengths, joined, out, words))
}

/// Writes a heartbeat: `next` is the number of the next message.
pub fn write_heartbeat<'o>(
    session: &Session,
    next: u64,
    out: &'o mut [u8],
) -> Result<&'o [u8], Refusal> {
    written(out, |out, words| raw::mold_write_heartbeat(session, next, out, words))
}

/// Writes an end of session: `next` is one past the number of the last message.
pub fn write_end_of_session<'o>(
    session: &Session,
    next: u64,
    out: &'o mut [u8],
) -> Result<&'o [u8], Refusal> {
    written(out, |out, words| raw::mold_write_end(session, next, out, words))
}
