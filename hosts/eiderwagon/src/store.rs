//! A branch store: it answers re-requests from a session's messages that the host keeps.
//!
//! ```
//! use eiderwagon::mold::{Datagram, Request};
//! use eiderwagon::store::Store;
//! use eiderwagon::Ground;
//!
//! // Messages 6, 7 and 8: "one", "" and "three".
//! let store = Store { session: b"READROOM01", first: 6, lengths: &[3, 0, 5], joined: b"onethree" };
//! let request = Request { session: *b"READROOM01", first: 7, count: 100 };
//! let (mut asked, mut out) = ([0; 20], [0; 64]);
//! let asked = request.write(&mut asked)?;
//!
//! // The most whole messages that fit 64 bytes, from number 7 on: the store ends behind 8.
//! let answer = Datagram::read(store.answer(asked, 64, &mut out)?)?;
//! assert_eq!(answer.number(), 7);
//! assert!(answer.messages().eq([b"".as_slice(), b"three"]));
//!
//! // 25 bytes leave room for the empty one alone, and message 9 isn't there.
//! let answer = Datagram::read(store.answer(asked, 25, &mut out)?)?;
//! assert!(answer.messages().eq([b"".as_slice()]));
//! let mut later = [0; 20];
//! let later = Request { first: 9, ..request }.write(&mut later)?;
//! assert_eq!(store.answer(later, 64, &mut out).unwrap_err().ground(), Ground::NotInStore);
//! # Ok::<(), eiderwagon::Refusal>(())
//! ```
//!
//! # What an answer costs
//!
//! Each answer is one pass over all lengths, wherever the wanted number is: 44, for lengths that
//! don't add up to the data, comes before all that a request could say. A host that keeps more than
//! it wants to pass each time makes a `Store` of a part, some messages in a row, around the number
//! that [`Request::read`](crate::mold::Request::read) tells it. Then
//! [`NotInStore`](crate::Ground::NotInStore) means that the number isn't in the part.

use crate::call::written_for;
use crate::{raw, Refusal, Session};
use std::fmt;

/// Some messages of a session in a row, lent by whoever keeps them.
#[derive(Clone, Copy, PartialEq, Eq)]
pub struct Store<'a> {
    /// The session.
    pub session: &'a Session,
    /// The number of the first message, 1 or more.
    pub first: u64,
    /// How many bytes each message has.
    pub lengths: &'a [u16],
    /// Their bytes, joined.
    pub joined: &'a [u8],
}

impl Store<'_> {
    /// Answers a request, which may be any bytes, with one packet of at most `size` bytes, 22 to
    /// 65,507, its header included: from the wanted number on the most whole messages that fit, up
    /// to the count wanted and to the store's end. It hands back the part of `out` that the packet
    /// takes, which may be shorter than `size`.
    pub fn answer<'o>(
        &self,
        request: &[u8],
        size: usize,
        out: &'o mut [u8],
    ) -> Result<&'o [u8], Refusal> {
        let Store { session, first, lengths, joined } = *self;
        written_for(out, |out, words| {
            raw::store_answer(session, first, lengths, joined, size as u64, request, out, words)
        })
    }
}

impl fmt::Debug for Store<'_> {
    fn fmt(&self, f: &mut fmt::Formatter<'_>) -> fmt::Result {
        f.debug_struct("Store")
            .field("session", &format_args!("\"{}\"", self.session.escape_ascii()))
            .field("first", &self.first)
            .field("messages", &self.lengths.len())
            .field("bytes", &self.joined.len())
            .finish()
    }
}
