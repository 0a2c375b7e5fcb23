//! The MoldUDP64 receiver: it delivers each message of a session once, in order, and asks for what
//! is missing.
//!
//! ```
//! use eiderwagon::mold;
//! use eiderwagon::receiver::{Answer, Receiver};
//!
//! let mut receiver = Receiver::start(b"READROOM01", 3, 100)?;
//! let mut out = [0; 64];
//!
//! // Messages 2 to 4: the receiver has 2 already.
//! let datagram = mold::write_data(b"READROOM01", 2, &[b"two", b"three", b"four"], &mut out)?;
//! match receiver.take(datagram)? {
//!     Answer::Deliver { first, messages } => {
//!         assert_eq!(first, 3);
//!         assert!(messages.eq([b"three".as_slice(), b"four"]));
//!     }
//!     other => panic!("{other:?}"),
//! }
//! assert_eq!(receiver.next(), 5);
//!
//! // A datagram of another session is refused, and the receiver stays as it was.
//! let other = mold::write_heartbeat(b"READROOM02", 5, &mut out)?;
//! let refusal = receiver.take(other).unwrap_err();
//! assert_eq!(refusal.to_string(), "refusal 17: the session differs");
//! assert_eq!(receiver.next(), 5);
//! # Ok::<(), eiderwagon::Refusal>(())
//! ```
//!
//! # A session whose name isn't known
//!
//! A receiver can be started without a name. The first datagram that it doesn't refuse then names
//! it, whatever it answers: one that is old or ahead, a heartbeat and an end too. Its name never
//! changes again. Until it has one, 17 is for a name of ten spaces alone.
//!
//! ```
//! use eiderwagon::mold;
//! use eiderwagon::receiver::{Answer, Receiver};
//!
//! let mut receiver = Receiver::start_unnamed(1, 100)?;
//! let mut out = [0; 64];
//! assert_eq!(receiver.session(), None);
//!
//! // Ten spaces are no name.
//! let blank = mold::write_heartbeat(b"          ", 1, &mut out)?;
//! assert_eq!(receiver.take(blank).unwrap_err().number(), 17);
//! assert_eq!(receiver.session(), None);
//!
//! // Tonight's name, from a heartbeat that says that message 1 was missed.
//! let heartbeat = mold::write_heartbeat(b"READROOM17", 2, &mut out)?;
//! let Answer::Ask(request) = receiver.take(heartbeat)? else { panic!("something is missing") };
//! assert_eq!(&request.session, b"READROOM17");
//! assert_eq!(receiver.session(), Some(*b"READROOM17"));
//!
//! // From now on every other name is refused.
//! let other = mold::write_data(b"READROOM16", 1, &[b"one"], &mut out)?;
//! assert_eq!(receiver.take(other).unwrap_err().number(), 17);
//! # Ok::<(), eiderwagon::Refusal>(())
//! ```
//!
//! # Requests are paced by the host
//!
//! This receiver keeps no datagram that is ahead ([`early`](crate::early) has one that does), and
//! no time: so by its table each datagram ahead asks anew, for the same messages, until they have
//! come. A host that sends every request that is answered sends one for almost each datagram that
//! comes while an answer is on its way, and each is answered with the same messages once more, on a
//! line that is losing some already. [`Requests`] says which ones to send. Nothing is lost by the
//! others: while something is missing, every datagram ahead asks again, and where nothing else is
//! sent the venue's heartbeats do.
//!
//! A good pause is a little longer than an answer takes to come. Over a feed of 2,000 datagrams of
//! which one in thirty was lost, it spared nine requests in ten, and most of what was sent again for
//! them, and the receiver ended as soon (`a_pause_spares_requests` in the differential tests).

mod places;
mod requests;

pub use places::{Delivered, Places};
pub use requests::Requests;

use crate::call::{check, count, field, number, received, small_number, unknown};
use crate::mold::{Messages, Request};
use crate::{raw, Refusal, Session};
use std::fmt;

/// What stands for a session's name while there is none.
pub(crate) const NO_NAME: &Session = &[b' '; raw::SESSION_SIZE];

/// A receiver of one session.
#[derive(PartialEq, Eq)]
pub struct Receiver {
    state: [u8; raw::RECEIVER_SIZE],
}

/// What a receiver makes of a datagram, with the messages that it delivers as `M`: of
/// [`take`](Receiver::take) they are [`Messages`], and of [`take_all`](Receiver::take_all)
/// [`Delivered`].
#[derive(Clone, Debug, PartialEq, Eq)]
#[non_exhaustive]
pub enum Answer<M> {
    /// These messages are new, and none before them is missing.
    Deliver {
        /// The number of the first one; the others follow by one.
        first: u64,
        /// The messages, as parts of the datagram.
        messages: M,
    },
    /// Nothing new.
    Old,
    /// A heartbeat, and nothing is missing.
    Quiet,
    /// Messages are missing: write this request and send it, if it is due by [`Requests`]. The
    /// datagram itself isn't kept.
    Ask(Request),
    /// The session is over, and nothing is missing.
    Ended,
}

impl Receiver {
    /// Starts a receiver at the number of the next message, 1 or more. It asks for at most `limit`
    /// messages at once, 1 to 65,534. A session of ten spaces has no name yet, as in
    /// [`start_unnamed`](Self::start_unnamed).
    pub fn start(session: &Session, next: u64, limit: u16) -> Result<Self, Refusal> {
        let mut state = [0; raw::RECEIVER_SIZE];
        check(raw::receiver_start(session, next, limit, &mut state))?;
        Ok(Receiver { state })
    }

    /// Starts a receiver that [learns its session's name](self#a-session-whose-name-isnt-known). To
    /// go on after a restart, [`start`](Self::start) with the name that was learned.
    pub fn start_unnamed(next: u64, limit: u16) -> Result<Self, Refusal> {
        Self::start(NO_NAME, next, limit)
    }

    /// Takes one datagram as it came, whatever its bytes are. The messages are found one by one, as
    /// the iterator is asked for them.
    pub fn take<'a>(&mut self, datagram: &'a [u8]) -> Result<Answer<Messages<'a>>, Refusal> {
        let state = &mut self.state;
        let words = received(|words| raw::receiver_take(state, datagram, words))?;
        Ok(self.answer(words, |count, skipped| Messages::delivered(datagram, count, skipped)))
    }

    /// Takes one datagram as [`take`](Self::take) does, and finds all messages that it delivers in
    /// the same call: the fastest way to all of them.
    ///
    /// ```
    /// use eiderwagon::mold;
    /// use eiderwagon::receiver::{Answer, Places, Receiver};
    ///
    /// let mut receiver = Receiver::start(b"READROOM01", 3, 100)?;
    /// let mut places = Places::new();
    /// let mut out = [0; 64];
    ///
    /// // Messages 2 to 4: the receiver has 2 already.
    /// let datagram = mold::write_data(b"READROOM01", 2, &[b"two", b"three", b""], &mut out)?;
    /// match receiver.take_all(datagram, &mut places)? {
    ///     Answer::Deliver { first, messages } => {
    ///         assert_eq!((first, messages.len()), (3, 2));
    ///         assert!(messages.eq([b"three".as_slice(), b""]));
    ///     }
    ///     other => panic!("{other:?}"),
    /// }
    /// assert_eq!(receiver.take_all(datagram, &mut places), Ok(Answer::Old));
    /// # Ok::<(), eiderwagon::Refusal>(())
    /// ```
    pub fn take_all<'a, 'p>(
        &mut self,
        datagram: &'a [u8],
        places: &'p mut Places,
    ) -> Result<Answer<Delivered<'a, 'p>>, Refusal> {
        let state = &mut self.state;
        let room = places.room_for(datagram);
        let words = received(|words| raw::receiver_deliver(state, datagram, words, room))?;
        Ok(self.answer(words, |count, _| Delivered::new(datagram, room, count)))
    }

    /// The answer that words tell, with the messages by their count and by how many are skipped.
    fn answer<M>(
        &self,
        [what, first, many, skipped]: [u64; raw::TAKE_WORDS],
        messages: impl FnOnce(u16, u16) -> M,
    ) -> Answer<M> {
        match what {
            raw::RECEIVER_DELIVER => {
                Answer::Deliver { first, messages: messages(count(many), count(skipped)) }
            }
            raw::RECEIVER_OLD => Answer::Old,
            raw::RECEIVER_QUIET => Answer::Quiet,
            raw::RECEIVER_ASK => {
                Answer::Ask(Request { session: self.name(), first, count: count(many) })
            }
            raw::RECEIVER_ENDED => Answer::Ended,
            other => unknown(other),
        }
    }

    /// The session; none until its name is known.
    pub fn session(&self) -> Option<Session> {
        let name = self.name();
        (&name != NO_NAME).then_some(name)
    }

    fn name(&self) -> Session {
        field(&self.state, raw::RECEIVER_SESSION_AT)
    }

    /// The number of the next message.
    pub fn next(&self) -> u64 {
        number(&self.state, raw::RECEIVER_NEXT_AT)
    }

    /// The most messages that it asks for at once.
    pub fn limit(&self) -> u16 {
        small_number(&self.state, raw::RECEIVER_LIMIT_AT)
    }

    /// Whether the session is over.
    pub fn is_ended(&self) -> bool {
        self.state[raw::RECEIVER_CODE_AT] != raw::RECEIVER_OPEN
    }

    /// The state's bytes, as `include/eiderwagon.h` lays them out.
    pub fn as_bytes(&self) -> &[u8; raw::RECEIVER_SIZE] {
        &self.state
    }
}

impl fmt::Debug for Receiver {
    fn fmt(&self, f: &mut fmt::Formatter<'_>) -> fmt::Result {
        f.debug_struct("Receiver")
            .field("session", &format_args!("\"{}\"", self.name().escape_ascii()))
            .field("next", &self.next())
            .field("limit", &self.limit())
            .field("ended", &self.is_ended())
            .finish()
    }
}
