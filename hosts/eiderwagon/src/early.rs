//! The MoldUDP64 receiver that keeps early messages: where packets swap places it asks for less.
//!
//! It has 64 slots of 1,024 bytes. A message that comes before its turn, within the 64 numbers
//! behind the expected one and of at most 1,024 bytes, is held there until those before it have
//! come. Then it is delivered from there, with the message that closed the gap.
//!
//! ```
//! use eiderwagon::early::{Answer, EarlyReceiver};
//! use eiderwagon::mold;
//!
//! let mut receiver = EarlyReceiver::start(b"READROOM01", 1, 100)?;
//! let mut out = [0; 64];
//!
//! // Message 2 overtakes message 1: it is held, and 1 is asked for.
//! let two = mold::write_data(b"READROOM01", 2, &[b"two"], &mut out)?;
//! let taken = receiver.take(two)?;
//! assert_eq!(taken.answer, Answer::Ahead);
//! let request = taken.request.expect("something is missing");
//! assert_eq!((request.first, request.count), (1, 1));
//! assert_eq!(receiver.held_count(), 1);
//! assert!(receiver.holds(2) && !receiver.holds(1));
//!
//! // With message 1 both are delivered, and nothing is missing.
//! let one = mold::write_data(b"READROOM01", 1, &[b"one"], &mut out)?;
//! let taken = receiver.take(one)?;
//! let Answer::Deliver(messages) = taken.answer else { panic!("it delivers") };
//! assert!(messages.eq([(1, b"one".as_slice()), (2, b"two")]));
//! assert_eq!(taken.request, None);
//! assert_eq!((receiver.next(), receiver.held_count()), (3, 0));
//! # Ok::<(), eiderwagon::Refusal>(())
//! ```
//!
//! # Requests
//!
//! A request stands beside the answer: one that delivers, or is old or quiet, may draw one too, as
//! long as something is held behind a gap. It reaches to just below the lowest held number, so that
//! nothing is asked for that is here already. Like the plain receiver it asks again with each
//! datagram ahead, and while something is held with every other one, and keeps no time:
//! [`Requests`](crate::receiver::Requests) says which requests to send.
//!
//! ```
//! use eiderwagon::early::EarlyReceiver;
//! use eiderwagon::mold;
//! use eiderwagon::receiver::Requests;
//! use std::time::Duration;
//!
//! let mut receiver = EarlyReceiver::start_unnamed(1, 100)?;
//! let mut requests = Requests::new(Duration::from_millis(20));
//! let mut sent = vec![];
//! for (now, number) in [(0, 3), (1, 4), (2, 1), (3, 2)] {
//!     let mut out = [0; 64];
//!     let datagram = mold::write_data(b"READROOM17", number, &[b"offer"], &mut out)?;
//!     let request = receiver.take(datagram)?.request;
//!     if let Some(request) = request.filter(|r| requests.due(r, Duration::from_millis(now))) {
//!         sent.push((request.first, request.count)); // write the request, and send it
//!     }
//! }
//! // Before message 3 two were missing; once 1 was there, 2 alone. With 2 all is delivered.
//! assert_eq!(sent, [(1, 2), (2, 1)]);
//! assert_eq!((receiver.next(), receiver.session()), (5, Some(*b"READROOM17")));
//! # Ok::<(), eiderwagon::Refusal>(())
//! ```

mod delivered;

pub use delivered::Delivered;

use crate::call::{check, count, field, number, received, small_number, unknown};
use crate::mold::Request;
use crate::receiver::NO_NAME;
use crate::{raw, Refusal, Session};
use std::fmt;

/// The slots of a receiver.
pub(crate) type Slots = Box<[u8; raw::SLOTS_SIZE]>;

/// They may have any bytes at first.
pub(crate) fn new_slots() -> Slots {
    let slots = vec![0; raw::SLOTS_SIZE].into_boxed_slice();
    slots.try_into().expect("so many bytes")
}

/// A receiver of one session that keeps early messages. It has its own slots, 64 KiB of memory.
pub struct EarlyReceiver {
    state: [u8; raw::EARLY_SIZE],
    slots: Slots,
    /// Room for the places of what a datagram delivers, kept from one to the next.
    places: Vec<u64>,
}

/// What a receiver that keeps early messages makes of a datagram.
#[derive(Clone, Debug, PartialEq, Eq)]
pub struct Taken<'a> {
    /// What the datagram is to the receiver, by the number that it expected.
    pub answer: Answer<'a>,
    /// Messages are missing: write this request and send it, if it is due by
    /// [`Requests`](crate::receiver::Requests).
    pub request: Option<Request>,
}

/// What a datagram is to a receiver that keeps early messages.
#[derive(Clone, Debug, PartialEq, Eq)]
#[non_exhaustive]
pub enum Answer<'a> {
    /// These messages are new, of the datagram and of the slots, and none before them is missing.
    Deliver(Delivered<'a>),
    /// Nothing new.
    Old,
    /// A heartbeat at the expected number.
    Quiet,
    /// Messages are missing before this datagram. Those of its own that have a slot are held.
    Ahead,
    /// The session is over, and nothing is missing.
    Ended,
}

impl EarlyReceiver {
    /// Starts a receiver at the number of the next message, 1 or more. It asks for at most `limit`
    /// messages at once, 1 to 65,534. A session of ten spaces has no name yet, as in
    /// [`start_unnamed`](Self::start_unnamed).
    pub fn start(session: &Session, next: u64, limit: u16) -> Result<Self, Refusal> {
        let mut state = [0; raw::EARLY_SIZE];
        check(raw::early_start(session, next, limit, &mut state))?;
        Ok(EarlyReceiver { state, slots: new_slots(), places: Vec::new() })
    }

    /// Starts a receiver that
    /// [learns its session's name](crate::receiver#a-session-whose-name-isnt-known). To go on after
    /// a restart, [`start`](Self::start) with the name that was learned.
    pub fn start_unnamed(next: u64, limit: u16) -> Result<Self, Refusal> {
        Self::start(NO_NAME, next, limit)
    }

    /// Takes one datagram as it came, whatever its bytes are.
    ///
    /// The messages that it delivers are parts of the datagram and of the receiver's slots, so they
    /// are had until the next datagram is taken:
    ///
    /// ```compile_fail
    /// # let mut receiver = eiderwagon::early::EarlyReceiver::start(b"READROOM01", 1, 1).unwrap();
    /// let first = receiver.take(b"a datagram");
    /// let second = receiver.take(b"another");
    /// drop(first);
    /// ```
    pub fn take<'a>(&'a mut self, datagram: &'a [u8]) -> Result<Taken<'a>, Refusal> {
        let EarlyReceiver { state, slots, places } = self;
        let room = delivered::room_for(places, datagram);
        let words: [u64; raw::EARLY_TAKE_WORDS] =
            received(|words| raw::early_deliver(state, &mut slots[..], datagram, words, room))?;
        let answer = match words[raw::EARLY_TAKE_ANSWER] {
            raw::EARLY_DELIVER => {
                let first = words[raw::EARLY_TAKE_FIRST];
                let laid = words[raw::EARLY_TAKE_COUNT] as usize * raw::EARLY_PLACE_WORDS;
                Answer::Deliver(Delivered::new(first, &slots[..], datagram, &room[..laid]))
            }
            raw::EARLY_OLD => Answer::Old,
            raw::EARLY_QUIET => Answer::Quiet,
            raw::EARLY_AHEAD => Answer::Ahead,
            raw::EARLY_ENDED => Answer::Ended,
            other => unknown(other),
        };
        let request = (words[raw::EARLY_TAKE_ASKS] == 1).then(|| Request {
            session: name(state),
            first: words[raw::EARLY_TAKE_FROM],
            count: count(words[raw::EARLY_TAKE_WANTED]),
        });
        Ok(Taken { answer, request })
    }

    /// The session; none until its name is known.
    pub fn session(&self) -> Option<Session> {
        let name = name(&self.state);
        (&name != NO_NAME).then_some(name)
    }

    /// The number of the next message.
    pub fn next(&self) -> u64 {
        number(&self.state, raw::EARLY_NEXT_AT)
    }

    /// The most messages that it asks for at once.
    pub fn limit(&self) -> u16 {
        small_number(&self.state, raw::EARLY_LIMIT_AT)
    }

    /// Whether the session is over.
    pub fn is_ended(&self) -> bool {
        self.state[raw::EARLY_CODE_AT] != raw::EARLY_OPEN
    }

    /// How many messages are held for later, at most 64.
    pub fn held_count(&self) -> u32 {
        number(&self.state, raw::EARLY_HELD_AT).count_ones()
    }

    /// Whether the message with this number is held for later.
    pub fn holds(&self, message: u64) -> bool {
        let held = number(&self.state, raw::EARLY_HELD_AT);
        // The word's lowest bit stands for the number behind the next one.
        match message.checked_sub(self.next()) {
            Some(ahead @ 1..=64) => held >> (ahead - 1) & 1 == 1,
            _ => false,
        }
    }

    /// The state's bytes, as `include/eiderwagon.h` lays them out.
    pub fn as_bytes(&self) -> &[u8; raw::EARLY_SIZE] {
        &self.state
    }

    /// The slots' bytes.
    pub fn slots(&self) -> &[u8; raw::SLOTS_SIZE] {
        &self.slots
    }
}

fn name(state: &[u8]) -> Session {
    field(state, raw::EARLY_SESSION_AT)
}

impl fmt::Debug for EarlyReceiver {
    fn fmt(&self, f: &mut fmt::Formatter<'_>) -> fmt::Result {
        f.debug_struct("EarlyReceiver")
            .field("session", &format_args!("\"{}\"", name(&self.state).escape_ascii()))
            .field("next", &self.next())
            .field("limit", &self.limit())
            .field("ended", &self.is_ended())
            .field("held", &self.held_count())
            .finish()
    }
}
