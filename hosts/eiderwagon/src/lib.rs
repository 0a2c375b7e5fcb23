//! MoldUDP64 and SoupBinTCP, at both ends, for hosts in Rust.
//!
//! The protocols' logic is in `libeiderwagon.a`, where every function is proved to meet its
//! contract, for all bytes that it may be lent. This crate gives it types. It takes bytes and gives
//! answers; what is left to the host is
//!
//! - the sockets: it receives, sends what was written, and sends the requests that are answered;
//! - the clocks: heartbeats are due after a second without sending, silence ends a connection, and
//!   requests are paced, for which there is [`receiver::Requests`];
//! - one [`session::Server`] or [`session::Client`] for each connection, and one
//!   [`receiver::Receiver`] for each feed, or, where packets swap places, one
//!   [`early::EarlyReceiver`]. The host keeps them, and hands each datagram or stream to its own, in
//!   the order in which it came;
//! - the messages of a [`store::Store`] that answers requests, and of a
//!   [`transmitter::Transmitter`] that sends them: both borrow what the host keeps.
//!
//! Nothing needs to be checked beforehand. What doesn't follow the rules is answered with a
//! [`Refusal`], which has changed nothing.
//!
//! A receiver, a transmitter, a server, a client or a reading is had from a start that succeeded,
//! and in no other way; it can't be copied or made of bytes. So the state that a call is given is
//! always the one that the call before left, as the proofs want it. To go on after a restart, keep
//! a receiver's [`session`](receiver::Receiver::session) and its
//! [`next`](receiver::Receiver::next) number, and start a new one there.
//!
//! The archive has to be of this crate's version, [`raw::VERSION`]: the first call says so where it
//! isn't, and panics.
//!
//! An enum to which later rules may add is `#[non_exhaustive]`: a `match` needs an arm for the
//! rest.
//!
//! A receiver over three datagrams, of which the second is lost at first:
//!
//! ```
//! use eiderwagon::mold;
//! use eiderwagon::receiver::{Answer, Receiver, Requests};
//! use std::time::{Duration, Instant};
//!
//! // What the venue sends: messages 1 and 2, 3, and 4.
//! let name = b"READROOM01";
//! let (mut a, mut b, mut c) = ([0; 64], [0; 64], [0; 64]);
//! let one_and_two = mold::write_data(name, 1, &[b"offer 1", b"offer 2"], &mut a)?;
//! let three = mold::write_data(name, 3, &[b"offer 1 withdrawn"], &mut b)?;
//! let four = mold::write_data(name, 4, &[b"offer 4"], &mut c)?;
//!
//! let mut receiver = Receiver::start(name, 1, 100)?;
//! let mut requests = Requests::new(Duration::from_millis(20));
//! let (start, mut shown) = (Instant::now(), Vec::new());
//! for datagram in [one_and_two, four, three, four] {
//!     match receiver.take(datagram)? {
//!         Answer::Deliver { messages, .. } => shown.extend(messages),
//!         Answer::Ask(request) if requests.due(&request, start.elapsed()) => {
//!             // The host sends it; the venue then sends from message 3 on again.
//!             assert_eq!((request.first, request.count), (3, 1));
//!             let mut packet = [0; 20];
//!             request.write(&mut packet)?;
//!         }
//!         Answer::Ended => break,
//!         _ => {} // old, quiet, or asked for already: nothing to do
//!     }
//! }
//! let all: [&[u8]; 4] = [b"offer 1", b"offer 2", b"offer 1 withdrawn", b"offer 4"];
//! assert_eq!(shown, all);
//! # Ok::<(), eiderwagon::Refusal>(())
//! ```

#![warn(missing_docs)]
#![deny(unsafe_code)]

mod call;
pub mod capture;
pub mod early;
pub mod missing;
pub mod mold;
#[allow(unsafe_code)]
pub mod raw;
pub mod receiver;
mod refusal;
pub mod session;
pub mod soup;
pub mod store;
pub mod transmitter;

#[cfg(test)]
mod header_test;

pub use refusal::{Fault, Ground, Refusal};

/// The name of a session. In MoldUDP64 it is any ten bytes, of which a receiver takes ten spaces for
/// none; in SoupBinTCP it is spaces, then letters or digits.
pub type Session = [u8; raw::SESSION_SIZE];

/// A state is had from a start alone: it isn't made of bytes, and it isn't copied.
///
/// ```compile_fail
/// eiderwagon::receiver::Receiver { state: [0; 21] };
/// ```
///
/// ```compile_fail
/// eiderwagon::early::EarlyReceiver::start(b"READROOM01", 1, 1).unwrap().clone();
/// ```
///
/// ```compile_fail
/// eiderwagon::session::Server::from_bytes([0; 20]);
/// ```
///
/// ```compile_fail
/// eiderwagon::capture::Reading::start().clone();
/// ```
///
/// ```compile_fail
/// eiderwagon::missing::Missing::start().clone();
/// ```
///
/// ```compile_fail
/// eiderwagon::transmitter::Transmitter::start(b"READROOM01", 1, &[], &[], 22).unwrap().clone();
/// ```
///
/// What has a password in it isn't compared.
///
/// ```compile_fail
/// let login = eiderwagon::soup::Login::new("a", "b", "", 1).unwrap();
/// let _ = login == login;
/// ```
#[cfg(doctest)]
struct NotToBeHad;
