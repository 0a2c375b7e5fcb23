//! SoupBinTCP sessions: the server's end of one connection, with its login, and the client's.
//!
//! An end is a state that takes the packets of the other one, one at a time, off the front of what
//! came in. It sends nothing itself; a server writes its reply to a login, for the host to send.
//! A step that is refused leaves the end as it was, and the same bytes would be refused again: hang
//! up.
//!
//! ```
//! use eiderwagon::session::{Accounts, Client, ClientAnswer, Server, ServerAnswer};
//! use eiderwagon::soup::{Login, Packet};
//! # fn main() -> Result<(), Box<dyn std::error::Error>> {
//!
//! let accounts = Accounts::new([("reader", "opensesame"), ("clerk", "desk5")])?;
//! let mut server = Server::start(b"READROOM01", 1)?; // message 1 is there
//! server.set_last(2)?; // and then 2
//!
//! // The client asks for any session, from number 1 on.
//! let login = Login::new("Reader", "openSesame", "", 1)?;
//! let mut client = Client::start(&login.session, login.number)?;
//! let mut up = [0; 64];
//! let to_server = Packet::LoginRequest(login).write(&mut up)?;
//!
//! // The server takes the login, and has written a packet to send back.
//! let mut down = [0; 64];
//! let replied = server.reply(&accounts, to_server, &mut down)?;
//! assert_eq!(replied.step.answer, ServerAnswer::Accepted { number: 1 });
//! let mut size = replied.reply.len();
//!
//! // From the number accepted on, it sends its messages.
//! for message in [b"one", b"two"] {
//!     size += Packet::SequencedData(message).write(&mut down[size..])?.len();
//! }
//!
//! // The client takes what came, packet by packet.
//! let (mut stream, mut read) = (&down[..size], Vec::new());
//! loop {
//!     let step = client.step(stream)?;
//!     stream = &stream[step.size..];
//!     match step.answer {
//!         ClientAnswer::Accepted { number } => assert_eq!(number, 1),
//!         ClientAnswer::Sequenced { number, message } => read.push((number, message)),
//!         ClientAnswer::NeedMore => break,
//!         other => panic!("{other:?}"),
//!     }
//! }
//! assert_eq!(read, [(1, &b"one"[..]), (2, b"two")]);
//! assert_eq!(client.number(), 3);
//!
//! // It logs out.
//! let step = server.step(&accounts, Packet::LogoutRequest.write(&mut up)?)?;
//! assert_eq!(step.answer, ServerAnswer::LoggedOut);
//! # Ok(())
//! # }
//! ```

mod accounts;
mod client;
mod server;

pub use accounts::{Accounts, BadAccount};
pub use client::{Client, ClientAnswer, ClientState};
pub use server::{Replied, Server, ServerAnswer, ServerState};

/// One step of a session: what it answers to the front of a stream.
#[derive(Clone, Copy, Debug, PartialEq, Eq)]
pub struct Step<A> {
    /// The answer.
    pub answer: A,
    /// How many bytes of the stream it took, 0 where more are needed: go on behind them.
    pub size: usize,
}
