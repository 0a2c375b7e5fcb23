//! Document 01's rules and document 02's orders once more, in plain Rust: written from the documents alone, to be read next to them.
//!
//! Nothing here knows of words, lent outputs or byte layouts of states; those are the interface's and stand in
//! `compare` and `layout`.
//!
//! Five points of the interface were settled only after the library had been run, so that both agree there says little
//! of who is right; the header states them since. A feed looks at settings once 57 bytes are there; with 2^32 - 1
//! records read it is over and uses all that follows; settings that are read start a capture's counts anew, and a count
//! stops at 2^64 - 1; the cursor over a datagram that would be refused stands at place 20. That a record cut short is
//! among the records read was changed then too; there the readings decide, as refused records count.
//! What `transmitter_next` refuses of a state that no start and no turns lead to is the header's rule, not order 14's.
//! What a reading for what is missing keeps in its words is the header's too, and stands in `compare::edges`; order 11
//! itself is read here over whole captures, and both have to print the same.

pub mod capture;
pub mod early;
pub mod login;
pub mod missing;
pub mod mold;
pub mod receiver;
pub mod session;
pub mod soup;
pub mod store;
pub mod text;
pub mod transmitter;

/// The number of a refusal, as in document 01's table.
pub type Refusal = u32;

/// The name of a session: any ten bytes in MoldUDP64, right-justified text in SoupBinTCP.
pub type Name = [u8; 10];

/// A name of spaces: "any" in a login request, "not known yet" at a receiver, and what a refused start leaves.
pub const BLANK: Name = *b"          ";
