//! The yardstick: the library's paths in ordinary Rust, and the library beside them.
//!
//! `mold`, `receiver`, `early`, `soup` and `report` are the yardstick: the receiver with its walk, the
//! one that keeps early messages, both ends of a session, and the capture program. `captures` and `talks` are what both sides are fed, `host`
//! is the library as a host calls it, and `compare` holds that both answer alike at each input. The
//! program of this crate compares first, and then times both; `report` is a program of its own too.

pub mod captures;
pub mod compare;
pub mod early;
pub mod host;
pub mod mold;
pub mod receiver;
pub mod report;
pub mod soup;
pub mod talks;

/// What the receivers here are started with.
pub const SESSION: &mold::Session = b"READROOM01";
pub const NEXT: u64 = 1;

/// Where those are started that have to learn their session's name: something may be old there.
pub const LATER: u64 = 51;

pub const LIMIT: u16 = 100;

/// The seed of the captures, unless another is chosen.
pub const SEED: u64 = 10;
