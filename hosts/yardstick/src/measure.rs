//! Times of the library and of Rust over one input, in turns.

pub mod library;
pub mod rust;

use std::hint::black_box;
use std::time::Instant;

pub const DATAGRAMS_A_RUN: usize = 200_000;

/// Room for the places of a datagram's messages: those that are timed have at most 30.
const PLACES: usize = 64;

/// How many logins are one input.
pub const LOGINS: usize = 100;

/// Feeds an input to a fresh state, and sums what is answered.
pub type Side<I> = fn(&I) -> u64;

/// What is fed to both sides, and how often.
pub struct Fed<'a, I> {
    pub input: &'a I,
    /// The items of the input, each of them a call or more.
    pub items: usize,
    /// A short input is fed again until so many items were: a run is long beside the clock's steps.
    pub items_a_run: usize,
}

/// The least nanoseconds for an item, of all runs.
pub struct Times {
    pub library: f64,
    pub rust: f64,
}

impl Times {
    pub fn ratio(&self) -> f64 {
        self.library / self.rust
    }
}

impl<I> Fed<'_, I> {
    /// What else the machine does meets both sides, since they run in turns.
    pub fn times(&self, runs: usize, library: Side<I>, rust: Side<I>) -> Times {
        assert_eq!(library(self.input), rust(self.input), "the sums differ");
        let mut least = Times {
            library: f64::MAX,
            rust: f64::MAX,
        };
        for _ in 0..runs {
            least.library = least.library.min(self.nanoseconds(library));
            least.rust = least.rust.min(self.nanoseconds(rust));
        }
        least
    }

    /// The time for an item, over one run.
    fn nanoseconds(&self, side: Side<I>) -> f64 {
        let times = self.items_a_run.div_ceil(self.items);
        let start = Instant::now();
        for _ in 0..times {
            black_box(side(black_box(self.input)));
        }
        start.elapsed().as_secs_f64() * 1e9 / (times * self.items) as f64
    }
}

/// The least that a program does with a message: it looks at its length and its first byte.
#[inline(always)]
fn glance(message: &[u8]) -> u64 {
    message.len() as u64 + message.first().map_or(0, |&byte| byte.into())
}
