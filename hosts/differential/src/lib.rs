//! The verified library against an independent implementation of document 01's rules, on generated inputs.
//!
//! `reference` has the rules, `compare` what the header promises by them, `generate` the inputs, `coverage` the outcomes that have to
//! be drawn. Nothing but the wrapper and the standard library is used.

pub mod call;
pub mod compare;
pub mod coverage;
mod generate;
mod layout;
pub mod library;
pub mod random;
pub mod reference;
mod run;
pub mod stand_in;

pub use run::{run_with, Report, Run};

/// The seed of the fixed run, and how many inputs it has.
pub const SEED: u64 = 64;
pub const INPUTS: u64 = 6_000_000;

/// Compares the library with the reference on so many inputs from a seed. Panics at the first difference.
pub fn run(seed: u64, inputs: u64) -> Report {
    run_with(&mut library::Archive, seed, inputs)
}

/// The same, in two halves at a time: one from the seed, and one from the next.
pub fn run_halves(seed: u64, inputs: u64) -> Report {
    std::thread::scope(|scope| {
        let second = scope.spawn(|| run(seed + 1, inputs / 2));
        let first = run(seed, inputs - inputs / 2);
        first.joined(second.join().expect("the second half found no difference"))
    })
}
