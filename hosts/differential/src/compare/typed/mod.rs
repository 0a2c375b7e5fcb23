//! The wrapper's types above the exported functions: for each drawn input that they can be given, their answer is the
//! reference's.
//!
//! A drawn state may be of any bytes; the types have only those that a start and some steps lead to, and `reach` goes
//! there.

mod capture;
mod early;
mod missing;
mod mold;
mod reach;
mod session;
mod soup;
mod store;

use super::{expect, grounds, Expected};
use crate::call::{Call, Lent};
use eiderwagon::Refusal;
use std::fmt::Debug;

/// What differs between the typed answer and the reference's, if anything does. `lent` is as it was before the call.
pub fn difference(call: &Call, lent: &Lent) -> Option<String> {
    // The types have no name, state or words of another size.
    if { grounds::of(call, lent).into_iter() }.any(grounds::has_no_type) {
        return None;
    }
    let expected = expect(call, lent);
    let mut out = lent.out.clone();
    mold::difference(call, &lent.state, &expected, &mut out)
        .or_else(|| early::difference(call, lent))
        .or_else(|| store::difference(call, &lent.state, &expected, &mut out))
        .or_else(|| soup::difference(call, &expected, &mut out))
        .or_else(|| session::difference(call, &lent.state, &expected, &mut out))
        .or_else(|| capture::difference(call, &expected, &mut out))
        .or_else(|| missing::difference(call, &expected))
}

fn same<T: Debug + PartialEq>(what: &str, typed: T, wanted: T) -> Option<String> {
    (typed != wanted).then(|| format!("typed {what}: wanted {wanted:?}, got {typed:?}"))
}

/// A typed result with the refusal's number, as the reference has it.
fn numbered<T>(result: Result<T, Refusal>) -> Result<T, u32> {
    result.map_err(|refusal| refusal.number())
}

/// A typed writer wrote what was expected.
fn same_bytes(expected: &Expected, typed: Result<&[u8], Refusal>) -> Option<String> {
    let wanted = match expected.code {
        0 => Ok(expected.out.as_slice()),
        code => Err(code),
    };
    same("writer", numbered(typed), wanted)
}

/// A state's bytes afterwards, which a call without effect leaves as they were.
fn same_state<const N: usize>(
    expected: &Expected,
    before: &[u8; N],
    after: &[u8; N],
) -> Option<String> {
    let wanted = expected.state.as_deref().unwrap_or(before);
    same("state", after.as_slice(), wanted)
}

/// The front of a lent buffer, as the array that the types take.
fn front<const N: usize>(lent: &[u8]) -> [u8; N] {
    lent[..N].try_into().expect("so many bytes")
}
