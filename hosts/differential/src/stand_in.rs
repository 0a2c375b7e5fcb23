//! The reference in the library's place: it shows how fast the generators are and what they draw, without the archive, and with a
//! fault put in it shows that the comparison sees it.

use crate::call::{Call, Lent};
use crate::compare;
use crate::library::Library;

pub struct StandIn;

impl Library for StandIn {
    fn call(&mut self, call: &Call, lent: &mut Lent) -> u32 {
        compare::expect(call, lent).apply(lent)
    }
}
