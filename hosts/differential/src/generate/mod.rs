//! The inputs: single calls at the edges, and chains in which a state that was handed back is used again.

mod accounts;
mod bytes;
mod capture;
mod capture_cases;
mod early_bounds;
mod early_cases;
mod early_lists;
mod feed;
mod lend;
mod missing_cases;
mod mold;
mod mold_cases;
mod pairs;
mod session_cases;
mod soup;
mod soup_cases;
mod store_cases;
mod talk;
mod transmitter_cases;
mod write_back;

use crate::random::Random;
use crate::run::Run;

/// One case: a kind of input, and some calls with it.
pub fn case(run: &mut Run, random: &mut Random) {
    match random.below(118) {
        0..13 => mold_cases::read(run, random),
        13..24 => mold_cases::write(run, random),
        24..34 => mold_cases::receive(run, random),
        34..38 => feed::case(run, random),
        38..48 => soup_cases::read(run, random),
        48..56 => soup_cases::write(run, random),
        56..66 => session_cases::server(run, random),
        66..75 => session_cases::client(run, random),
        75..86 => pairs::case(run, random),
        86..90 => talk::case(run, random),
        90..96 => capture_cases::single(run, random),
        96..100 => capture_cases::pieces(run, random),
        100..102 => store_cases::case(run, random),
        102..104 => transmitter_cases::case(run, random),
        104..114 => early_cases::case(run, random),
        _ => missing_cases::case(run, random),
    }
}
