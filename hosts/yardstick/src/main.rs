//! Compares the library with the yardstick at each input, and then times both, in turns in one
//! process.
//!
//! It prints what was drawn, and a table: nanoseconds for an item, the least of all runs; `--runs`
//! says how many. Without a word in front it is the table of the receiver and the walk (order 10);
//! with `table` it is the whole one, with the bars to reach.

mod inputs;
mod measure;
mod order10;
mod table;

use std::process::ExitCode;

const RUNS: usize = 31;

fn runs(mut arguments: impl Iterator<Item = String>) -> Option<usize> {
    match (arguments.next(), arguments.next(), arguments.next()) {
        (None, ..) => Some(RUNS),
        (Some(name), Some(value), None) if name == "--runs" => {
            value.parse().ok().filter(|&runs| runs > 0)
        }
        _ => None,
    }
}

fn main() -> ExitCode {
    let mut arguments = std::env::args().skip(1).peekable();
    let whole = arguments.next_if(|word| word == "table").is_some();
    let Some(runs) = runs(arguments) else {
        eprintln!("usage: yardstick [table] [--runs NUMBER]");
        return ExitCode::from(2);
    };
    if whole {
        table::print(runs);
    } else {
        order10::print(runs);
    }
    ExitCode::SUCCESS
}
