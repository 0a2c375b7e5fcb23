//! One file for each command.

mod completions;
mod explain;
mod import;
mod missing;
mod report;

use crate::arguments::{Choice, Command};
use crate::choice::blame;
use crate::failure::{conclude, Failure, Outcome};
use crate::output;
use crate::pieces::{CutRecord, Pieces};
use std::process::ExitCode;

/// How a command ended that could be carried out.
#[derive(Clone, Copy, Debug, PartialEq)]
pub enum Status {
    Whole,
    /// A gap stayed open, or numbers are missing.
    Open,
}

impl From<Status> for ExitCode {
    fn from(status: Status) -> Self {
        match status {
            Status::Whole => 0.into(),
            Status::Open => 1.into(),
        }
    }
}

pub fn run(command: &Command) -> Outcome<Status> {
    match command {
        Command::Import(arguments) => import::run(arguments),
        Command::Report(arguments) => report::run(arguments),
        Command::Missing(arguments) => missing::run(arguments),
        Command::Explain(arguments) => explain::run(arguments),
        Command::Completions(arguments) => completions::run(arguments),
    }
}

/// What was wrong with the input, once the answer to the rest of it is printed.
fn judge(
    pieces: &Pieces,
    choice: &Choice,
    name: &str,
    records: u64,
    cut: Option<CutRecord>,
) -> Outcome<()> {
    let mut failures = Vec::new();
    if pieces.settings.is_none() {
        failures.push(Failure::of(name, blame(&pieces.head)));
    }
    if pieces.is_full {
        failures.push(Failure::of(name, "has 4294967295 records or more, and no more are read"));
    }
    if let Some(cut) = cut {
        failures.push(Failure::of(name, cut_words(records, cut)));
    }
    if let Some(import) = pieces.import() {
        for note in import.notes(choice) {
            output::say(&format!("{name}: {note}"));
        }
        failures.extend(import.failures(name));
    }
    conclude(failures)
}

fn cut_words(records: u64, cut: CutRecord) -> String {
    let CutRecord { at, has, wants } = cut;
    let expected = match wants {
        Some(wants) => {
            format!("{wants} bytes were expected behind its length, and {has} are there")
        }
        None => "a length of two bytes was expected, and one is there".into(),
    };
    format!("record {records}, at byte {at}, is cut short: {expected}")
}
