//! The program `eiderwagon`: pcaps and captures of a MoldUDP64 feed, followed by the proved library.
//!
//! This program is not proved. It reads files, hands bytes to the library, and shows what it
//! answers: what is delivered, asked for, missing or refused is the library's word alone.

mod arguments;
mod choice;
mod columns;
mod commands;
mod failure;
mod follow;
mod frames;
mod gaps;
mod json;
mod output;
mod pcap;
mod pcaps;
mod picture;
mod pieces;
mod progress;
mod run;
mod sessions;
mod source;
mod stream;

use arguments::Arguments;
use clap::error::ErrorKind;
use clap::Parser;
use std::process::ExitCode;

const BAD: u8 = 2;

fn main() -> ExitCode {
    let outcome = match Arguments::try_parse() {
        Ok(arguments) => commands::run(&arguments.command),
        Err(error) => usage(&error),
    };
    match outcome {
        Ok(status) => status.into(),
        Err(failure) => {
            output::say(&failure.to_string());
            BAD.into()
        }
    }
}

/// Help and version go to standard output; a mistake is one sentence.
fn usage(error: &clap::Error) -> failure::Outcome<commands::Status> {
    let text = error.render().to_string();
    if matches!(error.kind(), ErrorKind::DisplayHelp | ErrorKind::DisplayVersion) {
        output::print(&text)?;
        return Ok(commands::Status::Whole);
    }
    if error.kind() == ErrorKind::DisplayHelpOnMissingArgumentOrSubcommand {
        return Err(failure::Failure::new("a command was expected: try eiderwagon --help"));
    }
    // the words before the first empty line say what is wrong; what follows is how it is used
    let what = text.split("\n\n").next().unwrap_or(&text);
    let what: Vec<&str> = what.split_whitespace().collect();
    let what = what.join(" ");
    let what = what.strip_prefix("error: ").unwrap_or(&what);
    Err(failure::Failure::new(format!("{what}: try --help")))
}
