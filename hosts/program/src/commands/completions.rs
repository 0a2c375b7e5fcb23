//! `completions`: what a shell needs to complete this program's command line.

use super::Status;
use crate::arguments::{Arguments, Completions};
use crate::failure::Outcome;
use crate::output;
use clap::CommandFactory;

pub fn run(arguments: &Completions) -> Outcome<Status> {
    let mut script = Vec::new();
    clap_complete::generate(arguments.shell, &mut Arguments::command(), "eiderwagon", &mut script);
    output::print(&String::from_utf8_lossy(&script))?;
    Ok(Status::Whole)
}
