//! `import`: a capture of one session out of pcap files, or the sessions that they have.

use super::Status;
use crate::arguments::Import as Arguments;
use crate::failure::{conclude, counted, is_standard, name_of, Failure, Outcome};
use crate::output::{self, Output};
use crate::pcaps::Pcaps;
use crate::sessions::Sessions;
use crate::source::Import;
use eiderwagon::Session;

pub fn run(arguments: &Arguments) -> Outcome<Status> {
    match arguments.choice.session()? {
        Some(session) => write(arguments, session),
        None => list(arguments),
    }
}

fn names(arguments: &Arguments) -> String {
    let names: Vec<String> = arguments.files.iter().map(|file| name_of(file)).collect();
    names.join(", ")
}

fn write(arguments: &Arguments, session: Session) -> Outcome<Status> {
    let choice = &arguments.choice;
    let mut import = Import::new(Pcaps::new(&arguments.files, choice)?, choice, session);
    let mut output = match &arguments.out {
        Some(path) if !is_standard(path) => Output::file(path, &arguments.files)?,
        _ => Output::standard()?,
    };
    let mut bytes = Vec::new();
    // settings without a record would be a capture in which all is well
    while import.fill(&mut bytes)? && import.pcaps.seen.taken > 0 {
        output.write(&bytes)?;
        bytes.clear();
    }
    let name = names(arguments);
    let failures = import.failures(&name);
    if import.pcaps.seen.taken > 0 {
        output.finish()?;
    }
    let seen = &import.pcaps.seen;
    let frames = counted(seen.frames, "frame", "frames");
    output::say(&format!("{name}: {} of {frames}", counted(seen.taken, "record", "records")));
    for note in import.notes(choice) {
        output::say(&format!("{name}: {note}"));
    }
    conclude(failures)?;
    Ok(Status::Whole)
}

fn list(arguments: &Arguments) -> Outcome<Status> {
    let said = [
        ("-o", arguments.out.is_some()),
        ("--next", arguments.choice.next.is_some()),
        ("--limit", arguments.choice.limit.is_some()),
    ];
    if let Some((option, _)) = said.iter().find(|(_, is_said)| *is_said) {
        return Err(Failure::new(format!(
            "{option} is for a capture, which is written only with --session"
        )));
    }
    let mut pcaps = Pcaps::new(&arguments.files, &arguments.choice)?;
    let sessions = Sessions::of(&mut pcaps)?;
    let name = names(arguments);
    if !sessions.is_empty() {
        output::print(&sessions.table())?;
    }
    if let Some(left_out) = pcaps.seen.left_out() {
        output::say(&format!("{name}: {left_out}"));
    }
    let mut failures = pcaps.damage;
    if sessions.is_empty() && failures.is_empty() {
        let frames = counted(pcaps.seen.frames, "frame", "frames");
        failures.push(Failure::of(&name, format!("no MoldUDP64 datagram is in {frames}")));
    }
    conclude(failures)?;
    Ok(Status::Whole)
}
