//! `missing`: the numbers that no datagram carries.

use super::{judge, Status};
use crate::arguments::Missing as Arguments;
use crate::failure::{name_of, Failure, Outcome};
use crate::json::Object;
use crate::output;
use crate::pieces::Pieces;
use crate::source::Source;
use eiderwagon::missing::Missing;

pub fn run(arguments: &Arguments) -> Outcome<Status> {
    let name = name_of(&arguments.file);
    let mut pieces = Pieces::open(Source::open(&arguments.file, &arguments.choice, false)?)?;
    let mut missing = Missing::start();
    let mut records = 0;
    let cut = pieces.read(&mut missing, |_, these, _| records += these.count() as u64)?;
    let has_settings = pieces.settings.is_some();
    output::print(&if arguments.json { json(&missing, has_settings) } else { missing.text() })?;
    judge(&pieces, &arguments.choice, &name, records + 1, cut)?;
    match missing.summary() {
        Some(summary) if summary.numbers == 0 => Ok(Status::Whole),
        Some(_) => Ok(Status::Open),
        None => Err(Failure::of(
            &name,
            "at one of its records more than 4096 ranges were missing, and at most so many are kept",
        )),
    }
}

fn json(missing: &Missing, has_settings: bool) -> String {
    let mut object = Object::new();
    match missing.summary() {
        _ if !has_settings => object.text("settings", "refused"),
        None => object.text("ranges", "refused"),
        Some(summary) => {
            object.text("session", &String::from_utf8_lossy(&missing.session()));
            object.list(
                "ranges",
                missing.ranges().map(|range| {
                    let mut object = Object::new();
                    object.number("from", *range.start());
                    object.number("to", *range.end());
                    object
                }),
            );
            object.number("missing", summary.numbers);
        }
    }
    object.line()
}
