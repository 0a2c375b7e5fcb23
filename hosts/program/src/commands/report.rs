//! `report`: the proved report, and beside it what became of each gap and each refusal.

mod json;
mod text;

use super::{judge, Status};
use crate::arguments::Report as Arguments;
use crate::failure::{is_standard, name_of, Failure, Outcome};
use crate::follow::{next_told, Follow};
use crate::output::{self, Output};
use crate::picture::draw;
use crate::pieces::{CutRecord, Pieces};
use crate::source::Source;
use eiderwagon::capture::Reading;
use std::path::Path;

/// The ground of the one refusal that has no number.
const CUT_SHORT: &str = "the record is cut short";

/// What is printed beside the report.
#[derive(Clone, Copy)]
struct Extras {
    gaps: bool,
    refusals: bool,
}

pub fn run(arguments: &Arguments) -> Outcome<Status> {
    let name = name_of(&arguments.file);
    let follows = arguments.gaps || arguments.refusals || arguments.picture.is_some();
    let source = Source::open(&arguments.file, &arguments.choice, follows)?;
    // a place where no picture can be is told before a long file is read
    let picture = arguments.picture.as_ref().map(|path| picture_at(path, &arguments.file));
    let picture = picture.transpose()?;
    let mut pieces = Pieces::open(source)?;
    let mut reading = Reading::start();
    let (cut, is_open, run) = match pieces.settings.filter(|_| follows) {
        Some(settings) => {
            let mut follow = Follow::start(settings)?;
            let cut = follow_all(&mut pieces, &mut reading, &mut follow)?;
            let run = follow.finish(&reading)?;
            (cut, run.open_gaps > 0, Some(run))
        }
        None => {
            let (cut, is_open) = read_all(&mut pieces, &mut reading)?;
            (cut, is_open, None)
        }
    };
    if let Some((mut picture, run)) = picture.zip(run.as_ref()) {
        picture.write(draw(run).as_bytes())?;
        picture.finish()?;
    }
    let extras = Extras { gaps: arguments.gaps, refusals: arguments.refusals };
    let is_refused = pieces.settings.is_none();
    output::print(&match arguments.json {
        true => json::whole(&reading, is_refused, run.as_ref(), extras),
        false => text::whole(&reading, run.as_ref(), extras),
    })?;
    judge(&pieces, &arguments.choice, &name, reading.counts().records.into(), cut)?;
    Ok(if is_open { Status::Open } else { Status::Whole })
}

fn picture_at(path: &Path, input: &Path) -> Outcome<Output> {
    if is_standard(path) {
        return Err(Failure::new("--picture -: a file was expected, as the report is printed"));
    }
    Output::file(path, &[input.to_path_buf()])
}

/// Reads for the report alone, and whether a gap is open at its end: a number was told that is above
/// the next one. Only records among which one asked can have told such a number.
fn read_all(pieces: &mut Pieces, reading: &mut Reading) -> Outcome<(Option<CutRecord>, bool)> {
    let (mut asked, mut told) = (0, 0);
    let cut = pieces.read(reading, |reading, records, _| {
        let now = reading.counts().asked;
        if now == asked {
            return;
        }
        asked = now;
        let session = reading.session();
        for record in records.filter(|record| record.starts_with(&session)) {
            told = told.max(next_told(record));
        }
    })?;
    Ok((cut, !reading.is_ended() && told > reading.next()))
}

/// Reads for the report, and follows each record beside it.
fn follow_all(
    pieces: &mut Pieces,
    reading: &mut Reading,
    follow: &mut Follow,
) -> Outcome<Option<CutRecord>> {
    let cut = pieces.read(reading, |_, records, mut frames| {
        for record in records {
            follow.take(record, frames.as_mut().and_then(|frames| frames.pop_front()));
        }
    })?;
    if cut.is_some() {
        follow.take_cut();
    }
    Ok(cut)
}
