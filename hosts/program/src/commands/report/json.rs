//! The report as one object of JSON.

use super::{Extras, CUT_SHORT};
use crate::json::Object;
use crate::run::{Gap, Mark, Refused, Run};
use eiderwagon::capture::Reading;
use eiderwagon::Ground;

pub fn whole(reading: &Reading, is_refused: bool, run: Option<&Run>, extras: Extras) -> String {
    let mut object = Object::new();
    if is_refused {
        object.text("settings", "refused");
        return object.line();
    }
    let counts = reading.counts();
    object.text("session", &String::from_utf8_lossy(&reading.session()));
    object.number("next", reading.next());
    object.truth("ended", reading.is_ended());
    object.number("delivered", counts.delivered);
    object.number("old", counts.old);
    object.number("quiet", counts.quiet);
    object.number("asked", counts.asked);
    object.number("refused", counts.refused);
    if let Some(run) = run.filter(|_| extras.gaps) {
        object.list("gaps", run.gaps.iter().map(gap));
        object.number("more_gaps", run.more_gaps);
    }
    if let Some(run) = run.filter(|_| extras.refusals) {
        let refusals = run.refusals.iter().map(|(number, refused)| refusal(*number, refused));
        object.list("refusals", refusals);
    }
    object.line()
}

fn gap(gap: &Gap) -> Object {
    let mut object = Object::new();
    object.number("from", gap.from);
    object.number("to", gap.to);
    object.object("opened", Some(mark(&gap.opened)));
    object.number("asked", gap.asked);
    object.object("closed", gap.closed.as_ref().map(mark));
    if gap.by_end {
        object.truth("by_end", true);
    }
    object
}

fn refusal(number: u32, refused: &Refused) -> Object {
    let ground = Ground::from_number(number);
    let mut object = Object::new();
    object.number("number", number);
    object.text("ground", ground.map_or(CUT_SHORT, Ground::words));
    object.number("times", refused.times);
    object.object("first", Some(mark(&refused.first)));
    object
}

fn mark(mark: &Mark) -> Object {
    let mut object = Object::new();
    object.number("record", mark.record);
    if let Some(frame) = mark.frame {
        object.number("frame", frame.number);
        object.seconds("seconds", frame.seconds);
    }
    object
}
