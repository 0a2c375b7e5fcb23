//! The report as lines: the proved ones as they are, and those that were asked for behind them.

use super::{Extras, CUT_SHORT};
use crate::failure::counted;
use crate::run::{Refused, Run};
use eiderwagon::capture::Reading;
use eiderwagon::Ground;
use std::fmt::Write;

pub fn whole(reading: &Reading, run: Option<&Run>, extras: Extras) -> String {
    let mut text = reading.report();
    if let Some(run) = run.filter(|_| extras.gaps) {
        gaps(&mut text, run);
    }
    if let Some(run) = run.filter(|_| extras.refusals) {
        let _ = writeln!(text, "refusals={}", run.refused);
        for (number, refused) in &run.refusals {
            refusal(&mut text, *number, refused);
        }
    }
    text
}

fn gaps(text: &mut String, run: &Run) {
    let _ = writeln!(text, "gaps={}", run.gaps.len() as u64 + run.more_gaps);
    for gap in &run.gaps {
        let _ = writeln!(text, "{gap}");
    }
    if run.more_gaps > 0 {
        let _ = writeln!(text, "and {} more", run.more_gaps);
    }
}

fn refusal(text: &mut String, number: u32, refused: &Refused) {
    let times = counted(refused.times, "time", "times");
    let first = refused.first;
    let _ = match Ground::from_number(number) {
        Some(ground) => writeln!(text, "{number}, {times}, first at {first}: {ground}"),
        None => writeln!(text, "no number, {times}, at {first}: {CUT_SHORT}"),
    };
}
