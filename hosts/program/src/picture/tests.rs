//! Pictures of runs made by hand, described by their elements.

use super::axes::ticks;
use super::*;
use crate::columns::{Columns, Step};
use crate::run::{Frame, Gap, Mark};
use std::collections::BTreeMap;

fn mark(record: u64) -> Mark {
    Mark { record, frame: None }
}

fn gap(from: u64, to: u64, opened: u64, closed: Option<u64>) -> Gap {
    Gap { from, to, opened: mark(opened), asked: 2, closed: closed.map(mark), by_end: false }
}

/// The step of a record after which `next` is expected and `told` was told, and what it did, by the
/// first letters of the lanes.
fn step(next: u64, told: u64, did: &str) -> Step {
    let [lost, asked, closed, refused] = ['l', 'a', 'c', 'r'].map(|letter| did.contains(letter));
    Step { next, told, lost, asked, closed, refused }
}

fn run(start: u64, steps: &[Step], gaps: Vec<Gap>) -> Run {
    let mut columns = Columns::new();
    steps.iter().for_each(|step| columns.add(step));
    let open_gaps = gaps.iter().filter(|gap| gap.closed.is_none()).count() as u64;
    let (next, told) = steps.last().map_or((start, start), |step| (step.next, step.told));
    Run {
        session: "READROOM01".to_string(),
        start,
        next,
        told,
        records: steps.len() as u64,
        delivered: next - start,
        asked: steps.iter().filter(|step| step.asked).count() as u64,
        refused: steps.iter().filter(|step| step.refused).count() as u64,
        ended: None,
        gaps,
        more_gaps: 0,
        open_gaps,
        refusals: BTreeMap::new(),
        columns,
    }
}

/// Two gaps, the second by packets that swapped places, a record that is refused, and the end.
fn small() -> Run {
    let steps = [
        step(4, 4, ""),
        step(4, 8, "la"),
        step(4, 8, "a"),
        step(8, 8, "c"),
        step(8, 8, "r"),
        step(8, 10, "la"),
        step(10, 10, "c"),
        step(10, 10, ""),
    ];
    let mut small = run(1, &steps, vec![gap(4, 5, 2, Some(4)), gap(8, 8, 6, Some(7))]);
    small.ended = Some(mark(8));
    small
}

/// How many elements have just these classes.
fn count(picture: &str, classes: &str) -> usize {
    picture.matches(&format!("class=\"{classes}\"")).count()
}

/// The values of an attribute, of all elements that have it as a number.
fn values(picture: &str, attribute: &str) -> Vec<f64> {
    let opening = format!(" {attribute}=\"");
    let pieces = picture.split(&opening).skip(1);
    pieces.filter_map(|piece| piece.split('"').next()?.parse().ok()).collect()
}

#[test]
fn each_thing_has_its_elements() {
    let picture = draw(&small());
    let classes = ["gap closed", "gap open", "lost", "asked", "closed", "refused"];
    assert_eq!(classes.map(|class| count(&picture, class)), [2, 0, 2, 3, 2, 1]);
    assert_eq!(["next", "told", "behind", "end"].map(|class| count(&picture, class)), [1; 4]);
    assert!(picture.contains(
        "<title id=\"what\">READROOM01: 9 messages delivered, 2 gaps, all closed, session ended<"
    ));
    assert!(picture.contains(">8 records, 3 requests, 1 refusal<"));
    assert!(picture.contains(
        "<title>4 to 5: opened at record 2, asked for 2 times, closed at record 4</title>"
    ));
    assert!(picture.contains("<title>8: opened at record 6,"));
    assert!(picture.contains("<title>session ended at record 8</title>"));
    assert!(picture.contains(">end</text>"));
    assert!(picture.contains("<title>asked: at 3 records</title>"));
}

#[test]
fn an_open_gap_reaches_the_right_edge() {
    let mut stalled = run(1, &[step(4, 4, ""), step(4, 9, "la")], vec![gap(4, 8, 2, None)]);
    stalled.gaps[0].opened.frame = Some(Frame { number: 17, seconds: 0.5 });
    let picture = draw(&stalled);
    assert_eq!((count(&picture, "gap open"), count(&picture, "gap closed")), (1, 0));
    assert_eq!(count(&picture, "end"), 0);
    assert!(picture.contains("READROOM01: 3 messages delivered, 1 gap still open<"));
    assert!(picture.contains("; waiting for message 4; no end of session<"));
    assert!(picture.contains("opened at record 2 (frame 17), asked for 2 times, still open"));
    let element = picture.split("<rect class=\"gap open\"").nth(1).unwrap();
    assert_eq!(values(element, "x")[0] + values(element, "width")[0], RIGHT);
}

#[test]
fn a_name_is_escaped() {
    let mut named = small();
    named.session = "A&B<\">    ".to_string();
    let picture = draw(&named);
    assert_eq!(picture.matches("A&amp;B&lt;&quot;&gt;: 9 messages").count(), 2);
    assert!(!picture.contains("A&B"));
}

#[test]
fn a_run_without_records_says_so() {
    let picture = draw(&run(1, &[], Vec::new()));
    assert!(picture.contains(">no records</text>"));
    assert!(picture.contains("READROOM01: no messages delivered, no gaps<"));
    let drawn = ["next", "told", "behind", "lost", "asked", "closed", "refused", "end"];
    assert_eq!(drawn.map(|class| count(&picture, class)), [0; 8]);
}

#[test]
fn the_largest_numbers_stay_in_the_picture() {
    let all = run(1, &[step(1, u64::MAX, "la")], vec![gap(1, u64::MAX - 1, 1, None)]);
    let high = u64::MAX - 4;
    let last = run(high, &[step(high, u64::MAX, "la")], vec![gap(high, u64::MAX, 1, Some(9))]);
    let one = run(u64::MAX, &[step(u64::MAX, u64::MAX, "")], Vec::new());
    let mut long = small();
    (long.records, long.asked, long.more_gaps) = (u64::MAX, u64::MAX, u64::MAX);
    long.session = "W".repeat(10);
    for run in [all, last, one, long] {
        let picture = draw(&run);
        let inside = |attribute, most| {
            values(&picture, attribute).iter().all(|value| (0.0..=most).contains(value))
        };
        assert!(inside("x", WIDTH) && inside("width", WIDTH), "{picture}");
        assert!(inside("y", HEIGHT) && inside("height", HEIGHT), "{picture}");
        assert!(!picture.contains("NaN") && !picture.contains("inf"), "{picture}");
    }
}

#[test]
fn a_file_stays_small_whatever_the_run() {
    let steps: Vec<Step> = (0..4096).map(|record| step(record, 2 * record + 9, "lacr")).collect();
    let far = u64::MAX - 8000;
    let frame = Some(Frame { number: u64::from(u32::MAX), seconds: 0.0 });
    let long = Mark { record: u64::from(u32::MAX), frame };
    let closed = |number| Gap {
        from: number,
        to: number,
        opened: long,
        asked: 1,
        closed: Some(long),
        by_end: false,
    };
    let mut run = run(0, &steps, (far..far + 1506).map(closed).collect());
    run.gaps[1500].closed = None;
    (run.more_gaps, run.open_gaps) = (4, 3);
    let picture = draw(&run);
    assert_eq!(count(&picture, "gap closed") + count(&picture, "gap open"), 1000);
    assert_eq!(count(&picture, "gap open"), 1);
    assert!(picture.contains(">510 more gaps are not drawn</text>"));
    assert!(picture.contains(", 1,510 gaps, 3 still open<"));
    assert!(picture.len() < 400_000, "{}", picture.len());
}

#[test]
fn one_event_of_many_records_is_seen() {
    let mut steps = vec![step(1, 1, ""); 100_000];
    steps[70_000] = step(1, 1, "r");
    let picture = draw(&run(1, &steps, Vec::new()));
    assert_eq!(count(&picture, "refused"), 1);
    // Nothing was ever delivered: the line has no corner.
    let line = picture.split("class=\"next\" d=\"").nth(1).unwrap();
    assert!(line.starts_with("M86 388H968\""), "{line}");
}

#[test]
fn ticks_are_round() {
    assert_eq!(ticks(1, 1, 10), [1]);
    assert_eq!(ticks(3, 9, 4), [4, 6, 8]);
    assert_eq!(ticks(1, 1_500_000, 4), [500_000, 1_000_000, 1_500_000]);
    assert_eq!(ticks(u64::MAX - 1, u64::MAX, 10), [u64::MAX - 1, u64::MAX]);
    assert_eq!(ticks(1, u64::MAX, 3), [10_000_000_000_000_000_000]);
}
