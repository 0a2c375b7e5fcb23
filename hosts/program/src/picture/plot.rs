//! What a run did, drawn over its axes.

use super::axes::Axes;
use super::{place, text, words, HEIGHT, LANE, LANES, LANES_BOTTOM, MARGIN, RIGHT, TOP, WIDTH};
use crate::columns::Column;
use crate::run::{Gap, Run};
use std::cmp::Reverse;

/// As many gaps as get a box: more can't be told apart, and would make the file large.
const MOST_BOXES: usize = 1000;

/// The least width and height of a box, in pixels, so that one lost message of millions is seen.
const LEAST: f64 = 6.0;

/// The least distance of two marks in a lane, in pixels: closer ones would look like one.
const APART: f64 = 1.0;

/// One of the four lanes.
struct Lane {
    /// Its name, and the class of its marks.
    name: &'static str,
    /// How many records of a column did so.
    count: fn(&Column) -> u64,
    /// The outline of a mark, from its middle on.
    mark: &'static str,
}

const LANES_SHOWN: [Lane; 4] = [
    Lane { name: "lost", count: |column| column.lost, mark: "m-5-4h10l-5 9z" },
    Lane { name: "asked", count: |column| column.asked, mark: "m0-5l5 5-5 5-5-5z" },
    Lane { name: "closed", count: |column| column.closed, mark: "m-5 0l3 4 6-8" },
    Lane { name: "refused", count: |column| column.refused, mark: "m-4-4l8 8m-8 0l8-8" },
];

/// What was delivered, what was known, and how far the one was behind the other. The gaps lie below
/// the lines, so that these can be followed where a part of a gap comes first.
pub fn staircases(run: &Run, axes: &Axes) -> String {
    let next = corners(run, axes, |column| column.next);
    // What was delivered is known too, whether or not a datagram told it.
    let told = corners(run, axes, |column| column.told.max(column.next));
    format!(
        "<path class=\"behind\" d=\"{}z\"/>\n{}\
         <path class=\"told\" d=\"{}\"/>\n\
         <path class=\"next\" d=\"{}\"/>\n",
        path(told.iter().chain(next.iter().rev())),
        gaps(run, axes),
        path(told.iter()),
        path(next.iter())
    )
}

/// The corners of a staircase from the left edge to the right one. Steps too small to be seen are
/// left out until they add up.
fn corners(run: &Run, axes: &Axes, number: fn(&Column) -> u64) -> Vec<(String, String)> {
    let mut level = place(axes.below(run.start));
    let mut corners = vec![(place(axes.left), level.clone())];
    for (index, column) in run.columns.list().iter().enumerate() {
        let reached = place(axes.below(number(column)));
        if reached != level {
            let x = place(middle(run, axes, index));
            corners.push((x.clone(), level));
            corners.push((x, reached.clone()));
            level = reached;
        }
    }
    corners.push((place(RIGHT), level));
    corners
}

/// The middle of a column's records.
fn middle(run: &Run, axes: &Axes, index: usize) -> f64 {
    let each = run.columns.records_each();
    let before = each.saturating_mul(index as u64);
    let last = before.saturating_add(each).min(run.records);
    (axes.record(before.saturating_add(1)) + axes.record(last)) / 2.0
}

/// A line through corners, each straight above, below or beside the one before.
fn path<'a>(corners: impl Iterator<Item = &'a (String, String)>) -> String {
    let (mut line, mut level) = (String::new(), None);
    for (x, y) in corners {
        line += &match level {
            None => format!("M{x} {y}"),
            Some(before) if before == y => format!("H{x}"),
            Some(_) => format!("V{y}"),
        };
        level = Some(y);
    }
    line
}

/// A box for each gap that is chosen, and a line about those that aren't.
fn gaps(run: &Run, axes: &Axes) -> String {
    let mut drawn: String = chosen(run).into_iter().map(|gap| boxed(gap, axes)).collect();
    let left_out = run.gaps.len().saturating_sub(MOST_BOXES) as u64;
    let left_out = run.more_gaps.saturating_add(left_out);
    if left_out > 0 {
        let (y, note) = (HEIGHT - 10.0, words::not_drawn(left_out));
        drawn += &format!("<text class=\"note\" x=\"{MARGIN}\" y=\"{y}\">{note}</text>\n");
    }
    drawn
}

/// All gaps; or where they are too many those that are open, then the largest ones, and for half of
/// the room others from the whole of the run, so that no part of it looks better than it was.
fn chosen(run: &Run) -> Vec<&Gap> {
    let mut chosen: Vec<&Gap> = run.gaps.iter().collect();
    if chosen.len() > MOST_BOXES {
        chosen.sort_by_key(|gap| (gap.closed.is_some(), Reverse(gap.to.saturating_sub(gap.from))));
        let mut others = chosen.split_off(MOST_BOXES / 2);
        others.sort_by_key(|gap| gap.opened.record);
        let room = MOST_BOXES - chosen.len();
        chosen.extend((0..room).map(|place| others[place * others.len() / room]));
    }
    chosen
}

fn boxed(gap: &Gap, axes: &Axes) -> String {
    // The lower left corner is where it opened, just above the line of what was delivered. A box
    // that would be too small to be seen grows from there.
    let left = axes.record(gap.opened.record).min(RIGHT - LEAST);
    let right = gap.closed.map_or(RIGHT, |mark| axes.record(mark.record)).max(left + LEAST);
    let bottom = (axes.below(gap.from) - 2.0).max(TOP + LEAST);
    let top = axes.above(gap.to).min(bottom - LEAST);
    let state = if gap.closed.is_some() { "closed" } else { "open" };
    format!(
        "<rect class=\"gap {state}\" x=\"{}\" y=\"{}\" width=\"{}\" height=\"{}\">\
         <title>{gap}</title></rect>\n",
        place(left),
        place(top),
        place(right - left),
        place(bottom - top)
    )
}

/// The record that ended the session.
pub fn end(run: &Run, axes: &Axes) -> String {
    let Some(mark) = run.ended else { return String::new() };
    let x = axes.record(mark.record);
    let at = place(x);
    format!(
        "<path class=\"end\" d=\"M{at} {TOP}V{LANES_BOTTOM}\">\
         <title>session ended at {mark}</title></path>\n"
    ) + &text((x.min(WIDTH - MARGIN), TOP - 6.0), "middle", "end")
}

/// A lane for each thing that can happen, with a mark for each column in which it did. A mark has
/// the same size whatever the scale, so that it is seen.
pub fn lanes(run: &Run, axes: &Axes) -> String {
    let mut drawn = String::new();
    for (index, lane) in LANES_SHOWN.iter().enumerate() {
        drawn += &draw_lane(run, axes, lane, LANES + LANE * index as f64);
    }
    drawn
}

fn draw_lane(run: &Run, axes: &Axes, lane: &Lane, top: f64) -> String {
    let name = lane.name;
    let (y, columns) = (top + LANE / 2.0, run.columns.list());
    let times = columns.iter().fold(0, |sum: u64, column| sum.saturating_add((lane.count)(column)));
    let (left, right) = (place(axes.left), place(RIGHT));
    let mut drawn = format!("<path class=\"grid\" d=\"M{left} {y}H{right}\"/>");
    drawn += &text((axes.left - 10.0, y + 4.0), "end", name);
    drawn += &format!("<g><title>{}</title>\n", words::lane(name, times));
    let mut before = 0.0;
    for (index, _) in columns.iter().enumerate().filter(|(_, column)| (lane.count)(column) > 0) {
        let x = middle(run, axes, index);
        if x - before >= APART {
            drawn += &format!("<path class=\"{name}\" d=\"M{} {y}{}\"/>\n", place(x), lane.mark);
            before = x;
        }
    }
    drawn + "</g>\n"
}
