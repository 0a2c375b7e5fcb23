//! Where a record and a message number stand in the picture, and the round numbers along the edges.

use super::words::grouped;
use super::{place, text, BOTTOM, HEIGHT, LANES, LANES_BOTTOM, RIGHT, TOP, WIDTH};
use crate::run::Run;
use std::iter::successors;

/// The widest letter of the labels, in pixels: labels get no less room.
const LETTER: f64 = 7.2;

/// As many labels as the message numbers get.
const MOST_NUMBERS: u64 = 10;

pub struct Axes {
    /// The left edge of the plot.
    pub left: f64,
    records: u64,
    start: u64,
    /// How many numbers are shown, from `start` on; never zero.
    numbers: u64,
    /// The numbers that get a label.
    labels: Vec<u64>,
}

impl Axes {
    pub fn of(run: &Run) -> Self {
        let numbers = run.told.max(run.next).saturating_sub(run.start).max(1);
        let last = run.start.saturating_add(numbers - 1);
        let labels = ticks(run.start, last, MOST_NUMBERS);
        let widest = labels.iter().map(|number| width(*number)).fold(0.0, f64::max);
        // At the left there is room for the axis's name, and below it for the lanes' names.
        let left = (48.0 + widest).max(86.0).round();
        Axes { left, records: run.records, start: run.start, numbers, labels }
    }

    /// The middle of a record's share.
    pub fn record(&self, record: u64) -> f64 {
        let share = (RIGHT - self.left) / self.records.max(1) as f64;
        self.left + share * (record.clamp(1, self.records.max(1)) as f64 - 0.5)
    }

    /// The lower edge of a number's share: all that lies below it comes before that number.
    pub fn below(&self, number: u64) -> f64 {
        self.height(number, 0.0)
    }

    /// The upper edge of a number's share.
    pub fn above(&self, number: u64) -> f64 {
        self.height(number, 1.0)
    }

    fn height(&self, number: u64, part: f64) -> f64 {
        // The difference comes first: as a float, a large number alone would lose its last digits.
        let up = number.saturating_sub(self.start) as f64 + part;
        BOTTOM - (BOTTOM - TOP) * (up / self.numbers as f64).min(1.0)
    }

    /// The frame, with grid lines, labels and names.
    pub fn draw(&self) -> String {
        let (left, right) = (place(self.left), place(RIGHT));
        let mut drawn = String::new();
        if self.records > 0 {
            drawn += &self.draw_numbers();
            drawn += &self.draw_records();
        }
        let (wide, high) = (place(RIGHT - self.left), place(BOTTOM - TOP));
        let middle = (TOP + BOTTOM) / 2.0;
        drawn += &format!(
            "<rect class=\"frame\" x=\"{left}\" y=\"{TOP}\" width=\"{wide}\" height=\"{high}\"/>\n\
             <path class=\"frame\" d=\"M{left} {LANES_BOTTOM}H{right}\"/>\n\
             <text transform=\"translate(24 {middle}) rotate(-90)\" text-anchor=\"middle\">\
             message number</text>\n"
        );
        drawn + &text(((self.left + RIGHT) / 2.0, HEIGHT - 30.0), "middle", "record")
    }

    fn draw_numbers(&self) -> String {
        let (left, right) = (place(self.left), place(RIGHT));
        let mut drawn = String::new();
        for number in &self.labels {
            let y = self.height(*number, 0.5);
            let at = place(y);
            drawn += &format!("<path class=\"grid\" d=\"M{left} {at}H{right}\"/>");
            drawn += &text((self.left - 10.0, y + 4.0), "end", &grouped(*number));
        }
        drawn
    }

    fn draw_records(&self) -> String {
        let widest = width(self.records);
        // Half a label's width is to spare, as one at the right edge is moved into the picture.
        let most = (RIGHT - self.left) / (1.5 * widest + 16.0);
        let mut drawn = String::new();
        for record in ticks(1, self.records, most as u64) {
            let x = self.record(record);
            let at = place(x);
            drawn += &format!(
                "<path class=\"grid\" d=\"M{at} {TOP}V{BOTTOM}M{at} {LANES}V{}\"/>",
                LANES_BOTTOM + 4.0
            );
            let middle = x.min(WIDTH - 4.0 - width(record) / 2.0);
            drawn += &text((middle, LANES_BOTTOM + 17.0), "middle", &grouped(record));
        }
        drawn
    }
}

/// The room for a number's label.
fn width(number: u64) -> f64 {
    LETTER * grouped(number).len() as f64
}

/// The multiples of a round step from `low` to `high`. Three or more are allowed: with fewer, a
/// step could be so large that it has no multiple there.
pub fn ticks(low: u64, high: u64, most: u64) -> Vec<u64> {
    let span = high.saturating_sub(low);
    let mut steps = (0..20).flat_map(|zeros| {
        let power = 10_u64.pow(zeros);
        [power, power.saturating_mul(2), power.saturating_mul(5)]
    });
    let step = steps.find(|step| span / step < most.max(3)).unwrap_or(u64::MAX);
    let first = low.div_ceil(step).checked_mul(step);
    successors(first, |tick| tick.checked_add(step)).take_while(|tick| *tick <= high).collect()
}
