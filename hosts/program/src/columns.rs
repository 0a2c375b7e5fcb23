//! The shape of a run, in a fixed number of columns: as a run grows, each column takes more records.

/// As many columns as a picture can show; there are never more.
pub const MOST: usize = 1024;

/// What one record did.
#[derive(Clone, Copy, Debug, Default)]
pub struct Step {
    /// The next number expected after it.
    pub next: u64,
    /// The highest next number told so far.
    pub told: u64,
    /// A gap opened.
    pub lost: bool,
    /// A request was drawn.
    pub asked: bool,
    /// A gap closed.
    pub closed: bool,
    /// It was refused.
    pub refused: bool,
}

/// Some records that follow each other.
#[derive(Clone, Copy, Debug, Default, PartialEq)]
pub struct Column {
    /// The next number expected after the last of them.
    pub next: u64,
    /// The highest next number told up to the last of them.
    pub told: u64,
    /// How many of them did so.
    pub lost: u64,
    pub asked: u64,
    pub closed: u64,
    pub refused: u64,
}

/// A run as columns, each of `records_each` records but the last.
#[derive(Debug)]
pub struct Columns {
    columns: Vec<Column>,
    each: u64,
    /// How many records the last column has.
    last: u64,
}

impl Columns {
    pub fn new() -> Self {
        Columns { columns: Vec::with_capacity(MOST), each: 1, last: 1 }
    }

    pub fn add(&mut self, step: &Step) {
        if self.last == self.each {
            if self.columns.len() == MOST {
                self.halve();
            }
            // After halving the last column is whole, as the number of columns was even.
            self.columns.push(Column::default());
            self.last = 0;
        }
        let column = self.columns.last_mut().expect("one was pushed");
        column.next = step.next;
        column.told = step.told;
        column.lost += u64::from(step.lost);
        column.asked += u64::from(step.asked);
        column.closed += u64::from(step.closed);
        column.refused += u64::from(step.refused);
        self.last += 1;
    }

    /// Joins the columns two by two.
    fn halve(&mut self) {
        for place in 0..MOST / 2 {
            let (one, two) = (self.columns[2 * place], self.columns[2 * place + 1]);
            self.columns[place] = Column {
                next: two.next,
                told: two.told,
                lost: one.lost + two.lost,
                asked: one.asked + two.asked,
                closed: one.closed + two.closed,
                refused: one.refused + two.refused,
            };
        }
        self.columns.truncate(MOST / 2);
        self.each *= 2;
    }

    /// The columns, from the first record on.
    pub fn list(&self) -> &[Column] {
        &self.columns
    }

    /// How many records each column has, but for the last, which may have fewer.
    pub fn records_each(&self) -> u64 {
        self.each
    }
}

#[cfg(test)]
mod tests {
    use super::*;

    #[test]
    fn a_long_run_has_as_many_columns_as_a_short_one() {
        let mut columns = Columns::new();
        for record in 1..=4 * MOST as u64 {
            let lost = record % 4 == 0;
            columns.add(&Step { next: record, told: 2 * record, lost, ..Step::default() });
        }
        assert_eq!((columns.list().len(), columns.records_each()), (MOST, 4));
        for (place, column) in (1..).zip(columns.list()) {
            assert_eq!((column.next, column.told, column.lost), (4 * place, 8 * place, 1));
        }
        columns.add(&Step { next: 7, ..Step::default() });
        assert_eq!((columns.list().len(), columns.records_each()), (MOST / 2 + 1, 8));
        assert_eq!(columns.list().last().map(|column| column.next), Some(7));
    }
}
