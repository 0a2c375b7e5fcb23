//! Times a record that is read for what is missing: in order, and with up to 4,096 ranges open, which are made and
//! filled from the front and from the back.
//!
//! Before anything is timed it is seen that each row leaves the ranges that it has to. A record is data of one message;
//! all of a row's are fed at once. Each time is the least of all runs, taken in turns in one process; `--runs` says how
//! many.

use bench_orders::{least, runs};
use eiderwagon::raw;
use std::hint::black_box;
use std::process::ExitCode;
use std::time::Duration;

const NAME: &[u8; 10] = b"READROOM01";
/// The bytes of a message.
const LENGTH: usize = 40;
/// As many ranges as are kept, and so many records a row has.
const RANGES: u64 = 4_096;

/// A reading and its edges.
#[derive(Clone)]
struct Reading {
    state: [u8; raw::MISSING_SIZE],
    edges: Vec<u64>,
}

/// A row: its name, the reading that it starts from, its records, and how many ranges are missing behind them.
struct Row {
    name: &'static str,
    from: Reading,
    records: Vec<u8>,
    left: u64,
}

fn record(number: u64, messages: u16) -> Vec<u8> {
    let mut datagram = NAME.to_vec();
    datagram.extend(number.to_be_bytes());
    datagram.extend(messages.to_be_bytes());
    for _ in 0..messages {
        datagram.extend((LENGTH as u16).to_be_bytes());
        datagram.extend([b'x'; LENGTH]);
    }
    [&(datagram.len() as u16).to_be_bytes()[..], &datagram].concat()
}

fn records(numbers: impl Iterator<Item = u64>) -> Vec<u8> {
    numbers.flat_map(|number| record(number, 1)).collect()
}

impl Reading {
    /// With its settings read, from number 1 on, and a heartbeat there, without which they wait for more.
    fn opened() -> Reading {
        let (state, edges) = ([0; raw::MISSING_SIZE], vec![0; raw::MISSING_EDGES]);
        let mut reading = Reading { state, edges };
        assert_eq!(raw::missing_start(&mut reading.state), raw::OK);
        let settings = b"session=READROOM01\nnext=1\nlimit=100\n";
        reading.feed(&[settings, &record(1, 0)[..]].concat());
        reading
    }

    fn feed(&mut self, bytes: &[u8]) {
        let mut words = [0; raw::FEED_WORDS];
        let code = raw::missing_feed(&mut self.state, &mut self.edges, bytes, &mut words);
        assert_eq!((code, words), (raw::OK, [bytes.len() as u64, 0]));
    }

    fn fed(&self, bytes: &[u8]) -> Reading {
        let mut reading = self.clone();
        reading.feed(bytes);
        reading
    }

    fn ranges(&self) -> u64 {
        let mut words = [0; raw::MISSING_COUNT_WORDS];
        assert_eq!(
            raw::missing_count(&self.state, &self.edges, &mut words),
            raw::OK
        );
        assert_eq!(words[raw::MISSING_COUNT_LISTED], 1);
        words[raw::MISSING_COUNT_RANGES]
    }

    /// Feeds records to this one as it was before.
    fn again(&mut self, from: &Reading, records: &[u8]) {
        self.state = from.state;
        self.edges.copy_from_slice(&from.edges);
        self.feed(records);
    }
}

/// Every other number is carried, so that each of the ranges is one number.
fn rows() -> [Row; 5] {
    let opened = Reading::opened();
    let carried = || (1..=RANGES).map(|range| 2 * range);
    let holes = || (1..=RANGES).map(|range| 2 * range - 1);
    let full = opened.fed(&records(carried()));
    let row = |name, from: &Reading, records, left| Row {
        name,
        from: from.clone(),
        records,
        left,
    };
    [
        row("in order, nothing missing", &opened, records(1..=RANGES), 0),
        row(
            "4,096 ranges made, the lowest first",
            &opened,
            records(carried()),
            RANGES,
        ),
        row(
            "4,096 ranges made, the highest first",
            &opened,
            records(carried().rev()),
            RANGES,
        ),
        row(
            "4,096 ranges filled from the front",
            &full,
            records(holes()),
            0,
        ),
        row(
            "4,096 ranges filled from the back",
            &full,
            records(holes().rev()),
            0,
        ),
    ]
}

fn main() -> ExitCode {
    let Some(runs) = runs(std::env::args().skip(1)) else {
        eprintln!("usage: missing [--runs NUMBER]");
        return ExitCode::from(2);
    };
    let rows = rows();
    for row in &rows {
        assert_eq!(
            row.from.fed(&row.records).ranges(),
            row.left,
            "{}",
            row.name
        );
    }
    let mut readings: [Reading; 5] = std::array::from_fn(|_| Reading::opened());
    let mut works: Vec<_> = { readings.iter_mut().zip(&rows) }
        .map(|(reading, row)| move || reading.again(black_box(&row.from), black_box(&row.records)))
        .collect();
    let [a, b, c, d, e] = &mut works[..] else {
        unreachable!("five rows");
    };
    let times: [Duration; 5] = least(runs, [a, b, c, d, e]);
    let each = |time: Duration| time.as_secs_f64() * 1e9 / RANGES as f64;
    println!(
        "a record read for what is missing, a message of {LENGTH} bytes, the least of {runs} runs"
    );
    println!("| records | each | beside one in order |");
    println!("|---|---|---|");
    for (row, time) in rows.iter().zip(times) {
        let (time, in_order) = (each(time), each(times[0]));
        println!("| {} | {time:.1} ns | {:.2} |", row.name, time / in_order);
    }
    ExitCode::SUCCESS
}
