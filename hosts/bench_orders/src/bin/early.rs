//! Times a step of the receiver that keeps early messages beside the plain receiver's, over the same messages.
//!
//! Before anything is timed it is seen that both come to the same number. A receiver and its slots are kept over all runs,
//! and start each anew. Each time is the least of all runs, taken in turns in one process; `--runs` says how many.

use bench_orders::{least, runs};
use eiderwagon::raw;
use std::hint::black_box;
use std::process::ExitCode;
use std::time::Duration;

const NAME: &[u8; 10] = b"READROOM01";
const LIMIT: u16 = 100;
/// The bytes of a message.
const LENGTH: usize = 40;
/// About as many bytes of datagrams as a core's second cache holds.
const BYTES: usize = 300_000;
const HEARTBEATS: usize = 5_000;

/// A feed in order: datagrams of so many messages each, or heartbeats where it is none.
fn feed(messages: usize) -> Vec<Vec<u8>> {
    let size = raw::MOLD_HEADER_SIZE + messages * (2 + LENGTH);
    let count = if messages == 0 {
        HEARTBEATS
    } else {
        BYTES / size
    };
    let datagram = |at: usize| {
        let mut bytes = NAME.to_vec();
        bytes.extend((1 + (at * messages) as u64).to_be_bytes());
        bytes.extend((messages as u16).to_be_bytes());
        for _ in 0..messages {
            bytes.extend((LENGTH as u16).to_be_bytes());
            bytes.extend([b'x'; LENGTH]);
        }
        bytes
    };
    (0..count).map(datagram).collect()
}

/// Of the pairs of neighbours every other one has changed places.
fn swapped(mut datagrams: Vec<Vec<u8>>) -> Vec<Vec<u8>> {
    for pair in datagrams.chunks_exact_mut(2).step_by(2) {
        pair.swap(0, 1);
    }
    datagrams
}

/// Takes all datagrams, and hands back the number that is expected then.
fn plain(state: &mut [u8; raw::RECEIVER_SIZE], datagrams: &[Vec<u8>]) -> u64 {
    let mut words = [0; raw::TAKE_WORDS];
    assert_eq!(raw::receiver_start(NAME, 1, LIMIT, state), raw::OK);
    for datagram in datagrams {
        black_box(raw::receiver_take(state, datagram, &mut words));
    }
    next(state, raw::RECEIVER_NEXT_AT)
}

fn early(state: &mut [u8; raw::EARLY_SIZE], slots: &mut [u8], datagrams: &[Vec<u8>]) -> u64 {
    let mut words = [0; raw::EARLY_TAKE_WORDS];
    assert_eq!(raw::early_start(NAME, 1, LIMIT, state), raw::OK);
    for datagram in datagrams {
        black_box(raw::early_take(state, slots, datagram, &mut words));
    }
    next(state, raw::EARLY_NEXT_AT)
}

fn next(state: &[u8], at: usize) -> u64 {
    u64::from_le_bytes(state[at..at + 8].try_into().expect("eight bytes"))
}

/// A row: the early receiver over one list, the plain one over another of the same messages.
fn row(runs: usize, name: &str, bar: f64, ours: &[Vec<u8>], theirs: &[Vec<u8>]) {
    let (mut state, mut slots) = ([0; raw::EARLY_SIZE], vec![0; raw::SLOTS_SIZE]);
    let mut other = [0; raw::RECEIVER_SIZE];
    let [early, plain] = least(
        runs,
        [
            &mut || {
                black_box(early(&mut state, &mut slots, black_box(ours)));
            },
            &mut || {
                black_box(plain(&mut other, black_box(theirs)));
            },
        ],
    );
    let each = |time: Duration| time.as_secs_f64() * 1e9 / ours.len() as f64;
    let ratio = (each(early) / each(plain) * 100.0).round() / 100.0;
    let reached = if ratio <= bar { "yes" } else { "**no**" };
    println!(
        "| {name} | {:.1} ns | {:.1} ns | {ratio:.2} | {bar:.1} | {reached} |",
        each(early),
        each(plain)
    );
}

/// Both come to the number behind the last message; so does the early one where neighbours are swapped.
fn compare(messages: usize) {
    let in_order = feed(messages);
    let behind = 1 + (in_order.len() * messages) as u64;
    let (mut state, mut slots) = ([0; raw::EARLY_SIZE], vec![0; raw::SLOTS_SIZE]);
    assert_eq!(plain(&mut [0; raw::RECEIVER_SIZE], &in_order), behind);
    assert_eq!(early(&mut state, &mut slots, &in_order), behind);
    let swapped = swapped(in_order);
    assert_eq!(early(&mut state, &mut slots, &swapped), behind);
}

fn main() -> ExitCode {
    let Some(runs) = runs(std::env::args().skip(1)) else {
        eprintln!("usage: early [--runs NUMBER]");
        return ExitCode::from(2);
    };
    for messages in [0, 1, 10] {
        compare(messages);
    }
    println!("a datagram taken, messages of {LENGTH} bytes, the least of {runs} runs");
    println!("| datagrams | keeps early messages | plain | ratio | to reach | reached |");
    println!("|---|---|---|---|---|---|");
    let (none, one, ten) = (feed(0), feed(1), feed(10));
    row(runs, "in order, 10 messages", 1.2, &ten, &ten);
    row(runs, "in order, 1 message", 1.5, &one, &one);
    row(runs, "heartbeats", 1.5, &none, &none);
    for (name, in_order) in [("10 messages", &ten), ("1 message", &one)] {
        let swapped = swapped(in_order.clone());
        let path =
            format!("half of all neighbours swapped, {name}; the plain one has them in order");
        row(runs, &path, 2.0, &swapped, in_order);
        let path =
            format!("the same, {name}; the plain one has them swapped, and asks from the first on");
        row(runs, &path, 2.0, &swapped, &swapped);
    }
    ExitCode::SUCCESS
}
