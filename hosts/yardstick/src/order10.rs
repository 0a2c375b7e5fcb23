//! Order 10's table: the receiver and the walk.

use crate::inputs::{compared_captures, Captures};
use crate::measure::{library, rust, Fed, Side, DATAGRAMS_A_RUN};
use yardstick::captures::Capture;

pub fn print(runs: usize) {
    let (short, long) = compared_captures();
    println!("\n| measure | library, ns | Rust, ns | ratio |");
    println!("|---|---|---|---|");
    rows(runs, &short, &long);
}

fn rows(runs: usize, short: &Captures, long: &Capture) {
    let takes = [
        ("take, in order", &short.in_order),
        ("take, loss, doubled and swapped", &short.troubled),
        ("take, every answer and refusal", &short.everything),
        ("take, in order, from memory", long),
        ("take, heartbeats alone", &short.heartbeats),
    ];
    for (name, capture) in takes {
        row(name, runs, capture, library::takes, rust::takes);
    }
    let walks = [
        ("take and walk, in order", &short.in_order),
        ("take and walk, in order, from memory", long),
    ];
    for (name, capture) in walks {
        let called = format!("{name}; Rust's walk called");
        let inlined = format!("{name}; Rust's walk inlined");
        row(&called, runs, capture, library::walks, rust::walks_by_calls);
        row(&inlined, runs, capture, library::walks, rust::walks);
        let by_deliver = format!("{name}, by deliver; Rust's walk inlined");
        row(&by_deliver, runs, capture, library::deliveries, rust::walks);
    }
}

fn row(name: &str, runs: usize, capture: &Capture, library: Side<Capture>, rust: Side<Capture>) {
    let fed = Fed {
        input: capture,
        items: capture.len(),
        items_a_run: DATAGRAMS_A_RUN,
    };
    let times = fed.times(runs, library, rust);
    let ratio = times.ratio();
    println!(
        "| {name} | {:.1} | {:.1} | {ratio:.2} |",
        times.library, times.rust
    );
}
