//! Times an answer of a large store beside the same in ordinary Rust, and a transmitter's run by turns and by place.
//!
//! Before anything is timed the answers are compared. Each time is the least of all runs, taken in turns in one process;
//! `--runs` says how many.

mod store;

use bench_orders::{least, runs};
use differential::random::Random;
use eiderwagon::mold::Request;
use eiderwagon::raw;
use eiderwagon::transmitter::Transmitter;
use std::hint::black_box;
use std::process::ExitCode;
use std::time::Duration;
use store::{in_parts, plain, Store};

const NAME: &[u8; 10] = b"READROOM01";
/// The size of a packet: what an Ethernet frame holds.
const SIZE: usize = 1_472;
const STORED: usize = 1_000_000;
/// What an answer may take, by the same in Rust.
const BAR: f64 = 1.2;

/// Messages of 10 to 60 bytes.
struct Messages {
    lengths: Vec<u16>,
    joined: Vec<u8>,
}

impl Messages {
    fn new(count: usize) -> Messages {
        let mut random = Random::new(1, count as u64);
        let lengths: Vec<u16> = (0..count).map(|_| random.between(10, 60) as u16).collect();
        let joined = random.bytes(plain(&lengths));
        Messages { lengths, joined }
    }

    fn transmitter(&self) -> Transmitter<'_> {
        Transmitter::start(NAME, 1, &self.lengths, &self.joined, SIZE).expect("a good run")
    }
}

fn answers(runs: usize) {
    let Messages { lengths, joined } = Messages::new(STORED);
    let request = Request {
        session: *NAME,
        first: STORED as u64 / 2,
        count: 100,
    };
    let mut asked = [0; 20];
    let asked = request.write(&mut asked).expect("it can be written");
    let rust = Store {
        session: NAME,
        first: 1,
        lengths: &lengths,
        joined: &joined,
    };
    let library = |out: &mut [u8]| {
        let mut words = [0; raw::WRITE_WORDS];
        let (asked, joined) = (black_box(asked), black_box(&joined));
        let code = raw::store_answer(
            NAME,
            1,
            &lengths,
            joined,
            SIZE as u64,
            asked,
            out,
            &mut words,
        );
        assert_eq!(code, raw::OK);
        words[raw::WRITE_SIZE] as usize
    };
    let (mut ours, mut theirs) = ([0; SIZE], [0; SIZE]);
    let written = library(&mut ours);
    for sum in [plain, in_parts] {
        assert_eq!(rust.answer(SIZE, asked, &mut theirs, sum), Ok(written));
        assert_eq!(ours, theirs);
    }
    let [library, as_written, parts] = least(
        runs,
        [
            &mut || {
                black_box(library(&mut ours));
            },
            &mut || {
                black_box(rust.answer(SIZE, black_box(asked), &mut theirs, plain)).ok();
            },
            &mut || {
                black_box(rust.answer(SIZE, black_box(asked), &mut [0; SIZE], in_parts)).ok();
            },
        ],
    );
    let micros = |time: Duration| time.as_secs_f64() * 1e6;
    let ratio = |other: Duration| library.as_secs_f64() / other.as_secs_f64();
    println!("an answer from the middle of a store of {STORED} messages, microseconds, the least of {runs} runs");
    println!("| library | Rust, a plain sum | ratio | Rust, sums in parts of 32 bits | ratio | asked for |");
    println!("|---|---|---|---|---|---|");
    println!(
        "| {:.0} | {:.0} | {:.2} | {:.0} | {:.2} | at most {BAR} |",
        micros(library),
        micros(as_written),
        ratio(as_written),
        micros(parts),
        ratio(parts)
    );
}

/// Sends a run by turns, and hands back how many packets and how many bytes it made.
fn by_turns(messages: &Messages) -> (u64, usize) {
    let (mut transmitter, mut out) = (messages.transmitter(), [0; SIZE]);
    let (mut packets, mut bytes) = (0, 0);
    while let Some(packet) = transmitter.next_packet(&mut out).expect("there is room") {
        packets += 1;
        bytes += black_box(packet).len();
    }
    (packets, bytes)
}

/// The same by place.
fn by_place(messages: &Messages) -> (u64, usize) {
    let (transmitter, mut out) = (messages.transmitter(), [0; SIZE]);
    let (mut packets, mut bytes) = (0, 0);
    while let Ok(packet) = transmitter.packet(packets, &mut out) {
        packets += 1;
        bytes += black_box(packet).len();
    }
    (packets, bytes)
}

fn sending(runs: usize) {
    println!("\na run sent whole, ns for a byte of its packets, the least of {runs} runs");
    println!("| messages | packets | bytes | by turns | by place |");
    println!("|---|---|---|---|---|");
    for count in [1_000, 10_000, 100_000, 1_000_000] {
        let messages = Messages::new(count);
        let (packets, bytes) = by_turns(&messages);
        let each = |time: Duration| time.as_secs_f64() * 1e9 / bytes as f64;
        let mut turns = || assert_eq!(by_turns(&messages), (packets, bytes));
        let mut places = || assert_eq!(by_place(&messages), (packets, bytes));
        // by place the time goes with the square
        let (turns, places) = if count <= 10_000 {
            let [turns, places] = least(runs, [&mut turns, &mut places]);
            (turns, format!("{:.2}", each(places)))
        } else {
            let [turns] = least(runs, [&mut turns]);
            (turns, "-".to_string())
        };
        println!(
            "| {count} | {packets} | {bytes} | {:.2} | {places} |",
            each(turns)
        );
    }
}

fn main() -> ExitCode {
    let Some(runs) = runs(std::env::args().skip(1)) else {
        eprintln!("usage: bench_orders [--runs NUMBER]");
        return ExitCode::from(2);
    };
    answers(runs);
    sending(runs);
    ExitCode::SUCCESS
}
