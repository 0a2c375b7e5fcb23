//! The leaf that reads an eight-byte number, as it is and as it was, in one build: ns for a number, the least of many
//! interleaved runs, on numbers in cache and on the headers of a capture.

use std::hint::black_box;
use std::time::Instant;

extern "C" {
    fn eiderwagon_bench_number(s: *const u8, size: usize, at: usize) -> u64;
    fn eiderwagon_bench_number_before(s: *const u8, size: usize, at: usize) -> u64;
}

type Leaf = unsafe extern "C" fn(*const u8, usize, usize) -> u64;

const RUNS: usize = 31;
const NUMBERS: usize = 4096;
const TURNS: usize = 500;
const RECORDS: usize = 200_000;
/// A header's number stands behind the record's length and the session's name.
const LENGTH: usize = 2;
const NUMBER_AT: usize = 10;

fn read(leaf: Leaf, s: &[u8], at: usize) -> u64 {
    // the leaf is lent the slice as it is, and reads nothing behind it
    unsafe { leaf(s.as_ptr(), s.len(), at) }
}

/// The numbers of a slice, one after the other.
fn numbers(leaf: Leaf, s: &[u8]) -> u64 {
    (0..s.len() / 8).fold(0, |sum: u64, i| sum.wrapping_add(read(leaf, s, 8 * i)))
}

/// The header's number of each record of a capture.
fn headers(leaf: Leaf, mut rest: &[u8]) -> u64 {
    let mut sum = 0u64;
    while rest.len() >= LENGTH {
        let size = usize::from(u16::from_be_bytes([rest[0], rest[1]]));
        sum = sum.wrapping_add(read(leaf, &rest[LENGTH..LENGTH + size], NUMBER_AT));
        rest = &rest[LENGTH + size..];
    }
    sum
}

/// Records of 20 to 1,451 bytes, numbered on.
fn capture() -> Vec<u8> {
    let mut bytes = Vec::new();
    for number in 1..=RECORDS as u64 {
        let size = 20 + (number * 7919 % 1432) as usize;
        bytes.extend((size as u16).to_be_bytes());
        bytes.extend(b"READROOM01");
        bytes.extend(number.to_be_bytes());
        bytes.resize(bytes.len() + size - 18, 0);
    }
    bytes
}

fn time(work: impl Fn() -> u64) -> f64 {
    let start = Instant::now();
    black_box(work());
    start.elapsed().as_nanos() as f64
}

fn print(name: &str, count: usize, work: impl Fn(Leaf) -> u64) {
    let (now, before): (Leaf, Leaf) = (eiderwagon_bench_number, eiderwagon_bench_number_before);
    assert_eq!(work(now), work(before), "{name}: the two leaves differ");
    let (mut a, mut b) = (f64::MAX, f64::MAX);
    for _ in 0..RUNS {
        a = a.min(time(|| work(black_box(now))));
        b = b.min(time(|| work(black_box(before))));
    }
    let each = count as f64;
    println!("| {name} | {:.2} | {:.2} | {:.2} |", a / each, b / each, a / b);
}

fn main() {
    let cached: Vec<u8> = (0..8 * NUMBERS).map(|i| (i * 31 % 251) as u8).collect();
    let capture = capture();
    // every place of a short slice, those at and past its end among them
    for (at, size) in (0..20).flat_map(|at| (0..20).map(move |size| (at, size))) {
        let slice = &cached[..size];
        let (a, b) = (read(eiderwagon_bench_number, slice, at), read(eiderwagon_bench_number_before, slice, at));
        assert_eq!(a, b, "{size} bytes at {at}");
    }
    println!("| numbers read | as it is, ns | as it was, ns | ratio |\n|---|---|---|---|");
    print("in cache", NUMBERS * TURNS, |leaf| {
        (0..TURNS).fold(0u64, |sum, _| sum.wrapping_add(numbers(leaf, black_box(&cached))))
    });
    print("headers of a capture of 145 MB", RECORDS, |leaf| headers(leaf, black_box(&capture)));
}
