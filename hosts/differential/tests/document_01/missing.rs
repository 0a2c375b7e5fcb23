//! Order 11: which numbers are listed, and what is printed of them.

use crate::captures::record;
use crate::{ask, ask_with, data, end, heartbeat, lent, words, Answer, TOP};
use differential::call::{Call, Lent};
use differential::reference::missing;

/// A capture from a number on, with a record for each datagram.
fn capture(next: u64, datagrams: &[Vec<u8>]) -> Vec<u8> {
    let mut capture = format!("session=READROOM01\nnext={next}\nlimit=100\n").into_bytes();
    capture.extend(datagrams.iter().flat_map(|datagram| record(datagram)));
    capture
}

/// The buffers that a reading of the capture leaves.
fn read(capture: &[u8]) -> Lent {
    let started = ask(&Call::MissingStart, &[9; 40]);
    let done = ask(&Call::MissingFinish { bytes: capture }, &started.state);
    Lent {
        out: vec![0; 204_898],
        edges: done.edges,
        ..lent(&done.state)
    }
}

/// What is printed, which is what order 11 says of the whole capture.
fn printed(capture: &[u8]) -> String {
    let answer = ask_with(&Call::MissingWrite, read(capture));
    let text = answer.out[..answer.words[0] as usize].to_vec();
    assert_eq!(text, missing::text(capture));
    String::from_utf8(text).expect("a printable name is text")
}

fn listed(ranges: &[(u64, u64)]) -> String {
    let lines = ranges
        .iter()
        .map(|(from, to)| format!("from={from}\nto={to}\n"));
    let missing: u64 = ranges.iter().map(|(from, to)| to - from + 1).sum();
    format!(
        "session=READROOM01\n{}missing={missing}\n",
        lines.collect::<String>()
    )
}

#[test]
fn each_range_once_rising_and_joined() {
    let three = [data(9, &[b"a"]), data(3, &[b"b", b"c"]), data(5, &[b"d"])];
    assert_eq!(printed(&capture(1, &three)), listed(&[(1, 2), (6, 8)]));
    assert_eq!(printed(&capture(4, &three)), listed(&[(6, 8)]));
    assert_eq!(printed(&capture(10, &three)), listed(&[]));
}

#[test]
fn highest_next_number_is_stated_or_implied() {
    assert_eq!(printed(&capture(1, &[heartbeat(3)])), listed(&[(1, 2)]));
    assert_eq!(printed(&capture(1, &[end(3)])), listed(&[(1, 2)]));
    assert_eq!(
        printed(&capture(1, &[data(2, &[b"a"]), heartbeat(1)])),
        listed(&[(1, 1)])
    );
    assert_eq!(
        printed(&capture(1, &[heartbeat(TOP)])),
        listed(&[(1, TOP - 1)])
    );
}

#[test]
fn accepted_is_read_and_of_the_name() {
    let mut other = heartbeat(9);
    other[0] = b'X';
    let refused = [heartbeat(0), data(TOP, &[b"a"]), vec![0; 19], other];
    assert_eq!(printed(&capture(1, &refused)), listed(&[]));
    let after_the_end = [end(2), data(3, &[b"a"]), end(1)];
    assert_eq!(printed(&capture(1, &after_the_end)), listed(&[(1, 2)]));
}

#[test]
fn a_record_cut_short_and_bad_settings() {
    let mut cut = capture(1, &[data(2, &[b"a"]), heartbeat(9)]);
    cut.pop();
    assert_eq!(printed(&cut), listed(&[(1, 1)]));
    assert_eq!(printed(&capture(0, &[])), "settings=refused\n");
    assert_eq!(printed(b""), "settings=refused\n");
}

/// Every other number, so that so many ranges are missing.
fn holes(many: u64) -> Vec<Vec<u8>> {
    (1..=many).map(|hole| data(2 * hole, &[b""])).collect()
}

#[test]
fn at_most_4096_ranges_are_kept() {
    let mut datagrams = holes(4_096);
    let ranges: Vec<(u64, u64)> = (0..4_096)
        .map(|hole| (2 * hole + 1, 2 * hole + 1))
        .collect();
    assert_eq!(printed(&capture(1, &datagrams)), listed(&ranges));
    // 4,097 are refused at once, though what follows closes them all.
    datagrams.push(heartbeat(8_194));
    assert_eq!(printed(&capture(1, &datagrams)), "ranges=refused\n");
    datagrams.push(data(1, &[b"".as_slice(); 8_193]));
    assert_eq!(printed(&capture(1, &datagrams)), "ranges=refused\n");
}

#[test]
fn ranges_by_their_places() {
    let lent = read(&capture(1, &[data(3, &[b"a"]), heartbeat(7)]));
    let asked = |call| -> Answer { ask_with(&call, lent.clone()) };
    assert_eq!(words(&asked(Call::MissingCount)), (0, [1, 2, 5]));
    for (place, range) in [
        (0, [1, 1, 2]),
        (1, [1, 4, 6]),
        (2, [0, 0, 0]),
        (TOP, [0, 0, 0]),
    ] {
        let answer = asked(Call::MissingRange { place });
        assert_eq!(words(&answer), (0, range));
    }
}
