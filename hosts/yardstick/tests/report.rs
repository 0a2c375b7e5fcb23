//! The capture program in Rust reports what the library does. No test here judges a time.

use eiderwagon::raw;
use std::io::{self, Read};
use yardstick::captures::{everything, heartbeats, in_order, troubled, Capture};
use yardstick::report::report;
use yardstick::SEED;

const DATAGRAMS: usize = 2_000;
const SETTINGS: &str = "session=READROOM01\nnext=1\nlimit=100\n";

fn library(capture: &[u8]) -> String {
    let (mut out, mut words) = ([0; raw::LARGEST_REPORT], [0; raw::WRITE_WORDS]);
    let code = raw::capture_report(capture, &mut out, &mut words);
    assert_eq!(code, raw::OK, "the report is refused");
    let text = &out[..words[raw::WRITE_SIZE] as usize];
    String::from_utf8(text.to_vec()).expect("a report is text")
}

fn records(capture: &Capture) -> Vec<u8> {
    let mut bytes = SETTINGS.as_bytes().to_vec();
    for datagram in capture.datagrams() {
        bytes.extend((datagram.len() as u16).to_be_bytes());
        bytes.extend(datagram);
    }
    bytes
}

fn compare(capture: &[u8]) -> String {
    let text = report(capture).expect("a slice is read");
    assert_eq!(text, library(capture));
    text
}

/// An input that gives a few bytes at a time.
struct Pieces<'a>(&'a [u8]);

impl Read for Pieces<'_> {
    fn read(&mut self, out: &mut [u8]) -> io::Result<usize> {
        let size = out.len().min(self.0.len()).min(7);
        (&mut self.0).take(size as u64).read(out)
    }
}

#[test]
fn captures_larger_than_the_buffer_are_reported_alike() {
    for capture in [in_order, troubled, everything] {
        let capture = records(&capture(SEED, DATAGRAMS));
        assert!(capture.len() > 1_000_000, "{}", capture.len());
        compare(&capture);
        // cut in its last record
        compare(&capture[..capture.len() - 1]);
    }
    let text = compare(&records(&heartbeats(DATAGRAMS)));
    assert!(text.contains("\nquiet=2000\n"), "{text}");
}

#[test]
fn pieces_are_reported_as_the_whole() {
    let capture = records(&everything(SEED, 200));
    let text = report(Pieces(&capture)).expect("pieces are read");
    assert_eq!(text, compare(&capture));
}

#[test]
fn every_cut_is_reported_alike() {
    let capture = records(&in_order(SEED, 3));
    for size in 0..capture.len() {
        compare(&capture[..size]);
    }
}

#[test]
fn settings_at_the_edge_are_reported_alike() {
    let good = [
        "session=         ~\nnext=18446744073709551615\nlimit=65534\n",
        "session=~'\"\\~~~~~~\nnext=1\nlimit=1\n",
    ];
    for settings in good {
        assert!(compare(settings.as_bytes()).starts_with("session="));
    }
    let bad = [
        "session=          \nnext=1\nlimit=1\n",
        "session=READROOM0\nnext=1\nlimit=1\n",
        "session=READROOM001\nnext=1\nlimit=1\n",
        "session=READROOM0\x7f\nnext=1\nlimit=1\n",
        "session=READROOM01\r\nnext=1\nlimit=1\n",
        "session=READROOM01\nnext=0\nlimit=1\n",
        "session=READROOM01\nnext=01\nlimit=1\n",
        "session=READROOM01\nnext=+1\nlimit=1\n",
        "session=READROOM01\nnext=\nlimit=1\n",
        "session=READROOM01\nnext=18446744073709551616\nlimit=1\n",
        "session=READROOM01\nnext=1\nlimit=0\n",
        "session=READROOM01\nnext=1\nlimit=65535\n",
        "session=READROOM01\nnext=1\nlimit=65537\n",
        "session=READROOM01\nlimit=1\nnext=1\n",
        "session=READROOM01\nnext=1\nlimit=1",
        "",
    ];
    for settings in bad {
        assert_eq!(compare(settings.as_bytes()), "settings=refused\n");
    }
}
