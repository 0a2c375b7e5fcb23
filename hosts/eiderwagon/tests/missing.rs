//! What is missing from a capture, whole and in pieces.

use eiderwagon::capture::{Fed, Stage};
use eiderwagon::missing::{Missing, Summary};
use eiderwagon::{mold, raw, Ground};

const NAME: &[u8; 10] = b"READROOM01";
const SETTINGS: &[u8] = b"session=READROOM01\nnext=1\nlimit=100\n";

/// A record with the data of messages of no bytes.
fn data(first: u64, count: usize) -> Vec<u8> {
    let mut out = vec![0; 20 + 2 * count];
    record(mold::write_data(NAME, first, &vec![b"".as_slice(); count], &mut out).unwrap())
}

fn heartbeat(next: u64) -> Vec<u8> {
    record(mold::write_heartbeat(NAME, next, &mut [0; 20]).unwrap())
}

fn end(next: u64) -> Vec<u8> {
    record(mold::write_end_of_session(NAME, next, &mut [0; 20]).unwrap())
}

fn record(datagram: &[u8]) -> Vec<u8> {
    [&(datagram.len() as u16).to_be_bytes()[..], datagram].concat()
}

fn capture(records: &[Vec<u8>]) -> Vec<u8> {
    [SETTINGS, &records.concat()].concat()
}

/// Reads a capture in pieces of a size, as a host does.
fn in_pieces(file: &[u8], size: usize) -> Missing {
    let mut missing = Missing::start();
    let mut kept = Vec::new();
    for piece in file.chunks(size) {
        kept.extend(piece);
        kept.drain(..missing.feed(&kept).used);
    }
    missing.finish(&kept);
    missing
}

fn whole(file: &[u8]) -> Missing {
    in_pieces(file, file.len().max(1))
}

/// Data that leaves so many ranges of one number missing, from 1 on.
fn holes(many: u64) -> Vec<Vec<u8>> {
    (1..=many).map(|hole| data(2 * hole, 1)).collect()
}

#[test]
fn ranges_are_listed() {
    let missing = whole(&capture(&[data(3, 2), data(8, 1), heartbeat(12), data(9, 1)]));
    assert!(missing.ranges().eq([1..=2, 5..=7, 10..=11]));
    assert!(missing.ranges().rev().eq([10..=11, 5..=7, 1..=2]));
    assert_eq!(missing.ranges().len(), 3);
    assert_eq!(missing.summary(), Some(Summary { ranges: 3, numbers: 7 }));
    assert_eq!(
        (missing.range(1), missing.range(3), missing.range(u64::MAX)),
        (Some(5..=7), None, None)
    );
    let text = "session=READROOM01\nfrom=1\nto=2\nfrom=5\nto=7\nfrom=10\nto=11\nmissing=7\n";
    assert_eq!(missing.text(), text);
    assert_eq!((missing.session(), missing.highest()), (*NAME, 12));
}

#[test]
fn pieces_of_every_size_list_the_same() {
    let file = capture(&[data(3, 1), heartbeat(6), data(1, 1)]);
    for end in 0..=file.len() {
        let text = whole(&file[..end]).text();
        for size in 1..=file.len() {
            assert_eq!(in_pieces(&file[..end], size).text(), text, "{end} by {size}");
        }
    }
}

#[test]
fn nothing_is_missing() {
    for records in [vec![], vec![data(1, 3), heartbeat(4)], vec![data(2, 1), data(1, 1), end(3)]] {
        let missing = whole(&capture(&records));
        assert_eq!(missing.text(), "session=READROOM01\nmissing=0\n");
        assert_eq!(missing.summary(), Some(Summary::default()));
        assert_eq!(missing.ranges().next(), None);
    }
}

#[test]
fn what_follows_an_end_of_session_counts() {
    let missing = whole(&capture(&[data(1, 1), end(2), data(4, 1), end(3), heartbeat(7)]));
    assert!(missing.ranges().eq([2..=3, 5..=6]));
}

#[test]
fn what_is_refused_or_of_another_session_says_nothing() {
    let mut other = heartbeat(99);
    other[2..12].copy_from_slice(b"READROOM02");
    let broken = record(b"nineteen bytes only");
    let missing = whole(&capture(&[data(2, 1), other, broken, heartbeat(0x7F)[..5].to_vec()]));
    assert!(missing.ranges().eq([1..=1]));
}

#[test]
fn the_largest_numbers_are_listed() {
    let missing = whole(&capture(&[data(u64::MAX - 2, 1), end(u64::MAX)]));
    assert!(missing.ranges().eq([1..=u64::MAX - 3, u64::MAX - 1..=u64::MAX - 1]));
    assert_eq!(missing.summary().unwrap().numbers, u64::MAX - 2);
}

#[test]
fn as_many_ranges_as_are_kept_are_listed() {
    let missing = whole(&capture(&holes(4096)));
    assert_eq!(missing.summary(), Some(Summary { ranges: 4096, numbers: 4096 }));
    assert!(missing.ranges().eq((0..4096).map(|hole| 2 * hole + 1..=2 * hole + 1)));
    assert!(missing.text().ends_with("from=8191\nto=8191\nmissing=4096\n"));
    assert!(!missing.is_refused());
}

#[test]
fn more_ranges_are_refused_at_once_and_stay_so() {
    let mut records = holes(4096);
    records.push(heartbeat(8194));
    records.push(data(1, 8193));
    let mut missing = Missing::start();
    missing.feed(&capture(&records));
    assert!(missing.is_refused());
    assert_eq!((missing.summary(), missing.ranges().len()), (None, 0));
    missing.finish(&data(1, 3));
    assert_eq!(missing.text(), "ranges=refused\n");
}

#[test]
fn bad_settings_are_over() {
    let mut missing = Missing::start();
    assert_eq!(missing.feed(&[b'x'; 56]), Fed { used: 0, over: false });
    assert_eq!((missing.stage(), missing.summary()), (Stage::Settings, None));
    assert_eq!(missing.feed(&[b'x'; 60]), Fed { used: 60, over: true });
    assert_eq!(missing.stage(), Stage::SettingsRefused);
    assert_eq!(missing.text(), "settings=refused\n");
    assert_eq!(whole(b"session=          \nnext=1\nlimit=100\n").text(), "settings=refused\n");
}

#[test]
fn an_output_too_short_for_any_text_stays_as_it_was() {
    let missing = whole(&capture(&[heartbeat(3)]));
    let mut short = vec![9; raw::MISSING_TEXT - 1];
    assert_eq!(missing.write(&mut short).unwrap_err().ground(), Ground::OutputShort);
    assert!(short.iter().all(|&byte| byte == 9));
    let mut out = vec![9; raw::MISSING_TEXT];
    assert_eq!(missing.write(&mut out).unwrap(), missing.text().as_bytes());
}

#[test]
fn a_reading_says_where_it_is() {
    let mut missing = Missing::start();
    assert_eq!((missing.session(), missing.highest()), (*b"          ", 0));
    assert!(missing.is_refused());
    missing.feed(&capture(&[heartbeat(9)]));
    let shown = "Missing { stage: Records, session: \"READROOM01\", highest: 9, \
                 summary: Some(Summary { ranges: 1, numbers: 8 }) }";
    assert_eq!(format!("{missing:?}"), shown);
    assert_eq!(missing.edges()[0], 1);
    assert_eq!(missing.as_bytes()[0], raw::MISSING_OPEN);
    missing.finish(&[]);
    assert_eq!(missing.stage(), Stage::Done);
}
