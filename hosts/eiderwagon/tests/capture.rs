//! Captures, whole and in pieces.

use eiderwagon::capture::{self, Counts, Fed, Reading, Stage};
use eiderwagon::{mold, Ground};

const SETTINGS: &[u8] = b"session=READROOM01\nnext=1\nlimit=100\n";
const REFUSED: &str = "settings=refused\n";

/// Settings, and a record for each datagram.
fn capture(datagrams: &[&[u8]]) -> Vec<u8> {
    let mut file = SETTINGS.to_vec();
    for datagram in datagrams {
        file.extend((datagram.len() as u16).to_be_bytes());
        file.extend(*datagram);
    }
    file
}

/// Two messages, a record that is no datagram, and the end.
fn sample() -> Vec<u8> {
    let (mut data, mut end) = ([0; 40], [0; 20]);
    capture(&[
        mold::write_data(b"READROOM01", 1, &[b"one", b""], &mut data).unwrap(),
        b"no datagram",
        mold::write_end_of_session(b"READROOM01", 3, &mut end).unwrap(),
    ])
}

/// Reads a capture in pieces of a size, as a host does.
fn in_pieces(file: &[u8], size: usize) -> Reading {
    let mut reading = Reading::start();
    let mut kept = Vec::new();
    for piece in file.chunks(size) {
        kept.extend(piece);
        kept.drain(..reading.feed(&kept).used);
    }
    reading.finish(&kept);
    reading
}

#[test]
fn a_whole_capture_is_reported() {
    let report = "session=READROOM01\nnext=3\nended=yes\n\
                  delivered=2\nold=0\nquiet=0\nasked=0\nrefused=1\n";
    assert_eq!(capture::report(&sample()), report);
}

#[test]
fn pieces_of_every_size_give_the_same_report() {
    let file = sample();
    for end in 0..=file.len() {
        let whole = capture::report(&file[..end]);
        for size in 1..=file.len() {
            assert_eq!(in_pieces(&file[..end], size).report(), whole, "{end} by {size}");
        }
    }
}

#[test]
fn a_reading_tells_what_it_has_counted() {
    let file = sample();
    let mut reading = Reading::start();
    assert_eq!((reading.stage(), reading.counts()), (Stage::Settings, Counts::default()));
    assert_eq!((reading.session(), reading.next(), reading.limit()), (*b"          ", 1, 1));
    assert!(reading.is_ended());

    // all but the last record
    let fed = reading.feed(&file[..file.len() - 1]);
    let counts = Counts { records: 2, delivered: 2, refused: 1, ..Counts::default() };
    assert_eq!((reading.stage(), reading.counts()), (Stage::Records, counts));
    assert_eq!((reading.session(), reading.next(), reading.limit()), (*b"READROOM01", 3, 100));
    assert!(!reading.is_ended());

    reading.finish(&file[fed.used..]);
    assert_eq!((reading.stage(), reading.counts().records), (Stage::Done, 3));
    assert!(reading.is_ended());
}

#[test]
fn bad_settings_are_reported_alone() {
    for bad in ["", "session=READROOM01\nnext=1\nlimit=100", "session=READROOM01\nnext=01\n"] {
        assert_eq!(capture::report(bad.as_bytes()), REFUSED);
    }
    assert_eq!(Reading::start().report(), REFUSED);
}

#[test]
fn bad_settings_are_over() {
    let mut reading = Reading::start();
    assert_eq!(reading.feed(&[b'x'; 60]), Fed { used: 60, over: true });
    assert_eq!(reading.stage(), Stage::SettingsRefused);
    assert_eq!(reading.report(), REFUSED);
}

/// Fewer than 57 bytes are too few to tell the settings, bad ones too.
#[test]
fn few_bytes_tell_nothing_of_the_settings() {
    let mut reading = Reading::start();
    assert_eq!(reading.feed(&[b'x'; 56]), Fed { used: 0, over: false });
}

#[test]
fn at_most_65536_bytes_are_kept() {
    let file = capture(&[&[7; 65535]]);
    let (front, last) = file.split_at(file.len() - 1);
    let mut reading = Reading::start();
    let used = reading.feed(front).used;
    assert!(front.len() - used <= 65536);
    reading.finish(&[&front[used..], last].concat());
    assert_eq!(reading.report(), capture::report(&file));
}

#[test]
fn a_record_cut_short_is_one_refusal() {
    let file = capture(&[b"one", b"two"]);
    assert!(capture::report(&file[..file.len() - 1]).ends_with("refused=2\n"));
    assert!(capture::report(&file[..file.len() - 4]).ends_with("refused=2\n"));
    assert!(capture::report(&file[..file.len() - 5]).ends_with("refused=1\n"));
}

#[test]
fn an_output_too_short_for_the_report_stays_as_it_was() {
    let reading = in_pieces(&sample(), 5);
    let mut out = [9; 256];
    let size = reading.write(&mut out).unwrap().len();
    assert_eq!(&out[..size], reading.report().as_bytes());
    let mut short = vec![9; size - 1];
    assert_eq!(reading.write(&mut short).unwrap_err().ground(), Ground::OutputShort);
    assert!(short.iter().all(|&byte| byte == 9));
}
