//! Packets at the front of a stream.

use crate::{accepted, ask, packet, words, TOP};
use differential::call::Call;

fn soup(stream: &[u8], sender: u8) -> (u32, [u64; 3]) {
    words(&ask(&Call::SoupRead { stream, sender }, &[]))
}

#[test]
fn packet_lengths() {
    let largest = packet(b'S', &[0; 4_096]);
    assert_eq!(soup(&largest, 0), (0, [u64::from(b'S'), 4_099, 0]));
    assert_eq!(soup(&[0x10, 0x02], 0).0, 22);
    assert_eq!(soup(&[0x10, 0x01], 0), (0, [0; 3]));
    assert_eq!(soup(&[0, 0], 0).0, 21);
    assert_eq!(soup(&[0], 0), (0, [0; 3]));
    assert_eq!(soup(&packet(b'L', &[0; 45]), 1).0, 24);
    assert_eq!(soup(&packet(b'L', &[0; 47]), 1).0, 24);
    assert_eq!(soup(&packet(b'L', &[0; 46]), 1).0, 25);
    assert_eq!(soup(&packet(b'L', &[0; 46])[..48], 1), (0, [0; 3]));
    assert_eq!(soup(&packet(b'L', &[0; 46]), 0).0, 23);
    assert_eq!(soup(&packet(b'H', &[]), 1).0, 23);
    assert_eq!(soup(&packet(b'H', &[0]), 0).0, 24);
    assert_eq!(soup(&packet(b'l', &[0; 46]), 1).0, 23);
}

#[test]
fn number_fields() {
    let a = u64::from(b'A');
    let read = |number: &str| soup(&accepted(b"READROOM01", number), 0);
    assert_eq!(read("18446744073709551615"), (0, [a, 33, TOP]));
    assert_eq!(read("18446744073709551616").0, 25);
    assert_eq!(read("00000000000000000001"), (0, [a, 33, 1]));
    assert_eq!(read("0").0, 25);
    assert_eq!(read("").0, 25);
    assert_eq!(read("1 ").0, 25);
    assert_eq!(read("+1").0, 25);
}

#[test]
fn session_and_reason_fields() {
    assert_eq!(soup(&accepted(b"      room", "1"), 0).0, 0);
    assert_eq!(soup(&accepted(b"          ", "1"), 0).0, 25);
    assert_eq!(soup(&accepted(b"room      ", "1"), 0).0, 25);
    assert_eq!(soup(&accepted(b"    ro om1", "1"), 0).0, 25);
    assert_eq!(soup(&packet(b'J', b"A"), 0), (0, [74, 4, 65]));
    assert_eq!(soup(&packet(b'J', b"S"), 0), (0, [74, 4, 83]));
    assert_eq!(soup(&packet(b'J', b"a"), 0).0, 25);
}

#[test]
fn scans() {
    let scan = |stream: &[u8]| words(&ask(&Call::SoupScan { stream, sender: 0 }, &[]));
    let heartbeat = packet(b'H', &[]);
    let bad = packet(b'J', b"x");
    assert_eq!(scan(&[]), (0, [0, 0, 0]));
    assert_eq!(scan(&heartbeat), (0, [1, 3, 0]));
    assert_eq!(
        scan(&[&heartbeat[..], &heartbeat[..2]].concat()),
        (0, [1, 3, 0])
    );
    assert_eq!(
        scan(&[&heartbeat[..], &bad, &heartbeat].concat()),
        (0, [1, 3, 25])
    );
}
