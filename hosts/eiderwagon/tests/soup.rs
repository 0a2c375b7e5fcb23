//! SoupBinTCP packets.

use eiderwagon::soup::{self, Front, Login, Packet, Reason, Sender, Stop};
use eiderwagon::{Ground, Refusal};
use Sender::{Client, Server};

fn login() -> Login {
    Login::new("reader", "opensesame", "ROOM1", 0).unwrap()
}

/// Each packet with who sends it and how it is written.
fn packets() -> [(Packet<'static>, Sender, &'static [u8]); 10] {
    let accepted = Packet::LoginAccepted { session: *b"     ROOM1", number: u64::MAX };
    [
        (Packet::Debug(b"hello"), Client, b"\0\x06+hello"),
        (accepted, Server, b"\0\x1fA     ROOM118446744073709551615"),
        (Packet::LoginRejected(Reason::SessionNotAvailable), Server, b"\0\x02JS"),
        (Packet::SequencedData(b""), Server, b"\0\x01S"),
        (Packet::ServerHeartbeat, Server, b"\0\x01H"),
        (Packet::EndOfSession, Server, b"\0\x01Z"),
        (
            Packet::LoginRequest(login()),
            Client,
            b"\0\x2fLreaderopensesame     ROOM1                   0",
        ),
        (Packet::UnsequencedData(b"up"), Client, b"\0\x03Uup"),
        (Packet::ClientHeartbeat, Client, b"\0\x01R"),
        (Packet::LogoutRequest, Client, b"\0\x01O"),
    ]
}

fn refused(stream: &[u8], sender: Sender) -> u32 {
    soup::read(stream, sender).unwrap_err().number()
}

/// Packets don't compare; this is what two of them have in common that are the same.
fn shown(packet: &Packet) -> String {
    format!("{packet:?}")
}

/// What is read is this packet, and takes so many bytes.
fn assert_read(stream: &[u8], sender: Sender, wanted: &Packet, wanted_size: usize) {
    match soup::read(stream, sender) {
        Ok(Front::Packet { packet, size }) => {
            assert_eq!((shown(&packet), size), (shown(wanted), wanted_size));
            // What isn't shown is written.
            let again = packet.write(&mut [0; 4099]).map(<[u8]>::to_vec);
            assert_eq!(again.as_deref(), Ok(&stream[..size]));
        }
        other => panic!("{other:?}"),
    }
}

fn ground<T>(result: Result<T, Refusal>) -> Ground {
    result.err().expect("it is refused").ground()
}

#[test]
fn each_packet_is_written() {
    for (packet, _, bytes) in packets() {
        let mut out = [9; 64];
        assert_eq!(packet.write(&mut out), Ok(bytes), "{packet:?}");
        assert!(out[bytes.len()..].iter().all(|&byte| byte == 9), "{packet:?}");
    }
}

#[test]
fn each_packet_is_read() {
    for (packet, sender, bytes) in packets() {
        let size = bytes.len();
        assert_read(bytes, sender, &packet, size);
        assert_read(&[bytes, b"more"].concat(), sender, &packet, size);
        for cut in 0..size {
            let front = soup::read(&bytes[..cut], sender);
            assert!(matches!(front, Ok(Front::NeedMore)), "{packet:?}");
        }
    }
}

#[test]
fn a_debug_packet_is_of_either_end_and_every_other_one_of_one() {
    assert_read(b"\0\x01+", Server, &Packet::Debug(b""), 3);
    assert_read(b"\0\x01+", Client, &Packet::Debug(b""), 3);
    for (packet, sender, bytes) in &packets()[1..] {
        let other = if *sender == Server { Client } else { Server };
        assert_eq!(refused(bytes, other), 23, "{packet:?}");
    }
}

#[test]
fn each_fault_of_a_packet_has_its_number() {
    assert_eq!(refused(b"\0\0", Server), 21);
    assert_eq!(refused(b"\x10\x02", Server), 22);
    assert_eq!(refused(b"\0\x01?", Server), 23);
    assert_eq!(refused(b"\0\x02H", Server), 24);
    assert_eq!(refused(b"\0\x02JX", Server), 25);
    assert_eq!(refused(b"\0\x1fA                   18446744073709551615", Server), 25);
    assert_eq!(refused(b"\0\x1fAREADROOM0118446744073709551616", Server), 25);
}

#[test]
fn the_largest_payload_is_written_and_read_and_one_byte_more_is_refused() {
    let (mut out, payload) = ([0; 4200], [7; 4097]);
    let packet = Packet::SequencedData(&payload[..4096]);
    let sent = packet.write(&mut out).unwrap();
    assert_eq!(sent.len(), 4099);
    assert_read(sent, Server, &packet, 4099);
    for packet in [Packet::SequencedData, Packet::UnsequencedData, Packet::Debug] {
        assert_eq!(ground(packet(&payload).write(&mut out)), Ground::PayloadLong);
    }
}

#[test]
fn fields_that_cannot_be_written_are_refused() {
    let mut out = [9; 64];
    let mut write = |packet: Packet| packet.write(&mut out).unwrap_err().number();
    assert_eq!(write(Packet::LoginAccepted { session: *b"READROOM01", number: 0 }), 46);
    assert_eq!(write(Packet::LoginAccepted { session: [b' '; 10], number: 1 }), 46);
    assert_eq!(write(Packet::LoginRequest(Login { username: [b' '; 6], ..login() })), 46);
    assert_eq!(write(Packet::LoginRequest(Login { password: [0; 10], ..login() })), 46);
    assert_eq!(write(Packet::LoginRequest(Login { session: *b"ROOM1     ", ..login() })), 46);
    assert_eq!(out, [9; 64]);
}

#[test]
fn an_output_too_short_is_refused_and_stays_as_it_was() {
    for (packet, _, bytes) in packets() {
        let mut out = [9; 64];
        assert_eq!(ground(packet.write(&mut out[..bytes.len() - 1])), Ground::OutputShort);
        assert_eq!(out, [9; 64], "{packet:?}");
    }
}

#[test]
fn a_scan_passes_the_good_packets() {
    let good = b"\0\x01H\0\x02Sa\0\x01Z";
    let scan = |rest: &[u8]| soup::scan(&[good, rest].concat(), Server);
    for (rest, refused) in [(&b""[..], None), (b"\0\x05Sab", None), (b"\0\x01L", Some(23))] {
        let scan = scan(rest);
        assert_eq!((scan.packets, scan.bytes), (3, 10));
        match scan.stop {
            Stop::NeedMore => assert_eq!(refused, None),
            Stop::Refused(refusal) => assert_eq!(refused, Some(refusal.number())),
        }
    }
}

#[test]
fn text_that_is_too_long_for_its_field_is_refused() {
    assert_eq!(ground(Login::new("toolong", "a", "", 0)), Ground::FieldNotWritten);
    assert_eq!(ground(Login::new("a", "elevenchars", "", 0)), Ground::FieldNotWritten);
    assert_eq!(ground(Login::new("a", "a", "elevenchars", 0)), Ground::FieldNotWritten);
    assert_eq!(soup::left_justified(""), Ok([b' '; 6]));
    assert_eq!(soup::right_justified("abc"), Ok(*b"   abc"));
}

#[test]
fn a_password_is_not_shown() {
    let shown = "Login { username: \"reader\", session: \"     ROOM1\", number: 0, .. }";
    assert_eq!(format!("{:?}", login()), shown);
}
