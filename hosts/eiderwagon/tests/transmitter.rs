//! Our own transmitter.

use eiderwagon::mold::Datagram;
use eiderwagon::transmitter::Transmitter;
use eiderwagon::{Fault, Refusal};

const NAME: &[u8; 10] = b"READROOM01";

/// "one", "", "go", "four" and "x".
const LENGTHS: &[u16] = &[3, 0, 2, 4, 1];
const JOINED: &[u8] = b"onegofourx";

fn start(first: u64, size: usize) -> Result<Transmitter<'static>, Refusal> {
    Transmitter::start(NAME, first, LENGTHS, JOINED, size)
}

fn refusal<T>(result: Result<T, Refusal>) -> (u32, Fault) {
    let refusal = result.err().expect("it is refused");
    (refusal.number(), refusal.fault())
}

/// All packets by turns.
fn all(mut transmitter: Transmitter) -> Vec<Vec<u8>> {
    let (mut out, mut packets) = (vec![0; 65_507], vec![]);
    while let Some(packet) = transmitter.next_packet(&mut out).expect("there is room") {
        packets.push(packet.to_vec());
    }
    packets
}

#[test]
fn each_packet_takes_the_most_that_fit() {
    let packets = all(start(6, 29).unwrap());
    let sent: Vec<(u64, Vec<&[u8]>)> = packets
        .iter()
        .map(|packet| Datagram::read(packet).expect("it is a datagram"))
        .map(|packet| (packet.number(), packet.messages().collect()))
        .collect();
    let wanted: [(u64, Vec<&[u8]>); 3] =
        [(6, vec![b"one", b""]), (8, vec![b"go"]), (9, vec![b"four", b"x"])];
    assert_eq!(sent, wanted);
}

#[test]
fn by_place_they_are_the_same() {
    let transmitter = start(6, 29).unwrap();
    let by_turns = all(start(6, 29).unwrap());
    for (place, packet) in (0..).zip(&by_turns) {
        assert_eq!(transmitter.packet(place, &mut [0; 29]), Ok(packet.as_slice()));
    }
    for place in [3, 4, u64::MAX] {
        assert_eq!(refusal(transmitter.packet(place, &mut [0; 29])), (54, Fault::Caller));
    }
    assert_eq!(transmitter.sent(), 0);
}

#[test]
fn a_short_output_loses_no_packet() {
    let mut transmitter = start(6, 29).unwrap();
    let before = *transmitter.as_bytes();
    assert_eq!(refusal(transmitter.next_packet(&mut [0; 26])), (41, Fault::Caller));
    assert_eq!(*transmitter.as_bytes(), before);
    assert_eq!(transmitter.next_packet(&mut [0; 27]).unwrap().unwrap().len(), 27);
    assert_eq!(transmitter.sent(), 2);
}

#[test]
fn behind_the_last_there_is_none() {
    let mut transmitter = start(6, 65_507).unwrap();
    let mut out = [0; 64];
    assert_eq!(transmitter.next_packet(&mut out).unwrap().map(<[u8]>::len), Some(40));
    for _ in 0..2 {
        assert_eq!(transmitter.next_packet(&mut []), Ok(None));
    }
    assert_eq!(transmitter.sent(), 5);
}

#[test]
fn an_empty_run_has_no_packet() {
    let mut empty = Transmitter::start(NAME, u64::MAX, &[], &[], 22).unwrap();
    assert_eq!(empty.next_packet(&mut []), Ok(None));
    assert_eq!(refusal(empty.packet(0, &mut [])), (54, Fault::Caller));
}

#[test]
fn a_run_is_refused_as_a_whole() {
    for size in [0, 21, 65_508, usize::MAX] {
        assert_eq!(refusal(start(6, size)), (19, Fault::Caller), "{size}");
    }
    let differs = Transmitter::start(NAME, 0, LENGTHS, b"one", 29);
    assert_eq!(refusal(differs), (44, Fault::Caller));
    assert_eq!(refusal(start(0, 22)), (13, Fault::Caller));
    assert!(start(u64::MAX - 5, 29).is_ok());
    assert_eq!(refusal(start(u64::MAX - 4, 22)), (14, Fault::Caller));
    assert!(start(6, 26).is_ok());
    assert_eq!(refusal(start(6, 25)), (52, Fault::Caller));
}

#[test]
fn it_shows_how_far_it_has_come() {
    let mut transmitter = start(6, 29).unwrap();
    transmitter.next_packet(&mut [0; 29]).unwrap();
    let shown = "Transmitter { session: \"READROOM01\", first: 6, messages: 5, size: 29, sent: 2 }";
    assert_eq!(format!("{transmitter:?}"), shown);
}
