//! Our own transmitter against a receiver: the packets of a run, by turns and by place.

use differential::random::Random;
use eiderwagon::mold;
use eiderwagon::receiver::{Answer, Receiver};
use eiderwagon::transmitter::Transmitter;
use eiderwagon::Ground;

const NAME: &[u8; 10] = b"READROOM01";

/// Messages, and the size of their packets.
fn drawn(seed: u64) -> (u64, Vec<Vec<u8>>, usize) {
    let mut random = Random::new(seed, 4);
    let count = random.pick(&[0, 1, 2, 9, 60, 300]);
    let messages: Vec<Vec<u8>> = (0..count).map(|_| random.bytes_under(40)).collect();
    let longest = messages.iter().map(Vec::len).max().unwrap_or(0);
    let highest = u64::MAX - messages.len() as u64;
    let first = random.pick(&[1, 1, 7, highest]);
    (
        first,
        messages,
        22 + longest + random.pick(&[0, 1, 17, 200, 65_400]),
    )
}

/// The fewest packets that hold all messages in order: over the lengths from the last on, whatever a packet takes.
fn fewest(lengths: &[u16], size: usize) -> usize {
    let mut behind = vec![0; lengths.len() + 1];
    for from in (0..lengths.len()).rev() {
        let mut full = 20;
        behind[from] = usize::MAX;
        for (to, &length) in lengths.iter().enumerate().skip(from) {
            full += 2 + usize::from(length);
            if full > size {
                break;
            }
            behind[from] = behind[from].min(1 + behind[to + 1]);
        }
    }
    behind[0]
}

#[test]
fn a_run_is_read_back_whole() {
    let mut packets = 0;
    for seed in 0..300 {
        let (first, messages, size) = drawn(seed);
        let size = size.min(65_507);
        let lengths: Vec<u16> = messages
            .iter()
            .map(|message| message.len() as u16)
            .collect();
        let joined = messages.concat();
        let start =
            || Transmitter::start(NAME, first, &lengths, &joined, size).expect("a good run");
        let (mut by_turns, by_place) = (start(), start());
        let mut receiver = Receiver::start(NAME, first, 100).expect("a start");
        let (mut delivered, mut place) = (vec![], 0);
        let (mut out, mut other) = (vec![0; size], vec![0; size]);
        while let Some(packet) = by_turns.next_packet(&mut out).expect("there is room") {
            assert!(packet.len() <= size);
            assert_eq!(
                by_place.packet(place, &mut other),
                Ok(packet),
                "seed {seed}"
            );
            place += 1;
            match receiver.take(packet) {
                Ok(Answer::Deliver { messages, .. }) => {
                    delivered.extend(messages.map(<[u8]>::to_vec))
                }
                other => panic!("seed {seed}: {other:?}"),
            }
        }
        let past = by_place.packet(place, &mut other).unwrap_err();
        assert_eq!(past.ground(), Ground::NoSuchPacket);
        assert_eq!(place as usize, fewest(&lengths, size), "seed {seed}");
        assert!(delivered == messages, "seed {seed}");
        let end = mold::write_end_of_session(NAME, receiver.next(), &mut other).expect("it fits");
        assert_eq!(receiver.take(end), Ok(Answer::Ended));
        packets += place;
    }
    println!("300 runs in {packets} packets");
    assert!(packets > 1_000);
}
