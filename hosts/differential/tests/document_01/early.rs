//! Order 6's rule, sentence by sentence.

use crate::{ask, ask_with, data, end, heartbeat, lent, words, Answer, NAME, TOP};
use differential::call::{Call, Lent};

/// A receiver and its slots, as a host keeps them.
struct Host {
    state: Vec<u8>,
    slots: Vec<u8>,
}

impl Host {
    fn new(next: u64, limit: u16) -> Host {
        let start = Call::EarlyStart {
            session: NAME,
            next,
            limit,
        };
        Host {
            state: ask(&start, &[9; 157]).state,
            slots: vec![7; 65_536],
        }
    }

    fn lent(&self) -> Lent {
        Lent {
            slots: self.slots.clone(),
            ..lent(&self.state)
        }
    }

    /// The seven words of a datagram; the state and the slots are kept.
    fn take(&mut self, datagram: &[u8]) -> [u64; 7] {
        let taken = ask_with(&Call::EarlyTake { datagram }, self.lent());
        assert_eq!(taken.code, 0);
        self.state = taken.state;
        self.slots = taken.slots;
        taken.words
    }

    fn refused(&self, datagram: &[u8]) -> u32 {
        let refused = ask_with(&Call::EarlyTake { datagram }, self.lent());
        assert!(refused.state == self.state && refused.slots == self.slots);
        refused.code
    }

    fn locate(&self, datagram: &[u8], place: u16) -> Answer {
        let call = Call::EarlyLocate {
            state: &self.state,
            slots: &self.slots,
            datagram,
            place,
        };
        ask(&call, &[])
    }

    /// The word of held numbers.
    fn held(&self) -> u64 {
        u64::from_le_bytes(self.state[21..29].try_into().expect("eight bytes"))
    }

    fn next(&self) -> u64 {
        u64::from_le_bytes(self.state[11..19].try_into().expect("eight bytes"))
    }
}

#[test]
fn a_start_holds_nothing() {
    let host = Host::new(5, 258);
    let mut wanted = vec![0xE7];
    wanted.extend(NAME);
    wanted.extend([5, 0, 0, 0, 0, 0, 0, 0, 2, 1]);
    wanted.resize(157, 0);
    assert_eq!(host.state, wanted);
}

/// "Number n is delivered and then every held message that follows without a gap."
#[test]
fn what_follows_is_delivered_with_it() {
    let mut host = Host::new(1, 100);
    assert_eq!(
        host.take(&data(2, &[b"two", b"three"])),
        [4, 0, 0, 0, 1, 1, 1]
    );
    assert_eq!(host.take(&data(5, &[b"five"])), [4, 0, 0, 0, 1, 1, 1]);
    assert_eq!(host.held(), 0b1011);
    assert_eq!(host.take(&data(1, &[b"one"])), [1, 1, 3, 0, 1, 4, 1]);
    assert_eq!((host.next(), host.held()), (4, 1));
    assert_eq!(
        host.take(&data(3, &[b"three", b"four"])),
        [1, 4, 2, 1, 0, 0, 0]
    );
    assert_eq!((host.next(), host.held()), (6, 0));
}

/// "From n + 1 to n + 64 with at most 1,024 bytes, unless already held, from the first byte of slot (number modulo 64), and
/// no other slot byte changes; anything else is left."
#[test]
fn what_is_held_and_where() {
    let mut host = Host::new(1, 100);
    host.take(&data(66, &[b"too far"]));
    host.take(&data(2, &[&[1; 1_025]]));
    assert_eq!((host.held(), &host.slots), (0, &vec![7; 65_536]));
    host.take(&data(65, &[&[1; 1_024]]));
    let mut wanted = vec![7; 65_536];
    wanted[1_024..2_048].fill(1);
    assert_eq!(host.slots, wanted);
    assert_eq!(host.held(), 1 << 63);
    assert_eq!(host.state[31..33], [4, 0]);
    host.take(&data(65, &[b"again"]));
    assert_eq!(host.slots, wanted);
    host.take(&data(64, &[b"64"]));
    wanted[..2].copy_from_slice(b"64");
    assert_eq!(host.slots, wanted);
    assert_eq!(host.held(), 3 << 62);
}

/// The run of ones may be the whole word.
#[test]
fn all_slots_are_delivered() {
    let mut host = Host::new(1, 65_534);
    host.take(&data(2, &[&b"x"[..]; 64]));
    assert_eq!(host.held(), TOP);
    assert_eq!(host.take(&data(1, &[&[2; 2_000]])), [1, 1, 65, 0, 0, 0, 0]);
    assert_eq!((host.next(), host.held()), (66, 0));
}

/// "From n to just below the lowest held number, or the datagram's number if none is held, within the limit."
#[test]
fn what_it_asks_for() {
    let mut host = Host::new(10, 5);
    assert_eq!(host.take(&heartbeat(12)), [4, 0, 0, 0, 1, 10, 2]);
    assert_eq!(host.take(&heartbeat(100)), [4, 0, 0, 0, 1, 10, 5]);
    assert_eq!(host.take(&end(12)), [4, 0, 0, 0, 1, 10, 2]);
    assert_eq!(host.take(&heartbeat(10)), [3, 0, 0, 0, 0, 0, 0]);
    assert_eq!(host.take(&heartbeat(9)), [2, 0, 0, 0, 0, 0, 0]);
    host.take(&data(13, &[b"13"]));
    assert_eq!(host.take(&heartbeat(12)), [4, 0, 0, 0, 1, 10, 3]);
    assert_eq!(host.take(&heartbeat(10)), [3, 0, 0, 0, 1, 10, 3]);
    assert_eq!(host.take(&heartbeat(9)), [2, 0, 0, 0, 1, 10, 3]);
    assert_eq!(host.take(&data(8, &[b"8", b"9"])), [2, 0, 0, 0, 1, 10, 3]);
}

#[test]
fn an_ended_session_holds_nothing() {
    let mut host = Host::new(1, 100);
    host.take(&data(3, &[b"three"]));
    let slots = host.slots.clone();
    assert_eq!(host.take(&end(1)), [5, 0, 0, 0, 0, 0, 0]);
    assert_eq!((host.state[0], host.held(), &host.slots), (0, 0, &slots));
    assert_eq!(host.refused(&heartbeat(1)), 18);
}

/// "Each message it will deliver can be had by its place from 0, as a part of the slots if held there, else of the
/// datagram."
#[test]
fn messages_by_place() {
    let mut host = Host::new(5, 100);
    host.take(&data(7, &[b"seven", b""]));
    let datagram = data(4, &[b"four", b"five", b"six", b"SEVEN"]);
    let places = [
        [1, 0, 28, 4],
        [1, 0, 34, 3],
        [1, 1, 7 * 1_024, 5],
        [1, 1, 8 * 1_024, 0],
        [0; 4],
    ];
    for (place, wanted) in (0..).zip(places) {
        assert_eq!(words(&host.locate(&datagram, place)), (0, wanted));
    }
    let call = Call::EarlyCount {
        state: &host.state,
        slots: &host.slots,
        datagram: &datagram,
    };
    assert_eq!(words(&ask(&call, &[])), (0, [4]));
    let mut lent = host.lent();
    lent.places = vec![7; 13];
    let datagram = datagram.as_slice();
    let delivered = ask_with(&Call::EarlyDeliver { datagram }, lent);
    assert_eq!(words(&delivered), (0, [1, 5, 4, 1, 0, 0, 0]));
    let laid: Vec<u64> = places[..4].iter().flat_map(|p| p[1..].to_vec()).collect();
    assert_eq!(delivered.places, [&laid[..], &[7]].concat());
    assert_eq!(host.take(datagram), [1, 5, 4, 1, 0, 0, 0]);
}

/// "A slot buffer of another size is 19", between 18 and 20.
#[test]
fn slots_of_another_size() {
    let host = Host::new(5, 100);
    let mut other = data(5, &[b"five"]);
    other[0] = b'X';
    let cases = [
        (19, data(5, &[b"five"])),
        (19, heartbeat(5)),
        (19, end(4)),
        (17, other),
        (11, vec![0; 19]),
    ];
    for size in [0, 65_535, 65_537] {
        let slots = vec![7; size];
        for (number, datagram) in &cases {
            let lent = Lent {
                slots: slots.clone(),
                ..host.lent()
            };
            assert_eq!(ask_with(&Call::EarlyTake { datagram }, lent).code, *number);
        }
        let call = Call::EarlyCount {
            state: &host.state,
            slots: &slots,
            datagram: &cases[0].1,
        };
        assert_eq!(ask(&call, &[]).code, 19);
    }
    assert_eq!(host.refused(&end(4)), 20);
}

/// Numbers up to the last that a message has.
#[test]
fn near_the_last_number() {
    let mut host = Host::new(TOP - 3, 100);
    host.take(&data(TOP - 2, &[b"a", b"b"]));
    assert_eq!(host.held(), 0b11);
    assert_eq!(
        host.take(&data(TOP - 3, &[b"c"])),
        [1, TOP - 3, 3, 0, 0, 0, 0]
    );
    assert_eq!((host.next(), host.held()), (TOP, 0));
}
