//! The branch store.

use eiderwagon::mold::{Datagram, Request};
use eiderwagon::store::Store;
use eiderwagon::{Fault, Refusal};

const NAME: &[u8; 10] = b"READROOM01";

/// Messages 10, 11 and 12: "one", "" and "three".
const STORE: Store = Store { session: NAME, first: 10, lengths: &[3, 0, 5], joined: b"onethree" };

fn asked(first: u64, count: u16) -> Vec<u8> {
    Request { session: *NAME, first, count }.write(&mut [0; 20]).unwrap().to_vec()
}

/// The number of an answer's first message, and its messages.
fn answer(store: &Store, request: &[u8], size: usize) -> Result<(u64, Vec<Vec<u8>>), Refusal> {
    let mut out = vec![0; size];
    let packet = Datagram::read(store.answer(request, size, &mut out)?).expect("it is a datagram");
    assert_eq!(packet.session(), NAME);
    Ok((packet.number(), packet.messages().map(<[u8]>::to_vec).collect()))
}

/// The number of a refusal, and who brought it about.
fn refusal(store: &Store, request: &[u8], size: usize) -> (u32, Fault) {
    let refusal = answer(store, request, size).expect_err("it is refused");
    (refusal.number(), refusal.fault())
}

fn messages(all: &[&[u8]]) -> Vec<Vec<u8>> {
    all.iter().map(|message| message.to_vec()).collect()
}

#[test]
fn an_answer_begins_at_the_wanted_number() {
    assert_eq!(answer(&STORE, &asked(11, 2), 100), Ok((11, messages(&[b"", b"three"]))));
    assert_eq!(answer(&STORE, &asked(12, 1), 100), Ok((12, messages(&[b"three"]))));
}

#[test]
fn the_count_the_size_and_the_end_bound_it() {
    assert_eq!(answer(&STORE, &asked(10, 1), 100), Ok((10, messages(&[b"one"]))));
    assert_eq!(answer(&STORE, &asked(10, 65_534), 100).unwrap().1.len(), 3);
    // 20 for the header, 5, 2 and 7 for the blocks
    for (size, count) in [(34, 3), (33, 2), (27, 2), (26, 1), (25, 1)] {
        assert_eq!(answer(&STORE, &asked(10, 3), size).unwrap().1.len(), count, "{size}");
    }
}

#[test]
fn the_output_holds_the_packet_and_not_all_of_the_size() {
    let request = asked(11, 1);
    assert_eq!(STORE.answer(&request, 65_507, &mut [0; 22]).map(<[u8]>::len), Ok(22));
    let short = STORE.answer(&request, 65_507, &mut [0; 21]).unwrap_err();
    assert_eq!((short.number(), short.fault()), (41, Fault::Caller));
}

#[test]
fn what_a_peer_asks_wrongly_is_its_fault() {
    assert_eq!(refusal(&STORE, b"short", 100), (47, Fault::Peer));
    assert_eq!(refusal(&STORE, b"READROOM01\0\0\0\0\0\0\0\0\0\x01", 100), (13, Fault::Peer));
    assert_eq!(refusal(&STORE, b"READROOM01\0\0\0\0\0\0\0\x0A\0\0", 100), (48, Fault::Peer));
    assert_eq!(refusal(&STORE, b"READROOM02\0\0\0\0\0\0\0\x0A\0\x01", 100), (53, Fault::Peer));
    assert_eq!(refusal(&STORE, &asked(9, 5), 100), (51, Fault::Peer));
    assert_eq!(refusal(&STORE, &asked(13, 1), 100), (51, Fault::Peer));
}

#[test]
fn what_is_lent_wrongly_is_the_callers() {
    for size in [0, 21, 65_508, usize::MAX] {
        let refusal = STORE.answer(b"", size, &mut []).unwrap_err();
        assert_eq!((refusal.number(), refusal.fault()), (19, Fault::Caller), "{size}");
    }
    assert_eq!(refusal(&Store { first: 0, ..STORE }, &asked(1, 1), 100), (19, Fault::Caller));
    let last = Store { first: u64::MAX - 3, ..STORE };
    assert_eq!(answer(&last, &asked(u64::MAX - 1, 1), 100).unwrap().1.len(), 1);
    let past = Store { first: u64::MAX - 2, ..STORE };
    assert_eq!(refusal(&past, &asked(u64::MAX - 1, 1), 100), (19, Fault::Caller));
    assert_eq!(refusal(&Store { joined: b"onetwo", ..STORE }, b"", 100), (44, Fault::Caller));
    assert_eq!(refusal(&STORE, &asked(12, 1), 26), (52, Fault::Caller));
}

#[test]
fn a_store_of_no_messages_is_good() {
    let empty = Store { lengths: &[], joined: b"", ..STORE };
    assert_eq!(refusal(&empty, &asked(10, 1), 100), (51, Fault::Peer));
}

#[test]
fn it_shows_how_much_it_has() {
    let shown = format!("{STORE:?}");
    assert_eq!(shown, "Store { session: \"READROOM01\", first: 10, messages: 3, bytes: 8 }");
}
