//! Refusals: numbers, grounds, and whose fault they are.

use eiderwagon::mold::{self, Datagram, Request};
use eiderwagon::receiver::Receiver;
use eiderwagon::session::{Accounts, Client, Server};
use eiderwagon::soup::{self, Packet, Sender};
use eiderwagon::{Fault, Ground, Refusal};

const NAME: &[u8; 10] = b"READROOM01";

fn short_datagram() -> Refusal {
    Datagram::read(b"").unwrap_err()
}

/// The number of a refusal, and who brought it about.
fn of<T>(result: Result<T, Refusal>) -> (u32, Fault) {
    let refusal = result.err().expect("it is refused");
    (refusal.number(), refusal.fault())
}

#[test]
fn a_refusal_has_its_number_and_its_ground() {
    let refusal = short_datagram();
    assert_eq!(refusal.number(), 11);
    assert_eq!(refusal.ground(), Ground::DatagramShort);
    assert_eq!(refusal.ground().to_string(), "a Mold datagram under 20 bytes");
    assert_eq!(refusal.to_string(), "refusal 11: a Mold datagram under 20 bytes");
}

#[test]
fn a_refusal_is_an_error() {
    let error: Box<dyn std::error::Error> = short_datagram().into();
    assert_eq!(error.to_string(), "refusal 11: a Mold datagram under 20 bytes");
}

#[test]
fn each_number_leads_back_to_its_ground() {
    let mut before = 0;
    for &ground in Ground::ALL {
        assert!(ground.number() > before, "{ground}");
        assert_eq!(Ground::from_number(ground.number()), Some(ground));
        before = ground.number();
    }
    assert_eq!(Ground::ALL.len(), 29);
}

#[test]
fn other_numbers_have_no_ground() {
    for number in [0, 10, 26, 30, 35, 40, 43, 45, 49, 50, 55, u32::MAX] {
        assert_eq!(Ground::from_number(number), None);
    }
}

#[test]
fn no_two_grounds_have_the_same_words() {
    for (place, one) in Ground::ALL.iter().enumerate() {
        assert!(!one.words().is_empty());
        assert!(Ground::ALL[place + 1..].iter().all(|other| other.words() != one.words()));
    }
}

#[test]
fn what_came_is_the_peers_fault() {
    let mut receiver = Receiver::start(NAME, 5, 100).unwrap();
    let other = mold::write_heartbeat(b"READROOM02", 5, &mut [0; 20]).unwrap().to_vec();
    let early = mold::write_end_of_session(NAME, 4, &mut [0; 20]).unwrap().to_vec();
    assert_eq!(of(Datagram::read(&[0; 20])), (13, Fault::Peer));
    assert_eq!(of(Request::read(&[0; 19])), (47, Fault::Peer));
    assert_eq!(of(receiver.take(&other)), (17, Fault::Peer));
    assert_eq!(of(receiver.take(&early)), (20, Fault::Peer));
    assert_eq!(of(soup::read(b"\x10\x02", Sender::Server)), (22, Fault::Peer));

    let accounts = Accounts::from_bytes(b"");
    let mut server = Server::start(NAME, 0).unwrap();
    let mut client = Client::start(NAME, 0).unwrap();
    assert_eq!(of(server.step(&accounts, b"\0\x01R")), (31, Fault::Peer));
    assert_eq!(of(client.step(b"\0\x01L")), (23, Fault::Peer));
}

#[test]
fn what_is_started_or_written_is_the_callers() {
    let out = &mut [0; 64];
    let long = [0; 4097];
    assert_eq!(of(Receiver::start(NAME, 0, 1)), (19, Fault::Caller));
    assert_eq!(of(mold::write_heartbeat(NAME, 0, out)), (13, Fault::Caller));
    assert_eq!(of(Request { session: *NAME, first: 1, count: 0 }.write(out)), (48, Fault::Caller));
    assert_eq!(of(Packet::SequencedData(&long).write(out)), (22, Fault::Caller));
    assert_eq!(of(Packet::EndOfSession.write(&mut out[..2])), (41, Fault::Caller));
    assert_eq!(of(soup::left_justified::<6>("toolong")), (46, Fault::Caller));
}

/// A sender repeats its end of session, so only the caller can know that it has been taken.
#[test]
fn to_go_on_with_what_is_over_is_the_callers() {
    let mut receiver = Receiver::start(NAME, 5, 100).unwrap();
    let end = mold::write_end_of_session(NAME, 5, &mut [0; 20]).unwrap().to_vec();
    receiver.take(&end).unwrap();
    assert_eq!(of(receiver.take(&end)), (18, Fault::Caller));

    let mut client = Client::start(NAME, 0).unwrap();
    client.step(b"\0\x02JA").unwrap();
    assert_eq!(of(client.step(b"\0\x01H")), (32, Fault::Caller));
}

#[test]
fn a_table_of_accounts_that_is_too_long_is_the_callers() {
    let many = vec![b'a'; 1025 * 16];
    let mut server = Server::start(NAME, 0).unwrap();
    assert_eq!(of(server.step(&Accounts::from_bytes(&many), b"")), (19, Fault::Caller));
}
