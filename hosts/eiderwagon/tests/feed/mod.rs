//! Datagrams of one session, for the tests of both receivers.

use eiderwagon::{mold, raw};

pub const NAME: &[u8; 10] = b"READROOM01";

pub fn data(first: u64, messages: &[&[u8]]) -> Vec<u8> {
    let mut out = [0; raw::LARGEST_DATAGRAM];
    mold::write_data(NAME, first, messages, &mut out).unwrap().to_vec()
}

pub fn heartbeat(next: u64) -> Vec<u8> {
    mold::write_heartbeat(NAME, next, &mut [0; 20]).unwrap().to_vec()
}

pub fn end(next: u64) -> Vec<u8> {
    mold::write_end_of_session(NAME, next, &mut [0; 20]).unwrap().to_vec()
}
