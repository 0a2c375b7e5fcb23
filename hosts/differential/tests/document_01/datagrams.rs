//! Datagrams and requests, read and written.

use crate::{ask, data, end, header, heartbeat, words, NAME, TOP};
use differential::call::Call;

fn read(datagram: &[u8]) -> (u32, [u64; 3]) {
    words(&ask(&Call::MoldRead { datagram }, &[]))
}

#[test]
fn datagrams() {
    assert_eq!(read(&data(TOP - 1, &[b"a"])), (0, [1, TOP - 1, 1]));
    assert_eq!(read(&data(TOP - 1, &[b"a", b"b"])).0, 14);
    assert_eq!(read(&data(TOP, &[b"a"])).0, 14);
    assert_eq!(read(&heartbeat(TOP)), (0, [2, TOP, 0]));
    assert_eq!(read(&end(TOP)), (0, [3, TOP, 0]));
    assert_eq!(read(&heartbeat(0)).0, 13);
    assert_eq!(read(&heartbeat(1)[..19]).0, 11);
    assert_eq!(read(&[&heartbeat(1)[..], &[0]].concat()).0, 16);
    assert_eq!(read(&header(1, 1)).0, 15);
    assert_eq!(read(&[&header(1, 1)[..], &[0]].concat()).0, 15);
    assert_eq!(read(&[&header(1, 1)[..], &[0, 1]].concat()).0, 15);
    assert_eq!(read(&[&header(1, 1)[..], &[0, 1, 9, 9]].concat()).0, 16);
    let largest = data(1, &[&vec![0; 65_485]]);
    assert_eq!((largest.len(), read(&largest).0), (65_507, 0));
    assert_eq!(read(&data(1, &[&vec![0; 65_486]])).0, 12);
}

#[test]
fn messages_by_place() {
    let datagram = data(9, &[b"abc", b"", b"de", b""]);
    let datagram = datagram.as_slice();
    let found = |place| words(&ask(&Call::MoldLocate { datagram, place }, &[]));
    assert_eq!(found(0), (0, [1, 22, 3]));
    assert_eq!(found(1), (0, [1, 27, 0]));
    assert_eq!(found(2), (0, [1, 29, 2]));
    assert_eq!(found(3), (0, [1, 33, 0]));
    assert_eq!(found(4), (0, [0, 0, 0]));
    assert_eq!(datagram.len(), 33);
}

#[test]
fn datagrams_written() {
    let write = |first, lengths: &[u16], data: &[u8]| {
        let call = Call::MoldWriteData {
            session: NAME,
            first,
            lengths,
            data,
        };
        let answer = ask(&call, &[]);
        let size = answer.words[0] as usize;
        (answer.code, answer.out[..size].to_vec())
    };
    let written = write(7, &[1, 0, 2], b"abc");
    assert_eq!(written, (0, data(7, &[b"a", b"", b"bc"])));
    assert_eq!(write(TOP, &[], b""), (0, heartbeat(TOP)));
    assert_eq!(write(0, &[0; 65_535], b"a").0, 42);
    assert_eq!(write(0, &[0; 65_534], b"a").0, 44);
    assert_eq!(write(0, &[], b"a").0, 44);
    assert_eq!(write(0, &[0; 65_534], b"").0, 13);
    assert_eq!(write(TOP, &[0; 65_534], b"").0, 14);
    assert_eq!(write(1, &[0; 65_534], b"").0, 12);
    assert_eq!(write(1, &[65_485], &[0; 65_485]).1.len(), 65_507);
    assert_eq!(write(1, &[65_486], &[0; 65_486]).0, 12);
}

#[test]
fn requests() {
    let read = |request: &[u8]| words(&ask(&Call::MoldReadRequest { request }, &[]));
    assert_eq!(read(&header(TOP, 65_534)), (0, [TOP, 65_534]));
    assert_eq!(read(&header(0, 0)[..19]).0, 47);
    assert_eq!(read(&[&header(0, 0)[..], &[0]].concat()).0, 47);
    assert_eq!(read(&header(0, 0)).0, 13);
    assert_eq!(read(&header(1, 0)).0, 48);
    assert_eq!(read(&header(1, 65_535)).0, 48);
}
