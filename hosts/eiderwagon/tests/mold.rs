//! Datagrams and requests.

use eiderwagon::mold::{self, Datagram, Kind, Request};
use eiderwagon::{raw, Ground, Refusal};

const NAME: &[u8; 10] = b"READROOM01";

/// A header with any number and count, and what stands behind it.
fn datagram(number: u64, count: u16, rest: &[u8]) -> Vec<u8> {
    [&NAME[..], &number.to_be_bytes(), &count.to_be_bytes(), rest].concat()
}

fn refused(bytes: &[u8]) -> Refusal {
    Datagram::read(bytes).unwrap_err()
}

#[test]
fn data_is_read() {
    let bytes = datagram(7, 2, b"\0\x03one\0\0");
    let read = Datagram::read(&bytes).unwrap();
    assert_eq!(read.session(), NAME);
    assert_eq!(read.number(), 7);
    assert_eq!(read.kind(), Kind::Data { count: 2 });
    assert_eq!(read.as_bytes(), bytes);
}

#[test]
fn a_heartbeat_and_an_end_are_read() {
    let bytes = datagram(u64::MAX, 0, b"");
    let read = Datagram::read(&bytes).unwrap();
    assert_eq!((read.kind(), read.number()), (Kind::Heartbeat, u64::MAX));
    assert_eq!(read.messages().len(), 0);

    let bytes = datagram(6, 65535, b"");
    let read = Datagram::read(&bytes).unwrap();
    assert_eq!((read.kind(), read.number()), (Kind::EndOfSession, 6));
    assert_eq!(read.messages().next(), None);
}

#[test]
fn messages_are_found_by_their_place() {
    let bytes = datagram(1, 3, b"\0\x01a\0\0\0\x02bc");
    let read = Datagram::read(&bytes).unwrap();
    assert_eq!(read.message(0), Some(&b"a"[..]));
    assert_eq!(read.message(1), Some(&b""[..]));
    assert_eq!(read.message(2), Some(&b"bc"[..]));
    assert_eq!(read.message(3), None);
    assert_eq!(read.message(u16::MAX), None);
}

#[test]
fn messages_are_walked_over() {
    let bytes = datagram(1, 3, b"\0\x01a\0\0\0\x02bc");
    let mut messages = Datagram::read(&bytes).unwrap().messages();
    assert_eq!(messages.len(), 3);
    assert_eq!(messages.next(), Some(&b"a"[..]));
    assert_eq!(messages.len(), 2);
    assert_eq!(format!("{messages:?}"), "[[], [98, 99]]");
    assert!(messages.clone().eq([&b""[..], b"bc"]));
    assert_eq!(messages.by_ref().count(), 2);
    assert_eq!(messages.next(), None);
    assert_eq!(messages.next(), None);
}

#[test]
fn a_cursor_stays_as_it_is_where_no_message_is_there() {
    let bytes = datagram(1, 1, b"\0\x01a");
    let mut messages = Datagram::read(&bytes).unwrap().messages();
    assert_eq!(messages.next(), Some(&b"a"[..]));
    let end = messages.clone();
    assert_eq!(messages.next(), None);
    assert_eq!(messages, end);

    // Nor is a receiver changed that is lent for a cursor.
    let mut state = [0; raw::RECEIVER_SIZE];
    assert_eq!(raw::receiver_start(NAME, 1, 100, &mut state), raw::OK);
    let (before, mut words) = (state, [9; raw::NEXT_WORDS]);
    assert_eq!(raw::mold_next(&mut state, &bytes, &mut words), raw::OK);
    assert_eq!((words, state), ([0; raw::NEXT_WORDS], before));
}

#[test]
fn each_fault_of_a_datagram_has_its_number() {
    assert_eq!(refused(&[0; 19]).number(), 11);
    assert_eq!(refused(&vec![0; 65508]).number(), 12);
    assert_eq!(refused(&datagram(0, 1, b"\0\0")).number(), 13);
    assert_eq!(refused(&datagram(u64::MAX, 1, b"\0\0")).number(), 14);
    assert_eq!(refused(&datagram(1, 1, b"\0\x02a")).number(), 15);
    assert_eq!(refused(&datagram(1, 1, b"\0\0a")).number(), 16);
    assert_eq!(refused(&datagram(1, 0, b"a")).ground(), Ground::BytesAfterBlocks);
}

#[test]
fn data_is_written() {
    let mut out = [9; 40];
    let sent = mold::write_data(NAME, 7, &[b"one", b""], &mut out).unwrap();
    assert_eq!(sent, datagram(7, 2, b"\0\x03one\0\0"));
    assert_eq!(out[27..], [9; 13], "only what is reported is written");
}

#[test]
fn data_is_written_from_joined_bytes() {
    let (mut one, mut other) = ([0; 40], [0; 40]);
    let joined = mold::write_joined(NAME, 7, &[3, 0], b"one", &mut one).unwrap();
    assert_eq!(joined, mold::write_data(NAME, 7, &[b"one", b""], &mut other).unwrap());
}

#[test]
fn datagrams_without_messages_are_written() {
    let mut out = [0; 20];
    assert_eq!(mold::write_heartbeat(NAME, 6, &mut out).unwrap(), datagram(6, 0, b""));
    assert_eq!(mold::write_data(NAME, 6, &[], &mut out).unwrap(), datagram(6, 0, b""));
    assert_eq!(mold::write_end_of_session(NAME, 6, &mut out).unwrap(), datagram(6, 65535, b""));
}

#[test]
fn a_refused_writer_leaves_the_output_as_it_was() {
    let mut out = [9; 24];
    let short = |result: Result<&[u8], Refusal>| assert_eq!(result.unwrap_err().number(), 41);
    short(mold::write_data(NAME, 1, &[b"one"], &mut out));
    short(mold::write_heartbeat(NAME, 1, &mut out[..19]));
    short(mold::write_end_of_session(NAME, 1, &mut out[..19]));
    short(Request { session: *NAME, first: 1, count: 1 }.write(&mut out[..19]));
    let zero = |result: Result<&[u8], Refusal>| assert_eq!(result.unwrap_err().number(), 13);
    zero(mold::write_heartbeat(NAME, 0, &mut out));
    zero(mold::write_end_of_session(NAME, 0, &mut out));
    assert_eq!(out, [9; 24]);
}

#[test]
fn each_fault_of_written_data_has_its_number() {
    let mut out = vec![0; 65507];
    let mut joined = |first, lengths: &[u16], data: &[u8]| {
        mold::write_joined(NAME, first, lengths, data, &mut out).unwrap_err().number()
    };
    assert_eq!(joined(1, &[0; 65535], b""), 42);
    assert_eq!(joined(1, &[2], b"a"), 44);
    assert_eq!(joined(1, &[2], b"abc"), 44);
    assert_eq!(joined(0, &[1], b"a"), 13);
    assert_eq!(joined(u64::MAX, &[1], b"a"), 14);
    assert_eq!(joined(1, &[65486], &[0; 65486]), 12);
    assert_eq!(mold::write_joined(NAME, 1, &[65485], &[0; 65485], &mut out).unwrap().len(), 65507);
}

#[test]
fn a_message_too_long_for_its_length_is_refused_like_any_datagram_too_long() {
    let long = vec![0; 65536];
    let mut out = vec![9; 70000];
    let mut write = |first, messages: &[&[u8]]| {
        mold::write_data(NAME, first, messages, &mut out).unwrap_err().number()
    };
    assert_eq!(write(1, &[&long]), 12);
    assert_eq!(write(1, &[b"a", &long, b"b"]), 12);
    assert_eq!(write(0, &[&long]), 13);
    assert_eq!(write(u64::MAX, &[&long]), 14);
    assert!(out.iter().all(|&byte| byte == 9));
}

#[test]
fn requests_are_read_and_written() {
    let request = Request { session: *NAME, first: u64::MAX, count: 65534 };
    let mut out = [0; 30];
    let sent = request.write(&mut out).unwrap();
    assert_eq!(sent, datagram(u64::MAX, 65534, b""));
    assert_eq!(Request::read(sent), Ok(request));
}

#[test]
fn each_fault_of_a_request_has_its_number() {
    let read = |bytes: &[u8]| Request::read(bytes).unwrap_err().number();
    assert_eq!(read(&datagram(1, 1, b"a")), 47);
    assert_eq!(read(&datagram(0, 1, b"")), 13);
    assert_eq!(read(&datagram(1, 0, b"")), 48);
    assert_eq!(read(&datagram(1, 65535, b"")), 48);

    let mut out = [9; 20];
    let mut write = |first, count| {
        Request { session: *NAME, first, count }.write(&mut out).unwrap_err().number()
    };
    assert_eq!(write(0, 0), 13);
    assert_eq!(write(1, 0), 48);
    assert_eq!(write(1, 65535), 48);
    assert_eq!(out, [9; 20]);
}
