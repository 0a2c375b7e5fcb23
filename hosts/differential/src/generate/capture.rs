//! Captures: settings of all kinds, then records of a feed.

use super::bytes;
use super::feed::Feed;
use super::mold;
use crate::random::Random;

/// Values of `next=` and `limit=` that must be refused.
const BAD_VALUES: &[&str] = &[
    "",
    "0",
    "00",
    "01",
    "+1",
    "-1",
    " 1",
    "1 ",
    "1\r",
    "1x",
    "0x1",
    "18446744073709551616",
    "99999999999999999999",
    "100000000000000000000",
    "1\n",
];

const BAD_LIMITS: &[&str] = &["65535", "65536", "99999", "100000"];

/// The three lines for a feed; one time in four something about them is bad, or nearly so.
pub fn settings(random: &mut Random, feed: &Feed) -> Vec<u8> {
    let mut session = feed.name.to_vec();
    if random.one_in(60) {
        session = random.bytes_between(8, 12);
    }
    let mut next = (feed.first + random.below(feed.messages.len() + 1) as u64).to_string();
    if random.one_in(30) {
        next = random
            .pick(&["1", "18446744073709551614", "18446744073709551615"])
            .to_string();
    }
    let mut limit = random
        .pick(&["1", "2", "100", "65533", "65534"])
        .to_string();
    if random.one_in(30) {
        next = random.pick(BAD_VALUES).to_string();
    }
    if random.one_in(30) {
        limit = random.pick(BAD_VALUES).to_string();
    }
    if random.one_in(30) {
        limit = random.pick(BAD_LIMITS).to_string();
    }
    let mut text = b"session=".to_vec();
    text.extend(session);
    text.extend(format!("\nnext={next}\nlimit={limit}\n").bytes());
    if random.one_in(12) {
        bytes::damage(random, &mut text);
    }
    text
}

/// A feed whose name can stand in settings; now and then it is blank or any other, which can't.
pub fn feed(random: &mut Random) -> Feed {
    let mut feed = Feed::new(random);
    match random.below(20) {
        0 => {}
        1 => feed.name = *b"          ",
        _ => feed.name = random.pick(&[*b"READROOM01", *b"         R", *b"~room=01 ~"]),
    }
    feed
}

pub fn record(datagram: &[u8]) -> Vec<u8> {
    let length = datagram.len().min(65_535) as u16;
    let mut record = length.to_be_bytes().to_vec();
    record.extend_from_slice(&datagram[..usize::from(length)]);
    record
}

/// Records as a line brings them, the last one perhaps cut short.
pub fn records(random: &mut Random, feed: &Feed, most: usize) -> Vec<u8> {
    let mut records = vec![];
    let mut next = feed.first;
    for _ in 0..random.below(most + 1) {
        let datagram = match random.below(40) {
            0 => vec![],
            1 => random.bytes(19),
            _ => feed.datagram(random, next),
        };
        // The line goes on as a receiver would, without being one.
        next = next
            .saturating_add(random.below(4) as u64)
            .min(feed.behind());
        records.extend(record(&datagram));
    }
    match random.below(6) {
        0 => records.truncate(random.below(records.len() + 1)),
        1 => records.push(random.byte()),
        _ => {}
    }
    records
}

/// A record around the largest datagram and the largest length.
pub fn long_record(random: &mut Random, feed: &Feed) -> Vec<u8> {
    match random.below(3) {
        0 => record(&random.bytes_between(65_505, 65_535)),
        _ => record(&mold::long(random, &feed.name, feed.first)),
    }
}

pub fn capture(random: &mut Random, feed: &Feed) -> Vec<u8> {
    let mut capture = settings(random, feed);
    if random.one_in(60) {
        capture.extend(long_record(random, feed));
    }
    let most = if random.one_in(60) { 600 } else { 20 };
    capture.extend(records(random, feed, most));
    capture
}
