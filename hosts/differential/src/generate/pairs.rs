//! Calls to which several grounds of refusal apply at once, so that every two of a function do: only the first may be
//! given. Each ground is drawn by itself, every third time or so, and what is lent lacks something as often.

use super::feed::Feed;
use super::{accounts, bytes, capture, capture_cases, lend, missing_cases, mold, soup};
use crate::call::Call;
use crate::layout;
use crate::random::Random;
use crate::reference::early::Early;
use crate::reference::mold::{END, HEADER, LARGEST};
use crate::reference::receiver::Receiver;
use crate::reference::session::{Client, ClientState, Server, ServerState};
use crate::reference::{Name, BLANK};
use crate::run::Run;

pub fn case(run: &mut Run, random: &mut Random) {
    for _ in 0..3 {
        match random.below(10) {
            0..2 => datagrams(run, random),
            2 => written_datagrams(run, random),
            3 => starts(run, random),
            4 => written_packets(run, random),
            5..7 => server(run, random),
            7..9 => client(run, random),
            _ => captures(run, random),
        }
    }
}

fn check(run: &mut Run, random: &mut Random, call: &Call, state: Option<&[u8]>) {
    let mut lent = lend::lacking(random, call, state);
    run.check(call, &mut lent);
}

/// A good name, or one of another size.
fn name(random: &mut Random, good: &[u8]) -> Vec<u8> {
    let mut name = good.to_vec();
    match random.below(6) {
        0 => name.truncate(random.below(good.len())),
        1 => name.extend(random.bytes_between(1, 4)),
        _ => {}
    }
    name
}

/// A number at which something is refused, or one that is good.
fn number(random: &mut Random) -> u64 {
    random.pick(&[0, 1, 5, 5, u64::MAX - 1, u64::MAX])
}

/// A datagram whose header and whose blocks are bad or not, each by itself.
fn datagram(random: &mut Random, session: &Name) -> Vec<u8> {
    let count = random.pick(&[0, 1, 2, END]);
    let blocks = if count == END { 0 } else { usize::from(count) };
    let mut messages = vec![vec![7; random.below(3)]; blocks];
    let is_long = random.one_in(4);
    if is_long {
        // One of them alone is more than a datagram holds.
        for message in &mut messages {
            message.resize(65_500, 7);
        }
    }
    match random.below(3) {
        0 => {
            messages.pop();
        }
        1 => messages.push(vec![]),
        _ => {}
    }
    let mut datagram = mold::raw(session, number(random), count, &messages);
    if is_long && datagram.len() <= LARGEST && random.one_in(2) {
        datagram.resize(LARGEST + 1, 0);
    }
    if random.one_in(6) {
        datagram.truncate(random.below(HEADER));
    }
    datagram
}

fn datagrams(run: &mut Run, random: &mut Random) {
    let session = *b"READROOM01";
    let sent = random.pick(&[session, session, BLANK]);
    let datagram = datagram(random, &sent);
    let datagram = datagram.as_slice();
    check(run, random, &Call::MoldRead { datagram }, None);
    let receiver = Receiver {
        session: random.pick(&[session, session, *b"READROOM02", BLANK]),
        next: random.pick(&[1, 5, 6, u64::MAX]),
        limit: 100,
        ended: random.one_in(3),
    };
    let mut state = layout::receiver_bytes(&receiver);
    bytes::by_hand(random, &mut state, None);
    check(run, random, &Call::ReceiverTake { datagram }, Some(&state));
    let deliver = Call::ReceiverDeliver { datagram };
    check(run, random, &deliver, Some(&state));
    early(run, random, datagram, &receiver);
    check(run, random, &Call::MoldLocate { datagram, place: 0 }, None);
    check(run, random, &Call::MoldNext { datagram }, None);

    let count = random.pick(&[0, 1, 2, END]);
    let mut request = mold::raw(&session, number(random), count, &[]);
    match random.below(4) {
        0 => request.truncate(random.below(HEADER)),
        1 => request.push(0),
        _ => {}
    }
    let request = request.as_slice();
    check(run, random, &Call::MoldReadRequest { request }, None);
}

/// The same receiver with slots.
fn early(run: &mut Run, random: &mut Random, datagram: &[u8], plain: &Receiver) {
    let early = Early {
        session: plain.session,
        next: plain.next,
        limit: plain.limit,
        ended: plain.ended,
        held: Default::default(),
    };
    let mut state = layout::early_bytes(&early, &[0; layout::EARLY], &vec![]);
    bytes::by_hand(random, &mut state, None);
    check(run, random, &Call::EarlyTake { datagram }, Some(&state));
    check(run, random, &Call::EarlyDeliver { datagram }, Some(&state));
    let mut slots = lend::slots(random);
    if random.one_in(3) {
        lend::other_slots(random, &mut slots);
    }
    if random.one_in(3) {
        state.pop();
    }
    let (state, slots) = (state.as_slice(), slots.as_slice());
    let count = Call::EarlyCount {
        state,
        slots,
        datagram,
    };
    check(run, random, &count, None);
    let locate = Call::EarlyLocate {
        state,
        slots,
        datagram,
        place: 0,
    };
    check(run, random, &locate, None);
    let walk = Call::EarlyWalk {
        state,
        slots,
        datagram,
    };
    check(run, random, &walk, None);
    let next = Call::EarlyNext {
        state,
        slots,
        datagram,
    };
    check(run, random, &next, None);
}

fn written_datagrams(run: &mut Run, random: &mut Random) {
    let session = name(random, b"READROOM01");
    let session = session.as_slice();
    let lengths: Vec<u16> = match random.below(8) {
        0 => vec![0; 65_535],
        1 => vec![40_000; 2],
        _ => vec![3; random.below(3)],
    };
    let sum: usize = lengths.iter().map(|&length| usize::from(length)).sum();
    let data = vec![7; sum + random.pick(&[0, 0, 1])];
    let call = Call::MoldWriteData {
        session,
        first: number(random),
        lengths: &lengths,
        data: &data,
    };
    check(run, random, &call, None);
    let next = number(random);
    let call = Call::MoldWriteHeartbeat { session, next };
    check(run, random, &call, None);
    check(run, random, &Call::MoldWriteEnd { session, next }, None);
    let request = Call::MoldWriteRequest {
        session,
        first: number(random),
        count: random.pick(&[0, 1, END]),
    };
    check(run, random, &request, None);
}

fn starts(run: &mut Run, random: &mut Random) {
    let good = soup::session(random);
    let session = name(random, &good);
    let session = session.as_slice();
    let receiver = Call::ReceiverStart {
        session,
        next: number(random),
        limit: random.pick(&[0, 1, 100, 65_534, 65_535]),
    };
    check(run, random, &receiver, None);
    let early = Call::EarlyStart {
        session,
        next: number(random),
        limit: random.pick(&[0, 1, 100, 65_534, 65_535]),
    };
    check(run, random, &early, None);
    let last = number(random);
    check(run, random, &Call::ServerStart { session, last }, None);
    let number = number(random);
    check(run, random, &Call::ClientStart { session, number }, None);
}

fn written_packets(run: &mut Run, random: &mut Random) {
    let payload = random.pick(&[0, 5, 4_096, 4_097]);
    let payload = random.bytes(payload);
    let payload = payload.as_slice();
    check(run, random, &Call::SoupWriteDebug { payload }, None);
    check(run, random, &Call::SoupWriteSequenced { payload }, None);
    check(run, random, &Call::SoupWriteUnsequenced { payload }, None);
    check(run, random, &Call::SoupWriteServerHeartbeat, None);
    check(run, random, &Call::SoupWriteEnd, None);
    check(run, random, &Call::SoupWriteClientHeartbeat, None);
    check(run, random, &Call::SoupWriteLogout, None);
    let reason = random.pick(b"ASX");
    check(run, random, &Call::SoupWriteRejected { reason }, None);
    let session = soup::session(random);
    let accepted = Call::SoupWriteAccepted {
        session: &name(random, &session),
        number: number(random),
    };
    check(run, random, &accepted, None);
    let (username, password) = (accounts::username(random), accounts::password(random));
    let login = Call::SoupWriteLogin {
        username: &name(random, &username),
        password: &name(random, &password),
        session: &name(random, &session),
        number: number(random),
    };
    check(run, random, &login, None);
}

/// A packet whose length, letter and fields are bad or not, each by itself; now and then cut.
fn packet(random: &mut Random, from_client: bool) -> Vec<u8> {
    let of_this_end = !random.one_in(4);
    let letter = soup::letter_of(random, from_client == of_this_end);
    let mut packet = soup::packet(random, letter);
    if letter == b'J' && random.one_in(2) {
        packet[3] = b'X';
    }
    let length = u16::from_be_bytes([packet[0], packet[1]]);
    let moved = match random.below(6) {
        0 => 0,
        1 => length + 1,
        2 => 5_000,
        _ => length,
    };
    packet[..2].copy_from_slice(&moved.to_be_bytes());
    if random.one_in(8) {
        packet[2] = random.pick(b"X+LS");
    }
    if random.one_in(10) {
        packet.truncate(random.below(packet.len() + 1));
    }
    packet
}

/// The record of the table, there once or far too often; and an entry that isn't it.
const RECORD: &[u8; 16] = b"readersecret    ";
const OTHER_ENTRY: &[u8; 16] = b"reader  secret  ";

fn server(run: &mut Run, random: &mut Random) {
    let sender = random.pick(&[0, 1]);
    let stream = packet(random, sender == 1);
    let stream = stream.as_slice();
    check(run, random, &Call::SoupRead { stream, sender }, None);
    check(run, random, &Call::SoupScan { stream, sender }, None);

    let records = random.pick(&[1, 1, 1_025]);
    let accounts = RECORD.repeat(records);
    let login = login(random);
    let packet = packet(random, true);
    let stream = if random.one_in(2) { login } else { packet };
    let server = Server {
        session: random.pick(&[*b"READROOM01", *b"READ ROOM1"]),
        last: random.pick(&[0, 5, u64::MAX - 1, u64::MAX]),
        state: random.pick(&[
            ServerState::Waiting,
            ServerState::Waiting,
            ServerState::In,
            ServerState::Closed,
        ]),
    };
    let mut state = layout::server_bytes(&server);
    bytes::by_hand(random, &mut state, Some(layout::PHASE));
    let (accounts, stream) = (accounts.as_slice(), stream.as_slice());
    let step = Call::ServerStep { accounts, stream };
    check(run, random, &step, Some(&state));
    let reply = Call::ServerReply { accounts, stream };
    check(run, random, &reply, Some(&state));
    let last = number(random);
    check(run, random, &Call::ServerSetLast { last }, Some(&state));
}

/// A login that is accepted, or not.
fn login(random: &mut Random) -> Vec<u8> {
    let record = random.pick(&[RECORD, RECORD, OTHER_ENTRY]);
    let (username, password) = record.split_at(6);
    let entry = (
        username.try_into().expect("six bytes"),
        password.try_into().expect("ten bytes"),
    );
    let wanted = random.pick(&[0, 0, 1, 9]);
    soup::login(random, &entry, b"          ", wanted)
}

fn client(run: &mut Run, random: &mut Random) {
    let number = random.pick(&[0, 5, u64::MAX]);
    let client = Client {
        session: random.pick(&[*b"READROOM01", *b"          "]),
        number,
        state: random.pick(&[
            ClientState::Asked,
            ClientState::In,
            ClientState::Ended,
            ClientState::Closed,
        ]),
    };
    let mut state = layout::client_bytes(&client);
    bytes::by_hand(random, &mut state, Some(layout::PHASE));
    let stream = match random.below(4) {
        0 => soup::accepted(random, b"READROOM02", 5),
        1 => soup::of(b'S', b"message"),
        _ => packet(random, false),
    };
    let call = Call::ClientStep { stream: &stream };
    check(run, random, &call, Some(&state));
}

/// The same records, for what is missing.
fn missing(run: &mut Run, random: &mut Random, feed: &Feed, bytes: &[u8]) {
    let state = missing_cases::by_hand(random, feed);
    let state = Some(state.as_slice());
    check(run, random, &Call::MissingStart, None);
    check(run, random, &Call::MissingFeed { bytes }, state);
    check(run, random, &Call::MissingFinish { bytes }, state);
    check(run, random, &Call::MissingCount, state);
    check(run, random, &Call::MissingRange { place: 0 }, state);
    check(run, random, &Call::MissingWrite, state);
}

fn captures(run: &mut Run, random: &mut Random) {
    let feed = capture::feed(random);
    let bytes = capture::records(random, &feed, 3);
    let bytes = bytes.as_slice();
    let state = capture_cases::by_hand(random, &feed);
    let state = Some(state.as_slice());
    check(run, random, &Call::CaptureStart, None);
    check(run, random, &Call::CaptureFeed { bytes }, state);
    check(run, random, &Call::CaptureFinish { bytes }, state);
    check(run, random, &Call::CaptureWrite, state);
    check(run, random, &Call::CaptureReport { capture: bytes }, None);
    missing(run, random, &feed, bytes);
}
