//! The grounds of refusal that apply to a call, each looked at by itself, in the order in which they are given. The
//! first one is the call's refusal; that the others apply too is what shows that the order is kept.
//!
//! A ground's name begins with its number. 25, 31 and 32 stand here without the finer names of their outcomes.

use super::store::store_of;
use super::transmitter::run_of;
use super::{early, edges, fixed_sizes, receiver};
use crate::call::{Call, Lent};
use crate::layout;
use crate::reference::login::{self, Reply};
use crate::reference::mold::{self, Kind, END, HEADER, LARGEST, MOST_MESSAGES};
use crate::reference::receiver::LARGEST_LIMIT;
use crate::reference::session::{ClientState, ServerState};
use crate::reference::soup::{self, Front, Packet, Sender, LARGEST_PAYLOAD, PAYLOAD};
use crate::reference::store::{blocks, is_size};
use crate::reference::text;
use crate::reference::Name;

pub const SHORT_STATE: &str = "41 state";
pub const OTHER_SESSION_SIZE: &str = "41 session";
pub const SHORT_OUTPUT: &str = "41 output";
pub const FEW_PLACES: &str = "41 places";
pub const FEW_WORDS: &str = "41 words";
pub const SETTING_SIZE: &str = "19 size";
pub const FIELD_SIZE: &str = "46 size";
pub const LAST_TOO_HIGH: &str = "19 too high";
pub const LAST_FALLS: &str = "19 falls";
pub const BAD_SIZE: &str = "19 packet";
pub const BAD_NUMBERS: &str = "19 numbers";
pub const OTHER_SLOTS: &str = "19 slots";
pub const OTHER_EDGES: &str = "19 edges";
/// Of a receiver that is only read.
pub const SHORT_RECEIVER: &str = "41 receiver";
/// While a receiver has no name.
pub const BLANK_NAME: &str = "17 blank";

/// The number of a ground.
pub fn number(ground: &str) -> u32 {
    ground[..2]
        .parse()
        .expect("a ground begins with its number")
}

/// Whether a ground is one of how much is lent, and not of what it says.
pub fn is_of_what_is_lent(ground: &str) -> bool {
    number(ground) == 41 || [SETTING_SIZE, FIELD_SIZE, OTHER_SLOTS, OTHER_EDGES].contains(&ground)
}

/// Whether a ground is of a size that the wrapper's types have right.
pub fn has_no_type(ground: &str) -> bool {
    is_of_what_is_lent(ground) && ground != SHORT_OUTPUT
}

/// Grounds that are gathered in order.
#[derive(Default)]
struct Ladder(Vec<&'static str>);

impl Ladder {
    fn rung(&mut self, applies: bool, ground: &'static str) {
        if applies {
            self.0.push(ground);
        }
    }
}

/// All grounds that apply to the call with these buffers, in their order.
pub fn of(call: &Call, lent: &Lent) -> Vec<&'static str> {
    let mut ladder = Ladder::default();
    let (words, state) = fixed_sizes(call);
    let whole = lent.state.len() >= state;
    without_state(call, &mut ladder);
    let walks = matches!(call, Call::EarlyWalk { .. });
    ladder.rung(!whole && !walks, SHORT_STATE);
    if whole {
        of_state(call, &lent.state, &mut ladder);
    }
    of_slots(call, &lent.slots, &mut ladder);
    ladder.rung(
        has_edges(call) && lent.edges.len() != edges::WORDS,
        OTHER_EDGES,
    );
    if whole {
        ladder.rung(ends_below(call, &lent.state), "20");
    }
    ladder.rung(!whole && walks, SHORT_STATE);
    // Its session is looked at behind the state.
    if let Call::TransmitterNext { session, .. } = call {
        ladder.rung(session.len() != 10, OTHER_SESSION_SIZE);
    }
    let needed = output_needed(call, &lent.state);
    ladder.rung(lent.out.len() < needed, SHORT_OUTPUT);
    let places = places_needed(call, &lent.state, &lent.slots);
    ladder.rung(lent.places.len() < places, FEW_PLACES);
    ladder.rung(lent.words.len() < words, FEW_WORDS);
    ladder.0
}

fn without_state(call: &Call, ladder: &mut Ladder) {
    match *call {
        Call::MoldRead { datagram }
        | Call::ReceiverTake { datagram }
        | Call::ReceiverDeliver { datagram }
        | Call::EarlyTake { datagram }
        | Call::EarlyDeliver { datagram } => of_datagram(datagram, ladder),
        Call::MoldWriteData {
            session,
            first,
            lengths,
            data,
        } => {
            let sum: usize = lengths.iter().map(|&length| usize::from(length)).sum();
            let many = lengths.len() as u64;
            ladder.rung(lengths.len() > MOST_MESSAGES, "42");
            ladder.rung(sum != data.len(), "44");
            ladder.rung(first == 0, "13");
            ladder.rung(first.checked_add(many).is_none(), "14");
            ladder.rung(written_data(lengths, data) > LARGEST, "12");
            ladder.rung(session.len() != 10, OTHER_SESSION_SIZE);
        }
        Call::MoldWriteHeartbeat { session, next } | Call::MoldWriteEnd { session, next } => {
            ladder.rung(next == 0, "13");
            ladder.rung(session.len() != 10, OTHER_SESSION_SIZE);
        }
        Call::MoldReadRequest { request } => {
            let fields = (request.len() >= HEADER).then(|| mold::header(request));
            ladder.rung(request.len() != HEADER, "47");
            ladder.rung(fields.is_some_and(|(_, first, _)| first == 0), "13");
            let bad_count = |(_, _, count)| count == 0 || count == END;
            ladder.rung(fields.is_some_and(bad_count), "48");
        }
        Call::MoldWriteRequest {
            session,
            first,
            count,
        } => {
            ladder.rung(first == 0, "13");
            ladder.rung(count == 0 || count == END, "48");
            ladder.rung(session.len() != 10, OTHER_SESSION_SIZE);
        }
        Call::ReceiverStart {
            session,
            next,
            limit,
        }
        | Call::EarlyStart {
            session,
            next,
            limit,
        } => {
            ladder.rung(session.len() != 10, SETTING_SIZE);
            ladder.rung(next == 0 || limit == 0 || limit > LARGEST_LIMIT, "19");
        }
        Call::StoreAnswer {
            session,
            size,
            request,
            ..
        } => of_store(call, session, size, request, ladder),
        Call::TransmitterPacket { session, place, .. } => {
            of_run(call, ladder);
            let there = run_of(call).and_then(|run| run.group_at(place));
            ladder.rung(there.is_none(), "54");
            ladder.rung(session.len() != 10, OTHER_SESSION_SIZE);
        }
        Call::TransmitterStart { .. } => of_run(call, ladder),
        Call::TransmitterNext { size, .. } => ladder.rung(!is_size(size), "19"),
        Call::ServerStart { session, last } => {
            let sized = session.len() == 10;
            ladder.rung(!sized, SETTING_SIZE);
            let bad_session = sized && !text::is_session(session);
            ladder.rung(bad_session || last == u64::MAX, "19");
        }
        Call::ServerSetLast { last } => ladder.rung(last == u64::MAX, LAST_TOO_HIGH),
        Call::ClientStart { session, .. } => {
            let sized = session.len() == 10;
            ladder.rung(!sized, SETTING_SIZE);
            ladder.rung(sized && !text::is_session_or_blank(session), "19");
        }
        Call::SoupRead { stream, sender } => of_stream(stream, super::soup::who(sender), ladder),
        Call::SoupWriteDebug { payload }
        | Call::SoupWriteSequenced { payload }
        | Call::SoupWriteUnsequenced { payload } => {
            ladder.rung(payload.len() > LARGEST_PAYLOAD, "22")
        }
        Call::SoupWriteAccepted { session, number } => {
            let sized = session.len() == 10;
            ladder.rung(!sized, FIELD_SIZE);
            ladder.rung((sized && !text::is_session(session)) || number == 0, "46");
        }
        Call::SoupWriteRejected { reason } => ladder.rung(!soup::is_reason(reason), "46"),
        Call::SoupWriteLogin {
            username,
            password,
            session,
            ..
        } => {
            let sizes = [(username, 6), (password, 10), (session, 10)];
            let mut missized = sizes.iter().map(|(field, size)| field.len() != *size);
            ladder.rung(missized.any(|other| other), FIELD_SIZE);
            let bad_name = username.len() == 6 && !text::is_sound(username);
            let bad_password = password.len() == 10 && !text::is_sound(password);
            let bad_session = session.len() == 10 && !text::is_session_or_blank(session);
            ladder.rung(bad_name || bad_password || bad_session, "46");
        }
        Call::ServerStep { accounts, stream } | Call::ServerReply { accounts, stream } => {
            let records = accounts.len() / layout::ACCOUNT;
            ladder.rung(records > login::MOST_ACCOUNTS, "19");
            of_stream(stream, Sender::Client, ladder);
        }
        Call::ClientStep { stream } => of_stream(stream, Sender::Server, ladder),
        _ => {}
    }
}

/// Of a request that isn't 20 bytes its header is looked at where it is there.
fn of_store(call: &Call, session: &[u8], size: u64, request: &[u8], ladder: &mut Ladder) {
    let store = store_of(call).expect("a store's call");
    let fields = (request.len() >= HEADER).then(|| mold::header(request));
    ladder.rung(!is_size(size), BAD_SIZE);
    ladder.rung(!store.numbers_are_good(), BAD_NUMBERS);
    ladder.rung(!store.adds_up(), "44");
    ladder.rung(request.len() != HEADER, "47");
    let Some((name, number, count)) = fields else {
        return ladder.rung(session.len() != 10, OTHER_SESSION_SIZE);
    };
    ladder.rung(number == 0, "13");
    ladder.rung(count == 0 || count == END, "48");
    ladder.rung(session.len() != 10, OTHER_SESSION_SIZE);
    ladder.rung(session.len() == 10 && name != store.session, "53");
    let place = store.place(number);
    ladder.rung(place.is_none(), "51");
    let alone = |place| store.chosen(place, 1, size).is_empty();
    ladder.rung(place.is_some_and(alone), "52");
}

/// The grounds over a whole run.
fn of_run(call: &Call, ladder: &mut Ladder) {
    let run = run_of(call).expect("a transmitter's call");
    ladder.rung(!is_size(run.size), "19");
    ladder.rung(!run.adds_up(), "44");
    ladder.rung(run.first == 0, "13");
    ladder.rung(run.numbers_run_out(), "14");
    ladder.rung(run.has_a_long_message(), "52");
}

fn of_datagram(datagram: &[u8], ladder: &mut Ladder) {
    ladder.rung(datagram.len() < HEADER, "11");
    if datagram.len() < HEADER {
        return;
    }
    let (_, number, count) = mold::header(datagram);
    let blocks = match mold::kind_of(count) {
        Kind::Data => count,
        _ => 0,
    };
    let behind = (0..blocks).try_fold(HEADER, |at, _| Some(mold::block(datagram, at)?.end()));
    ladder.rung(datagram.len() > LARGEST, "12");
    ladder.rung(number == 0, "13");
    ladder.rung(number.checked_add(u64::from(blocks)).is_none(), "14");
    ladder.rung(behind.is_none(), "15");
    ladder.rung(behind.is_some_and(|at| at < datagram.len()), "16");
}

/// The length and the letter in front, as far as they are there.
fn front(stream: &[u8]) -> (Option<usize>, Option<u8>) {
    let length = stream.first_chunk().map(|first| u16::from_be_bytes(*first));
    (length.map(usize::from), stream.get(2).copied())
}

fn of_stream(stream: &[u8], sender: Sender, ladder: &mut Ladder) {
    let (Some(length), letter) = front(stream) else {
        return;
    };
    let fixed = letter.and_then(soup::fixed_length);
    ladder.rung(length == 0, "21");
    ladder.rung(length > 1 + LARGEST_PAYLOAD, "22");
    ladder.rung(
        letter.is_some_and(|letter| !soup::sends(sender, letter)),
        "23",
    );
    ladder.rung(fixed.is_some_and(|fixed| fixed != length), "24");
    let has_fields = fixed == Some(length) && stream.len() >= 2 + length;
    let read = |letter| soup::fields(letter, &stream[PAYLOAD..2 + length]);
    let bad = has_fields && letter.is_some_and(|letter| read(letter).is_none());
    ladder.rung(bad, "25");
}

/// Whether the front of a stream is more than the beginning of a packet: a whole one, or one that is refused.
fn is_decided(stream: &[u8], sender: Sender) -> bool {
    soup::read(stream, sender) != Ok(Front::NeedMore)
}

fn of_state(call: &Call, state: &[u8], ladder: &mut Ladder) {
    match *call {
        Call::ReceiverTake { datagram } | Call::ReceiverDeliver { datagram } => {
            let receiver = layout::receiver(state);
            of_receiver(&receiver.session, receiver.ended, datagram, ladder);
        }
        Call::EarlyTake { datagram } | Call::EarlyDeliver { datagram } => {
            let early = layout::early(state, &[]);
            of_receiver(&early.session, early.ended, datagram, ladder);
        }
        Call::TransmitterNext { .. } => of_turn(call, state, ladder),
        Call::ServerSetLast { last } => {
            ladder.rung(last < layout::server(state).last, LAST_FALLS);
        }
        Call::ServerStep { stream, .. } => of_server(state, stream, ladder),
        Call::ServerReply { stream, .. } => {
            of_server(state, stream, ladder);
            let session = layout::server(state).session;
            let accepts = matches!(reply_due(call, state), Some(Reply::Accept(_)));
            ladder.rung(accepts && !text::is_session(&session), "46");
        }
        Call::ClientStep { stream } => of_client(state, stream, ladder),
        _ => {}
    }
}

/// The fields of a datagram's header, if it has one.
fn fields(datagram: &[u8]) -> Option<(Name, u64, u16)> {
    (datagram.len() >= HEADER).then(|| mold::header(datagram))
}

/// 17 and 18.
fn of_receiver(name: &Name, ended: bool, datagram: &[u8], ladder: &mut Ladder) {
    let is_named = !text::is_blank(name);
    let ground = if is_named { "17" } else { BLANK_NAME };
    let differs = |(session, _, _): (Name, u64, u16)| match is_named {
        true => session != *name,
        false => text::is_blank(&session),
    };
    ladder.rung(fields(datagram).is_some_and(differs), ground);
    ladder.rung(ended, "18");
}

/// 20, which stands behind the slots.
fn ends_below(call: &Call, state: &[u8]) -> bool {
    let (datagram, next) = match *call {
        Call::ReceiverTake { datagram } | Call::ReceiverDeliver { datagram } => {
            (datagram, layout::receiver(state).next)
        }
        Call::EarlyTake { datagram } | Call::EarlyDeliver { datagram } => {
            (datagram, layout::early(state, &[]).next)
        }
        _ => return false,
    };
    fields(datagram).is_some_and(|(_, number, count)| count == END && number < next)
}

/// Whether a call is lent edges.
pub fn has_edges(call: &Call) -> bool {
    matches!(
        call,
        Call::MissingFeed { .. }
            | Call::MissingFinish { .. }
            | Call::MissingCount
            | Call::MissingRange { .. }
            | Call::MissingWrite
    )
}

/// Slots of another size; before them comes a receiver that is only read and lacks bytes.
fn of_slots(call: &Call, lent: &[u8], ladder: &mut Ladder) {
    match *call {
        Call::EarlyTake { .. }
        | Call::EarlyDeliver { .. }
        | Call::CaptureFeed { .. }
        | Call::CaptureFinish { .. } => ladder.rung(lent.len() != layout::SLOTS, OTHER_SLOTS),
        Call::EarlyCount { state, slots, .. }
        | Call::EarlyLocate { state, slots, .. }
        | Call::EarlyWalk { state, slots, .. }
        | Call::EarlyNext { state, slots, .. } => {
            ladder.rung(state.len() < layout::EARLY, SHORT_RECEIVER);
            ladder.rung(slots.len() != layout::SLOTS, OTHER_SLOTS);
        }
        _ => {}
    }
}

/// The grounds of the next packet alone; where no message is left there is no packet.
fn of_turn(call: &Call, state: &[u8], ladder: &mut Ladder) {
    let run = run_of(call).expect("a transmitter's call");
    let group = run.group(layout::transmitter(state));
    let messages = group.from.messages;
    if messages >= run.lengths.len() as u64 {
        return ladder.rung(true, "54");
    }
    ladder.rung(!run.has_data_of(&group), "44");
    ladder.rung(run.first == 0 && messages == 0, "13");
    ladder.rung(run.group_runs_out(&group), "14");
    ladder.rung(group.lengths.is_empty(), "52");
}

fn of_server(state: &[u8], stream: &[u8], ladder: &mut Ladder) {
    let state = layout::server(state).state;
    let taken: &[u8] = match state {
        ServerState::Waiting => b"L+",
        ServerState::In => b"UR+O",
        ServerState::Closed => b"",
    };
    let closed = state == ServerState::Closed;
    of_table(closed, taken, stream, Sender::Client, ladder);
}

/// 32 and 31: a state that takes no packet, and a letter of the other end that isn't taken in this one.
fn of_table(closed: bool, taken: &[u8], stream: &[u8], from: Sender, ladder: &mut Ladder) {
    let decided = is_decided(stream, from);
    let refused = |letter| soup::sends(from, letter) && !taken.contains(&letter);
    let letter = front(stream).1;
    ladder.rung(decided && closed, "32");
    ladder.rung(decided && letter.is_some_and(refused), "31");
}

fn of_client(state: &[u8], stream: &[u8], ladder: &mut Ladder) {
    let client = layout::client(state);
    let taken: &[u8] = match client.state {
        ClientState::Asked => b"AJ+",
        ClientState::In => b"SH+Z",
        ClientState::Ended | ClientState::Closed => b"",
    };
    of_table(taken.is_empty(), taken, stream, Sender::Server, ladder);
    let Ok(Front::Packet { packet, .. }) = soup::read(stream, Sender::Server) else {
        return;
    };
    match (client.state, packet) {
        (ClientState::Asked, Packet::Accepted { session, number }) => {
            let session_differs = !text::is_blank(&client.session) && client.session != session;
            let number_differs = client.number != 0 && client.number != number;
            ladder.rung(session_differs || number_differs, "33");
        }
        (ClientState::In, Packet::Sequenced { .. }) => {
            ladder.rung(client.number == u64::MAX, "34");
        }
        _ => {}
    }
}

/// What a step is to be replied, whether its table is too long or not.
fn reply_due(call: &Call, state: &[u8]) -> Option<Reply> {
    let Call::ServerReply { accounts, stream } = *call else {
        return None;
    };
    let server = layout::server(state);
    let Ok(Front::Packet { packet, .. }) = soup::read(stream, Sender::Client) else {
        return None;
    };
    let Packet::Login(login) = packet else {
        return None;
    };
    let accounts = layout::accounts(accounts);
    let verdict = login::decide(&accounts, &server.session, server.last, &login);
    (server.state == ServerState::Waiting).then(|| verdict.reply())
}

fn written_data(lengths: &[u16], data: &[u8]) -> usize {
    HEADER + 2 * lengths.len() + data.len()
}

/// The packet of a store's answer, if its request's header is there and a message can be chosen.
fn stored_packet(call: &Call, size: u64, request: &[u8]) -> usize {
    let store = store_of(call).expect("a store's call");
    let fields = (request.len() >= HEADER).then(|| mold::header(request));
    let chosen = fields.and_then(|(_, number, count)| {
        let place = store.place(number)?;
        Some(store.chosen(place, count, size))
    });
    match chosen {
        None | Some([]) => 0,
        Some(lengths) => HEADER + blocks(lengths) as usize,
    }
}

/// How many words of places the call lays, where nothing else refuses it: what isn't taken delivers nothing.
pub fn places_needed(call: &Call, state: &[u8], slots: &[u8]) -> usize {
    match *call {
        Call::EarlyDeliver { datagram } => early::places(state, slots, datagram).len(),
        Call::ReceiverDeliver { datagram } => receiver::places(state, datagram).len(),
        _ => 0,
    }
}

/// How many bytes the call writes, where nothing else refuses it.
pub fn output_needed(call: &Call, state: &[u8]) -> usize {
    match *call {
        Call::MoldWriteData { lengths, data, .. } => written_data(lengths, data),
        Call::MoldWriteHeartbeat { .. }
        | Call::MoldWriteEnd { .. }
        | Call::MoldWriteRequest { .. } => HEADER,
        Call::StoreAnswer { size, request, .. } => stored_packet(call, size, request),
        Call::TransmitterPacket { place, .. } => {
            let group = run_of(call).and_then(|run| run.group_at(place));
            group.map_or(0, |group| group.packet_size() as usize)
        }
        Call::TransmitterNext { .. } => {
            let progress = layout::transmitter(state);
            run_of(call).map_or(0, |run| run.group(progress).packet_size() as usize)
        }
        Call::SoupWriteDebug { payload }
        | Call::SoupWriteSequenced { payload }
        | Call::SoupWriteUnsequenced { payload } => PAYLOAD + payload.len(),
        Call::SoupWriteAccepted { .. } => 33,
        Call::SoupWriteRejected { .. } => 4,
        Call::SoupWriteLogin { .. } => 49,
        Call::SoupWriteServerHeartbeat
        | Call::SoupWriteEnd
        | Call::SoupWriteClientHeartbeat
        | Call::SoupWriteLogout => 3,
        Call::ServerReply { .. } => match reply_due(call, state) {
            Some(Reply::Accept(_)) => 33,
            Some(Reply::Reject(_)) => 4,
            None => 0,
        },
        // A state that is too short reads as one whose settings are refused.
        Call::CaptureWrite => layout::capture(state, &[]).report().len(),
        Call::CaptureReport { capture } => crate::reference::capture::report(capture).len(),
        // Room for any text, whatever this one is.
        Call::MissingWrite => layout::MISSING_TEXT,
        _ => 0,
    }
}
