//! Who answers a call: the archive through the wrapper, or a stand-in.

use crate::call::{Call, Lent};
use crate::compare::typed;
use eiderwagon::raw;

pub trait Library {
    /// Makes the call on the lent buffers and returns its code.
    fn call(&mut self, call: &Call, lent: &mut Lent) -> u32;

    /// Makes the same call through types, where there are any, and tells what differs from the reference.
    fn typed_difference(&mut self, _call: &Call, _lent: &Lent) -> Option<String> {
        None
    }

    /// Whether a case that panics is worth naming: the command draws it again from the archive alone.
    fn is_the_archive(&self) -> bool {
        false
    }
}

/// The exported functions of the verified library.
pub struct Archive;

/// A buffer with elements before and behind the part that is lent, which no call may touch.
struct Guarded<T> {
    all: Vec<T>,
}

const GUARD: usize = 8;

impl<T: Copy + PartialEq> Guarded<T> {
    fn new(lent: &[T], guard: T) -> Guarded<T> {
        let guard = [guard; GUARD];
        let all = [&guard, lent, &guard].concat();
        Guarded { all }
    }

    fn lent(&mut self) -> &mut [T] {
        let end = self.all.len() - GUARD;
        &mut self.all[GUARD..end]
    }

    /// Hands the lent part back, and looks at what stands around it.
    fn back(&mut self, lent: &mut [T], guard: T) {
        lent.copy_from_slice(self.lent());
        let end = self.all.len() - GUARD;
        let around = self.all[..GUARD].iter().chain(&self.all[end..]);
        assert!(
            { around }.all(|element| *element == guard),
            "written outside a lent buffer"
        );
    }
}

impl Library for Archive {
    fn call(&mut self, call: &Call, lent: &mut Lent) -> u32 {
        let mut words = Guarded::new(&lent.words, WORD);
        let mut out = Guarded::new(&lent.out, BYTE);
        let mut state = Guarded::new(&lent.state, BYTE);
        let mut places = Guarded::new(&lent.places, WORD);
        let mut slots = Guarded::new(&lent.slots, BYTE);
        let mut edges = Guarded::new(&lent.edges, WORD);
        let code = match *call {
            Call::ReceiverDeliver { datagram } => {
                raw::receiver_deliver(state.lent(), datagram, words.lent(), places.lent())
            }
            Call::EarlyTake { datagram } => {
                raw::early_take(state.lent(), slots.lent(), datagram, words.lent())
            }
            Call::EarlyDeliver { datagram } => raw::early_deliver(
                state.lent(),
                slots.lent(),
                datagram,
                words.lent(),
                places.lent(),
            ),
            Call::CaptureFeed { bytes } => {
                raw::capture_feed(state.lent(), slots.lent(), bytes, words.lent())
            }
            Call::CaptureFinish { bytes } => raw::capture_finish(state.lent(), slots.lent(), bytes),
            Call::MissingFeed { bytes } => {
                raw::missing_feed(state.lent(), edges.lent(), bytes, words.lent())
            }
            Call::MissingFinish { bytes } => raw::missing_finish(state.lent(), edges.lent(), bytes),
            Call::MissingCount => raw::missing_count(state.lent(), edges.lent(), words.lent()),
            Call::MissingRange { place } => {
                raw::missing_range(state.lent(), edges.lent(), place, words.lent())
            }
            Call::MissingWrite => {
                raw::missing_write(state.lent(), edges.lent(), out.lent(), words.lent())
            }
            _ => exported(call, words.lent(), out.lent(), state.lent()),
        };
        words.back(&mut lent.words, WORD);
        out.back(&mut lent.out, BYTE);
        state.back(&mut lent.state, BYTE);
        places.back(&mut lent.places, WORD);
        slots.back(&mut lent.slots, BYTE);
        edges.back(&mut lent.edges, WORD);
        code
    }

    fn is_the_archive(&self) -> bool {
        true
    }

    fn typed_difference(&mut self, call: &Call, lent: &Lent) -> Option<String> {
        typed::difference(call, lent)
    }
}

const WORD: u64 = 0xA5A5_A5A5_A5A5_A5A5;
const BYTE: u8 = 0xA5;

/// Every function but those that are lent places, slots to write to, or edges.
fn exported(call: &Call, words: &mut [u64], out: &mut [u8], state: &mut [u8]) -> u32 {
    match *call {
        Call::MoldRead { datagram } => raw::mold_read(datagram, words),
        Call::MoldLocate { datagram, place } => raw::mold_locate(datagram, place, words),
        Call::MoldWalk { datagram } => raw::mold_walk(datagram, state),
        Call::MoldNext { datagram } => raw::mold_next(state, datagram, words),
        Call::MoldWriteData {
            session,
            first,
            lengths,
            data,
        } => raw::mold_write_data(session, first, lengths, data, out, words),
        Call::MoldWriteHeartbeat { session, next } => {
            raw::mold_write_heartbeat(session, next, out, words)
        }
        Call::MoldWriteEnd { session, next } => raw::mold_write_end(session, next, out, words),
        Call::MoldReadRequest { request } => raw::mold_read_request(request, words),
        Call::MoldWriteRequest {
            session,
            first,
            count,
        } => raw::mold_write_request(session, first, count, out, words),
        Call::ReceiverStart {
            session,
            next,
            limit,
        } => raw::receiver_start(session, next, limit, state),
        Call::ReceiverTake { datagram } => raw::receiver_take(state, datagram, words),
        Call::ReceiverDeliver { .. }
        | Call::EarlyTake { .. }
        | Call::EarlyDeliver { .. }
        | Call::CaptureFeed { .. }
        | Call::CaptureFinish { .. }
        | Call::MissingFeed { .. }
        | Call::MissingFinish { .. }
        | Call::MissingCount
        | Call::MissingRange { .. }
        | Call::MissingWrite => unreachable!("it is lent places, slots or edges too"),
        Call::ReceiverWalk {
            datagram,
            count,
            skipped,
        } => raw::receiver_walk(datagram, count, skipped, state),
        Call::EarlyStart {
            session,
            next,
            limit,
        } => raw::early_start(session, next, limit, state),
        Call::EarlyCount {
            state: receiver,
            slots,
            datagram,
        } => raw::early_count(receiver, slots, datagram, words),
        Call::EarlyLocate {
            state: receiver,
            slots,
            datagram,
            place,
        } => raw::early_locate(receiver, slots, datagram, place, words),
        Call::EarlyWalk {
            state: receiver,
            slots,
            datagram,
        } => raw::early_walk(receiver, slots, datagram, state),
        Call::EarlyNext {
            state: receiver,
            slots,
            datagram,
        } => raw::early_next(state, receiver, slots, datagram, words),
        Call::StoreAnswer {
            session,
            first,
            lengths,
            data,
            size,
            request,
        } => raw::store_answer(session, first, lengths, data, size, request, out, words),
        Call::TransmitterPacket {
            session,
            first,
            lengths,
            data,
            size,
            place,
        } => raw::transmitter_packet(session, first, lengths, data, size, place, out, words),
        Call::TransmitterStart {
            first,
            lengths,
            data,
            size,
        } => raw::transmitter_start(first, lengths, data, size, state),
        Call::TransmitterNext {
            session,
            first,
            lengths,
            data,
            size,
        } => raw::transmitter_next(session, first, lengths, data, size, state, out, words),
        Call::SoupRead { stream, sender } => raw::soup_read(stream, sender, words),
        Call::SoupScan { stream, sender } => raw::soup_scan(stream, sender, words),
        Call::SoupWriteDebug { payload } => raw::soup_write_debug(payload, out, words),
        Call::SoupWriteAccepted { session, number } => {
            raw::soup_write_accepted(session, number, out, words)
        }
        Call::SoupWriteRejected { reason } => raw::soup_write_rejected(reason, out, words),
        Call::SoupWriteSequenced { payload } => raw::soup_write_sequenced(payload, out, words),
        Call::SoupWriteServerHeartbeat => raw::soup_write_server_heartbeat(out, words),
        Call::SoupWriteEnd => raw::soup_write_end(out, words),
        Call::SoupWriteLogin {
            username,
            password,
            session,
            number,
        } => raw::soup_write_login(username, password, session, number, out, words),
        Call::SoupWriteUnsequenced { payload } => raw::soup_write_unsequenced(payload, out, words),
        Call::SoupWriteClientHeartbeat => raw::soup_write_client_heartbeat(out, words),
        Call::SoupWriteLogout => raw::soup_write_logout(out, words),
        Call::ServerStart { session, last } => raw::server_start(session, last, state),
        Call::ServerSetLast { last } => raw::server_set_last(state, last),
        Call::ServerStep { accounts, stream } => raw::server_step(state, accounts, stream, words),
        Call::ServerReply { accounts, stream } => {
            raw::server_reply(state, accounts, stream, out, words)
        }
        Call::ClientStart { session, number } => raw::client_start(session, number, state),
        Call::ClientStep { stream } => raw::client_step(state, stream, words),
        Call::CaptureStart => raw::capture_start(state),
        Call::CaptureWrite => raw::capture_write(state, out, words),
        Call::CaptureReport { capture } => raw::capture_report(capture, out, words),
        Call::MissingStart => raw::missing_start(state),
    }
}
