//! The MoldUDP64 receiver's functions.

use super::{grounds, name, Expected};
use crate::call::Call;
use crate::layout::{self, Cursor};
use crate::reference::mold::{self, Kind};
use crate::reference::receiver::{Answer, Receiver};

pub fn answer(call: &Call, state: &[u8]) -> Option<Expected> {
    Some(match *call {
        Call::ReceiverStart {
            session,
            next,
            limit,
        } => start(Receiver::start(name(session), next, limit)),
        Call::ReceiverTake { datagram } => take(state, datagram),
        Call::ReceiverDeliver { datagram } => deliver(state, datagram),
        Call::ReceiverWalk {
            datagram,
            count,
            skipped,
        } => walk(datagram, count, skipped),
        _ => return None,
    })
}

fn start(started: Result<Receiver, u32>) -> Expected {
    match started {
        Ok(receiver) => Expected::answer("started").state(layout::receiver_bytes(&receiver)),
        Err(refusal) => Expected::refusal(refusal),
    }
}

fn take(state: &[u8], datagram: &[u8]) -> Expected {
    let mut receiver = layout::receiver(state);
    let named = receiver.is_named();
    let answer = match receiver.take(datagram) {
        Ok(answer) => answer,
        Err(number) => {
            let mut refusal = Expected::refusal(number);
            if number == 17 && !named {
                refusal.outcome = grounds::BLANK_NAME;
            }
            return refusal;
        }
    };
    let words = match answer {
        Answer::Deliver {
            first,
            count,
            skipped,
        } => [1, first, count, skipped],
        Answer::Old => [2, 0, 0, 0],
        Answer::Quiet => [3, 0, 0, 0],
        Answer::Ask { first, count } => [4, first, count, 0],
        Answer::Ended => [5, 0, 0, 0],
    };
    let outcome = match named {
        true => outcome(&answer, &receiver, datagram),
        false => naming(&answer),
    };
    Expected::answer(outcome)
        .words(&words)
        .state(layout::receiver_bytes(&receiver))
}

/// As a take, with the places of what is delivered.
fn deliver(state: &[u8], datagram: &[u8]) -> Expected {
    let mut taken = take(state, datagram);
    taken.places = places(state, datagram);
    taken
}

/// Two words for each message that is delivered, in order: the offset of its first byte, and its length. Every other
/// answer, and a refusal, has none.
pub fn places(state: &[u8], datagram: &[u8]) -> Vec<u64> {
    let Ok(Answer::Deliver { skipped, .. }) = layout::receiver(state).take(datagram) else {
        return vec![];
    };
    let messages = mold::read(datagram).expect("it was taken").messages;
    let delivered = messages.iter().skip(skipped as usize);
    delivered
        .flat_map(|message| [message.offset as u64, message.length as u64])
        .collect()
}

/// The table's answers by the kind of datagram, so that each of its lines is drawn in each of its ways.
fn outcome(answer: &Answer, receiver: &Receiver, datagram: &[u8]) -> &'static str {
    let kind = mold::read(datagram).map(|datagram| datagram.kind);
    match answer {
        Answer::Deliver { skipped: 0, .. } => "deliver all",
        Answer::Deliver { .. } => "deliver the rest",
        Answer::Old if kind == Ok(Kind::Data) => "old data",
        Answer::Old => "old heartbeat",
        Answer::Quiet => "quiet",
        Answer::Ask { count, .. } if *count == u64::from(receiver.limit) => match kind {
            Ok(Kind::Data) => "ask to the limit, data",
            Ok(Kind::Heartbeat) => "ask to the limit, heartbeat",
            _ => "ask to the limit, end",
        },
        Answer::Ask { .. } => match kind {
            Ok(Kind::Data) => "ask for all, data",
            Ok(Kind::Heartbeat) => "ask for all, heartbeat",
            _ => "ask for all, end",
        },
        Answer::Ended => "ended",
    }
}

/// The answer that a receiver without a name is named by.
fn naming(answer: &Answer) -> &'static str {
    match answer {
        Answer::Deliver { .. } => "named by deliver",
        Answer::Old => "named by old",
        Answer::Quiet => "named by quiet",
        Answer::Ask { .. } => "named by ask",
        Answer::Ended => "named by ended",
    }
}

/// A walk over the messages that a deliver answer delivers: `count` of them, behind `skipped` others. Two that add up
/// to more than a count can be leave none. For other numbers than such an answer's the header doesn't give the cursor;
/// what it says of their walk is looked at where one is drawn.
fn walk(datagram: &[u8], count: u16, skipped: u16) -> Expected {
    let messages = mold::read(datagram).map_or(vec![], |read| read.messages);
    let skipped = usize::from(skipped);
    if skipped + usize::from(count) > usize::from(u16::MAX) {
        let none = Cursor { place: 20, left: 0 };
        return Expected::answer("not of this datagram").state(layout::cursor_bytes(none));
    }
    let delivers = count > 0 && skipped + usize::from(count) == messages.len();
    if !delivers {
        let somewhere = layout::cursor_bytes(Cursor::first(0));
        let mut anywhere = Expected::answer("not of this datagram").state(somewhere);
        anywhere.cursor_anywhere = true;
        return anywhere;
    }
    let place = messages[skipped].offset as u64 - 2;
    let cursor = Cursor { place, left: count };
    Expected::answer("delivered messages").state(layout::cursor_bytes(cursor))
}
