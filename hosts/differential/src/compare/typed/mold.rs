//! `eiderwagon::mold` and `eiderwagon::receiver`.

use super::{front, numbered, reach, same, same_bytes, same_state};
use crate::call::Call;
use crate::compare::Expected;
use crate::layout;
use crate::reference::mold as reference;
use crate::reference::receiver::{self, Receiver};
use crate::reference::BLANK;
use eiderwagon::mold::{self, Datagram, Kind, Request};
use eiderwagon::receiver as typed;
use eiderwagon::Refusal;

pub fn difference(
    call: &Call,
    state: &[u8],
    expected: &Expected,
    out: &mut [u8],
) -> Option<String> {
    match *call {
        Call::MoldRead { datagram } => read(datagram),
        Call::MoldLocate { datagram, place } => {
            let found = Datagram::read(datagram).ok().and_then(|d| d.message(place));
            let wanted = reference::locate(datagram, usize::from(place));
            same("message", found, wanted.map(|m| part(datagram, &m)))
        }
        Call::MoldWriteData {
            session,
            first,
            lengths,
            data,
        } => {
            let session = front(session);
            let joined = mold::write_joined(&session, first, lengths, data, out);
            same_bytes(expected, joined).or_else(|| {
                let messages = split(lengths, data)?;
                same_bytes(expected, mold::write_data(&session, first, &messages, out))
            })
        }
        Call::MoldWriteHeartbeat { session, next } => {
            same_bytes(expected, mold::write_heartbeat(&front(session), next, out))
        }
        Call::MoldWriteEnd { session, next } => same_bytes(
            expected,
            mold::write_end_of_session(&front(session), next, out),
        ),
        Call::MoldReadRequest { request } => {
            let wanted = reference::read_request(request).map(|request| Request {
                session: request.session,
                first: request.first,
                count: request.count,
            });
            same("request", numbered(Request::read(request)), wanted)
        }
        Call::MoldWriteRequest {
            session,
            first,
            count,
        } => {
            let session = front(session);
            let request = Request {
                session,
                first,
                count,
            };
            same_bytes(expected, request.write(out))
        }
        Call::ReceiverStart {
            session,
            next,
            limit,
        } => start(&front(session), next, limit),
        Call::ReceiverTake { datagram } => {
            let take = |typed: &mut typed::Receiver| typed.take(datagram).map(gathered);
            taken(&front(state), datagram, expected, take)
        }
        Call::ReceiverDeliver { datagram } => {
            let places = &mut typed::Places::new();
            let take = |typed: &mut typed::Receiver| typed.take_all(datagram, places).map(gathered);
            taken(&front(state), datagram, expected, take)
        }
        _ => None,
    }
}

fn part<'a>(datagram: &'a [u8], message: &reference::Message) -> &'a [u8] {
    &datagram[message.offset..message.end()]
}

fn parts<'a>(datagram: &'a [u8], messages: &[reference::Message]) -> Vec<&'a [u8]> {
    messages.iter().map(|m| part(datagram, m)).collect()
}

/// The messages that lengths and data tell, if they fit each other.
fn split<'a>(lengths: &[u16], data: &'a [u8]) -> Option<Vec<&'a [u8]>> {
    let mut rest = data;
    let mut messages = Vec::new();
    for &length in lengths {
        let (message, behind) = rest.split_at_checked(usize::from(length))?;
        messages.push(message);
        rest = behind;
    }
    rest.is_empty().then_some(messages)
}

fn read(bytes: &[u8]) -> Option<String> {
    let typed = Datagram::read(bytes).map(|datagram| {
        let messages = datagram.messages();
        let left = messages.len();
        let all: Vec<&[u8]> = messages.collect();
        (
            *datagram.session(),
            datagram.number(),
            datagram.kind(),
            left,
            all,
        )
    });
    let wanted = reference::read(bytes).map(|datagram| {
        let count = datagram.messages.len();
        let kind = match datagram.kind {
            reference::Kind::Data => Kind::Data {
                count: count as u16,
            },
            reference::Kind::Heartbeat => Kind::Heartbeat,
            reference::Kind::EndOfSession => Kind::EndOfSession,
        };
        let all = parts(bytes, &datagram.messages);
        (datagram.session, datagram.number, kind, count, all)
    });
    same("datagram", numbered(typed), wanted)
}

fn as_reference(receiver: &typed::Receiver) -> Receiver {
    Receiver {
        session: receiver.session().unwrap_or(BLANK),
        next: receiver.next(),
        limit: receiver.limit(),
        ended: receiver.is_ended(),
    }
}

/// A blank name can be left out.
fn start(session: &[u8; 10], next: u64, limit: u16) -> Option<String> {
    let differs = |typed: Result<typed::Receiver, Refusal>| {
        let typed = numbered(typed).map(|receiver| as_reference(&receiver));
        same("receiver", typed, Receiver::start(*session, next, limit))
    };
    differs(typed::Receiver::start(session, next, limit)).or_else(|| {
        let unnamed = (*session == BLANK).then(|| typed::Receiver::start_unnamed(next, limit));
        unnamed.and_then(differs)
    })
}

/// An answer's number, its first number and messages if it delivers, and its request if it asks.
type Taken<'a> = (u8, Option<u64>, Vec<&'a [u8]>, Option<Request>);

fn gathered<'a>(answer: typed::Answer<impl ExactSizeIterator<Item = &'a [u8]>>) -> Taken<'a> {
    match answer {
        typed::Answer::Deliver { first, messages } => {
            let left = messages.len();
            let all: Vec<&[u8]> = messages.collect();
            assert_eq!(all.len(), left, "as many as they say");
            (1, Some(first), all, None)
        }
        typed::Answer::Old => (2, None, vec![], None),
        typed::Answer::Quiet => (3, None, vec![], None),
        typed::Answer::Ask(request) => (4, None, vec![], Some(request)),
        typed::Answer::Ended => (5, None, vec![], None),
        _ => unreachable!("the table has no other answer"),
    }
}

fn taken<'a>(
    state: &[u8; layout::RECEIVER],
    datagram: &'a [u8],
    expected: &Expected,
    take: impl FnOnce(&mut typed::Receiver) -> Result<Taken<'a>, Refusal>,
) -> Option<String> {
    let mut typed = reach::receiver(state)?;
    let mut receiver = layout::receiver(state);
    let wanted = receiver.take(datagram);
    let session = receiver.session;
    let wanted = wanted.map(|answer| match answer {
        receiver::Answer::Deliver { first, skipped, .. } => {
            let messages = reference::read(datagram).expect("delivered").messages;
            let new = parts(datagram, &messages[skipped as usize..]);
            (1, Some(first), new, None)
        }
        receiver::Answer::Old => (2, None, vec![], None),
        receiver::Answer::Quiet => (3, None, vec![], None),
        receiver::Answer::Ask { first, count } => {
            let count = count as u16;
            let request = Request {
                session,
                first,
                count,
            };
            (4, None, vec![], Some(request))
        }
        receiver::Answer::Ended => (5, None, vec![], None),
    });
    let answer = take(&mut typed);
    same("answer", numbered(answer), wanted)
        .or_else(|| same("receiver", as_reference(&typed), receiver))
        .or_else(|| same_state(expected, state, typed.as_bytes()))
}
