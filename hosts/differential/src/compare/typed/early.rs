//! `eiderwagon::early`.

use super::{front, numbered, reach, same};
use crate::call::{Call, Lent};
use crate::layout;
use crate::reference::early::{Early, Row, Step};
use crate::reference::BLANK;
use eiderwagon::early::{Answer, EarlyReceiver, Taken};
use eiderwagon::mold::Request;
use eiderwagon::Refusal;

pub fn difference(call: &Call, lent: &Lent) -> Option<String> {
    match *call {
        Call::EarlyStart {
            session,
            next,
            limit,
        } => start(&front(session), next, limit),
        Call::EarlyDeliver { datagram } => {
            taken(&layout::early(&lent.state, &lent.slots), datagram)
        }
        _ => None,
    }
}

/// A blank name can be left out.
fn start(session: &[u8; 10], next: u64, limit: u16) -> Option<String> {
    let differs = |typed: Result<EarlyReceiver, Refusal>| {
        let typed = numbered(typed).map(|receiver| as_reference(&receiver));
        same("receiver", typed, Early::start(*session, next, limit))
    };
    differs(EarlyReceiver::start(session, next, limit)).or_else(|| {
        let unnamed = (*session == BLANK).then(|| EarlyReceiver::start_unnamed(next, limit));
        unnamed.and_then(differs)
    })
}

/// By what it tells of itself, and by what its bytes hold.
pub fn as_reference(receiver: &EarlyReceiver) -> Early {
    let held = layout::early(receiver.as_bytes(), receiver.slots()).held;
    assert_eq!(held.len(), receiver.held_count() as usize);
    Early {
        session: receiver.session().unwrap_or(BLANK),
        next: receiver.next(),
        limit: receiver.limit(),
        ended: receiver.is_ended(),
        held,
    }
}

/// An answer's row, the messages that it delivers, and its request.
type Gathered = (Row, Vec<(u64, Vec<u8>)>, Option<Request>);

fn gathered(taken: Taken) -> Gathered {
    let (row, messages) = match taken.answer {
        Answer::Deliver(messages) => {
            let left = messages.len();
            let all: Vec<_> = messages.map(|(n, m)| (n, m.to_vec())).collect();
            assert_eq!(all.len(), left, "as many as they say");
            (Row::Deliver, all)
        }
        Answer::Old => (Row::Old, vec![]),
        Answer::Quiet => (Row::Quiet, vec![]),
        Answer::Ahead => (Row::Ahead, vec![]),
        Answer::Ended => (Row::Ended, vec![]),
        _ => unreachable!("the table has no other answer"),
    };
    (row, messages, taken.request)
}

fn wanted(step: Step, after: &Early) -> Gathered {
    let messages = step.delivered.into_iter().map(|m| (m.number, m.bytes));
    let request = step.request.map(|(first, count)| Request {
        session: after.session,
        first,
        count: count as u16,
    });
    (step.row, messages.collect(), request)
}

fn taken(before: &Early, datagram: &[u8]) -> Option<String> {
    let mut typed = reach::early(before)?;
    let mut after = before.clone();
    let step = after.take(datagram, true).map(|step| wanted(step, &after));
    let answer = numbered(typed.take(datagram).map(gathered));
    same("answer", answer, step).or_else(|| same("receiver", as_reference(&typed), after))
}
