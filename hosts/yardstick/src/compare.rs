//! The library and the yardstick at each datagram: the same answer, the same receiver after it, the same messages.

pub mod delivery;
mod drawn;
pub mod fronts;
mod in_words;
pub mod names;
pub mod sessions;

pub use drawn::Drawn;

use crate::captures::Capture;
use crate::host::{Delivered, Host, TakeWords};
use crate::mold::{Messages, Refusal, Session};
use crate::receiver::{Answer, Receiver};
use crate::{LIMIT, NEXT, SESSION};
use eiderwagon::raw;

/// The receiver's answers, and the refusals that a datagram can draw.
pub const OUTCOMES: [&str; 14] = [
    "deliver", "old", "quiet", "ask", "ended", "11", "12", "13", "14", "15", "16", "17", "18", "20",
];

/// Feeds a capture to both. Panics at the first difference.
pub fn compare(capture: &Capture) -> Drawn {
    let mut drawn = Drawn::new(&OUTCOMES);
    compare_from(SESSION, NEXT, capture, |_, answer| {
        drawn.add(name(answer));
        if let Ok(Answer::Deliver { count, .. }) = answer {
            drawn.messages += usize::from(count);
        }
    });
    drawn
}

/// Starts both on a name and a number, and feeds them a capture. The receiver before each datagram and its answer are
/// handed on.
fn compare_from(
    session: &Session,
    next: u64,
    capture: &Capture,
    mut note: impl FnMut(&Receiver, Result<Answer, Refusal>),
) {
    let mut host = Host::start_on(session, next);
    let mut receiver = Receiver::start(*session, next, LIMIT).expect("the start is good");
    for (place, datagram) in capture.datagrams().enumerate() {
        let before = receiver.clone();
        let words = host.take(datagram);
        let answer = receiver.take(datagram);
        assert_eq!(words, in_words(answer), "the answers to datagram {place}");
        assert_alike(&host, &receiver);
        note(&before, answer);
        if let Ok(Answer::Deliver { count, skipped, .. }) = answer {
            let messages = Messages::new(datagram, count, skipped);
            compare_messages(Delivered::new(datagram, &words.1), messages, place);
        }
    }
}

/// The two are the same receiver.
fn assert_alike(host: &Host, receiver: &Receiver) {
    assert_eq!(host.session(), receiver.session());
    assert_eq!(host.next(), receiver.next());
    assert_eq!(host.is_ended(), receiver.is_ended());
}

/// Each is the same bytes at the same place of the datagram, and neither has more.
fn compare_messages(mut library: Delivered, rust: Messages, place: usize) {
    for expected in rust {
        let message = library.next();
        assert_eq!(message, Some(expected), "a message of datagram {place}");
        let same_place = message.is_some_and(|message| std::ptr::eq(message, expected));
        assert!(same_place, "a message's place in datagram {place}");
    }
    assert_eq!(library.next(), None, "more messages in datagram {place}");
}

/// The code and the words that the header gives an answer.
fn in_words(answer: Result<Answer, Refusal>) -> (u32, TakeWords) {
    match answer {
        Ok(Answer::Deliver {
            first,
            count,
            skipped,
        }) => {
            let words = [raw::RECEIVER_DELIVER, first, count.into(), skipped.into()];
            (raw::OK, words)
        }
        Ok(Answer::Old) => (raw::OK, [raw::RECEIVER_OLD, 0, 0, 0]),
        Ok(Answer::Quiet) => (raw::OK, [raw::RECEIVER_QUIET, 0, 0, 0]),
        Ok(Answer::Ask { first, count }) => (raw::OK, [raw::RECEIVER_ASK, first, count.into(), 0]),
        Ok(Answer::Ended) => (raw::OK, [raw::RECEIVER_ENDED, 0, 0, 0]),
        Err(refusal) => (refusal as u32, [0; raw::TAKE_WORDS]),
    }
}

fn name(answer: Result<Answer, Refusal>) -> String {
    let name = match answer {
        Ok(Answer::Deliver { .. }) => "deliver",
        Ok(Answer::Old) => "old",
        Ok(Answer::Quiet) => "quiet",
        Ok(Answer::Ask { .. }) => "ask",
        Ok(Answer::Ended) => "ended",
        Err(refusal) => return (refusal as u32).to_string(),
    };
    name.to_string()
}
