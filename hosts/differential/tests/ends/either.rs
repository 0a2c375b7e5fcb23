//! A receiver of either kind, as one.

use eiderwagon::early::{self, EarlyReceiver};
use eiderwagon::mold::Request;
use eiderwagon::receiver::{Answer, Receiver};
use eiderwagon::{Refusal, Session};

#[derive(Debug)]
pub enum Either {
    Plain(Receiver),
    Early(EarlyReceiver),
}

/// Messages with their numbers, and what is asked for.
pub type Taken = (Vec<(u64, Vec<u8>)>, Option<Request>);

impl Either {
    pub fn start(early: bool, name: Option<&Session>, first: u64, limit: u16) -> Either {
        let started = match (early, name) {
            (true, Some(name)) => EarlyReceiver::start(name, first, limit).map(Either::Early),
            (true, None) => EarlyReceiver::start_unnamed(first, limit).map(Either::Early),
            (false, Some(name)) => Receiver::start(name, first, limit).map(Either::Plain),
            (false, None) => Receiver::start_unnamed(first, limit).map(Either::Plain),
        };
        started.expect("a start")
    }

    pub fn take(&mut self, datagram: &[u8]) -> Result<Taken, Refusal> {
        match self {
            Either::Plain(receiver) => receiver.take(datagram).map(|answer| match answer {
                Answer::Deliver { first, messages } => {
                    let numbered = (first..).zip(messages.map(<[u8]>::to_vec));
                    (numbered.collect(), None)
                }
                Answer::Ask(request) => (vec![], Some(request)),
                _ => (vec![], None),
            }),
            Either::Early(receiver) => receiver.take(datagram).map(|taken| match taken.answer {
                early::Answer::Deliver(messages) => {
                    let numbered = messages.map(|(number, message)| (number, message.to_vec()));
                    (numbered.collect(), taken.request)
                }
                _ => (vec![], taken.request),
            }),
        }
    }

    pub fn session(&self) -> Option<Session> {
        match self {
            Either::Plain(receiver) => receiver.session(),
            Either::Early(receiver) => receiver.session(),
        }
    }

    pub fn is_ended(&self) -> bool {
        match self {
            Either::Plain(receiver) => receiver.is_ended(),
            Either::Early(receiver) => receiver.is_ended(),
        }
    }
}
