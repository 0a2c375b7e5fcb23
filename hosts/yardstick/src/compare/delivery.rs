//! One call for a datagram, by the library and by the yardstick: the same answer as `take`, and the
//! places of the same messages.

use super::{assert_alike, in_words, name, Drawn};
use crate::captures::Capture;
use crate::host::Host;
use crate::mold::{Place, Session};
use crate::receiver::{Answer, Receiver};
use crate::{LIMIT, NEXT, SESSION};

/// Those of `take`, and 41.
pub const OUTCOMES: &[&str] = &[
    "deliver", "old", "quiet", "ask", "ended", "11", "12", "13", "14", "15", "16", "17", "18",
    "20", "41",
];

/// Places that are lent beyond those that are needed, and stay as they are.
const MORE: usize = 2;
const UNTOUCHED: u64 = 0xA5;

/// Feeds a capture to both. Panics at the first difference.
pub fn compare_in_one_call(capture: &Capture) -> Drawn {
    compare_in_one_call_from(SESSION, NEXT, capture)
}

/// Starts both on a name and a number, and feeds them a capture.
pub fn compare_in_one_call_from(session: &Session, next: u64, capture: &Capture) -> Drawn {
    let mut pair = Pair {
        host: Host::start_on(session, next),
        receiver: Receiver::start(*session, next, LIMIT).expect("the start is good"),
        drawn: Drawn::new(OUTCOMES),
    };
    for datagram in capture.datagrams() {
        let needed = match pair.receiver.clone().take(datagram) {
            Ok(Answer::Deliver { count, .. }) => usize::from(count),
            _ => 0,
        };
        if needed > 0 {
            pair.refuse_less(datagram, needed);
        }
        pair.deliver(datagram, needed + MORE);
        pair.drawn.messages += needed;
    }
    pair.drawn
}

struct Pair {
    host: Host,
    receiver: Receiver,
    drawn: Drawn,
}

impl Pair {
    /// One word less than is needed: nothing changes, whoever is asked.
    fn refuse_less(&mut self, datagram: &[u8], needed: usize) {
        let (host, receiver) = (self.host, self.receiver.clone());
        self.deliver(datagram, needed - 1);
        let mut places = vec![UNTOUCHED; needed * 2 - 1];
        let (code, _) = self.host.deliver(datagram, &mut places);
        assert_eq!(code, eiderwagon::raw::REFUSED_OUTPUT_SHORT);
        assert!(places.iter().all(|&word| word == UNTOUCHED));
        assert_eq!((self.host, &self.receiver), (host, &receiver));
    }

    fn deliver(&mut self, datagram: &[u8], room: usize) {
        let mut words = vec![UNTOUCHED; room * 2];
        let untouched = Place {
            offset: UNTOUCHED as usize,
            length: UNTOUCHED as usize,
        };
        let mut places = vec![untouched; room];
        let answered = self.host.deliver(datagram, &mut words);
        let answer = self.receiver.deliver(datagram, &mut places);
        assert_eq!(answered, in_words(answer), "at {datagram:?}");
        let places = places
            .iter()
            .flat_map(|p| [p.offset as u64, p.length as u64]);
        assert!(words.iter().copied().eq(places), "at {datagram:?}");
        assert_alike(&self.host, &self.receiver);
        self.drawn.add(name(answer));
    }
}
