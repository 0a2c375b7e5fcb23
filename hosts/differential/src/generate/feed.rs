//! A feed over a bad line: datagrams of one session lost, doubled, swapped and damaged, taken one by one by one receiver,
//! which knows the session's name or learns it.

use super::{bytes, lend, mold};
use crate::call::{hex, Call};
use crate::layout;
use crate::random::Random;
use crate::reference::mold::{read, END};
use crate::reference::receiver::Receiver;
use crate::reference::{Name, BLANK};
use crate::run::Run;

/// A session's messages; the first one's number is 1 in document 01, and here sometimes a higher one.
pub struct Feed {
    pub name: Name,
    pub first: u64,
    pub messages: Vec<Vec<u8>>,
}

impl Feed {
    pub fn new(random: &mut Random) -> Feed {
        let messages = mold::messages(random, 40);
        let highest = u64::MAX - messages.len() as u64;
        let first = match random.below(4) {
            0 => highest - random.below(3) as u64,
            1 => bytes::number(random).clamp(1, highest),
            _ => 1,
        };
        Feed {
            name: mold::name(random),
            first,
            messages,
        }
    }

    /// One past the number of the last message.
    pub fn behind(&self) -> u64 {
        self.first + self.messages.len() as u64
    }

    fn data(&self, from: usize, count: usize) -> Vec<u8> {
        let blocks = &self.messages[from..from + count];
        mold::raw(&self.name, self.first + from as u64, count as u16, blocks)
    }

    /// Some messages around the one with this number.
    pub fn data_near(&self, random: &mut Random, number: u64) -> Vec<u8> {
        let number = bytes::near(random, number).clamp(self.first, self.behind() - 1);
        let from = (number - self.first) as usize;
        let most = (self.messages.len() - from).min(6);
        self.data(from, random.between(1, most))
    }

    /// What the line brings to a receiver that expects `next`.
    pub fn datagram(&self, random: &mut Random, next: u64) -> Vec<u8> {
        let heartbeat = |number: u64| mold::raw(&self.name, number.max(1), 0, &[]);
        match random.below(24) {
            0 => heartbeat(bytes::near(random, next)),
            1 => heartbeat(next),
            2 => heartbeat(self.behind()),
            3 => mold::raw(&self.name, self.behind(), END, &[]),
            4 => mold::raw(&self.name, next.saturating_sub(1).max(1), END, &[]),
            5 => mold::raw(&mold::name(random), next, 0, &[]),
            6 => mold::any(random, &self.name, next),
            7 => {
                let mut datagram = self.data_near(random, next);
                bytes::damage(random, &mut datagram);
                datagram
            }
            8 => {
                let anywhere = random.below(self.messages.len()) as u64;
                self.data_near(random, self.first + anywhere)
            }
            _ => self.data_near(random, next),
        }
    }

    /// Whether the datagram is of condition 3's kind.
    pub fn is_true(&self, bytes: &[u8]) -> bool {
        let Ok(datagram) = read(bytes) else {
            return true;
        };
        if datagram.session != self.name {
            return true;
        }
        let is_end = bytes[18..20] == END.to_be_bytes();
        if is_end {
            return datagram.number == self.behind();
        }
        let has = |number: u64, message: &[u8]| {
            let place = number.checked_sub(self.first).map(|place| place as usize);
            place
                .and_then(|place| self.messages.get(place))
                .map(Vec::as_slice)
                == Some(message)
        };
        let mut numbered = datagram.messages.iter().zip(datagram.number..);
        numbered.all(|(at, number)| has(number, &bytes[at.offset..at.end()]))
    }
}

/// A receiver on the line, with what came and what it delivered so far.
struct Line<'f> {
    feed: &'f Feed,
    state: Vec<u8>,
    taken: Vec<Vec<u8>>,
    /// From which place on condition 3 speaks of what came: behind the datagram that named the receiver, if one had to.
    named: Option<usize>,
    delivered: Vec<Vec<u8>>,
}

/// How many messages of one datagram are walked: a long one, not of the feed, may have 32,743.
const WALKED: u64 = 200;

pub fn case(run: &mut Run, random: &mut Random) {
    let feed = Feed::new(random);
    let from = random.below(feed.messages.len() + 1);
    let name = random.pick(&[feed.name, feed.name, BLANK]);
    let start = Call::ReceiverStart {
        session: &name,
        next: feed.first + from as u64,
        limit: random.pick(&[1, 2, 5, 100, 65_534]),
    };
    let mut started = vec![0; layout::RECEIVER];
    lend::chained(run, random, &start, &mut started);
    let mut line = Line {
        feed: &feed,
        state: started.clone(),
        taken: vec![],
        named: (name != BLANK).then_some(0),
        delivered: vec![],
    };
    // A session's own name isn't blank.
    let honest = feed.name != BLANK && !random.one_in(3);
    for _ in 0..random.between(5, 40) {
        let mut datagram = feed.datagram(random, line.receiver().next);
        if line.named.is_none() && datagram.len() > 10 && random.one_in(2) {
            datagram[..10].copy_from_slice(&BLANK);
        }
        if !honest || line.may_take(&datagram) {
            line.take(run, random, datagram);
        }
    }
    if honest {
        let true_ones = &feed.messages[from..(line.receiver().next - feed.first) as usize];
        if line.delivered != true_ones {
            run.fail("condition 3: other messages were delivered than the session's");
        }
        line.put_one_in(run, random, started);
    }
}

impl Line<'_> {
    fn receiver(&self) -> Receiver {
        layout::receiver(&self.state)
    }

    /// Whether the datagram may come next in one of condition 3's lists. Until the receiver is named that is what it refuses,
    /// and then the one that gives it the session's name.
    fn may_take(&self, datagram: &[u8]) -> bool {
        let unnamed = self.named.is_none();
        if unnamed && self.receiver().take(datagram).is_err() {
            return true;
        }
        self.feed.is_true(datagram) && (!unnamed || datagram.starts_with(&self.feed.name))
    }

    fn take(&mut self, run: &mut Run, random: &mut Random, datagram: Vec<u8>) {
        let at_once = random.one_in(2);
        let bytes = datagram.as_slice();
        let call = match at_once {
            true => Call::ReceiverDeliver { datagram: bytes },
            false => Call::ReceiverTake { datagram: bytes },
        };
        let (code, lent) = lend::chained(run, random, &call, &mut self.state);
        self.taken.push(datagram.clone());
        if code == 0 && self.named.is_none() {
            self.named = Some(self.taken.len());
        }
        match (code, lent.words[0]) {
            (0, 1) if at_once => self.deliver_at(&datagram, lent.words[2], &lent.places),
            (0, 1) => self.deliver(run, random, &datagram, lent.words[2], lent.words[3]),
            (0, 4) => self.ask(run, random, lent.words[1], lent.words[2]),
            _ => {}
        }
    }

    /// The messages at their places.
    fn deliver_at(&mut self, datagram: &[u8], count: u64, places: &[u64]) {
        let places = places.chunks_exact(2).map(|place| (place[0], place[1]));
        for (offset, length) in places.take(count.min(WALKED) as usize) {
            let message = &datagram[offset as usize..][..length as usize];
            self.delivered.push(message.to_vec());
        }
    }

    fn deliver(
        &mut self,
        run: &mut Run,
        random: &mut Random,
        datagram: &[u8],
        count: u64,
        skipped: u64,
    ) {
        let call = Call::ReceiverWalk {
            datagram,
            count: count as u16,
            skipped: skipped as u16,
        };
        let mut cursor = vec![0; layout::CURSOR];
        lend::chained(run, random, &call, &mut cursor);
        for _ in 0..count.min(WALKED) {
            let (_, lent) = lend::chained(run, random, &Call::MoldNext { datagram }, &mut cursor);
            let (offset, length) = (lent.words[1] as usize, lent.words[2] as usize);
            let message = datagram[offset..offset + length].to_vec();
            self.delivered.push(message);
        }
        let (_, lent) = lend::chained(run, random, &Call::MoldNext { datagram }, &mut cursor);
        if count <= WALKED && lent.words[0] != 0 {
            run.fail(&format!("more than {count} delivered of {}", hex(datagram)));
        }
    }

    /// Sends the request under the receiver's name; the answer to it is one datagram with some of what was asked for, or is
    /// lost.
    fn ask(&mut self, run: &mut Run, random: &mut Random, first: u64, count: u64) {
        let call = Call::MoldWriteRequest {
            session: &self.receiver().session,
            first,
            count: count as u16,
        };
        let (code, lent) = lend::chained(run, random, &call, &mut vec![]);
        if code != 0 {
            run.fail("a receiver asked for what can't be requested");
        }
        let request = &lent.out[..lent.words[0] as usize];
        lend::chained(run, random, &Call::MoldReadRequest { request }, &mut vec![]);
        let there = self.feed.behind().saturating_sub(first).min(count).min(6);
        if there > 0 && random.one_in(2) {
            let from = (first - self.feed.first) as usize;
            self.take(run, random, self.feed.data(from, there as usize));
        }
    }

    /// Condition 3's second half: one more true datagram anywhere in the list, though not before the one that names the
    /// receiver, delivers no less, and still ends what ended.
    fn put_one_in(&self, run: &mut Run, random: &mut Random, started: Vec<u8>) {
        let Some(named) = self.named else {
            return;
        };
        let anywhere = self.feed.first + random.below(self.feed.messages.len()) as u64;
        let one_more = self.feed.data_near(random, anywhere);
        let mut longer = self.taken.clone();
        longer.insert(random.between(named, longer.len()), one_more);
        let mut state = started;
        for datagram in &longer {
            lend::chained(run, random, &Call::ReceiverTake { datagram }, &mut state);
        }
        let (shorter, longer) = (layout::receiver(&self.state), layout::receiver(&state));
        if longer.next < shorter.next || (shorter.ended && !longer.ended) {
            run.fail("condition 3: a longer list delivered less, or no longer ended");
        }
    }
}
