//! What holds of whole lists: order 13, that two neighbours may be swapped, and condition 3's second half, that one more
//! true datagram delivers no less.

use super::early_cases::{feed, near, take, Kept};
use super::feed::Feed;
use super::lend;
use crate::call::Call;
use crate::layout::EARLY;
use crate::random::Random;
use crate::reference::early::SLOT;
use crate::reference::mold::read;
use crate::reference::BLANK;
use crate::run::Run;

pub fn case(run: &mut Run, random: &mut Random) {
    let mut feed = feed(random);
    if feed.name == BLANK {
        feed.name = *b"READROOM01";
    }
    let started = start(run, random, &feed);
    let mut kept = started.clone();
    let mut taken = vec![];
    for _ in 0..random.below(8) {
        let datagram = near(random, &feed, kept.receiver().next);
        if feed.is_true(&datagram) {
            take(run, random, &mut kept, &datagram);
            taken.push(datagram);
        }
    }
    put_one_in(run, random, &feed, &started, &kept, taken);
    swap(run, random, &feed, &kept);
}

fn start(run: &mut Run, random: &mut Random, feed: &Feed) -> Kept {
    let mut kept = Kept {
        state: vec![0; EARLY],
        slots: lend::slots(random),
    };
    let start = Call::EarlyStart {
        session: &feed.name,
        next: feed.first,
        limit: random.pick(&[1, 100]),
    };
    lend::chained(run, random, &start, &mut kept.state);
    kept
}

fn put_one_in(
    run: &mut Run,
    random: &mut Random,
    feed: &Feed,
    started: &Kept,
    shorter: &Kept,
    mut taken: Vec<Vec<u8>>,
) {
    let anywhere = feed.first + random.below(feed.messages.len()) as u64;
    let one_more = feed.data_near(random, anywhere);
    taken.insert(random.below(taken.len() + 1), one_more);
    let mut longer = started.clone();
    for datagram in &taken {
        take(run, random, &mut longer, datagram);
    }
    let (shorter, longer) = (shorter.receiver(), longer.receiver());
    if longer.next < shorter.next || (shorter.ended && !longer.ended) {
        run.fail("condition 3: a longer list delivered less, or no longer ended");
    }
}

/// Two data datagrams with numbers from n to n + 64 and messages that a slot holds, in either order.
fn swap(run: &mut Run, random: &mut Random, feed: &Feed, kept: &Kept) {
    let next = kept.receiver().next;
    let fits = |datagram: &Vec<u8>| {
        let read = read(datagram).expect("the feed's own");
        let behind = read.number + read.messages.len() as u64;
        let in_window = read.number >= next && behind - next <= 65;
        in_window && read.messages.iter().all(|message| message.length <= SLOT)
    };
    let mut one = || {
        let number = next.saturating_add(random.pick(&[0, 1, 2, 4, 60]));
        feed.data_near(random, number)
    };
    let pair = [one(), one()];
    if kept.receiver().ended || !pair.iter().all(fits) {
        return;
    }
    let mut left_by = |pair: [&[u8]; 2]| {
        let mut kept = kept.clone();
        let mut delivered = vec![];
        for datagram in pair {
            delivered.extend(take(run, random, &mut kept, datagram));
        }
        (kept.receiver(), delivered)
    };
    let [first, second] = &pair;
    let in_order = left_by([first, second]);
    if in_order != left_by([second, first]) {
        run.fail("order 13: swapped neighbours leave something else");
    }
    let outcome = match in_order.1.is_empty() {
        true => "nothing delivered",
        false => "delivered",
    };
    run.note("early_swapped", outcome);
}
