//! MoldUDP64: a transmitter made of the library's writers, and a receiver, over a line that loses, doubles and swaps in
//! both directions. Half of the receivers have to learn the session's name, and half of them keep early messages.

use crate::either::Either;
use differential::random::Random;
use eiderwagon::mold::{self, Request};
use eiderwagon::receiver::Requests;
use eiderwagon::Ground;
use std::collections::VecDeque;
use std::time::Duration;

const NAME: &[u8; 10] = b"READROOM01";

/// How many milliseconds a run may take; each sends a datagram, and more where there are requests.
const LONGEST: u64 = 200_000;

/// What a line does to a datagram: each fault happens once in so many times.
#[derive(Clone, Copy)]
struct Faults {
    loses: usize,
    doubles: usize,
    swaps: usize,
}

/// One direction of a line. What is sent comes some milliseconds later.
struct Line {
    faults: Faults,
    delay: u64,
    under_way: VecDeque<(u64, Vec<u8>)>,
    lost: usize,
}

impl Line {
    fn new(faults: Faults, delay: u64) -> Line {
        let under_way = VecDeque::new();
        Line {
            faults,
            delay,
            under_way,
            lost: 0,
        }
    }

    fn send(&mut self, random: &mut Random, now: u64, datagram: &[u8]) {
        if random.one_in(self.faults.loses) {
            self.lost += 1;
            return;
        }
        let times = if random.one_in(self.faults.doubles) {
            2
        } else {
            1
        };
        for _ in 0..times {
            self.under_way
                .push_back((now + self.delay, datagram.to_vec()));
        }
        if random.one_in(self.faults.swaps) {
            self.swap_with_an_earlier_one(random);
        }
    }

    /// The datagrams change places; the times stay.
    fn swap_with_an_earlier_one(&mut self, random: &mut Random) {
        let last = self.under_way.len() - 1;
        let earlier = last.saturating_sub(random.below(4));
        let (front, back) = self.under_way.make_contiguous().split_at_mut(last);
        if let Some(one) = front.get_mut(earlier) {
            std::mem::swap(&mut one.1, &mut back[0].1);
        }
    }

    /// The next datagram that has come by now.
    fn come(&mut self, now: u64) -> Option<Vec<u8>> {
        let (due, _) = self.under_way.front()?;
        if *due > now {
            return None;
        }
        self.under_way.pop_front().map(|(_, datagram)| datagram)
    }
}

/// Sends a session's messages once, and keeps its datagrams for those who ask.
struct Transmitter<'m> {
    first: u64,
    messages: &'m [Vec<u8>],
    /// Each datagram, with the number of its first message and the one behind its last.
    store: Vec<(u64, u64, Vec<u8>)>,
}

impl<'m> Transmitter<'m> {
    fn new(first: u64, messages: &'m [Vec<u8>]) -> Transmitter<'m> {
        let store = vec![];
        Transmitter {
            first,
            messages,
            store,
        }
    }

    /// The number of the next message that wasn't sent yet.
    fn next(&self) -> u64 {
        self.store
            .last()
            .map_or(self.first, |(_, behind, _)| *behind)
    }

    /// The next datagram: some new messages, now and then a heartbeat, and at last the end, again and again.
    fn datagram(&mut self, random: &mut Random, most: usize) -> Vec<u8> {
        let next = self.next();
        let left = &self.messages[(next - self.first) as usize..];
        let mut out = vec![0; 4_000];
        if random.one_in(10) {
            return written(mold::write_heartbeat(NAME, next, &mut out));
        }
        if left.is_empty() {
            return written(mold::write_end_of_session(NAME, next, &mut out));
        }
        let count = random.between(1, most.min(left.len()));
        let messages: Vec<&[u8]> = left[..count].iter().map(Vec::as_slice).collect();
        let datagram = written(mold::write_data(NAME, next, &messages, &mut out));
        self.store
            .push((next, next + count as u64, datagram.clone()));
        datagram
    }

    /// The stored datagrams that have a message which a request wants.
    fn answer(&self, request: &[u8]) -> impl Iterator<Item = &[u8]> {
        let request = Request::read(request).expect("a receiver's request is good");
        assert_eq!(&request.session, NAME);
        let behind = request.first + u64::from(request.count);
        let wanted =
            move |(from, to, _): &&(u64, u64, Vec<u8>)| *from < behind && request.first < *to;
        self.store
            .iter()
            .filter(wanted)
            .map(|(_, _, datagram)| datagram.as_slice())
    }
}

fn written(result: Result<&[u8], eiderwagon::Refusal>) -> Vec<u8> {
    result.expect("it can be written").to_vec()
}

/// How a feed is sent and received.
struct Settings {
    seed: u64,
    /// Whether the receiver keeps early messages.
    early: bool,
    /// Whether the receiver has to learn the session's name.
    unnamed: bool,
    first: u64,
    messages: Vec<Vec<u8>>,
    /// How many messages a datagram has at most.
    most: usize,
    limit: u16,
    pause: Duration,
    faults: Faults,
    delay: u64,
}

/// What a run counted.
#[derive(Debug)]
struct Counts {
    lost: usize,
    asked: usize,
    requested: usize,
    sent_again: usize,
    milliseconds: u64,
}

/// The receiver's host.
struct Host {
    receiver: Either,
    requests: Requests,
    /// The number of the first message, and what was delivered from there on.
    first: u64,
    delivered: Vec<Vec<u8>>,
    asked: usize,
}

impl Host {
    fn new(settings: &Settings) -> Host {
        let (first, limit) = (settings.first, settings.limit);
        let name = (!settings.unnamed).then_some(NAME);
        Host {
            receiver: Either::start(settings.early, name, first, limit),
            requests: Requests::new(settings.pause),
            first,
            delivered: vec![],
            asked: 0,
        }
    }

    /// A datagram of a blank name is refused whether the receiver has a name or not; one of another name once it has.
    fn refuse_others(&mut self) {
        let others: &[&[u8; 10]] = match self.receiver.session() {
            None => &[b"          "],
            Some(_) => &[b"          ", b"READROOM02"],
        };
        for other in others {
            let heartbeat = written(mold::write_heartbeat(other, self.first, &mut [0; 20]));
            let refusal = self.receiver.take(&heartbeat).unwrap_err();
            assert_eq!(refusal.ground(), Ground::SessionDiffers);
        }
    }

    /// Takes a datagram, and hands back the request to send for it, if one is due.
    fn take(&mut self, datagram: &[u8], now: u64) -> Option<Vec<u8>> {
        self.refuse_others();
        let taken = self.receiver.take(datagram);
        let (messages, request) = taken.expect("nothing is damaged");
        for (number, message) in messages {
            assert_eq!(number, self.first + self.delivered.len() as u64);
            self.delivered.push(message);
        }
        let request = request?;
        self.asked += 1;
        let due = self.requests.due(&request, Duration::from_millis(now));
        due.then(|| written(request.write(&mut [0; 20])))
    }
}

/// Runs both ends until the receiver is ended: it has delivered what was sent, each message once and in order.
fn run(settings: &Settings) -> Counts {
    let mut random = Random::new(settings.seed, 0);
    let mut transmitter = Transmitter::new(settings.first, &settings.messages);
    let mut host = Host::new(settings);
    let mut down = Line::new(settings.faults, settings.delay);
    let mut up = Line::new(settings.faults, settings.delay);
    let (mut requested, mut sent_again) = (0, 0);
    for now in 0..LONGEST {
        let datagram = transmitter.datagram(&mut random, settings.most);
        down.send(&mut random, now, &datagram);
        while let Some(request) = up.come(now) {
            for datagram in transmitter.answer(&request) {
                sent_again += 1;
                down.send(&mut random, now, datagram);
            }
        }
        while let Some(datagram) = down.come(now) {
            if let Some(request) = host.take(&datagram, now) {
                requested += 1;
                up.send(&mut random, now, &request);
            }
            assert_eq!(host.receiver.session(), Some(*NAME));
            if host.receiver.is_ended() {
                assert!(
                    host.delivered == settings.messages,
                    "seed {}",
                    settings.seed
                );
                return Counts {
                    lost: down.lost,
                    asked: host.asked,
                    requested,
                    sent_again,
                    milliseconds: now,
                };
            }
        }
    }
    panic!("seed {}: not ended, at {:?}", settings.seed, host.receiver);
}

fn settings(seed: u64) -> Settings {
    let mut random = Random::new(seed, 1);
    let count = random.pick(&[0, 1, 5, 60, 400]);
    let messages: Vec<Vec<u8>> = (0..count).map(|_| random.bytes_under(30)).collect();
    let highest = u64::MAX - messages.len() as u64;
    Settings {
        seed,
        early: random.one_in(2),
        unnamed: random.one_in(2),
        first: random.pick(&[1, 1, 7, highest - 1, highest]),
        messages,
        most: random.pick(&[1, 3, 8]),
        limit: random.pick(&[1, 2, 10, 100, 65_534]),
        pause: Duration::from_millis(random.pick(&[0, 1, 15, 100])),
        faults: Faults {
            loses: random.pick(&[2, 3, 7, 30]),
            doubles: random.pick(&[2, 5, 30]),
            swaps: random.pick(&[2, 5, 30]),
        },
        delay: random.pick(&[0, 1, 6]),
    }
}

#[test]
fn what_is_delivered_is_what_was_sent() {
    let mut lost = 0;
    let mut requested = 0;
    for seed in 0..200 {
        let counts = run(&settings(seed));
        lost += counts.lost;
        requested += counts.requested;
    }
    println!("200 feeds: {lost} datagrams lost, {requested} requests");
    assert!(lost > 1_000 && requested > 1_000);
}

/// Two thousand messages, one datagram in thirty lost, an answer after ten milliseconds. A pause that is a little longer spares most
/// requests, and what would be sent again for them.
#[test]
fn a_pause_spares_requests() {
    let with = |pause| Settings {
        seed: 7,
        early: false,
        unnamed: false,
        first: 1,
        messages: (0..2_000u32).map(|n| n.to_be_bytes().to_vec()).collect(),
        most: 1,
        limit: 100,
        pause: Duration::from_millis(pause),
        faults: Faults {
            loses: 30,
            doubles: 1_000,
            swaps: 1_000,
        },
        delay: 5,
    };
    let (all, paced) = (run(&with(0)), run(&with(12)));
    println!("without a pause: {all:?}\nwith one: {paced:?}");
    assert_eq!(all.requested, all.asked);
    assert!(paced.requested * 5 < all.requested);
    assert!(paced.sent_again * 3 < all.sent_again);
    assert!(paced.milliseconds < all.milliseconds + 200);
}

/// Two thousand messages on a line that swaps one datagram in four: the same settings for both receivers.
fn swapping(early: bool, seed: u64, loses: usize, pause: u64) -> Settings {
    Settings {
        seed,
        early,
        unnamed: false,
        first: 1,
        messages: (0..2_000u32).map(|n| n.to_be_bytes().to_vec()).collect(),
        most: 3,
        limit: 100,
        pause: Duration::from_millis(pause),
        faults: Faults {
            loses,
            doubles: 50,
            swaps: 4,
        },
        delay: 5,
    }
}

/// What was sent for requests on such lines, the pauses being none and one that is a little longer than an answer takes.
#[test]
fn keeping_early_messages_spares_requests() {
    for (loses, pause) in [(1_000_000, 0), (1_000_000, 12), (30, 0), (30, 12)] {
        let mut sums = [[0; 2]; 2];
        for (early, [requested, sent_again]) in sums.iter_mut().enumerate() {
            for seed in 0..10 {
                let counts = run(&swapping(early == 1, seed, loses, pause));
                *requested += counts.requested;
                *sent_again += counts.sent_again;
            }
        }
        let [plain, early] = sums;
        println!(
            "loses 1 in {loses}, pause {pause} ms: plain {} requests, {} sent again; early {}, {}",
            plain[0], plain[1], early[0], early[1]
        );
        assert!(early[0] < plain[0] && early[1] < plain[1]);
    }
}

/// The same datagrams for both, what the plain one asked for among them: at each of them the early one is as far or
/// further, and what it has delivered begins with what the plain one has.
#[test]
fn keeping_early_messages_never_delivers_less() {
    let mut ahead = 0;
    for seed in 0..20 {
        let settings = swapping(false, seed, 20, 12);
        let mut random = Random::new(seed, 2);
        let mut transmitter = Transmitter::new(settings.first, &settings.messages);
        let mut plain = Host::new(&settings);
        let mut early = Host::new(&swapping(true, seed, 20, 12));
        let mut down = Line::new(settings.faults, settings.delay);
        for now in 0..LONGEST {
            let datagram = transmitter.datagram(&mut random, settings.most);
            down.send(&mut random, now, &datagram);
            while let Some(datagram) = down.come(now) {
                let request = plain.take(&datagram, now);
                if !early.receiver.is_ended() {
                    early.take(&datagram, now);
                }
                assert!(early.delivered.starts_with(&plain.delivered));
                assert!(early.receiver.is_ended() || !plain.receiver.is_ended());
                ahead += usize::from(early.delivered.len() > plain.delivered.len());
                for datagram in request.iter().flat_map(|r| transmitter.answer(r)) {
                    down.send(&mut random, now, datagram);
                }
                if plain.receiver.is_ended() {
                    break;
                }
            }
            if plain.receiver.is_ended() {
                break;
            }
        }
        assert!(plain.delivered == settings.messages && early.delivered == settings.messages);
    }
    println!("20 feeds: the early receiver was further at {ahead} datagrams");
    assert!(ahead > 1_000);
}
