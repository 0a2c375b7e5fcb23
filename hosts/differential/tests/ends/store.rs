//! A branch store that serves a receiver, over a line that loses requests and answers, until nothing is missing.

use differential::random::Random;
use eiderwagon::mold;
use eiderwagon::receiver::{Answer, Receiver};
use eiderwagon::store::Store;

const NAME: &[u8; 10] = b"READROOM01";

/// A store of drawn messages, and the bounds within which it answers.
struct Settings {
    seed: u64,
    /// Whether the receiver learns the store's name from the first heartbeat.
    unnamed: bool,
    first: u64,
    messages: Vec<Vec<u8>>,
    /// The first message that the receiver misses, by its place.
    missing_from: usize,
    limit: u16,
    size: usize,
    /// A packet is lost once in so many times.
    loses: usize,
}

fn settings(seed: u64) -> Settings {
    let mut random = Random::new(seed, 2);
    let count = random.pick(&[0, 1, 5, 60, 400]);
    let messages: Vec<Vec<u8>> = (0..count).map(|_| random.bytes_under(60)).collect();
    let longest = messages.iter().map(Vec::len).max().unwrap_or(0);
    let highest = u64::MAX - messages.len() as u64;
    Settings {
        seed,
        unnamed: random.one_in(2),
        first: random.pick(&[1, 1, 7, highest - 1, highest]),
        missing_from: random.below(messages.len() + 1),
        limit: random.pick(&[1, 2, 10, 100, 65_534]),
        size: 22 + longest + random.pick(&[0, 1, 30, 500, 65_000]),
        loses: random.pick(&[2, 3, 7, 30]),
        messages,
    }
}

/// What a run counted.
#[derive(Default)]
struct Counts {
    rounds: usize,
    lost: usize,
    missing: usize,
}

/// Rounds of the same heartbeat, its ask and the answer: each packet of a round may be lost, and then the round is over.
fn run(settings: &Settings) -> Counts {
    let mut random = Random::new(settings.seed, 3);
    let lengths: Vec<u16> = settings.messages.iter().map(|m| m.len() as u16).collect();
    let joined = settings.messages.concat();
    let store = Store {
        session: NAME,
        first: settings.first,
        lengths: &lengths,
        joined: &joined,
    };
    let behind = settings.first + settings.messages.len() as u64;
    let heartbeat = mold::write_heartbeat(NAME, behind, &mut [0; 20])
        .expect("it can be written")
        .to_vec();
    let from = settings.first + settings.missing_from as u64;
    let mut receiver = match settings.unnamed {
        true => Receiver::start_unnamed(from, settings.limit).expect("a start"),
        false => Receiver::start(NAME, from, settings.limit).expect("a start"),
    };
    let missing = settings.messages.len() - settings.missing_from;
    let (mut counts, mut delivered) = (Counts::default(), vec![]);
    counts.missing = missing;
    let mut out = vec![0; settings.size];
    while receiver.next() < behind {
        counts.rounds += 1;
        assert!(
            counts.rounds <= missing + counts.lost,
            "seed {}: {} rounds for {missing} messages",
            settings.seed,
            counts.rounds
        );
        let Ok(Answer::Ask(request)) = receiver.take(&heartbeat) else {
            panic!("seed {}: what is missing isn't asked for", settings.seed);
        };
        if random.one_in(settings.loses) {
            counts.lost += 1;
            continue;
        }
        let mut asked = [0; 20];
        let asked = request.write(&mut asked).expect("it can be written");
        let answer = store.answer(asked, settings.size, &mut out);
        if random.one_in(settings.loses) {
            counts.lost += 1;
            continue;
        }
        match receiver.take(answer.expect("every number is in the store, and fits")) {
            Ok(Answer::Deliver { first, messages }) => {
                assert_eq!(first, from + delivered.len() as u64);
                delivered.extend(messages.map(<[u8]>::to_vec));
            }
            other => panic!("seed {}: {other:?}", settings.seed),
        }
    }
    assert!(delivered == settings.messages[settings.missing_from..]);
    assert_eq!(receiver.take(&heartbeat), Ok(Answer::Quiet));
    assert_eq!(receiver.session(), Some(*NAME));
    counts
}

#[test]
fn a_store_serves_a_receiver_until_nothing_is_missing() {
    let mut all = Counts::default();
    for seed in 0..300 {
        let counts = run(&settings(seed));
        all.rounds += counts.rounds;
        all.lost += counts.lost;
        all.missing += counts.missing;
    }
    let Counts {
        rounds,
        lost,
        missing,
    } = all;
    println!("300 stores: {missing} messages missing, {rounds} rounds, {lost} packets lost");
    assert!(lost > 1_000 && missing > 1_000);
}

/// The bound is met: where a packet holds one message, as many rounds as messages are needed.
#[test]
fn one_message_a_round_needs_a_round_for_each() {
    let settings = Settings {
        seed: 1,
        unnamed: false,
        first: 1,
        messages: vec![vec![7; 4]; 25],
        missing_from: 5,
        limit: 100,
        size: 26,
        loses: usize::MAX,
    };
    let counts = run(&settings);
    assert_eq!((counts.rounds, counts.lost), (20, 0));
}
