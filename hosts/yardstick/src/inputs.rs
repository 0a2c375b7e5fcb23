//! What is compared and timed.

use yardstick::captures::{everything, heartbeats, in_order, in_order_of_size, troubled, Capture};
use yardstick::compare::fronts::{compare_fronts, FRONTS};
use yardstick::compare::names::compare_names;
use yardstick::compare::sessions::{
    compare_client, compare_server, compare_talks, CLIENTS, SERVERS,
};
use yardstick::compare::{compare, Drawn};
use yardstick::soup::from_server::FromServer;
use yardstick::talks::{self, Talk};
use yardstick::SEED;

/// Datagrams of a capture that a core's cache holds: about 300 KB of them are read.
const IN_CACHE: usize = 500;

/// Datagrams of a capture that is only compared.
const COMPARED: usize = 20_000;

/// Bytes of a capture that comes from memory: more than any cache holds.
const FROM_MEMORY: usize = 100_000_000;

/// Talks that are only compared, some ten packets each.
const TALKS: usize = 5_000;

/// Packets of a talk that is timed: 330 KB, which a core's cache holds.
pub const PACKETS: usize = 10_000;

pub struct Captures {
    pub in_order: Capture,
    pub troubled: Capture,
    pub everything: Capture,
    pub heartbeats: Capture,
}

impl Captures {
    fn of(datagrams: usize) -> Captures {
        Captures {
            in_order: in_order(SEED, datagrams),
            troubled: troubled(SEED, datagrams),
            everything: everything(SEED, datagrams),
            heartbeats: heartbeats(datagrams),
        }
    }

    /// Each is compared at each datagram, and the one that has to draw everything did.
    fn compare(&self) {
        compared("in order", &self.in_order);
        compared("loss, doubled, swapped", &self.troubled);
        compared("heartbeats", &self.heartbeats);
        compared("everything", &self.everything).assert_everything();
        compared_in_one_call("everything, in one call", &self.everything).assert_everything();
    }
}

fn compared(name: &str, capture: &Capture) -> Drawn {
    let drawn = compare(capture);
    println!("{name}: equal at {} datagrams: {drawn}", capture.len());
    drawn
}

fn compared_in_one_call(name: &str, capture: &Capture) -> Drawn {
    let drawn = yardstick::compare::delivery::compare_in_one_call(capture);
    println!("{name}: equal at {} datagrams: {drawn}", capture.len());
    drawn
}

/// Receivers that are only compared, each of which has to learn its session's name.
const UNNAMED: usize = 20_000;

fn compared_names() {
    let drawn = compare_names(SEED, UNNAMED);
    drawn.assert_everything();
    println!("without a name: equal at {UNNAMED} starts: {drawn}");
}

/// The captures to be timed, in cache and from memory. They were compared, and longer ones too.
pub fn compared_captures() -> (Captures, Capture) {
    compared_names();
    Captures::of(COMPARED).compare();
    let (short, long) = (Captures::of(IN_CACHE), in_order_of_size(SEED, FROM_MEMORY));
    short.compare();
    compared("in order, from memory", &long);
    for (name, capture) in [("in order", &short.in_order), ("from memory", &long)] {
        compared_in_one_call(&format!("{name}, in one call"), capture);
    }
    (short, long)
}

pub struct Talks {
    pub sequenced: Talk,
    pub unsequenced: Talk,
    pub login_of_the_last: Talk,
    pub login_of_nobody: Talk,
}

/// The talks to be timed. They were compared, and others that have to draw everything.
pub fn compared_talks() -> Talks {
    let everything = compare_talks(SEED, TALKS);
    everything.assert_everything();
    for (name, drawn) in [
        ("fronts", everything.fronts),
        ("clients", everything.clients),
        ("servers", everything.servers),
    ] {
        println!("{name}: equal at {}: {drawn}", drawn.total());
    }
    let talks = Talks {
        sequenced: talks::sequenced(SEED, PACKETS),
        unsequenced: talks::unsequenced(SEED, PACKETS),
        login_of_the_last: talks::login_of_the_last(),
        login_of_nobody: talks::login_of_nobody(),
    };
    talks.compare();
    talks
}

impl Talks {
    fn compare(&self) {
        let (mut fronts, mut clients, mut servers) =
            (Drawn::new(FRONTS), Drawn::new(CLIENTS), Drawn::new(SERVERS));
        compare_fronts::<FromServer>(self.sequenced.messages(), &mut fronts);
        compare_client(&self.sequenced, &mut clients);
        for talk in [
            &self.unsequenced,
            &self.login_of_the_last,
            &self.login_of_nobody,
        ] {
            compare_server(talk, &mut servers);
        }
        println!("timed, equal too: {fronts}; {clients}; {servers}");
    }
}
