//! Which outcomes of which functions were drawn, against the list of all that there are.

use crate::compare::grounds::{number, OTHER_EDGES, OTHER_SLOTS};
use std::collections::BTreeMap;
use std::fmt::{self, Display, Formatter};

/// Every function with every outcome that its comment in the header names: first the answers, then the refusals in
/// their order. An answer stands here in finer kinds where document 01 has several grounds for it.
const LIST: &str = "
mold_read: data | heartbeat | end of session | 11 | 12 | 13 | 14 | 15 | 16 | 41 words
mold_locate: message | empty message | no such place | none, refused | 41 words
mold_walk: messages | none | none, refused | 41 state
mold_next: message | empty message | none left | none, cursor of another datagram | none, not open | 41 state |
    41 words
mold_write_data: written | heartbeat | 42 | 44 | 13 | 14 | 12 | 41 session | 41 output | 41 words
mold_write_heartbeat: written | 13 | 41 session | 41 output | 41 words
mold_write_end: written | 13 | 41 session | 41 output | 41 words
mold_read_request: request | 47 | 13 | 48 | 41 words
mold_write_request: written | 13 | 48 | 41 session | 41 output | 41 words
receiver_start: started | 19 size | 19 | 41 state
receiver_take: deliver all | deliver the rest | old data | old heartbeat | quiet | ask for all, data |
    ask for all, heartbeat | ask for all, end | ask to the limit, data | ask to the limit, heartbeat |
    ask to the limit, end | ended | named by deliver | named by old | named by quiet | named by ask |
    named by ended | 11 | 12 | 13 | 14 | 15 | 16 | 41 state | 17 | 17 blank | 18 | 20 | 41 words
receiver_deliver: deliver all | deliver the rest | old data | old heartbeat | quiet | ask for all, data |
    ask for all, heartbeat | ask for all, end | ask to the limit, data | ask to the limit, heartbeat |
    ask to the limit, end | ended | named by deliver | named by old | named by quiet | named by ask |
    named by ended | 11 | 12 | 13 | 14 | 15 | 16 | 41 state | 17 | 17 blank | 18 | 20 | 41 places | 41 words
receiver_walk: delivered messages | not of this datagram | 41 state
early_start: started | 19 size | 19 | 41 state
early_take: deliver all | deliver the rest | deliver held | deliver held that it carries too | deliver all slots |
    deliver and ask | old data | old heartbeat | old and ask | quiet | quiet and ask | ahead, held | ahead, not held |
    ahead, heartbeat | ahead, end | ended | ended, some held | named by deliver | named by old | named by quiet |
    named by ahead | named by ended | 11 | 12 | 13 | 14 | 15 | 16 | 41 state | 17 | 17 blank | 18 | 19 slots | 20 |
    41 words
early_count: some | none | none, refused | 41 receiver | 19 slots | 41 words
early_locate: in the datagram | in the slots | no such place | none, refused | 41 receiver | 19 slots | 41 words
early_walk: messages | none | none, refused | 41 receiver | 19 slots | 41 state
early_next: in the datagram | in the slots | none left | none, walk of another datagram | none, not open | 41 state |
    41 receiver | 19 slots | 41 words
early_deliver: deliver all | deliver the rest | deliver held | deliver held that it carries too | deliver all slots |
    deliver and ask | old data | old heartbeat | old and ask | quiet | quiet and ask | ahead, held | ahead, not held |
    ahead, heartbeat | ahead, end | ended | ended, some held | named by deliver | named by old | named by quiet |
    named by ahead | named by ended | 11 | 12 | 13 | 14 | 15 | 16 | 41 state | 17 | 17 blank | 18 | 19 slots | 20 |
    41 places | 41 words
store_answer: all that is wanted | to the store's end | as many as fit | 19 packet | 19 numbers | 44 | 47 | 13 | 48 |
    41 session | 53 | 51 | 52 | 41 output | 41 words
transmitter_packet: written | 19 | 44 | 13 | 14 | 52 | 54 | 41 session | 41 output | 41 words
transmitter_start: started | 19 | 44 | 13 | 14 | 52 | 41 state
transmitter_next: written | 19 | 41 state | 54 | 44 | 13 | 14 | 52 | 41 session | 41 output | 41 words
soup_read: + of the server | A | J with A | J with S | S | H | Z | + of the client | L | L for 0 | U | R | O |
    need more | 21 | 22 | 23 | 24 | 25 in A, session | 25 in A, number | 25 in A, number 0 |
    25 in A, session and number | 25 in J, reason | 25 in L, session | 25 in L, number |
    25 in L, session and number | 41 words
soup_scan: stopped at the end | stopped at a short packet | stopped by 21 | stopped by 22 | stopped by 23 |
    stopped by 24 | stopped by 25, session | stopped by 25, number | stopped by 25, session and number |
    stopped by 25, reason | 41 words
soup_write_debug: written | 22 | 41 output | 41 words
soup_write_accepted: written | 46 size | 46 | 41 output | 41 words
soup_write_rejected: written | 46 | 41 output | 41 words
soup_write_sequenced: written | 22 | 41 output | 41 words
soup_write_server_heartbeat: written | 41 output | 41 words
soup_write_end: written | 41 output | 41 words
soup_write_login: written | 46 size | 46 | 41 output | 41 words
soup_write_unsequenced: written | 22 | 41 output | 41 words
soup_write_client_heartbeat: written | 41 output | 41 words
soup_write_logout: written | 41 output | 41 words
server_start: started | 19 size | 19 | 41 state
server_set_last: moved | 19 too high | 41 state | 19 falls
server_step: waiting, need more | A, the latest | A, as asked | J with A, unsound entry | J with A, no record |
    J with A, another password | J with S, another session | J with S, number too high | waiting, + |
    in, need more | in, U | in, R | in, + | in, O | closed, need more | 19 | 21 | 22 | 23 | 24 |
    25 in L, session | 25 in L, number | 25 in L, session and number | 41 state |
    32 closed, L | 32 closed, U | 32 closed, R | 32 closed, + | 32 closed, O | 31 waiting, U | 31 waiting, R |
    31 waiting, O | 31 in, L | 41 words
server_reply: waiting, need more | A, the latest | A, as asked | J with A, unsound entry | J with A, no record |
    J with A, another password | J with S, another session | J with S, number too high | waiting, + |
    in, need more | in, U | in, R | in, + | in, O | closed, need more | 19 | 21 | 22 | 23 | 24 |
    25 in L, session | 25 in L, number | 25 in L, session and number | 41 state |
    32 closed, L | 32 closed, U | 32 closed, R | 32 closed, + | 32 closed, O | 31 waiting, U | 31 waiting, R |
    31 waiting, O | 31 in, L | 46 | 41 output | 41 words
client_start: started | 19 size | 19 | 41 state
client_step: asked, need more | asked, A | asked, J | asked, + | in, need more | in, S | in, H | in, + | in, Z |
    ended, need more | closed, need more | 21 | 22 | 23 | 24 | 25 in A, session | 25 in A, number |
    25 in A, number 0 | 25 in A, session and number | 25 in J, reason | 41 state | 32 ended, A | 32 ended, J |
    32 ended, S | 32 ended, H | 32 ended, + | 32 ended, Z | 32 closed, A | 32 closed, J | 32 closed, S |
    32 closed, H | 32 closed, + | 32 closed, Z | 31 asked, S | 31 asked, H | 31 asked, Z | 31 in, A | 31 in, J |
    33 | 34 | 41 words
capture_start: started | 41 state
capture_feed: settings, need more | settings, refused | settings, read | records, all used |
    records, some kept | records, the most there are | done before | refused before | 41 state | 19 slots | 41 words
capture_finish: settings, refused | settings, cut short | settings, whole | records, cut short |
    records, the most there are | records, whole | done before | refused before | 41 state | 19 slots
capture_write: report | settings=refused | 41 state | 41 output | 41 words
capture_report: report | settings=refused | 41 output | 41 words
missing_start: started | 41 state
missing_feed: settings, need more | settings, refused | settings, read | records, all used |
    records, some kept | records, too many ranges | records, refused before | records, the most there are |
    done before | refused before | 41 state | 19 edges | 41 words
missing_finish: settings, refused | settings, cut short | settings, whole | records, cut short |
    records, the most there are | records, whole | done before | refused before | 41 state | 19 edges
missing_count: some | none | settings=refused | ranges=refused | 41 state | 19 edges | 41 words
missing_range: range | no such place | settings=refused | ranges=refused | 41 state | 19 edges | 41 words
missing_write: list | settings=refused | ranges=refused | 41 state | 19 edges | 41 output | 41 words
";

/// What was read and written back, by what it was.
const WRITTEN_BACK: &str = "
write_back: data | heartbeat | end of session | request | + of the server | + of the client | A | A, leading zeros |
    J | S | H | Z | L | L, leading zeros | L, unsound | U | R | O
";

/// Both sides of each bound of the places, of early messages, of the store and of the transmitter.
const BOUNDS: &str = "
places: as many as are laid | one word less | none for no message | of the most messages
early_window: n + 1 | n + 64 | n + 65
early_length: 1,024 | 1,025
early_places: as many as are laid | one word less | of the most messages
early_swapped: delivered | nothing delivered
packet_size: 21 | 22 | 65,507 | 65,508
store_first: 0 | 1 | the last number is 2^64 - 2 | the last number is 2^64 - 1
store_data: one byte short | as the lengths say | one byte more
store_request: 19 bytes | 20 bytes | 21 bytes
store_wanted: 0 | 1 | one below the first | the first | the last | one past the last
store_count: 0 | 1 | 65,534 | 65,535
store_name: the same | one byte differs | nine bytes | eleven bytes
store_message: the size is its own | the size is one byte less
store_output: the packet's size | one byte less
run_first: 0 | 1 | the last number is 2^64 - 2 | the last number is 2^64 - 1
run_data: one byte short | as the lengths say | one byte more
run_message: the size is the longest's own | the size is one byte less
run_place: the last | one past the last
run_output: the packet's size | one byte less
turn_state: 16 bytes | 17 bytes
turns: by turns as by place | read back whole
missing_text: list | settings=refused | ranges=refused
missing_many: 4,096 ranges | 4,097 ranges
";

/// How often each outcome of each function was drawn.
#[derive(Clone, Debug, Default, PartialEq, Eq)]
pub struct Coverage {
    drawn: BTreeMap<(&'static str, &'static str), u64>,
    /// How often two grounds applied at once, by function.
    pairs: BTreeMap<(&'static str, Pair), u64>,
}

/// Two grounds of a function, the first given before the second.
type Pair = (&'static str, &'static str);

impl Coverage {
    /// Adds what another run drew.
    pub fn join(&mut self, other: Coverage) {
        for (outcome, times) in other.drawn {
            *self.drawn.entry(outcome).or_insert(0) += times;
        }
        for (pair, times) in other.pairs {
            *self.pairs.entry(pair).or_insert(0) += times;
        }
    }

    pub fn note(&mut self, function: &'static str, outcome: &'static str) {
        *self.drawn.entry((function, outcome)).or_insert(0) += 1;
    }

    /// Notes each two of the grounds that applied to a call.
    pub fn note_grounds(&mut self, function: &'static str, grounds: &[&'static str]) {
        for pair in pairs_of(grounds) {
            *self.pairs.entry((function, pair)).or_insert(0) += 1;
        }
    }

    fn times(&self, function: &'static str, outcome: &'static str) -> u64 {
        self.drawn.get(&(function, outcome)).copied().unwrap_or(0)
    }

    /// The listed outcomes that were drawn fewer than `least` times.
    pub fn missing(&self, least: u64) -> Vec<String> {
        let outcomes = listed()
            .filter(|(function, outcome)| self.times(function, outcome) < least)
            .map(|(function, outcome)| format!("{function}: {outcome}"));
        let rare = |pair: &(&'static str, Pair)| {
            let times = self.pairs.get(pair).copied();
            times.unwrap_or(0) < least
        };
        outcomes
            .chain(listed_pairs().filter(rare).map(|pair| pair_name(&pair)))
            .collect()
    }

    /// The drawn outcomes that aren't listed.
    pub fn unlisted(&self) -> Vec<String> {
        let outside = |pair: &&(&str, &str)| !listed().any(|listed| listed == **pair);
        let name = |(function, outcome): &(&str, &str)| format!("{function}: {outcome}");
        let outcomes = self.drawn.keys().filter(outside).map(name);
        let apart = |pair: &&(&'static str, Pair)| !listed_pairs().any(|listed| listed == **pair);
        outcomes
            .chain(self.pairs.keys().filter(apart).map(pair_name))
            .collect()
    }
}

/// Each two of some grounds, in their order.
fn pairs_of<'g>(grounds: &'g [&'static str]) -> impl Iterator<Item = Pair> + 'g {
    let behind = |at: usize| grounds[at + 1..].iter();
    (0..grounds.len()).flat_map(move |at| behind(at).map(move |&other| (grounds[at], other)))
}

fn pair_name((function, (first, second)): &(&str, Pair)) -> String {
    format!("{function}: {first} and {second} at once")
}

/// The grounds of a function, in their order: its refusals without the finer names of 25, 31 and 32.
fn ladder(outcomes: &[&'static str]) -> Vec<&'static str> {
    let refusals = outcomes.iter().filter(|name| is_refusal(name));
    let mut ladder: Vec<&str> = refusals
        .map(|name| match number(name) {
            25 | 31 | 32 => &name[..2],
            _ => *name,
        })
        .collect();
    ladder.dedup();
    ladder
}

/// A refusal's outcome begins with its number.
pub fn is_refusal(outcome: &str) -> bool {
    outcome.starts_with(|first: char| first.is_ascii_digit())
}

/// Every two grounds of every function that can apply at once.
fn listed_pairs() -> impl Iterator<Item = (&'static str, Pair)> {
    functions().flat_map(|(function, outcomes)| {
        let pairs: Vec<Pair> = pairs_of(&ladder(&outcomes)).collect();
        let together = move |pair: &Pair| !are_apart(function, pair);
        pairs
            .into_iter()
            .filter(together)
            .map(move |pair| (function, pair))
    })
}

/// Grounds that never apply at once: what one looks at isn't there where the other applies.
fn are_apart(function: &str, (first, second): &Pair) -> bool {
    let (one, other) = (number(first), number(second));
    // How many slots or edges are lent is looked at by itself.
    if [OTHER_SLOTS, OTHER_EDGES].contains(second) {
        return false;
    }
    match (one, other) {
        // Without a header there is no number, no block and no session.
        (11, 12..=17 | 20) => true,
        // A receiver has a name, or none yet.
        (17, 17) => true,
        // A number is 0, or too high; a block is missing, or there is more behind the last; an end of session has no
        // blocks.
        (13, 14) | (15, 16) | (14 | 15, 20) => true,
        // A length is 0, or too long, or one with which the fields of a packet are looked at.
        (21, 22) | (21 | 22 | 24, 25) => true,
        // Only a letter of the other end is looked up in the table of states, and only a good packet compared with what
        // was asked.
        (23, 31) | (21..=25 | 31 | 32, 33 | 34) | (33, 34) => true,
        // What delivers is refused for nothing else, but for too few words.
        (_, 41) if *second == "41 places" => true,
        // A login that is accepted was good, and so was the state.
        (21..=25 | 31 | 32, 46) => true,
        (21..=25 | 31 | 32, 41) if *second == "41 output" => function == "server_reply",
        // A number that isn't in the store has no message that could be too long, and neither a session without ten
        // bytes nor a packet that isn't there is compared with anything.
        (51, 52) => true,
        (41, 53) => true,
        (51 | 52, 41) if *second == "41 output" => {
            matches!(function, "store_answer" | "transmitter_next")
        }
        (54, 41) if *second == "41 output" => true,
        // A turn's other grounds are about the messages that are left, and a packet without one has no data.
        (41, 54 | 44 | 13 | 14 | 52) => function == "transmitter_next",
        (54, 44 | 13 | 14 | 52) | (44, 52) if function == "transmitter_next" => true,
        // Of a state that lacks bytes nothing is looked at.
        (41, 17 | 18 | 19 | 20 | 31..=34 | 46) => true,
        (41, 41) if *first == "41 state" && *second == "41 output" => {
            matches!(function, "server_reply" | "transmitter_next")
        }
        // A client's session is its only setting, and a number that is too high for a server falls below none.
        (19, 19) => matches!(function, "client_start" | "server_set_last"),
        _ => false,
    }
}

/// The list's functions, each with its outcomes.
pub fn functions() -> impl Iterator<Item = (&'static str, Vec<&'static str>)> {
    entries(LIST)
}

/// The functions, and what is made of several.
fn all() -> impl Iterator<Item = (&'static str, Vec<&'static str>)> {
    functions()
        .chain(entries(WRITTEN_BACK))
        .chain(entries(BOUNDS))
}

fn entries(list: &'static str) -> impl Iterator<Item = (&'static str, Vec<&'static str>)> {
    let mut entries: Vec<(&str, Vec<&str>)> = vec![];
    for line in list.lines().filter(|line| !line.is_empty()) {
        let outcomes = match line.split_once(": ") {
            Some((function, outcomes)) => {
                entries.push((function, vec![]));
                outcomes
            }
            None => line,
        };
        let (_, last) = entries.last_mut().expect("the first line has a function");
        let names = outcomes.split('|').map(str::trim);
        last.extend(names.filter(|name| !name.is_empty()));
    }
    entries.into_iter()
}

fn listed() -> impl Iterator<Item = (&'static str, &'static str)> {
    all().flat_map(|(function, outcomes)| {
        outcomes.into_iter().map(move |outcome| (function, outcome))
    })
}

impl Display for Coverage {
    fn fmt(&self, formatter: &mut Formatter) -> fmt::Result {
        for (function, outcomes) in all() {
            let cells: Vec<String> = outcomes
                .iter()
                .map(|outcome| format!("{outcome}: {}", self.times(function, outcome)))
                .collect();
            writeln!(formatter, "{function}\n    {}", cells.join("; "))?;
        }
        let times = |pair| self.pairs.get(&pair).copied().unwrap_or(0);
        let all: Vec<u64> = listed_pairs().map(times).collect();
        let rarest = all.iter().min().copied().unwrap_or(0);
        writeln!(
            formatter,
            "{} pairs of grounds at once, each {rarest} times or more",
            all.len()
        )
    }
}
