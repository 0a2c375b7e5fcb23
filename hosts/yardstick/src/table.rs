//! The whole table, with the bars to reach. The rows of the capture program come from
//! `bench/programs.py`, in the same form.

use crate::inputs::{compared_captures, compared_talks, Captures, Talks, PACKETS};
use crate::measure::{library, rust, Fed, Side, Times, DATAGRAMS_A_RUN, LOGINS};
use yardstick::captures::Capture;
use yardstick::talks::Talk;

const PACKETS_A_RUN: usize = 200_000;
const LOGINS_A_RUN: usize = 5_000;

pub fn print(runs: usize) {
    let ((short, long), talks) = (compared_captures(), compared_talks());
    println!("\n| path | library | Rust | ratio | to reach | reached |");
    println!("|---|---|---|---|---|---|");
    let table = Table { runs };
    table.takes(&short);
    table.walks("in cache", 1.3, &short.in_order);
    table.walks("from memory", 1.15, &long);
    for (place, capture) in [("in cache", &short.in_order), ("from memory", &long)] {
        table.deliveries(place, capture);
    }
    table.sessions(&talks);
    table.logins(&talks);
}

struct Table {
    runs: usize,
}

impl Table {
    fn takes(&self, short: &Captures) {
        let rows = [
            ("receiver's take: in order, in cache", 1.05, &short.in_order),
            ("the same, heartbeats alone", 1.3, &short.heartbeats),
        ];
        for (path, bar, capture) in rows {
            self.datagrams(path, bar, capture, library::takes, rust::takes);
        }
    }

    fn walks(&self, place: &str, bar: f64, capture: &Capture) {
        let rows: [(&str, Side<Capture>); 2] =
            [("called", rust::walks_by_calls), ("inlined", rust::walks)];
        for (walk, rust) in rows {
            let path =
                format!("take, walk and next over all messages, {place}; Rust's walk {walk}");
            self.datagrams(&path, bar, capture, library::walks, rust);
        }
    }

    fn deliveries(&self, place: &str, capture: &Capture) {
        let rows: [(&str, Side<Capture>); 2] = [
            ("Rust lays places too", rust::deliveries),
            ("Rust's walk inlined", rust::walks),
        ];
        for (other, rust) in rows {
            let path = format!("the same in one call, deliver, {place}; {other}");
            self.datagrams(&path, 1.0, capture, library::deliveries, rust);
        }
    }

    fn sessions(&self, talks: &Talks) {
        use library::sessions as library;
        use rust::sessions as rust;

        let front = "front of S packets, 30 bytes";
        self.packets(front, 1.3, &talks.sequenced, library::fronts, rust::fronts);
        let (path, talk) = ("client's step at S", &talks.sequenced);
        self.packets(path, 1.3, talk, library::client_steps, rust::client_steps);
        let (path, talk) = ("server's step at U", &talks.unsequenced);
        self.packets(path, 1.1, talk, library::server_steps, rust::server_steps);
    }

    fn logins(&self, talks: &Talks) {
        let rows = [
            ("the last one's", 1.2, &talks.login_of_the_last),
            ("nobody's", 1.5, &talks.login_of_nobody),
        ];
        for (whose, bar, input) in rows {
            let fed = Fed {
                input,
                items: LOGINS,
                items_a_run: LOGINS_A_RUN,
            };
            let (library, rust) = (library::sessions::logins, rust::sessions::logins);
            let path = format!("login, 1,024 accounts: {whose}");
            row(&path, bar, &fed.times(self.runs, library, rust));
        }
    }

    fn datagrams(
        &self,
        path: &str,
        bar: f64,
        input: &Capture,
        library: Side<Capture>,
        rust: Side<Capture>,
    ) {
        let fed = Fed {
            input,
            items: input.len(),
            items_a_run: DATAGRAMS_A_RUN,
        };
        row(path, bar, &fed.times(self.runs, library, rust));
    }

    fn packets(&self, path: &str, bar: f64, input: &Talk, library: Side<Talk>, rust: Side<Talk>) {
        let fed = Fed {
            input,
            items: PACKETS,
            items_a_run: PACKETS_A_RUN,
        };
        row(path, bar, &fed.times(self.runs, library, rust));
    }
}

fn row(path: &str, bar: f64, times: &Times) {
    let (library, rust) = (times.library, times.rust);
    // as it is printed, so that nobody sees 1.30 held to be above 1.3
    let ratio = (times.ratio() * 100.0).round() / 100.0;
    let reached = if ratio <= bar { "yes" } else { "**no**" };
    println!("| {path} | {library:.1} ns | {rust:.1} ns | {ratio:.2} | {bar:.2} | {reached} |");
}
