//! The sessions that pcap files have.

use crate::choice::Fate;
use crate::failure::{counted, Outcome};
use crate::pcaps::Pcaps;
use eiderwagon::mold::{Datagram, Kind};
use eiderwagon::Session;
use std::collections::BTreeMap;
use std::fmt::Write;

/// So many are told apart; memory stays bounded whatever the files have.
const MOST: usize = 1024;

/// One session, as far as it was seen.
struct Seen {
    /// The numbers of the messages that datagrams carried, the lowest and the highest.
    numbers: Option<(u64, u64)>,
    datagrams: u64,
    /// Where the first datagram went.
    to: String,
}

/// All sessions, by name.
#[derive(Default)]
pub struct Sessions {
    seen: BTreeMap<Session, Seen>,
    /// Datagrams of sessions beyond the most that are told apart.
    others: u64,
}

impl Sessions {
    /// Reads the files to their end. What the library doesn't read as a datagram has no session.
    pub fn of(pcaps: &mut Pcaps) -> Outcome<Self> {
        let mut sessions = Sessions::default();
        while pcaps.next(|_, found| match Datagram::read(found.bytes) {
            Ok(datagram) => {
                sessions.add(&datagram, || match (found.to, found.port) {
                    (Some(to), Some(port)) => std::net::SocketAddr::new(to, port).to_string(),
                    _ => String::new(),
                });
                Fate::Taken
            }
            Err(_) => Fate::Other,
        })? {}
        Ok(sessions)
    }

    fn add(&mut self, datagram: &Datagram, to: impl FnOnce() -> String) {
        if !self.seen.contains_key(datagram.session()) {
            if self.seen.len() == MOST {
                self.others += 1;
                return;
            }
            let new = Seen { numbers: None, datagrams: 0, to: to() };
            self.seen.insert(*datagram.session(), new);
        }
        let Some(seen) = self.seen.get_mut(datagram.session()) else { return };
        seen.datagrams += 1;
        if let Kind::Data { count } = datagram.kind() {
            let first = datagram.number();
            let last = first + u64::from(count) - 1;
            let (low, high) = seen.numbers.unwrap_or((first, last));
            seen.numbers = Some((low.min(first), high.max(last)));
        }
    }

    pub fn is_empty(&self) -> bool {
        self.seen.is_empty()
    }

    /// A line for each, under a line of names.
    pub fn table(&self) -> String {
        let mut text = line("session", "first", "last", "datagrams", "to");
        for (name, seen) in &self.seen {
            let (first, last) = match seen.numbers {
                Some((first, last)) => (first.to_string(), last.to_string()),
                None => ("-".into(), "-".into()),
            };
            text += &line(&shown(name), &first, &last, &seen.datagrams.to_string(), &seen.to);
        }
        if self.others > 0 {
            let others = counted(self.others, "datagram", "datagrams");
            let _ = writeln!(text, "and {others} of other sessions");
        }
        text
    }

    /// The names, for a sentence.
    fn names(&self) -> String {
        let names = self.seen.keys().take(5).map(|name| shown(name).trim_end().to_string());
        let names: Vec<String> = names.collect();
        let more = if self.seen.len() > names.len() { " and others" } else { "" };
        names.join(", ") + more
    }
}

/// A name as it can be given to `--session`; one that can't be is shown with escapes.
fn shown(name: &Session) -> String {
    match name.iter().all(|byte| (b' '..=b'~').contains(byte)) {
        true => String::from_utf8_lossy(name).into_owned(),
        false => name.escape_ascii().to_string(),
    }
}

fn line(name: &str, first: &str, last: &str, datagrams: &str, to: &str) -> String {
    format!("{name:<10} {first:>20} {last:>20} {datagrams:>12} {to}\n")
}

/// That a session is to be chosen, and which ones there are.
pub fn to_choose_from(mut pcaps: Pcaps) -> Outcome<String> {
    let sessions = Sessions::of(&mut pcaps)?;
    if sessions.is_empty() {
        if let Some(damage) = pcaps.damage.first() {
            return Err(damage.clone());
        }
        let frames = counted(pcaps.seen.frames, "frame", "frames");
        return Ok(format!("no session is in its {frames}"));
    }
    Ok(format!("a pcap needs --session, and it has {}", sessions.names()))
}
