//! Which datagrams of a pcap are taken, and the settings of the capture that they make.

use crate::arguments::Choice;
use crate::failure::{Failure, Outcome};
use crate::frames::Udp;
use eiderwagon::capture::{Reading, Stage};
use eiderwagon::mold::Request;
use eiderwagon::Session;

const NEXT: u64 = 1;
const LIMIT: u16 = 100;
/// A request's size: what has another needn't be shown to the library.
const REQUEST: usize = 20;

/// What becomes of a datagram.
#[derive(Clone, Copy, Debug, PartialEq)]
pub enum Fate {
    Taken,
    /// A request for messages, which goes the other way.
    Request,
    Other,
}

impl Choice {
    /// Whether a datagram goes where one is looked for, as far as its frame tells.
    pub fn is_addressed(&self, datagram: &Udp) -> bool {
        let port = self.port.is_none() || datagram.port.is_none() || self.port == datagram.port;
        let to = self.group.is_none() || datagram.to.is_none() || self.group == datagram.to;
        port && to
    }

    /// What becomes of a datagram that is addressed so. Where a port or a group is named, all that
    /// goes there is taken, for the receiver to refuse; else what has the session's name.
    pub fn fate(&self, session: &Session, bytes: &[u8]) -> Fate {
        if self.port.is_some() || self.group.is_some() {
            Fate::Taken
        } else if !bytes.starts_with(session) {
            Fate::Other
        } else if bytes.len() == REQUEST && Request::read(bytes).is_ok() {
            Fate::Request
        } else {
            Fate::Taken
        }
    }

    /// Whether something is said that is for a pcap alone.
    pub fn is_given(&self) -> bool {
        self.session.is_some()
            || self.port.is_some()
            || self.group.is_some()
            || self.next.is_some()
            || self.limit.is_some()
    }

    pub fn next(&self) -> u64 {
        self.next.unwrap_or(NEXT)
    }

    /// The session that is named, ten bytes long.
    pub fn session(&self) -> Outcome<Option<Session>> {
        let Some(name) = &self.session else { return Ok(None) };
        let mut session = [b' '; 10];
        let Some(front) = session.get_mut(..name.len()) else {
            return Err(Failure::new(format!(
                "--session {name}: a name has at most 10 bytes, and this one has {}",
                name.len()
            )));
        };
        front.copy_from_slice(name.as_bytes());
        // the library says whether it can be a capture's
        if read_settings(&self.settings(&session)).is_none() {
            return Err(Failure::new(format!(
                "--session '{name}': printable ASCII characters were expected, not all of them spaces"
            )));
        }
        Ok(Some(session))
    }

    /// The three lines in front of a capture.
    pub fn settings(&self, session: &Session) -> Vec<u8> {
        let mut lines = b"session=".to_vec();
        lines.extend(session);
        let (next, limit) = (self.next(), self.limit.unwrap_or(LIMIT));
        lines.extend(format!("\nnext={next}\nlimit={limit}\n").into_bytes());
        lines
    }
}

/// Settings, as the library reads them.
#[derive(Clone, Copy, Debug, PartialEq)]
pub struct Settings {
    pub session: Session,
    pub next: u64,
    pub limit: u16,
    /// How many bytes they take.
    pub size: usize,
}

/// The settings at the front of a capture; none where the library refuses them.
pub fn read_settings(capture: &[u8]) -> Option<Settings> {
    let ends = capture.iter().enumerate().filter(|(_, byte)| **byte == b'\n');
    let size = ends.map(|(place, _)| place + 1).nth(2)?;
    let mut reading = Reading::start();
    reading.finish(&capture[..size]);
    (reading.stage() == Stage::Done).then(|| Settings {
        session: reading.session(),
        next: reading.next(),
        limit: reading.limit(),
        size,
    })
}

/// What a file is that begins with this byte, where that is neither a pcap nor a capture; `None`
/// stands for a file without a byte.
pub fn odd_beginning(first: Option<u8>) -> Option<&'static str> {
    match first {
        None => Some("is empty"),
        // gzip and xz, with bytes that no text has
        Some(0x1F | 0xFD) => Some("is compressed, and has to be unpacked"),
        _ => None,
    }
}

/// Why settings were refused, as far as a look at them tells: what was expected, and what is there.
pub fn blame(head: &[u8]) -> String {
    let expected = "a capture begins with the lines session=, next= and limit=";
    if let Some(what) = odd_beginning(head.first().copied()) {
        return format!("{what}: {expected}");
    }
    if !head.starts_with(b"session=") {
        return format!("is neither a pcap nor a capture: {expected}");
    }
    let mut lines = head.split(|byte| *byte == b'\n');
    for (place, key) in ["session=", "next=", "limit="].iter().enumerate() {
        let line = lines.next().unwrap_or_default();
        if line.contains(&b'\r') {
            return format!(
                "line {} ends in a carriage return: a capture's lines end in a line feed alone",
                place + 1
            );
        }
        if !line.starts_with(key.as_bytes()) {
            return format!("line {} isn't {key}: {expected}", place + 1);
        }
        if let Some(why) = blame_value(place, &line[key.len()..]) {
            return why;
        }
    }
    format!("line 3 doesn't end: {expected}")
}

fn blame_value(place: usize, value: &[u8]) -> Option<String> {
    let shown = value.escape_ascii().to_string();
    // a file that is no capture may go on without a line's end
    let shown: String = shown.chars().take(40).collect();
    let within = |most: u64| {
        let text = std::str::from_utf8(value).ok()?;
        let number = text.parse::<u64>().ok()?;
        // the same number is written in one way alone
        (number.to_string() == text && (1..=most).contains(&number)).then_some(())
    };
    match place {
        0 if value.len() != 10 => {
            Some(format!("session={shown}: a name of 10 bytes was expected, not {}", value.len()))
        }
        0 if value.iter().all(|byte| *byte == b' ') => {
            Some("session= is blank: a name was expected".into())
        }
        0 if !value.iter().all(|byte| (b' '..=b'~').contains(byte)) => {
            Some(format!("session={shown}: printable ASCII characters were expected"))
        }
        1 if within(u64::MAX).is_none() => {
            Some(format!("next={shown}: a number from 1 to {} was expected", u64::MAX))
        }
        2 if within(65534).is_none() => {
            Some(format!("limit={shown}: a number from 1 to 65534 was expected"))
        }
        _ => None,
    }
}
