//! What is read: a capture as it is, or a pcap that is made one on the way.

use crate::arguments::Choice;
use crate::choice::{odd_beginning, Fate};
use crate::failure::{counted, Failure, Outcome};
use crate::pcap;
use crate::pcaps::Pcaps;
use crate::progress::Progress;
use crate::run::Frame;
use crate::sessions;
use crate::stream::Stream;
use eiderwagon::mold::Datagram;
use eiderwagon::Session;
use std::collections::VecDeque;
use std::path::Path;

/// So many bytes are read at a time.
const PIECE: usize = 128 * 1024;

/// A capture's bytes, from wherever they come.
pub enum Source {
    Capture(Stream, Progress),
    Pcap(Box<Import>),
}

impl Source {
    /// Opens a capture or a pcap, of which the frames are wanted or not. The first byte tells which it
    /// is, as none can begin both.
    pub fn open(file: &Path, choice: &Choice, wants_frames: bool) -> Outcome<Self> {
        let mut stream = Stream::open(file)?;
        let first = stream.peek()?;
        if first.is_some_and(pcap::may_begin_with) {
            let name = stream.name().to_string();
            let pcaps = Pcaps::of(stream, choice)?;
            let Some(session) = choice.session()? else {
                return Err(Failure::of(&name, sessions::to_choose_from(pcaps)?));
            };
            let import = Import::new(pcaps, choice, session);
            return Ok(Source::Pcap(Box::new(Import { wants_frames, ..import })));
        }
        if choice.is_given() {
            if let Some(what) = odd_beginning(first) {
                let what = format!("{what}: a pcap or pcapng file was expected");
                return Err(Failure::of(stream.name(), what));
            }
            let why = "its settings stand in its first lines, so --session, --port, --group, \
                       --next and --limit are for a pcap";
            return Err(Failure::of(stream.name(), format!("isn't a pcap: {why}")));
        }
        let progress = Progress::of(stream.size());
        Ok(Source::Capture(stream, progress))
    }

    /// Puts the next bytes behind those that are there; false where there are none.
    pub fn fill(&mut self, bytes: &mut Vec<u8>) -> Outcome<bool> {
        match self {
            Source::Capture(stream, progress) => {
                let before = bytes.len();
                bytes.resize(before + PIECE, 0);
                let read = stream.read(&mut bytes[before..])?;
                bytes.truncate(before + read);
                progress.add(read);
                if read == 0 {
                    progress.done();
                }
                Ok(read > 0)
            }
            Source::Pcap(import) => import.fill(bytes),
        }
    }

    /// The frames of the records that were handed on and not taken yet; none of a capture.
    pub fn frames(&mut self) -> Option<&mut VecDeque<Frame>> {
        match self {
            Source::Capture(..) => None,
            Source::Pcap(import) => Some(&mut import.frames),
        }
    }
}

/// The datagrams of one session, out of pcap files, as a capture's bytes.
pub struct Import {
    pub pcaps: Pcaps,
    session: Session,
    /// The settings, until they were handed on.
    settings: Vec<u8>,
    /// The frames of the records that were handed on and not taken yet, where they are wanted.
    frames: VecDeque<Frame>,
    wants_frames: bool,
    /// The first number under the session's name.
    first: Option<u64>,
}

impl Import {
    pub fn new(pcaps: Pcaps, choice: &Choice, session: Session) -> Self {
        let settings = choice.settings(&session);
        Import {
            pcaps,
            session,
            settings,
            frames: VecDeque::new(),
            wants_frames: false,
            first: None,
        }
    }

    /// Puts settings and records behind the bytes that are there; false at the end.
    pub fn fill(&mut self, bytes: &mut Vec<u8>) -> Outcome<bool> {
        let before = bytes.len();
        bytes.append(&mut self.settings);
        let Import { pcaps, session, frames, wants_frames, first, .. } = self;
        while bytes.len() - before < PIECE {
            let is_more = pcaps.next(|choice, found| {
                let fate = choice.fate(session, found.bytes);
                if fate == Fate::Taken {
                    // a UDP datagram's length has 16 bits, and its header is counted in it
                    bytes.extend((found.bytes.len() as u16).to_be_bytes());
                    bytes.extend(found.bytes);
                    if *wants_frames {
                        frames.push_back(found.frame);
                    }
                    if first.is_none() && found.bytes.starts_with(session) {
                        *first = Datagram::read(found.bytes).ok().map(|datagram| datagram.number());
                    }
                }
                fate
            })?;
            if !is_more {
                break;
            }
        }
        Ok(bytes.len() > before)
    }

    /// What a person should know of the files, beside the answer: a sentence each.
    pub fn notes(&self, choice: &Choice) -> Vec<String> {
        let mut notes = Vec::new();
        notes.extend(self.pcaps.seen.left_out());
        if let Some(first) =
            self.first.filter(|first| choice.next.is_none() && *first > choice.next())
        {
            notes.push(format!("begins at number {first}: --next {first} begins there, not at 1"));
        }
        notes
    }

    /// The damage at which files ended, and that nothing was found: both are failures.
    pub fn failures(&self, name: &str) -> Vec<Failure> {
        let mut failures = self.pcaps.damage.clone();
        if failures.is_empty() && self.pcaps.seen.taken == 0 {
            let frames = counted(self.pcaps.seen.frames, "frame", "frames");
            let hint = "`eiderwagon import` lists the sessions that it has";
            failures.push(Failure::of(name, format!("nothing was taken of {frames}: {hint}")));
        }
        failures
    }
}
