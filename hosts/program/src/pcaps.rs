//! Datagrams out of pcap files, one file after the other, and what was left out of them.

use crate::arguments::Choice;
use crate::choice::{odd_beginning, Fate};
use crate::failure::{counted, is_standard, name_of, Failure, Outcome};
use crate::frames::{udp, Body, Link};
use crate::pcap::Pcap;
use crate::progress::Progress;
use crate::run::Frame;
use crate::stream::Stream;
use std::collections::VecDeque;
use std::net::IpAddr;
use std::path::{Path, PathBuf};

/// Files that are read in order.
pub struct Pcaps {
    /// Those that are still to be opened.
    files: VecDeque<PathBuf>,
    open: Option<(Pcap, Link)>,
    choice: Choice,
    pub seen: Seen,
    /// Files that ended in damage, each with the sentence for it.
    pub damage: Vec<Failure>,
    progress: Progress,
}

/// A UDP datagram that goes where one is looked for.
pub struct Found<'a> {
    pub bytes: &'a [u8],
    pub to: Option<IpAddr>,
    pub port: Option<u16>,
    pub frame: Frame,
}

/// How many frames there were, and what was left out, each with where the first one stands.
#[derive(Default)]
pub struct Seen {
    pub frames: u64,
    pub taken: u64,
    requests: Tally,
    fragments: Tally,
    cut: Tally,
    wrong: Tally,
}

#[derive(Default)]
struct Tally {
    count: u64,
    first: Option<String>,
}

impl Tally {
    fn add(&mut self, file: &str, frame: u64) {
        self.count += 1;
        if self.first.is_none() {
            self.first = Some(format!("frame {frame} of {file}"));
        }
    }

    fn words(&self, one: &str, more: &str) -> Option<String> {
        let first = self.first.as_ref()?;
        let which = if self.count == 1 { "" } else { "the first is " };
        Some(format!("{} ({which}{first})", counted(self.count, one, more)))
    }
}

impl Seen {
    /// What was left out, in words; none where nothing was.
    pub fn left_out(&self) -> Option<String> {
        let parts = [
            self.fragments.words("IP fragment", "IP fragments"),
            self.cut.words("frame cut by the snap length", "frames cut by the snap length"),
            self.wrong.words("frame whose lengths are wrong", "frames whose lengths are wrong"),
            self.requests.words("request", "requests"),
        ];
        let parts: Vec<String> = parts.into_iter().flatten().collect();
        (!parts.is_empty()).then(|| format!("left out: {}", parts.join(", ")))
    }
}

impl Pcaps {
    /// Files to read. One that can't be read is refused before the first is begun.
    pub fn new(files: &[PathBuf], choice: &Choice) -> Outcome<Self> {
        let mut size = Some(0);
        for file in files {
            size = size.zip(size_of(file)?).map(|(all, one)| all + one);
        }
        if files.iter().filter(|file| is_standard(file)).count() > 1 {
            return Err(Failure::new("- stands twice, and standard input can be read once"));
        }
        Ok(Pcaps { files: files.iter().cloned().collect(), ..Pcaps::none(choice, size) })
    }

    /// A file that was looked into already, as its only one.
    pub fn of(stream: Stream, choice: &Choice) -> Outcome<Self> {
        let mut pcaps = Pcaps::none(choice, stream.size());
        pcaps.open = Some(open(stream)?);
        Ok(pcaps)
    }

    fn none(choice: &Choice, size: Option<u64>) -> Self {
        Pcaps {
            files: VecDeque::new(),
            open: None,
            choice: choice.clone(),
            seen: Seen::default(),
            damage: Vec::new(),
            progress: Progress::of(size),
        }
    }

    /// The next whole datagram that goes where one is looked for, handed to `take`; false at the end
    /// of the last file. A file that is damaged is at its end there.
    pub fn next(&mut self, take: impl FnOnce(&Choice, Found) -> Fate) -> Outcome<bool> {
        loop {
            if self.open.is_none() {
                let Some(file) = self.files.pop_front() else {
                    self.progress.done();
                    return Ok(false);
                };
                self.open = Some(open(Stream::open(&file)?)?);
            }
            let Some((pcap, link)) = &mut self.open else { continue };
            let frame = match pcap.next() {
                Ok(Some(frame)) => frame,
                at_end => {
                    self.damage.extend(at_end.err());
                    self.open = None;
                    continue;
                }
            };
            self.seen.frames += 1;
            self.progress.add(frame.bytes.len());
            let Some(datagram) = udp(*link, frame.bytes, frame.is_cut) else { continue };
            if !self.choice.is_addressed(&datagram) {
                continue;
            }
            let place = Frame { number: frame.number, seconds: frame.seconds };
            let tally = match datagram.body {
                Body::Whole(bytes) => {
                    let (to, port) = (datagram.to, datagram.port);
                    match take(&self.choice, Found { bytes, to, port, frame: place }) {
                        Fate::Taken => self.seen.taken += 1,
                        Fate::Request => self.seen.requests.add(pcap.name(), place.number),
                        Fate::Other => {}
                    }
                    return Ok(true);
                }
                Body::Fragment => &mut self.seen.fragments,
                Body::Cut => &mut self.seen.cut,
                Body::Wrong => &mut self.seen.wrong,
            };
            tally.add(pcap.name(), place.number);
        }
    }
}

/// How long a file is, where that can be told: a pipe gives its bytes once, when its turn has come.
fn size_of(file: &Path) -> Outcome<Option<u64>> {
    if is_standard(file) {
        return Ok(None);
    }
    let data = file.metadata().map_err(|error| Failure::system(&name_of(file), &error))?;
    match data.is_file() || data.is_dir() {
        true => Ok(Stream::open(file)?.size()),
        false => Ok(None),
    }
}

fn open(mut stream: Stream) -> Outcome<(Pcap, Link)> {
    let first = stream.peek()?;
    let failed = |what: &str| Err(Failure::of(stream.name(), what));
    if let Some(what) = odd_beginning(first) {
        return failed(&format!("{what}: a pcap or pcapng file was expected"));
    }
    if first == Some(b's') {
        return failed("a pcap or pcapng file was expected; is it a capture already?");
    }
    let pcap = Pcap::open(stream)?;
    let (kind, kind_name) = pcap.link();
    let link = Link::of(kind).ok_or_else(|| {
        let read = "Ethernet, cooked, loopback and raw ones are read";
        Failure::of(pcap.name(), format!("its frames are of the kind {kind_name}: {read}"))
    })?;
    Ok((pcap, link))
}
