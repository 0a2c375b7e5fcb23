//! The frames of the plainest pcap: version 2.4, its low bytes first, in a file that isn't a pipe.
//!
//! Nearly every pcap is one. libpcap copies each frame twice before it is looked at, and that took
//! longer than all the rest of a report. The tests damage a file at every byte and compare both ways.

use super::Captured;
use std::fs::File;
use std::io::ErrorKind;
use std::os::unix::fs::FileExt;

const FILE_HEADER: u64 = 24;
const FRAME_HEADER: usize = 16;
/// The most bytes that libpcap takes for a frame of the kinds that are read here.
const LARGEST: usize = 262_144;
/// So many bytes are read at a time, small enough to stay in a core's cache.
const PIECE: usize = 128 * 1024;

/// What the fraction of a frame's second is counted in.
#[derive(Clone, Copy, Debug, PartialEq)]
pub enum Clock {
    Micro,
    Nano,
}

impl Clock {
    /// By the first byte of a file that libpcap takes for a pcap; none where that has another order.
    pub fn of(first: u8) -> Option<Self> {
        match first {
            0xD4 => Some(Clock::Micro),
            0x4D => Some(Clock::Nano),
            _ => None,
        }
    }

    fn parts(self) -> f64 {
        match self {
            Clock::Micro => 1e6,
            Clock::Nano => 1e9,
        }
    }
}

pub struct Plain {
    file: File,
    /// Where the file is read next.
    offset: u64,
    clock: Clock,
    /// The file's snap length, which no frame passes.
    most: usize,
    buffer: Vec<u8>,
    /// The part of the buffer that was read and not handed on.
    at: usize,
    end: usize,
}

impl Plain {
    pub fn new(file: File, begins: u64, clock: Clock, most: usize) -> Self {
        let offset = begins + FILE_HEADER;
        Plain { file, offset, clock, most, buffer: vec![0; PIECE], at: 0, end: 0 }
    }

    /// The next frame; none at the file's end.
    #[inline]
    pub fn next(&mut self) -> Result<Option<Captured<'_>>, String> {
        let there = self.have(FRAME_HEADER)?;
        if there < FRAME_HEADER {
            return match there {
                0 => Ok(None),
                _ => Err(truncated(FRAME_HEADER, "header", there)),
            };
        }
        let header = &self.buffer[self.at..][..FRAME_HEADER];
        let field = |place: usize| {
            let bytes = header[4 * place..].first_chunk().expect("a header has four fields");
            u32::from_le_bytes(*bytes)
        };
        let (seconds, fraction) = (field(0) as i32, field(1) as i32);
        let (captured, on_wire) = (field(2) as usize, field(3) as usize);
        if captured > LARGEST {
            return Err(format!(
                "invalid packet capture length {captured}, bigger than maximum of {LARGEST}"
            ));
        }
        let whole = FRAME_HEADER + captured;
        let there = self.have(whole)?;
        let shown = captured.min(self.most);
        if there < whole {
            let there = there - FRAME_HEADER;
            // libpcap reads what the snap length allows, and then passes over the rest
            return Err(match there < shown {
                true => truncated(shown, "captured", there),
                false => truncated(captured, "captured", there),
            });
        }
        let bytes = &self.buffer[self.at + FRAME_HEADER..][..shown];
        self.at += whole;
        let seconds = f64::from(seconds) + f64::from(fraction) / self.clock.parts();
        Ok(Some(Captured { bytes, is_cut: shown < on_wire, number: 0, seconds }))
    }

    /// Reads until so many bytes are there or the file is at its end, and says how many are.
    #[inline]
    fn have(&mut self, wanted: usize) -> Result<usize, String> {
        if self.end - self.at < wanted {
            self.read(wanted)?;
        }
        Ok(self.end - self.at)
    }

    #[cold]
    fn read(&mut self, wanted: usize) -> Result<(), String> {
        self.buffer.copy_within(self.at..self.end, 0);
        (self.at, self.end) = (0, self.end - self.at);
        if self.buffer.len() < wanted {
            self.buffer.resize(wanted, 0);
        }
        while self.end < wanted {
            match self.file.read_at(&mut self.buffer[self.end..], self.offset) {
                Ok(0) => break,
                Ok(read) => {
                    self.end += read;
                    self.offset += read as u64;
                }
                Err(error) if error.kind() == ErrorKind::Interrupted => {}
                Err(error) => return Err(format!("error reading dump file: {error}")),
            }
        }
        Ok(())
    }
}

fn truncated(wanted: usize, what: &str, there: usize) -> String {
    format!("truncated dump file; tried to read {wanted} {what} bytes, only got {there}")
}
