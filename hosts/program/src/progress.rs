//! How far a long reading is, on a terminal alone.

use indicatif::{ProgressBar, ProgressDrawTarget, ProgressStyle};
use std::io::{self, IsTerminal};
use std::time::{Duration, Instant};

/// A short reading shows nothing.
const WAIT: Duration = Duration::from_millis(500);
/// The clock is looked at once in so many bytes.
const BYTES: u64 = 4 << 20;
const STYLE: &str = "{bar:40} {bytes} of {total_bytes}, {eta} left";
const STYLE_UNSIZED: &str = "{spinner} {bytes} read";

pub struct Progress {
    size: Option<u64>,
    read: u64,
    looked_at: u64,
    started: Instant,
    is_shown: bool,
    bar: Option<ProgressBar>,
}

impl Progress {
    /// Of a reading of so many bytes, where that is known.
    pub fn of(size: Option<u64>) -> Self {
        let is_shown = io::stderr().is_terminal();
        Progress { size, read: 0, looked_at: 0, started: Instant::now(), is_shown, bar: None }
    }

    /// So many bytes more were read.
    pub fn add(&mut self, bytes: usize) {
        self.read += bytes as u64;
        if self.is_shown && self.read - self.looked_at >= BYTES {
            self.looked_at = self.read;
            self.show();
        }
    }

    fn show(&mut self) {
        if self.started.elapsed() < WAIT {
            return;
        }
        let size = self.size;
        let bar = self.bar.get_or_insert_with(|| {
            let target = ProgressDrawTarget::stderr_with_hz(5);
            let (bar, style) = match size {
                Some(size) => (ProgressBar::with_draw_target(Some(size), target), STYLE),
                None => (ProgressBar::with_draw_target(None, target), STYLE_UNSIZED),
            };
            match ProgressStyle::with_template(style) {
                Ok(style) => bar.with_style(style),
                Err(_) => bar,
            }
        });
        bar.set_position(self.read.min(size.unwrap_or(u64::MAX)));
    }

    /// The reading is over: its line goes away.
    pub fn done(&mut self) {
        if let Some(bar) = self.bar.take() {
            bar.finish_and_clear();
        }
    }
}
