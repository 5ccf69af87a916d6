//! The progress of a batch, as a bar on standard error where that is a terminal.

use crate::list::Entry;
use crate::output::complain;
use std::io::{stderr, IsTerminal};
use std::time::{Duration, Instant};

/// How often the bar is drawn at most.
const INTERVAL: Duration = Duration::from_millis(100);

/// The bar's width in characters.
const WIDTH: u64 = 40;

pub struct Progress {
    is_shown: bool,
    /// The length of the list in bytes, where it is known.
    length: Option<u64>,
    results: u64,
    start: Instant,
    drawn: Instant,
}

impl Progress {
    /// The progress over a list of so many bytes; where results go to a terminal too, no bar is
    /// shown between them.
    pub fn new(length: Option<u64>, results_are_shown: bool) -> Progress {
        let now = Instant::now();
        let is_shown = stderr().is_terminal() && !results_are_shown;
        Progress { is_shown, length, results: 0, start: now, drawn: now }
    }

    /// One line of the list is done.
    pub fn step(&mut self, entry: &Entry) {
        self.results += 1;
        if self.is_shown && self.drawn.elapsed() >= INTERVAL {
            self.drawn = Instant::now();
            complain(&format!("\r{}", self.bar(entry.end)));
        }
    }

    fn bar(&self, end: u64) -> String {
        let done = format!("{} done", self.results);
        let Some(length) = self.length.filter(|length| *length > 0) else { return done };
        let filled = (WIDTH * end / length).min(WIDTH) as usize;
        let (full, open) = ("#".repeat(filled), ".".repeat(WIDTH as usize - filled));
        format!("[{full}{open}] {done}")
    }

    /// Wipes the bar out.
    pub fn end(&self) {
        if self.is_shown {
            complain("\r\x1b[K");
        }
    }

    pub fn seconds(&self) -> f64 {
        self.start.elapsed().as_secs_f64()
    }
}
