//! A progress line on standard error, rewritten in place, where that is a terminal.

use std::io::{IsTerminal, Write, stderr};
use std::time::{Duration, Instant};

const PAUSE: Duration = Duration::from_millis(200);

pub struct Progress {
    shown: bool,
    next: Instant,
}

impl Progress {
    pub fn new() -> Self {
        Self { shown: stderr().is_terminal(), next: Instant::now() }
    }

    /// Says where the run is, but not more than a few times a second.
    pub fn at(&mut self, line: impl FnOnce() -> String) {
        if self.shown && Instant::now() >= self.next {
            self.next = Instant::now() + PAUSE;
            self.write(&line());
        }
    }

    pub fn clear(&mut self) {
        if self.shown {
            self.write("");
        }
    }

    fn write(&self, line: &str) {
        // A progress line that cannot be written is no reason to stop.
        let _ = write!(stderr(), "\r\x1b[K{line}");
    }
}
