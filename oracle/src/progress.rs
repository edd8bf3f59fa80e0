//! A line on standard error that tells how far a long piece of work is.

#![forbid(unsafe_code)]

use std::io::{stderr, Write};
use std::time::{Duration, Instant};

pub struct Progress {
    what: &'static str,
    total: u64,
    next: Instant,
    shown: bool,
}

const INTERVAL: Duration = Duration::from_secs(1);

impl Progress {
    pub fn new(what: &'static str, total: u64) -> Progress {
        Progress { what, total, next: Instant::now() + INTERVAL, shown: false }
    }

    /// Shows the count, at most once a second and not in the first second.
    pub fn show(&mut self, done: u64) {
        if Instant::now() >= self.next {
            eprint!("\r{} {done} of {}", self.what, self.total);
            let _ = stderr().flush();
            self.next = Instant::now() + INTERVAL;
            self.shown = true;
        }
    }

    /// Wipes the line, before something else is printed and at the end.
    pub fn wipe(&mut self) {
        if self.shown {
            eprint!("\r{:60}\r", "");
            let _ = stderr().flush();
            self.shown = false;
        }
    }
}
