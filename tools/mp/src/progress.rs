//! Progress on standard error, for work that takes longer than a second.

use std::io::Write;
use std::time::{Duration, Instant};

/// Says once a second how far the work has come.
pub struct Progress {
    what: &'static str,
    last: Instant,
}

impl Progress {
    pub fn new(what: &'static str) -> Self {
        Progress { what, last: Instant::now() }
    }

    /// The work has come so far.
    pub fn at(&mut self, number: usize) {
        if self.last.elapsed() >= Duration::from_secs(1) {
            self.last = Instant::now();
            // Progress that nobody can read is no reason to stop.
            let _ = writeln!(std::io::stderr(), "{number} {} so far", self.what);
        }
    }
}
