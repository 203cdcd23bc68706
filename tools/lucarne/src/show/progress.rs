//! How far a long run is, on standard error, on a terminal alone.

use std::io::{self, Write};
use std::time::{Duration, Instant};

const STANDARD_OUTPUT: i32 = 1;
const STANDARD_ERROR: i32 = 2;
/// What is done sooner is not told, and the line changes no more often.
const OFTEN: Duration = Duration::from_millis(200);

extern "C" {
    // From the C library that every Rust program is linked with.
    fn isatty(file: i32) -> i32;
}

pub struct Progress {
    what: &'static str,
    total: usize,
    done: usize,
    told: Instant,
    is_told: bool,
    is_terminal: bool,
}

impl Progress {
    /// So many steps of one kind, as "judged" or "groups"; 0 where nobody knows how many.
    pub fn new(what: &'static str, total: usize) -> Progress {
        let is_terminal = unsafe { isatty(STANDARD_ERROR) } == 1;
        Progress { what, total, done: 0, told: Instant::now(), is_told: false, is_terminal }
    }

    /// The same for a run whose lines go to the standard output meanwhile: on a terminal these tell how far it is.
    pub fn beside_output(what: &'static str, total: usize) -> Progress {
        let mut progress = Progress::new(what, total);
        progress.is_terminal &= unsafe { isatty(STANDARD_OUTPUT) } != 1;
        progress
    }

    /// One step is done.
    pub fn step(&mut self) {
        self.done += 1;
        if self.is_terminal && self.told.elapsed() >= OFTEN {
            self.told = Instant::now();
            self.is_told = true;
            let total = if self.total == 0 { String::new() } else { format!(" of {}", self.total) };
            drop(write!(io::stderr(), "\r{} {}{}", self.what, self.done, total));
        }
    }
}

impl Drop for Progress {
    /// The line is taken away again.
    fn drop(&mut self) {
        if self.is_told {
            drop(write!(io::stderr(), "\r\x1b[K"));
        }
    }
}
