//! A line of progress on the terminal, for runs that take longer than a moment.

use std::io::{self, IsTerminal, Write};
use std::time::{Duration, Instant};

const PATIENCE: Duration = Duration::from_secs(1);
const PAUSE: Duration = Duration::from_millis(200);

/// How far a run has come.
pub struct Progress {
    is_shown: bool,
    next: Instant,
    files: usize,
    done: usize,
    occurrences: usize,
    is_drawn: bool,
}

impl Progress {
    /// Progress through so many files; shown only where errors go to a terminal.
    pub fn new(files: usize, quiet: bool) -> Progress {
        let is_shown = !quiet && io::stderr().is_terminal();
        Progress { is_shown, next: Instant::now() + PATIENCE, files, done: 0, occurrences: 0, is_drawn: false }
    }

    /// One more occurrence is written.
    pub fn occurrence(&mut self) {
        self.occurrences += 1;
        if self.occurrences.is_multiple_of(256) {
            self.draw();
        }
    }

    /// One more file is done.
    pub fn file(&mut self) {
        self.done += 1;
        self.draw();
    }

    fn draw(&mut self) {
        if self.is_shown && Instant::now() >= self.next {
            eprint!("\r{} of {} files, {} occurrences", self.done, self.files, self.occurrences);
            let _ = io::stderr().flush();
            self.next = Instant::now() + PAUSE;
            self.is_drawn = true;
        }
    }

    /// Takes the line away, for a message or at the end.
    pub fn clear(&mut self) {
        if self.is_drawn {
            eprint!("\r\x1b[K");
            self.is_drawn = false;
        }
    }
}
