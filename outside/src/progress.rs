//! How far a long run is, told on standard error: every ten seconds on a terminal, where one line is written over and over, and
//! every minute otherwise.

use std::io::{stderr, IsTerminal};
use std::time::{Duration, Instant};

/// When the next word is due, and whether it goes to a terminal.
pub struct Progress {
    every: Duration,
    due: Instant,
    on_terminal: bool,
}

impl Progress {
    /// A run that begins.
    pub fn begin() -> Progress {
        let on_terminal = stderr().is_terminal();
        let every = Duration::from_secs(if on_terminal { 10 } else { 60 });
        Progress {
            every,
            due: Instant::now() + every,
            on_terminal,
        }
    }

    /// Tells the text if it is time for it.
    pub fn tell(&mut self, text: impl FnOnce() -> String) {
        let now = Instant::now();
        if now < self.due {
            return;
        }
        self.due = now + self.every;
        match self.on_terminal {
            true => eprint!("\r\x1b[K{}", text()),
            false => eprintln!("{}", text()),
        }
    }

    /// Leaves the terminal's line empty for what follows.
    pub fn end(self) {
        if self.on_terminal {
            eprint!("\r\x1b[K");
        }
    }
}
