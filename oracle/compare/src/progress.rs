//! Shows on standard error how far a run has come: one line that is written over on a terminal, else
//! a line every few seconds. A run that ends soon shows nothing.

use std::io::{IsTerminal, Write, stderr};
use std::time::{Duration, Instant};

pub struct Progress {
    part: String,
    function: &'static str,
    done: u64,
    total: u64,
    /// Steps from one look at the clock to the next, and until the next.
    stride: u64,
    until: u64,
    looked: Instant,
    shown: Instant,
    every: Duration,
    terminal: bool,
    written: bool,
}

impl Progress {
    pub fn new(part: &str, total: u64) -> Progress {
        let terminal = stderr().is_terminal();
        let now = Instant::now();
        Progress {
            part: part.to_string(),
            function: "",
            done: 0,
            total,
            stride: 1,
            until: 1,
            looked: now,
            shown: now,
            every: Duration::from_secs(if terminal { 1 } else { 5 }),
            terminal,
            written: false,
        }
    }

    /// The steps that follow are of `function`.
    pub fn enter(&mut self, function: &'static str) {
        self.function = function;
        self.stride = 1;
        self.until = 1;
    }

    /// One more input.
    pub fn step(&mut self) {
        self.done += 1;
        self.until -= 1;
        if self.until == 0 {
            self.look();
        }
    }

    /// The clock is read some hundred times a second, or after each step that takes longer.
    fn look(&mut self) {
        let now = Instant::now();
        let quick = now - self.looked < Duration::from_millis(5);
        self.stride = if quick {
            self.stride * 2
        } else {
            self.stride.div_ceil(2)
        };
        self.until = self.stride;
        self.looked = now;
        if now - self.shown >= self.every {
            self.shown = now;
            self.show();
        }
    }

    fn show(&mut self) {
        let percent = 100 * u128::from(self.done) / u128::from(self.total.max(1));
        let (start, end) = if self.terminal {
            ("\r\x1b[K", "")
        } else {
            ("", "\n")
        };
        let Progress {
            part,
            function,
            done,
            total,
            ..
        } = self;
        eprint!("{start}{part}: {percent} %, {done} of {total} inputs, at {function}{end}");
        let _ = stderr().flush();
        self.written = true;
    }

    /// Clears the line on a terminal.
    pub fn finish(&mut self) {
        if self.terminal && self.written {
            eprint!("\r\x1b[K");
        }
    }
}
