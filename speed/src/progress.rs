//! What goes on, on standard error: one line that changes where that is a terminal, else plain lines.

use std::time::{Duration, Instant};

extern "C" {
    fn isatty(file: i32) -> i32;
}

pub struct Progress {
    terminal: bool,
    said: Instant,
}

impl Progress {
    pub fn new() -> Progress {
        // SAFETY: it takes any number; 2 is standard error.
        let terminal = unsafe { isatty(2) } == 1;
        Progress { terminal, said: Instant::now() }
    }

    pub fn begin(&mut self, what: &str) {
        self.said = Instant::now();
        if self.terminal {
            eprint!("\r\x1b[K{what} ..");
        } else {
            eprintln!("{what} ..");
        }
    }

    /// Says how far it is, now and then.
    pub fn go_on(&mut self, what: &str, so_far: u32) {
        let pause = if self.terminal { Duration::from_millis(500) } else { Duration::from_secs(5) };
        if self.said.elapsed() >= pause {
            self.begin(&format!("{what}, turn {so_far}"));
        }
    }

    /// Before something is printed.
    pub fn clear(&self) {
        if self.terminal {
            eprint!("\r\x1b[K");
        }
    }
}
