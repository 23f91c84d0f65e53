//! The progress line: on a terminal, once the program has run for a second. It is overwritten in place, and erased before anything else is
//! said.

use std::{
    io::{self, IsTerminal, Write},
    time::{Duration, Instant},
};

const FIRST: Duration = Duration::from_secs(1);
const AGAIN: Duration = Duration::from_millis(100);

/// The longest file name that is shown whole.
const NAME: usize = 40;

pub struct Progress {
    terminal: bool,
    next: Instant,
    shown: bool,
}

impl Progress {
    pub fn new() -> Progress {
        Progress { terminal: io::stderr().is_terminal(), next: Instant::now() + FIRST, shown: false }
    }

    /// Says how far reading has come, if it is time to.
    pub fn tick(&mut self, name: &str, read: u64, size: Option<u64>) {
        if !self.terminal || Instant::now() < self.next {
            return;
        }
        let of = size.map(|size| format!(" of {}", amount(size))).unwrap_or_default();
        self.say(&format!("\rmarks: {}: {}{of} read\x1b[K", shortened(name), amount(read)));
        self.shown = true;
        self.next = Instant::now() + AGAIN;
    }

    pub fn erase(&mut self) {
        if self.shown {
            self.say("\r\x1b[K");
            self.shown = false;
        }
    }

    /// Whether the terminal takes it does not matter to the run.
    fn say(&self, text: &str) {
        let _ = io::stderr().write_all(text.as_bytes());
    }
}

fn amount(bytes: u64) -> String {
    match bytes {
        0..=9_999 => format!("{bytes} bytes"),
        10_000..=9_999_999 => format!("{} kB", bytes / 1_000),
        _ => format!("{} MB", bytes / 1_000_000),
    }
}

/// The end of a long name: it tells more than the start.
fn shortened(name: &str) -> String {
    let letters = name.chars().count();
    match letters > NAME {
        true => format!("..{}", name.chars().skip(letters - NAME).collect::<String>()),
        false => name.to_string(),
    }
}
