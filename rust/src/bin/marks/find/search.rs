//! The search of one file, and what it has to say as it goes.

use super::lines::{told, Lines, Stats, Style};
use crate::{
    input::{self, Source},
    names,
    output::Output,
    trouble::Trouble,
};
use marks::{Engine, FindsIn, Mark};
use std::{
    ffi::OsStr,
    io::{self, ErrorKind, Read},
    mem,
};

/// Answers are handed on at the latest when they are so many bytes.
const CHUNK: usize = 65_536;

pub enum Said {
    /// There is a find in this file.
    Found,
    Answers(Vec<u8>),
    Trouble(Trouble),
    Note(String),
    /// There is no more to say of this file.
    End,
}

impl Said {
    /// Prints it. Whether it is that there is a find.
    pub fn print(self, output: &mut Output) -> bool {
        match self {
            Said::Found => return true,
            Said::Answers(bytes) => output.bytes(&bytes),
            Said::Trouble(trouble) => output.complain(&trouble),
            Said::Note(text) => output.note(format_args!("{text}")),
            Said::End => {}
        }
        false
    }
}

/// Who hears what the search of a file says, in its order.
pub trait Listener {
    /// Whether it wants to hear more.
    fn hear(&self, said: Said) -> bool;
    /// The search is about to read on, having read so much. Whether it should.
    fn reached(&self, read: u64, size: Option<u64>) -> bool;
}

pub fn search(mark: &Mark, name: &OsStr, style: &Style, listener: &dyn Listener) {
    match input::open(name) {
        // what is printed would be found in its turn, without end
        Ok(input) if input.is_output && style.lists_finds() => {
            listener.hear(Said::Trouble(Trouble::is_output(names::shown(name))));
        }
        Ok(input) => {
            let watched = Watched { source: input.source, size: input.size, read: 0, listener };
            let mut answers = Answers { lines: Lines::new(name, style), style, listener, found: 0, waiting: Vec::new() };
            if let Err(trouble) = answers.give(mark, watched, name) {
                listener.hear(Said::Trouble(trouble));
            }
        }
        Err(trouble) => {
            listener.hear(Said::Trouble(trouble));
        }
    }
    listener.hear(Said::End);
}

/// A file whose reading is watched.
struct Watched<'a> {
    source: Source,
    size: Option<u64>,
    read: u64,
    listener: &'a dyn Listener,
}

impl Read for Watched<'_> {
    fn read(&mut self, room: &mut [u8]) -> io::Result<usize> {
        if !self.listener.reached(self.read, self.size) {
            return Err(io::Error::other("nobody wants to hear more"));
        }
        let more = self.source.read(room)?;
        self.read += more as u64;
        Ok(more)
    }
}

/// The answers about one file, on their way to the listener.
struct Answers<'a> {
    lines: Lines<'a>,
    style: &'a Style,
    listener: &'a dyn Listener,
    found: u64,
    waiting: Vec<u8>,
}

impl Answers<'_> {
    fn give(&mut self, mark: &Mark, source: Watched, name: &OsStr) -> Result<(), Trouble> {
        let mut finds = mark.find_in(source);
        let searched = match self.style.counts_all() {
            true => self.count(&mut finds),
            false => self.list(&mut finds),
        };
        if let Err(error) = searched {
            self.hand_on();
            return Err(trouble(name, &error, finds.read()));
        }
        self.lines.end(self.found, &mut self.waiting);
        let failures = (finds.engine() == Engine::Failure).then(|| finds.failures());
        let stats = Stats { found: self.found, bytes: finds.read(), letters: finds.letters(), failures };
        if self.style.stats && self.style.json {
            self.lines.stats(stats, &mut self.waiting);
        }
        self.hand_on();
        if self.style.stats && !self.style.json {
            self.listener.hear(Said::Note(told(name, stats)));
        }
        Ok(())
    }

    fn count(&mut self, finds: &mut FindsIn<'_, Watched>) -> io::Result<()> {
        self.found = finds.tally()?.count;
        if self.found > 0 {
            self.listener.hear(Said::Found);
        }
        Ok(())
    }

    /// Each find, until there are enough. Where the next one takes reading, those before it are handed on first.
    fn list(&mut self, finds: &mut FindsIn<'_, Watched>) -> io::Result<()> {
        while self.found < self.style.enough() {
            if (!finds.is_ready() || self.waiting.len() >= CHUNK) && !self.hand_on() {
                break;
            }
            let Some(at) = finds.next().transpose()? else { break };
            self.found += 1;
            if self.found == 1 {
                self.listener.hear(Said::Found);
            }
            self.lines.find(at, &mut self.waiting);
        }
        Ok(())
    }

    /// Whether more is wanted.
    fn hand_on(&mut self) -> bool {
        self.waiting.is_empty() || self.listener.hear(Said::Answers(mem::take(&mut self.waiting)))
    }
}

fn trouble(name: &OsStr, error: &io::Error, read: u64) -> Trouble {
    match error.kind() {
        ErrorKind::IsADirectory => Trouble::new(names::shown(name), "it is a directory", "look in it with -r, or name the files in it"),
        _ => Trouble::reading(names::shown(name), error, read),
    }
}
