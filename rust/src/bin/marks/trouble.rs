//! What went wrong with one thing, and what to do about it.

use marks::Refusal;
use std::{
    fmt,
    io::{self, ErrorKind},
};

pub struct Trouble {
    of: String,
    happened: String,
    advice: String,
}

impl Trouble {
    pub fn new(of: impl Into<String>, happened: impl Into<String>, advice: impl Into<String>) -> Trouble {
        Trouble { of: of.into(), happened: happened.into(), advice: advice.into() }
    }

    pub fn opening(of: String, error: &io::Error) -> Trouble {
        match error.kind() {
            ErrorKind::NotFound | ErrorKind::NotADirectory => Trouble::new(of, "there is no such file", "check its name"),
            ErrorKind::PermissionDenied => {
                Trouble::new(of, "you may not read it", "ask its owner for the right to, and to enter its folder")
            }
            _ => Trouble::new(of, format!("it cannot be opened: {error}"), "check its name, and what it is"),
        }
    }

    /// A file that opened and cannot be read beyond its first `read` bytes.
    pub fn reading(of: String, error: &io::Error, read: u64) -> Trouble {
        match error.kind() {
            ErrorKind::IsADirectory => Trouble::new(of, "it is a directory", "name the files in it"),
            _ => Trouble::new(
                of,
                format!("reading stopped after {read} bytes: {error}"),
                "copy what can be copied to a sound disk and try that",
            ),
        }
    }

    /// A file that would be read while what it answers is written to it.
    pub fn is_output(of: String) -> Trouble {
        Trouble::new(of, "it is also the output", "write that elsewhere")
    }

    pub fn writing(of: String, error: &io::Error) -> Trouble {
        match error.kind() {
            ErrorKind::NotFound | ErrorKind::NotADirectory => {
                Trouble::new(of, "its directory is not there", "make that first, or name another place")
            }
            ErrorKind::PermissionDenied => Trouble::new(of, "you may not write it", "name another place"),
            ErrorKind::IsADirectory => Trouble::new(of, "it is a directory", "name a file in it"),
            ErrorKind::StorageFull => Trouble::new(of, "the disk is full", "make room and run it again, for what was written is not whole"),
            _ => Trouble::new(of, format!("it cannot be written: {error}"), "name another place"),
        }
    }

    /// A word that is refused, or a file, with where it is broken.
    pub fn refused(of: String, why: impl Copy + fmt::Display + Into<Refusal>) -> Trouble {
        Trouble::new(of, why.to_string(), advice(why.into()))
    }
}

impl fmt::Display for Trouble {
    fn fmt(&self, f: &mut fmt::Formatter<'_>) -> fmt::Result {
        write!(f, "{}: {}; {}", self.of, self.happened, self.advice)
    }
}

/// What to do about a refusal.
pub fn advice(refusal: Refusal) -> &'static str {
    match refusal {
        Refusal::EmptyWord | Refusal::LongWord => "give 1 to 4,096 bytes",
        Refusal::CutFile => "it was cut: copy it again, or save the mark again",
        Refusal::OtherEdition => "it is no mark file, or of a later edition: save the mark again",
        Refusal::BadLength => "it is damaged, no mark file, or of one letter: save a mark of 2 to 4,096 bytes",
        Refusal::BadNumber | Refusal::BadCount | Refusal::WrongArrow => "it is damaged or no mark file: save the mark again",
        Refusal::BadCheck => "it is damaged: copy it again, or save the mark again",
        Refusal::ShortWord => "look for it directly: marks find WORD FILE",
        Refusal::Leftovers => "something was added to it: save the mark again",
        // the program lends room enough for every word and every file, and texts in parts; it opens no stream
        _ => "this is a fault of the program: report it",
    }
}
