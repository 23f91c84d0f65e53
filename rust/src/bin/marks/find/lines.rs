//! How the answers about a file are printed.

use crate::{json, names, word::counted};
use std::{ffi::OsStr, io::Write};

/// What is printed of each file, and in which form.
#[derive(Clone, Copy)]
pub struct Style {
    pub what: What,
    /// Whether names stand before offsets and counts.
    pub names: bool,
    pub null: bool,
    pub json: bool,
    pub stats: bool,
    /// The most finds of a file.
    pub most: Option<u64>,
}

#[derive(Clone, Copy, PartialEq)]
pub enum What {
    Offsets { hex: bool },
    Counts,
    Names,
    Nothing,
}

impl Style {
    pub fn is_quiet(&self) -> bool {
        self.what == What::Nothing
    }

    /// After so many finds the rest of a file is of no interest.
    pub fn enough(&self) -> u64 {
        match self.what {
            What::Names | What::Nothing => 1,
            _ => self.most.unwrap_or(u64::MAX),
        }
    }

    /// Whether each find is printed as it is found.
    pub fn lists_finds(&self) -> bool {
        matches!(self.what, What::Offsets { .. })
    }

    /// Whether finds are only counted, all of them.
    pub fn counts_all(&self) -> bool {
        self.what == What::Counts && self.most.is_none()
    }
}

/// What a search came to.
#[derive(Clone, Copy)]
pub struct Stats {
    pub found: u64,
    pub bytes: u64,
    pub letters: u64,
    /// The failure arrows that were taken, by the engine that has them.
    pub failures: Option<u64>,
}

/// The answers about one file, as lines.
pub struct Lines<'a> {
    style: &'a Style,
    name: &'a OsStr,
    /// What stands before each number.
    front: Vec<u8>,
}

impl<'a> Lines<'a> {
    pub fn new(name: &'a OsStr, style: &'a Style) -> Lines<'a> {
        let front = match (style.json, style.names) {
            (true, _) => format!("{{{},", json::file(name)).into_bytes(),
            (false, true) => names::ended(name, style.null, b':'),
            (false, false) => Vec::new(),
        };
        Lines { style, name, front }
    }

    pub fn find(&self, at: u64, out: &mut Vec<u8>) {
        match self.style.what {
            What::Offsets { hex: true } => self.number("at", format_args!("{at:#x}"), out),
            What::Offsets { hex: false } => self.number("at", format_args!("{at}"), out),
            _ => {}
        }
    }

    /// What is said of the file in the end.
    pub fn end(&self, found: u64, out: &mut Vec<u8>) {
        match self.style.what {
            What::Counts => self.number("count", format_args!("{found}"), out),
            What::Names if found > 0 && self.style.json => out.extend(format!("{{{}}}\n", json::file(self.name)).bytes()),
            What::Names if found > 0 => out.extend(names::ended(self.name, self.style.null, b'\n')),
            _ => {}
        }
    }

    /// What the search took, as an object.
    pub fn stats(&self, stats: Stats, out: &mut Vec<u8>) {
        let Stats { found, bytes, letters, failures } = stats;
        let failures = failures.map(|failures| format!(",\"failures\":{failures}")).unwrap_or_default();
        out.extend(&self.front);
        out.extend(format!("\"found\":{found},\"bytes\":{bytes},\"letters\":{letters}{failures}}}\n").bytes());
    }

    /// A number on a line, in an object under its name.
    fn number(&self, name: &str, number: std::fmt::Arguments<'_>, out: &mut Vec<u8>) {
        out.extend(&self.front);
        let written = match self.style.json {
            true => writeln!(out, "\"{name}\":{number}}}"),
            false => writeln!(out, "{number}"),
        };
        written.expect("there is room in memory");
    }
}

/// What a search took, for a person: letters that were read again count again.
pub fn told(name: &OsStr, stats: Stats) -> String {
    let Stats { found, bytes, letters, failures } = stats;
    let each = letters as f64 / bytes.max(1) as f64;
    let (name, bytes, letters) = (names::shown(name), counted(bytes, "byte"), counted(letters, "letter"));
    let failures = failures.map(|failures| format!("; {} taken", counted(failures, "failure arrow"))).unwrap_or_default();
    format!("{name}: found {found} in {bytes}; {letters} read, {each:.2} a byte{failures}")
}
