//! How a ride is printed.

use super::spans::Span;
use crate::{json, names};
use std::{ffi::OsStr, path::Path};

pub struct Style {
    /// Whether the file's name stands before each ride.
    pub names: bool,
    pub null: bool,
    pub json: bool,
}

/// The rides of one file, as lines.
pub struct Lines {
    json: bool,
    /// What stands before each ride.
    front: Vec<u8>,
}

impl Lines {
    pub fn new(name: &OsStr, style: &Style) -> Lines {
        let front = match (style.json, style.names) {
            (true, _) => format!("{{{},", json::file(name)).into_bytes(),
            (false, true) => names::ended(name, style.null, b':'),
            (false, false) => Vec::new(),
        };
        Lines { json: style.json, front }
    }

    /// The line of a ride, and of the file that it was written to.
    pub fn ride(&self, span: &Span, out: Option<&Path>) -> Vec<u8> {
        let (start, kind, there, declared) = (span.ride.start, span.kind, span.there(), span.ride.len_declared());
        let line = match self.json {
            true => {
                let out = out.map(|out| format!(",{}", json::member("out", out.as_os_str()))).unwrap_or_default();
                format!("\"start\":{start},\"kind\":\"{kind}\",\"bytes\":{there},\"of\":{declared}{out}}}\n")
            }
            false => format!("{start} {kind} {there} {declared}\n"),
        };
        [&self.front[..], line.as_bytes()].concat()
    }
}
