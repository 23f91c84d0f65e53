//! `marks save`: the file from which `find -m` finds a word.

use crate::{names, output::Output, place, trouble::Trouble, word::Word};
use marks::{Mark, Refusal};
use std::{ffi::OsStr, fs::File, io::Write, os::unix::ffi::OsStrExt, path::Path};

/// The editions of a mark file: the second ends with a check of all bytes before it.
#[derive(Clone, Copy)]
pub enum Edition {
    One,
    Two,
}

pub fn save(word: &Word, edition: Edition, out: &OsStr, force: bool, output: &mut Output) -> Result<(), Trouble> {
    let file = file_of(&word.mark()?, edition).map_err(|refusal| Trouble::refused("WORD".to_string(), refusal))?;
    if out.is_empty() || out.as_bytes().ends_with(b"/") {
        return Err(Trouble::new("OUT", "it is no file's name", "name the file to write"));
    }
    if names::is_standard(out) || force && is_standard_output(out) {
        output.bytes(&file);
        return Ok(());
    }
    let write = |to: &mut File| to.write_all(&file);
    let written = if force { place::replace(Path::new(out), write) } else { place::create(Path::new(out), write) };
    written.map_err(|error| place::trouble(out, &error, "file"))
}

fn file_of(mark: &Mark, edition: Edition) -> Result<Vec<u8>, Refusal> {
    match edition {
        Edition::One => mark.to_file(),
        Edition::Two => mark.to_checked_file(),
    }
}

/// The names that the system has for standard output. Opened by one of them, a file would not be written to where the output has come to.
fn is_standard_output(out: &OsStr) -> bool {
    ["/dev/stdout", "/dev/fd/1", "/proc/self/fd/1"].iter().any(|name| out == *name)
}
