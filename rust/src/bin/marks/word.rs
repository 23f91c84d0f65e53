//! Words as they are given on the command line, and as they are printed.

use crate::{hex, input, names, trouble::Trouble};
use marks::Mark;
use std::{
    ffi::{OsStr, OsString},
    fmt::Display,
    os::unix::ffi::OsStrExt,
};

/// A WORD of the command line.
pub struct Word {
    pub given: OsString,
    pub hex: bool,
}

impl Word {
    pub fn mark(&self) -> Result<Mark, Trouble> {
        let letters = match self.hex {
            true => hex::letters(self.given.as_bytes())?,
            false => self.given.as_bytes().to_vec(),
        };
        Mark::new(&letters).map_err(|refusal| Trouble::refused("WORD".to_string(), refusal))
    }
}

/// The mark that a mark file finds.
pub fn mark_of_file(name: &OsStr) -> Result<Mark, Trouble> {
    Mark::from_file(&input::mark_file(name)?).map_err(|error| Trouble::refused(names::shown(name), error))
}

/// A letter as it is printed alone: itself where it can be seen, else its number.
pub fn letter(byte: u8) -> String {
    match byte {
        b'\\' => "\\\\".to_string(),
        b'!'..=b'~' => char::from(byte).to_string(),
        _ => format!("\\x{byte:02x}"),
    }
}

/// A word as it is printed.
pub fn quoted(word: &[u8]) -> String {
    let inside: String = word
        .iter()
        .map(|&byte| match byte {
            b' ' => " ".to_string(),
            b'"' => "\\\"".to_string(),
            _ => letter(byte),
        })
        .collect();
    format!("\"{inside}\"")
}

pub fn mirror(word: &[u8]) -> Vec<u8> {
    word.iter().rev().copied().collect()
}

/// A number of things, with the word for one of them.
pub fn counted<N: Display + PartialEq + From<u8>>(n: N, one: &str) -> String {
    format!("{n} {one}{}", if n == 1.into() { "" } else { "s" })
}
