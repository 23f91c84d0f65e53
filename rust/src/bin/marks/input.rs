//! What is read: files by name, and standard input where the name is `-`.

use crate::{
    closed,
    names::{is_standard, shown},
    trouble::Trouble,
};
use marks::LONGEST_FILE;
use std::{
    ffi::{OsStr, OsString},
    fs::{File, Metadata},
    io::{self, Read, Seek, SeekFrom, StdinLock},
    os::{
        fd::AsFd,
        unix::fs::{FileTypeExt, MetadataExt},
    },
};

/// So much of a mark file is read. The library has judged any file before: one that agrees with a word's file of either edition ends, or
/// has its first wrong field, within the bytes of the longest file and one arrow more. So the verdict and its offset are those of the whole
/// file.
const MARK_FILE: u64 = 2 * LONGEST_FILE as u64;

pub struct Input {
    pub source: Source,
    /// Where it is known beforehand: then it is a file that can be read at any place.
    pub size: Option<u64>,
    /// Whether it is the file that standard output goes to.
    pub is_output: bool,
}

pub enum Source {
    Standard(StdinLock<'static>),
    File(File),
}

impl Read for Source {
    fn read(&mut self, room: &mut [u8]) -> io::Result<usize> {
        match self {
            Source::Standard(input) => input.read(room),
            Source::File(file) => file.read(room),
        }
    }
}

pub fn open(name: &OsStr) -> Result<Input, Trouble> {
    if is_standard(name) {
        if closed::input_was_closed() {
            return Err(Trouble::new(shown(name), "it is closed", "leave <&- out, or give it a file or a pipe to read"));
        }
        return Ok(Input { source: Source::Standard(io::stdin().lock()), size: None, is_output: is_output(behind(io::stdin())) });
    }
    let file = File::open(name).map_err(|error| Trouble::opening(shown(name), &error))?;
    let said = file.metadata().ok();
    let size = said.as_ref().and_then(|said| size(&file, said)).filter(|size| *size > 0);
    Ok(Input { source: Source::File(file), size, is_output: is_output(said.filter(Metadata::is_file)) })
}

/// Standard input can be read once.
pub fn standard_once(command: &str, files: &[OsString]) -> Result<(), Trouble> {
    match files.iter().filter(|file| is_standard(file)).count() {
        0 | 1 => Ok(()),
        _ => Err(Trouble::new(command, "- is given twice", "standard input can be read once")),
    }
}

/// The size of a regular file or of a disk. What else can be opened says nothing of its size, or something else.
fn size(mut file: &File, said: &Metadata) -> Option<u64> {
    match said.file_type() {
        kind if kind.is_file() => Some(said.len()),
        kind if kind.is_block_device() => {
            let size = file.seek(SeekFrom::End(0)).ok()?;
            file.rewind().ok().map(|()| size)
        }
        _ => None,
    }
}

/// The regular file behind standard input or output, if it is one.
fn behind(standard: impl AsFd) -> Option<Metadata> {
    let file = File::from(standard.as_fd().try_clone_to_owned().ok()?);
    file.metadata().ok().filter(Metadata::is_file)
}

fn is_output(read: Option<Metadata>) -> bool {
    let Some((read, written)) = read.zip(behind(io::stdout())) else { return false };
    (read.dev(), read.ino()) == (written.dev(), written.ino())
}

pub fn mark_file(name: &OsStr) -> Result<Vec<u8>, Trouble> {
    let mut bytes = Vec::new();
    let read = open(name)?.source.take(MARK_FILE).read_to_end(&mut bytes);
    read.map_err(|error| Trouble::reading(shown(name), &error, bytes.len() as u64))?;
    Ok(bytes)
}
