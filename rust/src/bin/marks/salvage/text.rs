//! What rides are looked for in: a file that is read at any place, or, where that cannot be done, all that there is to read, in memory.

use crate::{
    input::{self, Input, Source},
    names,
    trouble::Trouble,
};
use std::{
    ffi::OsStr,
    fs::File,
    io::{self, ErrorKind, Read},
    os::unix::fs::FileExt,
};

/// Who is told how far reading has come, and of how much, before it goes on.
pub type Reached<'a> = &'a dyn Fn(u64, Option<u64>);

pub struct Text<'a> {
    pub name: &'a OsStr,
    /// How many bytes it has. Of a file that grows meanwhile it is those that it had in the beginning.
    pub length: u64,
    bytes: Bytes,
    reached: Reached<'a>,
}

enum Bytes {
    File(File),
    Memory(Vec<u8>),
}

impl<'a> Text<'a> {
    pub fn open(name: &'a OsStr, reached: Reached<'a>) -> Result<Text<'a>, Trouble> {
        let input = input::open(name)?;
        // what is printed would be listed in its turn
        if input.is_output {
            return Err(Trouble::is_output(names::shown(name)));
        }
        let (bytes, length) = match input {
            Input { source: Source::File(file), size: Some(size), .. } => (Bytes::File(file), size),
            Input { source, .. } => in_memory(whole(source, name, reached)?),
        };
        Ok(Text { name, length, bytes, reached })
    }

    /// From one place to another, to be read.
    pub fn part(&self, start: u64, end: u64) -> Part<'_> {
        Part { text: self, at: start, end, failed: false }
    }

    /// That it could not be read beyond so many bytes.
    pub fn unreadable(&self, error: &io::Error, read: u64) -> Trouble {
        unreadable(self.name, error, read)
    }

    fn read_at(&self, room: &mut [u8], at: u64) -> io::Result<usize> {
        match &self.bytes {
            Bytes::File(file) => file.read_at(room, at),
            Bytes::Memory(bytes) => (&bytes[at as usize..]).read(room),
        }
    }
}

/// A part of a text, which is read to its end or fails.
pub struct Part<'a> {
    text: &'a Text<'a>,
    /// The place that is read next.
    pub at: u64,
    end: u64,
    /// Whether the last read failed.
    pub failed: bool,
}

impl Read for Part<'_> {
    fn read(&mut self, room: &mut [u8]) -> io::Result<usize> {
        (self.text.reached)(self.at, Some(self.text.length));
        let most = usize::try_from(self.end - self.at).unwrap_or(usize::MAX).min(room.len());
        let read = match self.text.read_at(&mut room[..most], self.at) {
            Ok(0) if most > 0 => Err(ErrorKind::UnexpectedEof.into()),
            read => read,
        };
        self.failed = read.is_err();
        self.at += *read.as_ref().unwrap_or(&0) as u64;
        read
    }
}

fn in_memory(bytes: Vec<u8>) -> (Bytes, u64) {
    let length = bytes.len() as u64;
    (Bytes::Memory(bytes), length)
}

/// All that a source gives.
fn whole(source: Source, name: &OsStr, reached: Reached) -> Result<Vec<u8>, Trouble> {
    let (mut bytes, mut watched) = (Vec::new(), Watched { source, read: 0, reached });
    watched.read_to_end(&mut bytes).map_err(|error| unreadable(name, &error, watched.read))?;
    Ok(bytes)
}

/// A source whose reading is told.
struct Watched<'a> {
    source: Source,
    read: u64,
    reached: Reached<'a>,
}

impl Read for Watched<'_> {
    fn read(&mut self, room: &mut [u8]) -> io::Result<usize> {
        (self.reached)(self.read, None);
        let more = self.source.read(room)?;
        self.read += more as u64;
        Ok(more)
    }
}

fn unreadable(name: &OsStr, error: &io::Error, read: u64) -> Trouble {
    let shown = names::shown(name);
    match error.kind() {
        ErrorKind::OutOfMemory => {
            Trouble::new(shown, "it does not fit in memory", "write it to a file first, which is read in parts, and name that")
        }
        ErrorKind::UnexpectedEof => {
            Trouble::new(shown, format!("it became shorter while it was read, {read} bytes"), "run it again when it stays as it is")
        }
        _ => Trouble::reading(shown, error, read),
    }
}
