//! Each ride as a file of its own. All rides of a text are looked at before one is written, so that nothing of it stays where it is refused.

use super::{
    limits::Limits,
    spans::{Span, Spans},
    text::Text,
};
use crate::{names, place, trouble::Trouble};
use std::{
    ffi::OsStr,
    fs::{self, File},
    io::{self, ErrorKind},
    os::unix::fs::MetadataExt,
    path::{Path, PathBuf},
};

/// What the command line asks for.
pub struct Extract {
    pub folder: PathBuf,
    /// Whether files that are there are written over.
    pub force: bool,
    /// Whether as much is written as there is.
    pub all: bool,
    /// The files that are read, by device and number: none is written over, also where it is asked for, before it was read.
    pub read: Vec<(u64, u64)>,
}

impl Extract {
    /// Looks whether the rides of a text may be written, and makes the folder for them, where there are any.
    pub fn prepare<'a>(&'a self, text: &'a Text, mut spans: Spans) -> Result<Writer<'a>, Trouble> {
        let (mut looking, mut listed) = (self.writer(text), false);
        while let Some(span) = spans.next() {
            looking.look(&span.map_err(|error| text.unreadable(&error, spans.read()))?)?;
            listed = true;
        }
        if listed {
            fs::create_dir_all(&self.folder).map_err(|error| no_folder(&self.folder, &error))?;
        }
        Ok(self.writer(text))
    }

    fn writer<'a>(&'a self, text: &'a Text) -> Writer<'a> {
        Writer { extract: self, text, limits: Limits::default() }
    }
}

/// Writes the rides of a text.
pub struct Writer<'a> {
    extract: &'a Extract,
    text: &'a Text<'a>,
    limits: Limits,
}

impl Writer<'_> {
    /// That a ride may be written: there are not too many, and nothing that matters has its name. Where the folder is not there, nothing has.
    fn look(&mut self, span: &Span) -> Result<(), Trouble> {
        self.count(span)?;
        let out = self.out(span);
        match fs::symlink_metadata(&out) {
            Ok(there) if self.extract.read.contains(&(there.dev(), there.ino())) => Err(is_read(&out)),
            Ok(_) if !self.extract.force => Err(unwritten(&out, &ErrorKind::AlreadyExists.into())),
            Err(error) if !matches!(error.kind(), ErrorKind::NotFound | ErrorKind::NotADirectory) => Err(unwritten(&out, &error)),
            _ => Ok(()),
        }
    }

    /// Writes a ride. The path of its file. It is counted once more, as the text may have become another since it was looked at.
    pub fn write(&mut self, span: &Span) -> Result<PathBuf, Trouble> {
        self.count(span).map_err(|_| changed(self.text))?;
        let (out, mut part) = (self.out(span), self.text.part(span.ride.start, span.end));
        let copy = |to: &mut File| io::copy(&mut part, to).map(drop);
        let written = if self.extract.force { place::replace_name(&out, copy) } else { place::create(&out, copy) };
        match written {
            Ok(()) => Ok(out),
            Err(error) if part.failed => Err(self.text.unreadable(&error, part.at)),
            Err(error) => Err(unwritten(&out, &error)),
        }
    }

    fn count(&mut self, span: &Span) -> Result<(), Trouble> {
        if self.extract.all {
            return Ok(());
        }
        self.limits.take(span, self.text)
    }

    /// `ride.fit.1024.fit`, for the ride at 1024 of `uploads/ride.fit`. It has one name in the folder, whatever a stranger called the file.
    fn out(&self, span: &Span) -> PathBuf {
        let mut name = own_name(self.text.name).to_os_string();
        name.push(format!(".{}.fit", span.ride.start));
        self.extract.folder.join(name)
    }
}

/// The name of a file without the folders before it. What has none is a folder, or a link to one, and cannot be read.
pub fn own_name(name: &OsStr) -> &OsStr {
    match names::is_standard(name) {
        true => OsStr::new("standard-input"),
        false => Path::new(name).file_name().unwrap_or(OsStr::new("unnamed")),
    }
}

fn changed(text: &Text) -> Trouble {
    Trouble::new(names::shown(text.name), "it changed while its rides were written", "run it again when it stays as it is")
}

fn is_read(out: &Path) -> Trouble {
    Trouble::new(names::shown(out.as_os_str()), "it is one of the files that are read", "name another directory")
}

fn unwritten(out: &Path, error: &io::Error) -> Trouble {
    place::trouble(out.as_os_str(), error, "directory")
}

fn no_folder(folder: &Path, error: &io::Error) -> Trouble {
    let shown = names::shown(folder.as_os_str());
    match error.kind() {
        ErrorKind::AlreadyExists | ErrorKind::NotADirectory => {
            Trouble::new(shown, "it is no directory", "name one, or what is not there yet")
        }
        _ => Trouble::writing(shown, error),
    }
}
