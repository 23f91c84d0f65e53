//! `marks find`: every place of a mark in each file.

mod asked;
mod direct;
mod files;
mod lines;
mod search;
mod workers;

use crate::{
    output::Output,
    trouble::Trouble,
    word::{self, Word},
};
use files::Files;
use lines::Style;
use marks::{Engine, Mark};
use std::ffi::OsString;

/// What the command line asks for.
pub struct Asked {
    wanted: Wanted,
    engine: Engine,
    files: Vec<OsString>,
    recursive: bool,
    jobs: usize,
    style: Style,
}

/// Where the mark comes from.
enum Wanted {
    Word(Word),
    File(OsString),
}

impl Asked {
    /// Whether nothing but the status is asked for: then it is decided by the first find, whatever else happened.
    pub fn is_quiet(&self) -> bool {
        self.style.is_quiet()
    }
}

/// Whether anything was found. A bad file is said and the next one is taken.
pub fn find(asked: Asked, output: &mut Output) -> Result<bool, Trouble> {
    let mark = mark(&asked.wanted)?.engine(asked.engine);
    let jobs = if asked.recursive { asked.jobs } else { asked.jobs.min(asked.files.len()) };
    let files = Files::new(asked.files, asked.recursive);
    Ok(match jobs {
        1 => direct::find(&mark, files, &asked.style, output),
        _ => workers::find(mark, files, asked.style, jobs, output),
    })
}

fn mark(wanted: &Wanted) -> Result<Mark, Trouble> {
    match wanted {
        Wanted::Word(word) => word.mark(),
        Wanted::File(name) => word::mark_of_file(name),
    }
}
