//! What the command line asks `marks find` for.

use super::{
    lines::{Style, What},
    Asked, Wanted,
};
use crate::{input, names, options::Words, trouble::Trouble, word::Word};
use marks::Engine;
use std::{
    ffi::{OsStr, OsString},
    thread,
};

/// The most files that are searched at once.
const MOST_JOBS: u64 = 256;

impl Asked {
    pub fn of(mut words: Words) -> Result<Asked, Trouble> {
        words.one_of("find", &["hex", "mark"], "give WORD in hex, or a mark file")?;
        let style = style(&words)?;
        let wanted = match words.value_of("mark") {
            Some(file) => Wanted::File(file.to_os_string()),
            None if words.rest.is_empty() => {
                return Err(Trouble::new("find", "no WORD is given", "give the word to find, or a mark file with -m"));
            }
            None => Wanted::Word(Word { given: words.rest.remove(0), hex: words.has("hex") }),
        };
        let recursive = words.has("recursive");
        if words.rest.is_empty() && !recursive {
            return Err(Trouble::new("find", "no FILE is given", "name the files to look in, or - for standard input"));
        }
        one_reads_standard_input(&wanted, &words.rest)?;
        let names = words.last_of("with-filename", "no-filename").unwrap_or(recursive || words.rest.len() > 1);
        let (engine, jobs) = (engine(&words), jobs(&words)?);
        Ok(Asked { wanted, engine, files: words.rest, recursive, jobs, style: Style { names, ..style } })
    }
}

/// What is printed, and how. Whether names are is not decided here.
fn style(words: &Words) -> Result<Style, Trouble> {
    words.one_of("find", &["count", "files-with-matches", "quiet"], "choose one")?;
    for other in ["hex-offsets", "max-count", "null", "json", "stats", "with-filename", "no-filename"] {
        words.one_of("find", &["quiet", other], "-q prints nothing: leave one of them out")?;
    }
    words.one_of("find", &["count", "hex-offsets"], "-c prints no offsets: leave one of them out")?;
    for other in ["hex-offsets", "max-count", "no-filename"] {
        words.one_of("find", &["files-with-matches", other], "-l prints names alone: leave one of them out")?;
    }
    words.one_of("find", &["null", "no-filename"], "-0 is for names: leave one of them out")?;
    for other in ["hex-offsets", "null", "no-filename"] {
        words.one_of("find", &["json", other], "an object has its name and its numbers in one way: leave one of them out")?;
    }
    let what = match ["count", "files-with-matches", "quiet"].map(|long| words.has(long)) {
        [true, ..] => What::Counts,
        [_, true, _] => What::Names,
        [.., true] => What::Nothing,
        _ => What::Offsets { hex: words.has("hex-offsets") },
    };
    let most = words.number_of("max-count", 1..=u64::MAX)?;
    Ok(Style { what, names: false, null: words.has("null"), json: words.has("json"), stats: words.has("stats"), most })
}

/// The mark file or one of the files is standard input, not both.
fn one_reads_standard_input(wanted: &Wanted, files: &[OsString]) -> Result<(), Trouble> {
    let of_mark = matches!(wanted, Wanted::File(file) if names::is_standard(file));
    match of_mark && files.iter().any(|file| names::is_standard(file)) {
        true => Err(Trouble::new("find", "- is both the mark file and a FILE", "name one of them")),
        false => input::standard_once("find", files),
    }
}

fn engine(words: &Words) -> Engine {
    match words.value_of("engine").and_then(OsStr::to_str) {
        Some("backward") => Engine::Backward,
        Some("turbo") => Engine::Turbo,
        Some("failure") => Engine::Failure,
        Some("compact") => Engine::Compact,
        _ => Engine::Auto,
    }
}

fn jobs(words: &Words) -> Result<usize, Trouble> {
    Ok(match words.number_of("jobs", 0..=MOST_JOBS)? {
        Some(0) => thread::available_parallelism().map(usize::from).unwrap_or(1),
        Some(jobs) => jobs as usize,
        None => 1,
    })
}
