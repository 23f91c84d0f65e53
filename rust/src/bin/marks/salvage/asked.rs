//! What the command line asks `marks salvage` for.

use super::{
    extract::{own_name, Extract},
    lines::Style,
    Asked,
};
use crate::{input, names, options::Words, trouble::Trouble};
use std::{
    collections::HashMap,
    ffi::{OsStr, OsString},
    fs,
    os::unix::fs::MetadataExt,
};

impl Asked {
    pub fn of(words: Words) -> Result<Asked, Trouble> {
        let (style, extract) = (style(&words)?, extract(&words)?);
        if words.rest.is_empty() {
            return Err(Trouble::new("salvage", "no FILE is given", "name the files to look in, or - for standard input"));
        }
        input::standard_once("salvage", &words.rest)?;
        if extract.is_some() {
            all_differ(&words.rest)?;
        }
        let names = words.last_of("with-filename", "no-filename").unwrap_or(words.rest.len() > 1);
        let unsized_too = words.has("unsized");
        Ok(Asked { files: words.rest, style: Style { names, ..style }, unsized_too, extract })
    }
}

/// How a ride is printed. Whether names are is not decided here.
fn style(words: &Words) -> Result<Style, Trouble> {
    words.one_of("salvage", &["null", "no-filename"], "-0 is for names: leave one of them out")?;
    for other in ["null", "no-filename"] {
        words.one_of("salvage", &["json", other], "an object has its name in one way: leave one of them out")?;
    }
    Ok(Style { names: false, null: words.has("null"), json: words.has("json") })
}

fn extract(words: &Words) -> Result<Option<Extract>, Trouble> {
    let Some(folder) = words.value_of("extract") else {
        return match ["force", "all"].iter().find(|long| words.has(long)) {
            Some(long) => {
                Err(Trouble::new("salvage", format!("--{long} is given without --extract"), "leave it out, or say where to write"))
            }
            None => Ok(None),
        };
    };
    if folder.is_empty() {
        return Err(Trouble::new("DIR", "it is no directory's name", "name the directory to write to"));
    }
    let known = |file: &OsString| fs::metadata(file).ok().map(|file| (file.dev(), file.ino()));
    let read = words.rest.iter().filter_map(known).collect();
    Ok(Some(Extract { folder: folder.into(), force: words.has("force"), all: words.has("all"), read }))
}

/// The rides of each file get names of their own: with -f, one would be written over another's that was written just before.
fn all_differ(files: &[OsString]) -> Result<(), Trouble> {
    let mut known: HashMap<&OsStr, &OsStr> = HashMap::new();
    for file in files {
        if let Some(other) = known.insert(own_name(file), file) {
            let both = format!("the rides of {} and {} would get the same names", names::shown(other), names::shown(file));
            return Err(Trouble::new("salvage", both, "extract them one by one, each to a directory of its own"));
        }
    }
    Ok(())
}
