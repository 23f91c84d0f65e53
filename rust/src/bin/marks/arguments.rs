//! What the command line asks for.

use crate::{
    find,
    help::Help,
    manual::{self, listed, COMMANDS},
    names,
    options::Words,
    oracle::Kind,
    salvage,
    save::Edition,
    trouble::Trouble,
    word::Word,
};
use std::ffi::{OsStr, OsString};

pub enum Command {
    /// Nothing was asked for at all.
    Nothing,
    Help(Help),
    Version,
    Generate {
        kind: String,
    },
    Find(find::Asked),
    Salvage(salvage::Asked),
    Save {
        word: Word,
        edition: Edition,
        out: OsString,
        force: bool,
    },
    Check {
        files: Vec<OsString>,
    },
    Show {
        file: OsString,
        kind: Kind,
        dot: bool,
    },
}

pub fn command(words: impl Iterator<Item = OsString>) -> Result<Command, Trouble> {
    let mut words = Words::of(words)?;
    if words.is_empty() {
        return Ok(Command::Nothing);
    }
    if words.has("help") {
        return help(&words);
    }
    if words.has("version") {
        return Ok(Command::Version);
    }
    if words.rest.is_empty() {
        return alone(&words);
    }
    let name = words.rest.remove(0);
    if let Some(known) = name.to_str().and_then(manual::command) {
        words.all_of(known.name)?;
    }
    match name.to_str() {
        Some("find") => find::Asked::of(words).map(Command::Find),
        Some("salvage") => salvage::Asked::of(words).map(Command::Salvage),
        Some("save") => save(words),
        Some("check") => check(words),
        Some("show") => show(words),
        Some("help") => help(&words),
        _ => Err(no_command(&name)),
    }
}

fn no_command(name: &OsStr) -> Trouble {
    Trouble::new(names::shown(name), "there is no such command", commands())
}

fn commands() -> String {
    format!("it is {}; marks --help has more", listed(&COMMANDS.each_ref().map(|command| command.name), "or"))
}

/// The help of the command that is named first, if any: `help` itself asks for that of another. A command that there is not has none.
fn help(words: &Words) -> Result<Command, Trouble> {
    let command = match words.rest.iter().find(|word| *word != "help").or(words.rest.first()) {
        Some(name) => Some(name.to_str().and_then(manual::command).ok_or_else(|| no_command(name))?),
        None => None,
    };
    Ok(Command::Help(Help { command, short: words.only_by_letter("help") }))
}

/// Options without a command.
fn alone(words: &Words) -> Result<Command, Trouble> {
    match words.value_of("generate").and_then(OsStr::to_str) {
        Some(kind) => Ok(Command::Generate { kind: kind.to_string() }),
        None => Err(Trouble::new("command", "none is given", commands())),
    }
}

fn save(words: Words) -> Result<Command, Trouble> {
    let (hex, force) = (words.has("hex"), words.has("force"));
    let edition = if words.value_of("edition").is_some_and(|given| given == "1") { Edition::One } else { Edition::Two };
    let Ok([given, out]) = <[OsString; 2]>::try_from(words.rest) else {
        return Err(Trouble::new("save", "it takes a WORD and the file to write", "as in marks save -x 2e464954 fit.mark"));
    };
    Ok(Command::Save { word: Word { given, hex }, edition, out, force })
}

fn check(words: Words) -> Result<Command, Trouble> {
    if words.rest.is_empty() {
        return Err(Trouble::new("check", "no MARKFILE is given", "name the mark files to check, or - for standard input"));
    }
    Ok(Command::Check { files: words.rest })
}

fn show(words: Words) -> Result<Command, Trouble> {
    let others = ["failure", "storacle", "compact"];
    words.one_of("show", &others, "choose one")?;
    let dot = words.has("dot");
    let kind = match others.map(|long| words.has(long)) {
        [true, ..] => Kind::Failure,
        [_, true, _] => Kind::Storacle,
        [.., true] => Kind::Compact,
        _ => Kind::Factor,
    };
    let Ok([file]) = <[OsString; 1]>::try_from(words.rest) else {
        return Err(Trouble::new("show", "it takes one MARKFILE", "name one that marks save wrote, or - for standard input"));
    };
    Ok(Command::Show { file, kind, dot })
}
