//! `marks show`: the oracle in a mark file, its compact rows, or the failure oracle or the storacle of the same word, as a table or as text
//! for a picture.

use crate::{
    dot, input, names,
    oracle::{Kind, Oracle},
    output::Output,
    trouble::Trouble,
    word::{counted, letter, mirror, quoted},
};
use marks::{compact_sets_room, compact_targets_room, table_room, LoadError, Refusal};
use std::ffi::OsStr;

/// The columns of a screen.
const SCREEN: usize = 80;

pub fn show(name: &OsStr, kind: Kind, as_dot: bool, output: &mut Output) -> Result<(), Trouble> {
    let file = input::mark_file(name)?;
    let oracle = Oracle::of_file(&file, kind).map_err(|error| refused(names::shown(name), error))?;
    let lines = if as_dot { dot::lines(&oracle) } else { table(&oracle, file.len()) };
    for line in lines {
        output.line(format_args!("{line}"));
    }
    Ok(())
}

/// A file's word is within every limit but that of a storacle.
fn refused(of: String, error: LoadError) -> Trouble {
    match error.refusal {
        Refusal::LongWord => Trouble::new(of, error.to_string(), "leave --storacle out, which is for marks of 2 to 128 bytes"),
        _ => Trouble::refused(of, error),
    }
}

fn table(oracle: &Oracle, size: usize) -> Vec<String> {
    let held = oracle.word();
    let order = if oracle.kind == Kind::Compact { "by rising letter" } else { "the spine's first" };
    let mut lines = vec![
        format!("finds  {}", quoted(&mirror(&held))),
        format!("holds  {}, its mirror, because the search reads backward", quoted(&held)),
        format!("size   {}", numbers(oracle, size)),
    ];
    if oracle.kind == Kind::Compact {
        lines.push(format!("memory {}", memory(held.len())));
    }
    lines.extend([String::new(), format!("state  letter{}  arrows out: letter>state, {order}", columns(oracle))]);
    for state in oracle.states() {
        lines.extend(rows(oracle, state).iter().map(|row| row.trim_end().to_string()));
    }
    lines
}

/// How much of everything there is.
fn numbers(oracle: &Oracle, size: usize) -> String {
    let (letters, arrows) =
        (counted(oracle.word().len(), "letter"), oracle.states().map(|state| oracle.arrows(state).len()).sum::<usize>());
    match oracle.kind {
        Kind::Factor => format!("{}, {letters}, {}", counted(size, "byte"), counted(arrows, "arrow")),
        Kind::Storacle | Kind::Compact => format!("{letters}, {}", counted(arrows, "arrow")),
        Kind::Failure => {
            let failures = oracle.states().filter_map(|state| oracle.failure(state)).count();
            format!("{letters}, {}, {}", counted(arrows, "symbol arrow"), counted(failures, "failure arrow"))
        }
    }
}

/// The bytes of both forms of an oracle of m letters.
fn memory(m: usize) -> String {
    let (sets, targets, table) = (8 * compact_sets_room(m), 2 * compact_targets_room(m), 2 * table_room(m));
    format!("{sets} bytes of sets and {targets} of targets, where the first form has {table}")
}

/// The names of the columns between letter and arrows, each behind the space that sets it apart.
fn columns(oracle: &Oracle) -> &'static str {
    match oracle.kind {
        Kind::Factor => "  supply",
        Kind::Failure => "  failure",
        Kind::Storacle => "",
        Kind::Compact => "  supply  start",
    }
}

/// One state: a row, and more below it where its arrows are many.
fn rows(oracle: &Oracle, state: usize) -> Vec<String> {
    let into = oracle.letter(state).map(letter).unwrap_or_default();
    let other = oracle.supply(state).or(oracle.failure(state)).map(|state| state.to_string()).unwrap_or_default();
    let start = oracle.start(state).map(|start| format!("  {start:>5}")).unwrap_or_default();
    let width = columns(oracle).len() - start.len();
    let mut rows = vec![format!("{state:>5}  {into:<6}{other:>width$}{start}")];
    let front = rows[0].len();
    for (on, target) in oracle.arrows(state) {
        let arrow = format!("  {}>{target}", letter(on));
        if rows[rows.len() - 1].len() + arrow.len() > SCREEN {
            rows.push(" ".repeat(front));
        }
        rows.last_mut().expect("there is a row").push_str(&arrow);
    }
    rows
}
