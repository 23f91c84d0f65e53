//! Completions for the shells: commands, the options of the command at hand, the names that a value may be, files.

pub mod bash;
pub mod fish;
pub mod zsh;

use crate::manual::{Known, COMMANDS, OPTIONS};

/// The names of the commands.
fn names() -> Vec<&'static str> {
    COMMANDS.iter().map(|command| command.name).collect()
}

/// The options for which something holds, in each of their spellings.
fn spelled(is: impl Fn(&Known) -> bool) -> Vec<String> {
    OPTIONS.iter().filter(|known| is(known)).flat_map(spellings).collect()
}

fn spellings(known: &Known) -> Vec<String> {
    let letter = known.short.map(|letter| format!("-{}", char::from(letter)));
    letter.into_iter().chain([format!("--{}", known.long)]).collect()
}
