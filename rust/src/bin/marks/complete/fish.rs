//! For fish.

use super::names;
use crate::manual::{Kind, Known, COMMANDS, OPTIONS};

pub fn lines() -> Vec<String> {
    let mut lines =
        vec!["# Completions of marks for fish: marks --generate complete-fish > ~/.config/fish/completions/marks.fish".to_string()];
    for command in &COMMANDS {
        let of = COMMANDS.iter().filter(|command| command.of_commands).map(|command| seen(&[command.name]));
        for when in of.chain([format!("not {}", seen(&names()))]) {
            lines.push(format!("complete -c marks -n {} -f -a {} -d {}", quoted(&when), command.name, quoted(command.forms[0].1)));
        }
    }
    lines.extend(OPTIONS.iter().map(option));
    lines
}

fn option(known: &Known) -> String {
    let when = match known.commands {
        _ if known.is_for_all() => String::new(),
        [] => format!(" -n {}", quoted(&format!("not {}", seen(&names())))),
        commands => format!(" -n {}", quoted(&seen(commands))),
    };
    let letter = known.short.map(|letter| format!(" -s {}", char::from(letter))).unwrap_or_default();
    let value = match known.value.map(|value| value.kind) {
        None => String::new(),
        Some(Kind::File) => " -r -F".to_string(),
        Some(Kind::Number) => " -x".to_string(),
        Some(Kind::OneOf(names)) => format!(" -x -a {}", quoted(&names.join(" "))),
    };
    format!("complete -c marks{when}{letter} -l {}{value} -d {}", known.long, quoted(known.line))
}

/// That one of these commands stands on the line.
fn seen(commands: &[&str]) -> String {
    format!("__fish_seen_subcommand_from {}", commands.join(" "))
}

fn quoted(text: &str) -> String {
    format!("'{}'", text.replace('\\', "\\\\").replace('\'', "\\'"))
}
