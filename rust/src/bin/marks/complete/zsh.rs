//! For zsh, by its `_arguments`.

use super::names;
use crate::manual::{Command, Kind, Known, COMMANDS, OPTIONS};

pub fn lines() -> Vec<String> {
    let mut lines: Vec<String> = FRONT.replace("COMMANDS", &names().join("|")).lines().map(str::to_string).collect();
    for command in &COMMANDS {
        let operands = if command.of_commands { commands() } else { "'*:file:_files'".to_string() };
        lines.extend(arguments(command.name, Some(command), &["'1: :'".to_string(), operands.replacen("'1:", "'2:", 1)]));
    }
    lines.extend(arguments("*", None, &[commands()]));
    lines.extend(BACK.lines().map(str::to_string));
    lines
}

/// The case of a command, or of none so far.
fn arguments(pattern: &str, command: Option<&Command>, operands: &[String]) -> Vec<String> {
    let options = OPTIONS.iter().filter(|known| known.is_for(command.map(|command| command.name)));
    let mut lines = vec![format!("        ({pattern})"), "            _arguments -s -S \\".to_string()];
    lines.extend(options.flat_map(specs).chain(operands.iter().cloned()).map(|spec| format!("                {spec} \\")));
    lines.extend(["                && return 0".to_string(), "            ;;".to_string()]);
    lines
}

/// An option in each of its spellings, of which one is enough.
fn specs(known: &Known) -> Vec<String> {
    let text = quoted(known.line);
    let value = match known.value {
        None => String::new(),
        Some(value) => format!(":{}:{}", value.name, offered(value.kind)),
    };
    let [by_letter, by_name] = if known.value.is_some() { ["+", "="] } else { ["", ""] };
    match known.short.map(char::from) {
        None => vec![format!("'--{}{by_name}[{text}]{value}'", known.long)],
        Some(letter) => {
            let other = format!("(-{letter} --{})", known.long);
            vec![format!("'{other}-{letter}{by_letter}[{text}]{value}'"), format!("'{other}--{}{by_name}[{text}]{value}'", known.long)]
        }
    }
}

fn offered(kind: Kind) -> String {
    match kind {
        Kind::File => "_files".to_string(),
        Kind::Number => " ".to_string(),
        Kind::OneOf(names) => format!("({})", names.join(" ")),
    }
}

fn commands() -> String {
    let each = COMMANDS.iter().map(|command| format!("{}\\:\"{}\"", command.name, quoted(command.forms[0].1)));
    format!("'1:command:(({}))'", each.collect::<Vec<_>>().join(" "))
}

/// A text inside single quotes and brackets.
fn quoted(text: &str) -> String {
    let mut out = String::new();
    for letter in text.chars() {
        match letter {
            '\'' => out.push_str("'\\''"),
            '[' | ']' | ':' | '\\' => out.extend(['\\', letter]),
            _ => out.push(letter),
        }
    }
    out
}

const FRONT: &str = r#"#compdef marks
# Completions of marks for zsh: a file _marks in a folder of $fpath, or in the shell at hand: source <(marks --generate complete-zsh)
_marks() {
    local word command=''
    for word in "${(@)words[2,CURRENT-1]}"; do
        case $word in
            (COMMANDS) command=$word; break ;;
        esac
    done
    case $command in
"#;

const BACK: &str = r#"    esac
    return 1
}

if [ "$funcstack[1]" = _marks ]; then
    _marks "$@"
else
    compdef _marks marks
fi
"#;
