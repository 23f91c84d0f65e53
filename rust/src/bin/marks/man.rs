//! The man page, in roff.

use crate::{
    manual::{Command, Known, COMMANDS, DATE, DESCRIPTION, EXAMPLES, ONE_LINE, OPTIONS, SECTIONS, STATUS},
    wrap::wrapped,
};

pub fn lines() -> Vec<String> {
    let mut lines = vec![format!(".TH MARKS 1 {DATE} \"marks {}\" \"User Commands\"", env!("CARGO_PKG_VERSION"))];
    lines.extend(section("NAME", [format!("marks \\- {}", text(ONE_LINE))]));
    lines.extend(section("SYNOPSIS", synopsis()));
    lines.extend(section("DESCRIPTION", [text(DESCRIPTION)]));
    lines.extend(section("COMMANDS", COMMANDS.iter().flat_map(command)));
    lines.extend(section("OPTIONS", OPTIONS.iter().flat_map(option)));
    for (title, paragraphs) in SECTIONS {
        lines.extend(section(title, separated(paragraphs)));
    }
    lines.extend(section("EXIT STATUS", STATUS.iter().flat_map(|(status, when)| item(&bold(status), when))));
    lines.extend(section("EXAMPLES", EXAMPLES.iter().flat_map(|(line, what)| item(&bold(line), what))));
    lines
}

fn section(title: &str, body: impl IntoIterator<Item = String>) -> Vec<String> {
    let mut lines = vec![format!(".SH {title}")];
    lines.extend(body);
    lines
}

fn synopsis() -> Vec<String> {
    let forms = COMMANDS.iter().flat_map(|command| command.forms.iter().map(move |(words, _)| (command, *words)));
    let mut lines: Vec<String> = forms.flat_map(|(command, words)| [call(command, words), ".br".to_string()]).collect();
    lines.push(format!("{} \\fIKIND\\fR", bold("marks --generate")));
    lines
}

fn call(command: &Command, words: &str) -> String {
    let options =
        if OPTIONS.iter().any(|known| known.is_for(Some(command.name)) && !known.is_for_all()) { " [\\fIOPTION\\fR].." } else { "" };
    format!("{}{options} \\fI{}\\fR", bold(&format!("marks {}", command.name)), text(words))
}

fn command(command: &Command) -> Vec<String> {
    let mut lines = Vec::new();
    for (words, line) in command.forms {
        lines.extend(item(&format!("{} \\fI{}\\fR", bold(command.name), text(words)), &sentence(line)));
    }
    lines.extend(command.more.iter().flat_map(|paragraph| [".IP".to_string(), text(paragraph)]));
    lines
}

fn option(known: &Known) -> Vec<String> {
    let letter = known.short.map(|letter| bold(&format!("-{}", char::from(letter))) + ", ").unwrap_or_default();
    let value = known.value.map(|value| format!(" \\fI{}\\fR", value.name)).unwrap_or_default();
    let whose = match (known.is_for_all(), known.commands) {
        (true, _) | (_, []) => String::new(),
        (_, commands) => format!(" ({})", commands.join(", ")),
    };
    let mut lines = item(&format!("{letter}{}{value}{whose}", bold(&format!("--{}", known.long))), &sentence(known.line));
    lines.extend(known.paragraph().map(|paragraph| text(&paragraph)));
    lines
}

fn item(head: &str, body: &str) -> Vec<String> {
    vec![".TP".to_string(), head.to_string(), text(body)]
}

fn separated(paragraphs: &[&str]) -> Vec<String> {
    let mut lines: Vec<String> = paragraphs.iter().flat_map(|paragraph| [text(paragraph), ".PP".to_string()]).collect();
    lines.pop();
    lines
}

fn bold(plain: &str) -> String {
    format!("\\fB{}\\fR", text(plain))
}

fn sentence(line: &str) -> String {
    let mut letters = line.chars();
    let first: String = letters.next().map(|letter| letter.to_uppercase().collect()).unwrap_or_default();
    format!("{first}{}.", letters.as_str())
}

/// Plain text, in lines of which none is taken for a request.
fn text(plain: &str) -> String {
    let lines = wrapped(&spelled(plain), 0).into_iter().map(|line| if line.starts_with('.') { format!("\\&{line}") } else { line });
    lines.collect::<Vec<_>>().join("\n")
}

/// What means something in roff, so that it stands for itself.
fn spelled(plain: &str) -> String {
    let mut out = String::new();
    for letter in plain.chars() {
        match letter {
            '\\' => out.push_str("\\e"),
            '-' => out.push_str("\\-"),
            '\'' => out.push_str("\\(aq"),
            '`' => out.push_str("\\(ga"),
            '"' => out.push_str("\\(dq"),
            '~' => out.push_str("\\(ti"),
            '^' => out.push_str("\\(ha"),
            _ => out.push(letter),
        }
    }
    out
}
