//! The help, for a screen of 80 columns: of the program or of a command, in short or whole.

use crate::{
    manual::{Command, Known, COMMANDS, EXAMPLES, ONE_LINE, OPTIONS, SECTIONS, STATUS},
    wrap::wrapped,
};

/// Where the text behind an option begins.
const TEXT: usize = 28;

/// The help that is asked for.
pub struct Help {
    pub command: Option<&'static Command>,
    pub short: bool,
}

impl Help {
    pub fn lines(&self) -> Vec<String> {
        match (self.command, self.short) {
            (None, true) => usage(),
            (None, false) => whole(),
            (Some(command), true) => in_short(command),
            (Some(command), false) => of_command(command),
        }
    }
}

/// What there is, on a few lines.
pub fn usage() -> Vec<String> {
    let mut lines = vec![format!("marks {ONE_LINE}."), String::new()];
    lines.extend(aligned(&COMMANDS.iter().flat_map(forms).collect::<Vec<_>>()));
    lines.extend(["", "marks find -h has the options of find, marks --help has all."].map(str::to_string));
    lines
}

fn whole() -> Vec<String> {
    let mut lines = usage();
    lines.truncate(lines.len() - 2);
    for command in COMMANDS.iter().filter(|command| own(command).next().is_some()) {
        lines.extend([String::new(), format!("Options of {}:", command.name)]);
        lines.extend(own(command).map(option));
    }
    lines.extend([String::new(), "Other options:".to_string()]);
    lines.extend(OPTIONS.iter().filter(|known| known.is_for(None)).map(option));
    for (title, paragraphs) in SECTIONS {
        lines.extend([String::new(), sentence_case(title) + ":"]);
        lines.extend(paragraphs.iter().flat_map(|text| wrapped(text, 2)));
    }
    lines.extend(endings());
    lines
}

fn in_short(command: &Command) -> Vec<String> {
    let mut lines = aligned(&forms(command));
    lines.push(String::new());
    lines.extend(OPTIONS.iter().filter(|known| known.is_for(Some(command.name))).map(option));
    lines
}

fn of_command(command: &Command) -> Vec<String> {
    let mut lines = aligned(&forms(command));
    for paragraph in command.more {
        lines.push(String::new());
        lines.extend(wrapped(paragraph, 0));
    }
    lines.push(String::new());
    for known in OPTIONS.iter().filter(|known| known.is_for(Some(command.name))) {
        lines.push(option(known));
        lines.extend(known.paragraph().iter().flat_map(|text| wrapped(text, 10)));
    }
    lines.extend([String::new(), "marks --help has words, names, mark files, status and examples.".to_string()]);
    lines
}

/// The options that are a command's and not everyone's.
fn own(command: &Command) -> impl Iterator<Item = &'static Known> + '_ {
    OPTIONS.iter().filter(|known| known.is_for(Some(command.name)) && !known.is_for_all())
}

fn forms(command: &Command) -> Vec<(String, &'static str)> {
    command.forms.iter().map(|(words, text)| (format!("marks {} {words}", command.name), *text)).collect()
}

fn endings() -> Vec<String> {
    let mut lines = vec![String::new(), "Status:".to_string()];
    lines.extend(aligned(&STATUS.map(|(status, text)| (status.to_string(), text))));
    lines.extend([String::new(), "Examples:".to_string()]);
    lines.extend(EXAMPLES.iter().flat_map(|(line, text)| [format!("  {line}"), format!("      {text}")]));
    lines
}

/// `-m, --mark MARKFILE   find what this mark file finds`
fn option(known: &Known) -> String {
    let letter = known.short.map(|letter| format!("-{},", char::from(letter))).unwrap_or_default();
    let value = known.value.map(|value| format!(" {}", value.name)).unwrap_or_default();
    format!("{:TEXT$}{}", format!("  {letter:3} --{}{value}", known.long), known.line)
}

/// Two columns.
fn aligned(rows: &[(String, &'static str)]) -> Vec<String> {
    let width = rows.iter().map(|(left, _)| left.len()).max().unwrap_or(0);
    rows.iter().map(|(left, right)| format!("  {left:width$}  {right}")).collect()
}

fn sentence_case(title: &str) -> String {
    title[..1].to_string() + &title[1..].to_lowercase()
}
