//! All that the program says of itself, said once: its commands, its options, and what else there is to know. The help, the man page and
//! the completions are made of it, and so is what the command line may hold.

mod commands;
mod notes;
mod options;
mod values;

pub use commands::COMMANDS;
pub use notes::{DATE, DESCRIPTION, EXAMPLES, ONE_LINE, SECTIONS, STATUS};
pub use options::OPTIONS;

pub struct Command {
    pub name: &'static str,
    /// The ways to call it: what stands behind its name, and what that does.
    pub forms: &'static [(&'static str, &'static str)],
    /// Paragraphs.
    pub more: &'static [&'static str],
    /// Whether its words that are no options are commands, not files.
    pub of_commands: bool,
}

/// An option, by its letter and its long name, the value that it takes, and the commands that it is for.
pub struct Known {
    pub short: Option<u8>,
    pub long: &'static str,
    pub value: Option<Value>,
    pub commands: &'static [&'static str],
    pub line: &'static str,
    pub more: &'static str,
}

/// The value of an option: its name, what it may be, and what is said where it is missing, wrong, or one too many.
#[derive(Clone, Copy)]
pub struct Value {
    pub name: &'static str,
    pub kind: Kind,
    pub missing: &'static str,
    pub advice: &'static str,
    pub advice_of_two: &'static str,
}

#[derive(Clone, Copy, PartialEq)]
pub enum Kind {
    File,
    Number,
    OneOf(&'static [&'static str]),
}

impl Value {
    /// What it should be.
    pub fn advice(&self) -> String {
        match self.kind {
            Kind::OneOf(names) => format!("it is {}", listed(names, "or")),
            _ => self.advice.to_string(),
        }
    }
}

impl Known {
    /// What there is to say beyond its line, if anything: the names that its value may be, too.
    pub fn paragraph(&self) -> Option<String> {
        let names = match self.value {
            Some(Value { name, kind: Kind::OneOf(names), .. }) => format!("{name} is {}. ", listed(names, "or")),
            _ => String::new(),
        };
        Some(names + self.more).filter(|text| !text.is_empty())
    }

    /// As messages name it: by its letter, where it has one.
    pub fn spelled(&self) -> String {
        match self.short {
            Some(letter) => format!("-{}", char::from(letter)),
            None => format!("--{}", self.long),
        }
    }

    /// Whether a command line with this command, or without any, may have it.
    pub fn is_for(&self, command: Option<&str>) -> bool {
        match command {
            Some(command) => self.commands.contains(&command),
            None => self.commands.is_empty() || self.is_for_all(),
        }
    }

    pub fn is_for_all(&self) -> bool {
        COMMANDS.iter().all(|command| self.commands.contains(&command.name))
    }
}

pub fn option(long: &str) -> &'static Known {
    OPTIONS.iter().find(|known| known.long == long).expect("the program asks for options of the table")
}

pub fn command(name: &str) -> Option<&'static Command> {
    COMMANDS.iter().find(|command| command.name == name)
}

/// Names in a sentence: `a, b or c`.
pub fn listed(names: &[&str], last: &str) -> String {
    match names {
        [one] => one.to_string(),
        [first @ .., end] => format!("{} {last} {end}", first.join(", ")),
        [] => String::new(),
    }
}
