//! The options of the command line, told from the other words: they stand anywhere, short ones may share a word, and `--` ends them.

use crate::{
    manual::{self, listed, Kind, Known, OPTIONS},
    names,
    trouble::Trouble,
    word::quoted,
};
use std::{
    ffi::{OsStr, OsString},
    os::unix::ffi::OsStrExt,
};

const LISTED: &str = "marks --help lists the options, and -- goes before a word that begins with - and is none";

/// An option that was given, and whether by its letter.
struct Given {
    known: &'static Known,
    by_letter: bool,
}

/// The words of a command line: the options in their order, with the values of those that take one, and the rest.
#[derive(Default)]
pub struct Words {
    options: Vec<Given>,
    values: Vec<(&'static str, OsString)>,
    pub rest: Vec<OsString>,
}

impl Words {
    pub fn of(mut words: impl Iterator<Item = OsString>) -> Result<Words, Trouble> {
        let mut told = Words::default();
        while let Some(word) = words.next() {
            match word.as_bytes() {
                b"--" => told.rest.extend(words.by_ref()),
                [b'-', b'-', long @ ..] => told.long(long, &mut words)?,
                [b'-', short, more @ ..] => told.short(*short, more, &mut words)?,
                _ => told.rest.push(word),
            }
        }
        Ok(told)
    }

    pub fn is_empty(&self) -> bool {
        self.options.is_empty() && self.rest.is_empty()
    }

    pub fn has(&self, long: &str) -> bool {
        self.options.iter().any(|given| given.known.long == long)
    }

    /// Whether the option is given, and each time by its letter.
    pub fn only_by_letter(&self, long: &str) -> bool {
        self.has(long) && self.options.iter().all(|given| given.known.long != long || given.by_letter)
    }

    /// The value of an option that was given one.
    pub fn value_of(&self, long: &str) -> Option<&OsStr> {
        self.values.iter().find(|(name, _)| *name == long).map(|(_, value)| value.as_os_str())
    }

    /// The number that an option was given, which must be among these.
    pub fn number_of(&self, long: &str, among: std::ops::RangeInclusive<u64>) -> Result<Option<u64>, Trouble> {
        let Some(value) = self.value_of(long) else { return Ok(None) };
        let number = value.to_str().filter(|text| text.bytes().all(|byte| byte.is_ascii_digit())).and_then(|text| text.parse().ok());
        match number.filter(|number| among.contains(number)) {
            Some(number) => Ok(Some(number)),
            None => Err(wrong_value(manual::option(long), value)),
        }
    }

    /// The last of two options that contradict each other: whether it is the first of them.
    pub fn last_of(&self, yes: &str, no: &str) -> Option<bool> {
        let last = self.options.iter().rev().find(|given| given.known.long == yes || given.known.long == no);
        last.map(|given| given.known.long == yes)
    }

    /// Every option is one of this command's.
    pub fn all_of(&self, command: &str) -> Result<(), Trouble> {
        let stranger = self.options.iter().map(|given| given.known).find(|known| !known.is_for(Some(command)));
        match stranger {
            Some(known) if known.commands.is_empty() => {
                Err(Trouble::new(command, format!("--{} stands without a command", known.long), "leave one of them out"))
            }
            Some(known) => Err(Trouble::new(command, format!("--{} is for {}", known.long, listed(known.commands, "and")), "leave it out")),
            None => Ok(()),
        }
    }

    /// Of the options that make no sense together, only one is given.
    pub fn one_of(&self, command: &str, longs: &[&str], why: &str) -> Result<(), Trouble> {
        let given: Vec<String> = longs.iter().filter(|long| self.has(long)).map(|long| manual::option(long).spelled()).collect();
        match &given[..] {
            [first, second, ..] => Err(Trouble::new(command, format!("both {first} and {second} are given"), why)),
            _ => Ok(()),
        }
    }

    /// `--name`, `--name=value` or `--name value`.
    fn long(&mut self, word: &[u8], words: &mut impl Iterator<Item = OsString>) -> Result<(), Trouble> {
        let (name, value) = match word.iter().position(|byte| *byte == b'=') {
            Some(at) => (&word[..at], Some(&word[at + 1..])),
            None => (word, None),
        };
        let known = known(&[b"--", name].concat(), |known| known.long.as_bytes() == name)?;
        if value.is_some() && known.value.is_none() {
            return Err(Trouble::new(format!("--{}", known.long), "it takes no value", "leave = and what follows out"));
        }
        self.take(Given { known, by_letter: false }, value, words)
    }

    /// `-a`, `-abc`, `-mVALUE` or `-m VALUE`.
    fn short(&mut self, first: u8, more: &[u8], words: &mut impl Iterator<Item = OsString>) -> Result<(), Trouble> {
        let known = known(&[b'-', first], |known| known.short == Some(first))?;
        let given = Given { known, by_letter: true };
        match more {
            [second, others @ ..] if known.value.is_none() => {
                self.take(given, None, words)?;
                self.short(*second, others, words)
            }
            [] => self.take(given, None, words),
            value => self.take(given, Some(value), words),
        }
    }

    fn take(&mut self, given: Given, value: Option<&[u8]>, words: &mut impl Iterator<Item = OsString>) -> Result<(), Trouble> {
        let known = given.known;
        self.options.push(given);
        let Some(of) = known.value else { return Ok(()) };
        let value = value.map(|value| OsStr::from_bytes(value).to_os_string()).or_else(|| words.next());
        let value = value.ok_or_else(|| Trouble::new(known.spelled(), of.missing, of.advice()))?;
        if self.value_of(known.long).is_some() {
            return Err(Trouble::new(known.spelled(), "it is given twice", of.advice_of_two));
        }
        if matches!(of.kind, Kind::OneOf(names) if !names.iter().any(|name| value == **name)) {
            return Err(wrong_value(known, &value));
        }
        self.values.push((known.long, value));
        Ok(())
    }
}

fn wrong_value(known: &Known, value: &OsStr) -> Trouble {
    let advice = known.value.map(|of| of.advice()).unwrap_or_default();
    Trouble::new(known.spelled(), format!("it cannot be {}", quoted(value.as_bytes())), advice)
}

fn known(spelled: &[u8], is: impl Fn(&Known) -> bool) -> Result<&'static Known, Trouble> {
    let unknown = || Trouble::new(names::shown(OsStr::from_bytes(spelled)), "there is no such option", LISTED);
    OPTIONS.iter().find(|known| is(known)).ok_or_else(unknown)
}
