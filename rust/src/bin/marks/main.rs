//! marks: finds byte marks in files of any size, and saves, checks and shows them; lists the rides in broken files, and writes them out. The
//! proved library does the finding, listing, saving and loading; the program takes the command line apart, reads, prints, and says what went
//! wrong and what to do.
#![deny(unsafe_code)]

mod arguments;
mod check;
mod closed;
mod complete;
mod dot;
mod dump;
mod find;
mod help;
mod hex;
mod input;
mod json;
mod man;
mod manual;
mod names;
mod options;
mod oracle;
mod output;
mod place;
mod progress;
mod salvage;
mod save;
mod show;
mod trouble;
mod word;
mod wrap;

use arguments::Command;
use output::Output;
use std::{env, process::ExitCode};
use trouble::Trouble;

/// What the status says.
#[derive(PartialEq)]
enum Answer {
    /// Found, listed, all good, or done.
    Yes,
    No,
    /// Found, which was all that was asked for: trouble on the way does not matter.
    YesInAnyCase,
}

fn answer(yes: bool) -> Answer {
    if yes {
        Answer::Yes
    } else {
        Answer::No
    }
}

fn run(command: Command, output: &mut Output) -> Result<Answer, Trouble> {
    match command {
        Command::Nothing => output.usage(&help::usage()),
        Command::Help(help) => output.lines(&help.lines()),
        Command::Version => output.line(format_args!("marks {}", env!("CARGO_PKG_VERSION"))),
        Command::Generate { kind } => output.lines(&generated(&kind)),
        Command::Find(asked) if asked.is_quiet() => {
            return Ok(if find::find(asked, output)? { Answer::YesInAnyCase } else { Answer::No });
        }
        Command::Find(asked) => return find::find(asked, output).map(answer),
        Command::Salvage(asked) => return Ok(answer(salvage::salvage(&asked, output))),
        Command::Save { word, edition, out, force } => save::save(&word, edition, &out, force, output)?,
        Command::Check { files } => return Ok(answer(check::check(&files, output))),
        Command::Show { file, kind, dot } => show::show(&file, kind, dot, output)?,
    }
    Ok(Answer::Yes)
}

/// What `--generate` makes.
fn generated(kind: &str) -> Vec<String> {
    match kind {
        "man" => man::lines(),
        "complete-bash" => complete::bash::lines(),
        "complete-zsh" => complete::zsh::lines(),
        _ => complete::fish::lines(),
    }
}

/// The status is grep's: 0 for yes, 1 for no, 2 for any trouble.
fn main() -> ExitCode {
    let mut output = Output::new();
    let answer = arguments::command(env::args_os().skip(1)).and_then(|command| run(command, &mut output));
    let answer = answer.unwrap_or_else(|trouble| {
        output.complain(&trouble);
        Answer::No
    });
    match (output.close(), answer) {
        (_, Answer::YesInAnyCase) | (false, Answer::Yes) => ExitCode::SUCCESS,
        (false, Answer::No) => ExitCode::from(1),
        (true, _) => ExitCode::from(2),
    }
}
