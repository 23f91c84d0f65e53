//! The command line as a person uses it: the program is run in a folder of its own, and what it prints, complains of and ends with is
//! compared.

mod answers;
mod endings;
mod engines;
mod extract;
mod find;
mod folders;
mod help;
mod jobs;
mod mark_files;
mod places;
mod salvage;
mod save;
mod seams;
mod usage;
mod words;

#[path = "../fit/mod.rs"]
mod fit;

use std::{
    ffi::OsStr,
    fs,
    io::Write,
    os::unix::{fs::MetadataExt, process::CommandExt},
    path::PathBuf,
    process::{self, Command, Output, Stdio},
};

pub const MARKS: &str = env!("CARGO_BIN_EXE_marks");

/// The file of `abbbaab` finds its mirror.
pub const GOOD: &[u8] = b"\x01\x07abbbaab\x04\0\0\x01\x03\x01\x01\x01\0";

/// The same word's file of edition 2.
pub const CHECKED: &[u8] = b"\x02\x07abbbaab\x04\0\0\x01\x03\x01\x01\x01\0\xfe\x2f";

/// A number below a million as messages have it: 1,024.
pub fn told(number: usize) -> String {
    format!("{},{:03}", number / 1_000, number % 1_000)
}

/// A folder to run in, removed in the end. Tests run side by side, so each names its own.
pub struct Folder(PathBuf);

impl Folder {
    pub fn new(name: &str) -> Folder {
        let path = PathBuf::from(env!("CARGO_TARGET_TMPDIR")).join(format!("command-{name}-{}", process::id()));
        fs::create_dir_all(&path).unwrap();
        Folder(path)
    }

    pub fn with(self, name: &str, bytes: impl AsRef<[u8]>) -> Folder {
        fs::write(self.path(name), bytes).unwrap();
        self
    }

    pub fn path(&self, name: &str) -> PathBuf {
        self.0.join(name)
    }

    pub fn command(&self, program: &str) -> Command {
        let mut command = Command::new(program);
        command.current_dir(&self.0);
        command
    }

    /// Runs marks with nothing on standard input.
    pub fn marks<S: AsRef<OsStr>>(&self, words: &[S]) -> Said {
        Said::of(self.command(MARKS).args(words).stdin(Stdio::null()).output().unwrap())
    }

    /// Runs marks as somebody who has no right that a file does not give: root runs it as nobody. Nothing where nobody cannot reach the
    /// program.
    pub fn marks_unprivileged(&self, words: &[&str]) -> Option<Said> {
        let mut command = self.command(MARKS);
        if fs::metadata(&self.0).unwrap().uid() == 0 {
            command.uid(65_534);
        }
        match command.args(words).stdin(Stdio::null()).output() {
            Ok(output) => Some(Said::of(output)),
            Err(error) => {
                eprintln!("not tried: nobody cannot run the program here ({error})");
                None
            }
        }
    }

    pub fn marks_reading<S: AsRef<OsStr>>(&self, words: &[S], input: &[u8]) -> Said {
        let mut command = self.command(MARKS);
        let mut running = command.args(words).stdin(Stdio::piped()).stdout(Stdio::piped()).stderr(Stdio::piped()).spawn().unwrap();
        running.stdin.take().unwrap().write_all(input).unwrap();
        Said::of(running.wait_with_output().unwrap())
    }

    /// A line for the shell, `marks` in it being the program.
    pub fn shell(&self, line: &str) -> Said {
        let line = format!("marks() {{ '{MARKS}' \"$@\"; }}; {line}");
        Said::of(self.command("sh").args(["-c", &line]).stdin(Stdio::null()).output().unwrap())
    }
}

impl Drop for Folder {
    fn drop(&mut self) {
        let _ = fs::remove_dir_all(&self.0);
    }
}

/// What a run printed and complained of, and its status.
#[derive(Debug, PartialEq)]
pub struct Said {
    pub out: String,
    pub err: String,
    pub status: Option<i32>,
}

impl Said {
    fn of(output: Output) -> Said {
        let text = |bytes| String::from_utf8(bytes).unwrap();
        Said { out: text(output.stdout), err: text(output.stderr), status: output.status.code() }
    }

    /// It printed this, complained of nothing, and ended with this status.
    #[track_caller]
    pub fn is(&self, status: i32, out: &str) {
        self.is_with(status, out, "");
    }

    #[track_caller]
    pub fn is_with(&self, status: i32, out: &str, err: &str) {
        assert_eq!((self.out.as_str(), self.err.as_str(), self.status), (out, err, Some(status)));
    }
}
