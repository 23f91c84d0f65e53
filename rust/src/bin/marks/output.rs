//! What the program says: answers on standard output, troubles and the progress line on standard error, in the order in which they come.

use crate::{closed, progress::Progress, trouble::Trouble};
use std::{
    fmt,
    io::{self, BufWriter, ErrorKind, StdoutLock, Write},
    process,
};

pub struct Output {
    out: BufWriter<Standard>,
    progress: Progress,
    troubled: bool,
}

impl Output {
    pub fn new() -> Output {
        let out = if closed::output_was_closed() { Standard::Closed } else { Standard::Open(io::stdout().lock()) };
        Output { out: BufWriter::with_capacity(65_536, out), progress: Progress::new(), troubled: false }
    }

    pub fn line(&mut self, text: fmt::Arguments<'_>) {
        self.progress.erase();
        let written = writeln!(self.out, "{text}");
        self.go_on(written);
    }

    pub fn lines(&mut self, lines: &[String]) {
        for line in lines {
            self.line(format_args!("{line}"));
        }
    }

    /// What there is to ask for, said to somebody who asked for nothing.
    pub fn usage(&mut self, lines: &[String]) {
        self.troubled = true;
        for line in lines {
            let _ = writeln!(io::stderr(), "{line}");
        }
    }

    pub fn bytes(&mut self, bytes: &[u8]) {
        self.progress.erase();
        let written = self.out.write_all(bytes);
        self.go_on(written);
    }

    /// So far has a file been read: what was found in it is shown, and the progress line behind it.
    pub fn reached(&mut self, name: &str, read: u64, size: Option<u64>) {
        self.flush();
        self.progress.tick(name, read, size);
    }

    pub fn complain(&mut self, trouble: &Trouble) {
        self.troubled = true;
        self.note(format_args!("{trouble}"));
    }

    /// A line on standard error, behind the answers that came before it.
    pub fn note(&mut self, text: fmt::Arguments<'_>) {
        self.flush();
        self.progress.erase();
        // what cannot be said is trouble, too
        self.troubled |= writeln!(io::stderr(), "marks: {text}").is_err();
    }

    /// The end of all output. Whether there was trouble.
    pub fn close(mut self) -> bool {
        self.flush();
        self.progress.erase();
        self.troubled
    }

    pub fn flush(&mut self) {
        let written = self.out.flush();
        self.go_on(written);
    }

    /// A write that failed ends the program: quietly where the reader of a pipe went away, with the status that a shell gives of grep then
    /// (128 and SIGPIPE's 13).
    fn go_on(&mut self, written: io::Result<()>) {
        let Err(error) = written else { return };
        self.progress.erase();
        if error.kind() == ErrorKind::BrokenPipe {
            process::exit(141);
        }
        let trouble = match self.out.get_ref() {
            Standard::Open(_) => Trouble::writing("(standard output)".to_string(), &error),
            Standard::Closed => Trouble::new("(standard output)", "it is closed", "leave >&- out, or give it a file or a pipe to write to"),
        };
        let _ = writeln!(io::stderr(), "marks: {trouble}");
        process::exit(2);
    }
}

/// Standard output, or that there is none.
enum Standard {
    Open(StdoutLock<'static>),
    Closed,
}

impl Write for Standard {
    fn write(&mut self, bytes: &[u8]) -> io::Result<usize> {
        match self {
            Standard::Open(out) => out.write(bytes),
            Standard::Closed => Err(ErrorKind::NotConnected.into()),
        }
    }

    fn flush(&mut self) -> io::Result<()> {
        match self {
            Standard::Open(out) => out.flush(),
            Standard::Closed => Ok(()),
        }
    }
}
