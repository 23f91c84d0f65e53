//! `marks salvage`: the rides in each file by their headers, whole or cut; and each as a file of its own, where that is asked for.

mod asked;
mod extract;
mod limits;
mod lines;
mod spans;
mod text;

use crate::{names, output::Output, trouble::Trouble};
use extract::Extract;
use lines::{Lines, Style};
use spans::Spans;
use std::{
    cell::RefCell,
    ffi::{OsStr, OsString},
};
use text::Text;

/// What the command line asks for.
pub struct Asked {
    files: Vec<OsString>,
    style: Style,
    /// Whether a header that declares no data is taken for one whose size nobody has written.
    unsized_too: bool,
    extract: Option<Extract>,
}

/// Whether a ride was listed. A bad file is said and the next one is taken.
pub fn salvage(asked: &Asked, output: &mut Output) -> bool {
    let (output, mut listed) = (RefCell::new(output), false);
    for name in &asked.files {
        let told = of_file(name, asked, &output);
        listed |= told.unwrap_or_else(|trouble| {
            output.borrow_mut().complain(&trouble);
            false
        });
    }
    listed
}

/// Lists the rides of a file, each once it is written, where it is to be. Whether there is one.
fn of_file(name: &OsStr, asked: &Asked, output: &RefCell<&mut Output>) -> Result<bool, Trouble> {
    let shown = names::shown(name);
    let reached = |at, length| output.borrow_mut().reached(&shown, at, length);
    let text = Text::open(name, &reached)?;
    let spans = || Spans::of(&text, asked.unsized_too);
    let mut writer = asked.extract.as_ref().map(|extract| extract.prepare(&text, spans())).transpose()?;
    let (lines, mut spans, mut listed) = (Lines::new(name, &asked.style), spans(), false);
    while let Some(span) = spans.next() {
        let span = span.map_err(|error| text.unreadable(&error, spans.read()))?;
        let out = writer.as_mut().map(|writer| writer.write(&span)).transpose()?;
        output.borrow_mut().bytes(&lines.ride(&span, out.as_deref()));
        listed = true;
    }
    Ok(listed)
}
