//! One file after the other, each answer printed as it is found.

use super::{
    lines::Style,
    search::{self, Listener, Said},
};
use crate::{names, output::Output, trouble::Trouble};
use marks::Mark;
use std::{
    cell::{Cell, RefCell},
    ffi::OsString,
};

/// Whether anything was found.
pub fn find(mark: &Mark, files: impl Iterator<Item = Result<OsString, Trouble>>, style: &Style, output: &mut Output) -> bool {
    let (output, found) = (RefCell::new(output), Cell::new(false));
    for file in files {
        match file {
            Ok(name) => search::search(mark, &name, style, &Direct { shown: names::shown(&name), output: &output, found: &found }),
            Err(trouble) => output.borrow_mut().complain(&trouble),
        }
        if style.is_quiet() && found.get() {
            break;
        }
    }
    found.get()
}

struct Direct<'a, 'o> {
    shown: String,
    output: &'a RefCell<&'o mut Output>,
    found: &'a Cell<bool>,
}

impl Listener for Direct<'_, '_> {
    fn hear(&self, said: Said) -> bool {
        self.found.set(said.print(&mut self.output.borrow_mut()) || self.found.get());
        true
    }

    fn reached(&self, read: u64, size: Option<u64>) -> bool {
        self.output.borrow_mut().reached(&self.shown, read, size);
        true
    }
}
