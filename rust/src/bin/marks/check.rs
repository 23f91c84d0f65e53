//! `marks check`: whether mark files are good, what they find and of which edition they are, or where they are broken.

use crate::{
    dump, input, names,
    output::Output,
    trouble,
    word::{counted, mirror, quoted},
};
use marks::{LoadError, Mark};
use std::ffi::{OsStr, OsString};

/// Whether all that could be read are good.
pub fn check(files: &[OsString], output: &mut Output) -> bool {
    let mut good = true;
    for name in files {
        match input::mark_file(name) {
            Ok(file) => good &= judge(name, &file, output),
            Err(trouble) => output.complain(&trouble),
        }
    }
    good
}

/// Says what a file is. Whether it is good.
fn judge(name: &OsStr, file: &[u8], output: &mut Output) -> bool {
    let loaded = Mark::from_file(file);
    output.line(format_args!("{}: {}", names::shown(name), verdict(file, &loaded)));
    if let Err(error) = &loaded {
        show_place(file, *error, output);
    }
    loaded.is_ok()
}

fn verdict(file: &[u8], loaded: &Result<Mark, LoadError>) -> String {
    match loaded {
        Ok(mark) => {
            let (word, back) = (mark.word(), mirror(mark.word()));
            let held = if back == word { String::new() } else { format!("; it holds the mirror, {}", quoted(&back)) };
            // a good file begins with its edition, which is below 128 and so has one byte
            format!("good, finds {} (edition {}, {}{held})", quoted(word), file[0], counted(word.len(), "letter"))
        }
        Err(error) => format!("refused: {error}; {}", trouble::advice(error.refusal)),
    }
}

/// Where the file is broken, indented below its verdict.
fn show_place(file: &[u8], error: LoadError, output: &mut Output) {
    for line in error.offset.map(|offset| dump::lines(file, offset)).unwrap_or_default() {
        output.line(format_args!("  {line}"));
    }
}
