//! How a run ends when its output is no longer wanted or cannot be written, and the progress line on a terminal.

use crate::{fit, Folder, MARKS};
use std::{
    fs::File,
    io::{BufRead, BufReader, Read},
    process::Stdio,
};

#[test]
fn a_closed_pipe_ends_it_quietly() {
    let here = Folder::new("closed").with("many", [b'a'; 1_000_000]).with("rides", fit::ride(12, b"").repeat(100_000));
    let cases: [(&[&str], &str); 3] = [
        (&["find", "-I", "-j1", "a", "many", "many"], "0\n"),
        (&["find", "-I", "-j2", "a", "many", "many"], "0\n"),
        (&["salvage", "rides"], "0 whole 14 14\n"),
    ];
    for (words, line) in cases {
        let mut command = here.command(MARKS);
        let mut running = command.args(words).stdout(Stdio::piped()).stderr(Stdio::piped()).spawn().unwrap();
        let mut first = String::new();
        BufReader::with_capacity(16, running.stdout.take().unwrap()).read_line(&mut first).unwrap();
        let (status, mut err) = (running.wait().unwrap(), String::new());
        running.stderr.take().unwrap().read_to_string(&mut err).unwrap();
        // 141 is what a shell says of grep
        assert_eq!((first.as_str(), err.as_str(), status.code()), (line, "", Some(141)));
    }
}

#[test]
fn an_output_that_is_full_is_trouble() {
    let here = Folder::new("full").with("ride", "ababa").with("good", b"\x01\x02aa\0").with("rides", fit::ride(12, b""));
    for words in
        [&["find", "aba", "ride"][..], &["salvage", "rides"], &["check", "good"], &["show", "good"], &["save", "aa", "-"], &["--help"]]
    {
        let output = here.command(MARKS).args(words).stdout(File::create("/dev/full").unwrap()).output().unwrap();
        let err = String::from_utf8(output.stderr).unwrap();
        let said = "marks: (standard output): the disk is full; make room and run it again, for what was written is not whole\n";
        assert_eq!((err.as_str(), output.status.code()), (said, Some(2)), "{words:?}");
    }
}

#[test]
fn an_output_that_is_closed_is_trouble_where_something_is_to_be_written() {
    let here = Folder::new("no-output").with("ride", "ababa").with("good", b"\x01\x02aa\0").with("rides", fit::ride(12, b""));
    let closed = "it is closed; leave >&- out, or give it a file or a pipe to write to";
    for line in [
        "find aba ride",
        "find -j2 aba ride ride",
        "salvage rides",
        "salvage --extract out rides",
        "check good",
        "show good",
        "save aa -",
        "--help",
        "--generate man",
        "save -f aa /dev/stdout",
    ] {
        here.shell(&format!("marks {line} >&-")).is_with(2, "", &format!("marks: (standard output): {closed}\n"));
    }
    for (line, status) in [("find -q aba ride", 0), ("find zz ride", 1), ("find -q zz ride", 1), ("salvage ride", 1), ("save aa mark", 0)] {
        here.shell(&format!("marks {line} >&-")).is(status, "");
    }
    let closed = "it is closed; leave <&- out, or give it a file or a pipe to read";
    here.shell("marks find aba - ride <&-").is_with(2, "ride:0\nride:2\n", &format!("marks: (standard input): {closed}\n"));
    here.shell("marks salvage - rides <&-").is_with(2, "rides:0 whole 14 14\n", &format!("marks: (standard input): {closed}\n"));
}

#[test]
fn what_is_printed_is_not_searched_in_its_turn() {
    let here = Folder::new("own-output").with("ride", "0:0");
    let also = |name| format!("marks: {name}: it is also the output; write that elsewhere\n");
    here.shell("marks find -r 0 >out").is_with(2, "", &also("out"));
    here.shell("marks find -j2 0 ride ./out >>out").is_with(2, "", &also("./out"));
    here.shell("marks find 0 - <out >>out").is_with(2, "", &also("(standard input)"));
    here.shell("cat out").is(0, "ride:0\nride:2\nride:0\nride:2\n");
    // a count is printed when all is read
    here.shell("marks find -c 0 ride out >>out; tail -n 2 out").is(0, "ride:2\nout:2\n");
    // what is appended would decide which rides are whole
    let here = here.with("rides", fit::header(12, 5));
    here.shell("marks salvage rides >>rides").is_with(2, "", &also("rides"));
    here.shell("marks salvage - <rides >>rides").is_with(2, "", &also("(standard input)"));
    here.shell("wc -c <rides").is(0, "12\n");
}

#[test]
fn messages_that_nobody_reads_do_not_stop_it() {
    let here = Folder::new("unheard").with("ride", "ababa");
    here.shell("marks find aba gone ride 2>/dev/full").is(2, "ride:0\nride:2\n");
    here.shell("marks find aba gone ride 2>&-").is(2, "ride:0\nride:2\n");
}

/// Runs a line on a terminal of its own, where `script` can make one. What is then on the terminal: `\r` and what erases a line included.
fn on_a_terminal(here: &Folder, line: &str) -> Option<String> {
    let said = here.shell(&format!(
        "script -qec true /dev/null >/dev/null 2>&1 || exit 9; script -qec \"{}\" /dev/null",
        line.replace("marks", &format!("'{MARKS}'"))
    ));
    if said.status == Some(9) {
        eprintln!("not tried: script can make no terminal here");
        return None;
    }
    Some(said.out)
}

fn line(bytes: u32) -> String {
    format!("\rmarks: (standard input): {bytes} bytes read\x1b[K")
}

const ERASED: &str = "\r\x1b[K";

#[test]
fn a_progress_line_of_the_file_that_is_waited_for() {
    let here = Folder::new("progress-jobs").with("zeros", vec![0; 3_000_000]);
    let Some(said) = on_a_terminal(&here, "{ printf ab; sleep 2; } | marks find -Ij2 ab - zeros") else { return };
    let (first, rest) = said.split_once('\n').unwrap();
    assert!(first == "0\r" && rest.starts_with(&line(2)) && rest.ends_with(ERASED), "{said:?}");
}

#[test]
fn a_progress_line_of_what_is_read_whole_first() {
    let here = Folder::new("progress-rides").with("ride", fit::ride(12, b"abc"));
    let Some(said) = on_a_terminal(&here, "{ cat ride; sleep 2; cat ride; } | marks salvage -") else { return };
    assert_eq!(said, format!("{}{ERASED}0 whole 17 17\r\n17 whole 17 17\r\n", line(34)));
}

#[test]
fn a_progress_line_after_a_second_and_not_before() {
    let here = Folder::new("progress");
    let Some(quick) = on_a_terminal(&here, "printf abab | marks find ab -") else { return };
    assert_eq!(quick, "0\r\n2\r\n");
    let slow = on_a_terminal(&here, "{ printf ab; sleep 2; printf ab; sleep .5; printf ab; } | marks find ab -").unwrap();
    assert_eq!(slow, format!("0\r\n2\r\n{}{ERASED}4\r\n{}{ERASED}", line(4), line(6)));
    // not where messages go to a file
    let kept = on_a_terminal(&here, "{ printf ab; sleep 1.5; printf ab; } | marks find ab - 2>err").unwrap();
    assert_eq!((kept.as_str(), std::fs::read(here.path("err")).unwrap()), ("0\r\n2\r\n", vec![]));
}
